"""What is kept of a job of gdc-run: a record with the checksums of all that was read and written."""
import hashlib
import json
import os
import threading
from concurrent.futures import Future

import files

# What a job stands on. Where these are the same, its SDF is the same.
GROUNDS = ("program", "words", "joined", "inputs")


class Once:
    """Makes a thing once, also where several jobs ask for it side by side."""

    def __init__(self, make):
        self.make, self.lock, self.made = make, threading.Lock(), {}

    def of(self, *key):
        with self.lock:
            is_first = key not in self.made
            future = self.made.setdefault(key, Future())
        if is_first:
            try:
                future.set_result(self.make(*key))
            except BaseException as fault:
                future.set_exception(fault)
        return future.result()


def checksum(path):
    with open(path, "rb") as file:
        return hashlib.file_digest(file, "sha256").hexdigest()


def read_json(path):
    """What a file holds, or None where it is not there or holds no such text."""
    try:
        with open(path, "rb") as file:
            return json.load(file)
    except (OSError, ValueError, RecursionError):
        return None


def write_json(path, value):
    files.write_whole(path, json.dumps(value, indent=2).encode() + b"\n")


def final_path(folder, job):
    return os.path.join(folder, f"{job.name}.sdf")


def manifest_path(folder):
    return os.path.join(folder, "manifest.json")


def record_path(final):
    return final.removesuffix(".sdf") + ".json"


def record_where_done(record, final):
    """The record of an earlier run whose SDF stands at a path, where that run stood on the same, or None."""
    earlier = read_json(record_path(final))
    if not isinstance(earlier, dict) or any(earlier.get(key) != record[key] for key in GROUNDS):
        return None
    try:
        return earlier if earlier["sdf"]["sha256"] == checksum(final) else None
    except (OSError, KeyError, TypeError):
        return None
