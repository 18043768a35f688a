"""A manifest of gdc-run, and how a run of its jobs anew differs from it."""
import os

from run_records import checksum, read_json
from run_tables import Job

NAME = "gdc-run"
VERSION = 1


class NoManifest(Exception):
    """A file is no manifest of gdc-run."""


class Manifest:
    """A manifest that was read: the folder in which it stands, the one from which its inputs are named, and its jobs."""

    def __init__(self, path):
        entries = read_json(path)
        self.place = os.path.dirname(os.path.abspath(path))
        try:
            if entries["made by"] != made_by():
                raise NoManifest(f"{path}: it was made by another version")
            self.base = os.path.normpath(os.path.join(self.place, entries["folder"]))
            self.program_sum, self.records = entries["program"]["sha256"], entries["jobs"]
            self.jobs = [job_of(name, record) for name, record in self.records.items()]
        except (AttributeError, KeyError, TypeError, ValueError):
            raise NoManifest(f"{path}: this is no manifest of gdc-run") from None

    def differences(self, record, name):
        """What of a job is not as it was, a line each. The record is that of its run anew."""
        before = self.records[name]
        for path, wanted in before["inputs"].items():
            # One that cannot be read any more is what the run says.
            if record["inputs"].get(path, wanted) != wanted:
                yield f"  {path} has another checksum"
        for key, joined in before["joined"].items():
            if key in record["joined"] and record["joined"][key]["sha256"] != joined["sha256"]:
                yield f"  gdc-lib makes another library of {key}"
        if (before["status"], before["said"]) != (record["status"], record["said"]):
            yield f"  it ended with status {before['status']} {before['said']}".rstrip()
            yield f"  it ends with status {record['status']} {record['said']}".rstrip()
        elif before["sdf"] and before["sdf"]["sha256"] != record["sdf"]["sha256"]:
            yield "  gdc writes another SDF"
        if before["sdf"]:
            yield from self.differences_of_file(before["sdf"])

    def differences_of_file(self, written):
        """Whether the SDF that was written stands there as it was."""
        path = os.path.join(self.place, written["file"])
        try:
            if checksum(path) != written["sha256"]:
                yield f"  {os.path.relpath(path)} has another checksum"
        except OSError as fault:
            yield f"  {os.path.relpath(path)}: {fault.strerror}"


def made_by():
    return f"{NAME} {VERSION}"


def job_of(name, record):
    """The job of a record, of which each part was looked at."""
    words, joined = record["words"], {key: entry["words"] for key, entry in record["joined"].items()}
    if not all(isinstance(word, str) for word in [*words, *(word for entry in joined.values() for word in entry)]):
        raise ValueError
    if len(words) % 2 == 0 or words[0] != "calc" or not isinstance(record["said"], str):
        raise ValueError
    if not isinstance(record["inputs"], dict) or record["sdf"] and not isinstance(record["sdf"]["file"], str):
        raise ValueError
    return Job(name, words, joined)


def manifest_of(base, folder, program, records):
    """What stands in a manifest: how the program is named, its version and its checksum, and the record of each job."""
    return {"made by": made_by(), "folder": os.path.relpath(base, folder), "program": program, "jobs": records}
