"""An installation below a folder: the list of its files, by which it is renewed, compared and removed; it is no command."""
import json
import os
import stat
from typing import NamedTuple

from released import read, sum_of, write

LIST = "lib/gdc/installed.json"


class Refused(Exception):
    """Why nothing is done."""


class File(NamedTuple):
    """What stands at a path: the bytes and the mode of a file, or where a link leads."""

    data: bytes = b""
    mode: int = 0o644
    target: str = ""

    def state(self):
        """What the list has of it."""
        return f"link {self.target}" if self.target else f"{self.mode:o} {sum_of(self.data)}"

    def put(self, path):
        drop(path)
        if self.target:
            os.symlink(self.target, path)
            return
        with open(path, "wb") as file:
            file.write(self.data)
        os.chmod(path, self.mode)


def state_at(path):
    """What the list would have of what stands at a path. None: there is nothing."""
    if os.path.islink(path):
        return f"link {os.readlink(path)}"
    if not os.path.isfile(path):
        return "no file" if os.path.exists(path) else None
    return f"{stat.S_IMODE(os.stat(path).st_mode):o} {sum_of(read(path))}"


def drop(path):
    """Removes a file or a link, where there is one."""
    if os.path.islink(path) or os.path.isfile(path):
        os.remove(path)


class Installation:
    """What is installed below a folder: the state of each file, and the folders that were made for them.

    All paths count from that folder, but for those of folders above it. While files are put the list is not finished: then it has the old
    files and the new ones, and what ends in .part belongs to it.
    """

    def __init__(self, prefix):
        self.prefix = os.path.realpath(prefix)
        self.files, self.folders, self.is_finished = {}, [], True
        self.is_there = os.path.lexists(self.at(LIST))
        if self.is_there:
            try:
                listed = json.loads(read(self.at(LIST)))
                self.files, self.folders, self.is_finished = listed["files"], listed["folders"], listed["finished"]
            except (KeyError, TypeError, ValueError):
                raise Refused(f"{self.at(LIST)} is no list of tools/install") from None

    def at(self, path):
        return os.path.join(self.prefix, path)

    def save(self, files, is_finished):
        self.files, self.is_finished = files, is_finished
        listed = {"files": files, "folders": self.folders, "finished": is_finished}
        write(self.at(LIST), json.dumps(listed, indent=1).encode() + b"\n")

    def make_folder(self, folder):
        if os.path.isdir(folder):
            return
        self.make_folder(os.path.dirname(folder))
        os.mkdir(folder)
        is_inside = os.path.commonpath([folder, self.prefix]) == self.prefix
        self.folders.append(os.path.relpath(folder, self.prefix) if is_inside else folder)

    def prune(self):
        """Removes the folders that were made here and are empty, the inner ones first."""
        for folder in sorted(self.folders, key=lambda folder: -len(os.path.normpath(self.at(folder)))):
            try:
                os.rmdir(self.at(folder) if folder != "." else self.prefix)
            except OSError:
                continue
            self.folders.remove(folder)

    def look(self, files, force):
        """Refuses what would take the place of another's file or of a folder."""
        for path in files:
            if os.path.isdir(self.at(path)) and not os.path.islink(self.at(path)):
                raise Refused(f"{self.at(path)} is a folder")
        new = [name for path in files if path not in self.files for name in (path, f"{path}.part")]
        others = [self.at(path) for path in new if os.path.lexists(self.at(path))]
        if others and not force:
            raise Refused("\n  ".join(["nothing is installed, since these files are not of gdc; --force overwrites them:", *others]))

    def put(self, files, force):
        """Puts files in place of what is installed. Each is written apart, and all are renamed only when all are written."""
        self.look(files, force)
        before, states = self.files, {path: file.state() for path, file in files.items()}
        try:
            self.make_folder(self.at(os.path.dirname(LIST)))
            self.save({**before, **states}, False)
            for path, file in files.items():
                self.make_folder(os.path.dirname(self.at(path)))
                file.put(self.at(f"{path}.part"))
            self.save(self.files, False)
        except BaseException:
            self.take_back(before)
            raise
        for path in files:
            os.replace(self.at(f"{path}.part"), self.at(path))
        for path in before.keys() - files.keys():
            drop(self.at(path))
        self.prune()
        self.save(states, True)

    def take_back(self, before):
        """Leaves what was installed before, and nothing else."""
        for path in (*self.files, LIST):
            drop(self.at(f"{path}.part"))
        if not before:
            drop(self.at(LIST))
        self.prune()
        if before:
            self.save(before, True)

    def differences(self):
        """A line for each file that is not as it was put."""
        if not self.is_finished:
            yield "the installation was cut off: install it again"
        for path, state in self.files.items():
            found = state_at(self.at(path))
            if found != state:
                yield f"{'missing' if found is None else 'changed'} {self.at(path)}"

    def remove(self):
        """Removes the files of the list, then the list, and then the folders that were made for them."""
        for path in self.files:
            drop(self.at(path))
            if not self.is_finished:
                drop(self.at(f"{path}.part"))
        drop(self.at(LIST))
        self.prune()
