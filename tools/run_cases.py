"""What the trials of desk/gdc-run have in common: two blocks at two corners, what each job has to write, and runs; it is no command.

What a job has to write stands in examples/, or is the last member of the triples there.
"""
import gzip
import hashlib
import os
import re
import subprocess

from desk_checks import ROOT

TOOL = os.path.join(ROOT, "desk", "gdc-run")
EXAMPLES = os.path.join(ROOT, "examples")
SECONDS = 60
JOBS = ["blk.slow", "blk.all", "twin.slow", "twin.all"]
TABLES = """input-slew = 20
port-load = 5
netlist = "{block}.v"

[corner.slow]
lib = ["inverter.lib.gz", "slices_max.lib"]
triple = "max"

[corner.all]
lib-min = "slices_min.lib"
lib-typ = "slices_typ.lib"
lib-max = "slices_max.lib"

[block.blk]
spef = "slices_corners.spef.gz"

[block.twin]
top = "other"
spef = "slices_corners.spef"
"""


def get(name):
    with open(name, "rb") as file:
        return file.read()


def put(name, data):
    with open(name, "wb") as file:
        file.write(data.encode() if isinstance(data, str) else data)


def put_script(name, text):
    put(name, text)
    os.chmod(name, 0o755)


def sum_of(name):
    return hashlib.sha256(get(name)).hexdigest()


def example(name):
    return get(os.path.join(EXAMPLES, name))


def run(program, *words, **more):
    words = [TOOL, "--program", program, *words]
    return subprocess.run(words, stdin=subprocess.DEVNULL, capture_output=True, timeout=SECONDS, text=True, check=False, **more)


def put_files():
    """Two blocks, one with its files packed, and libraries of two corners, of which one has two."""
    put("run.toml", TABLES)
    put("blk.v", example("slices.v"))
    put("twin.v", example("slices.v").replace(b"blk", b"other"))
    for name in ("slices_min.lib", "slices_typ.lib", "slices_max.lib", "slices_corners.spef"):
        put(name, example(name))
    for name in ("slices_corners.spef", "inverter.lib"):
        put(f"{name}.gz", gzip.compress(example(name), mtime=0))


def wanted_sdf(job):
    """What a job has to write: the example at three corners, or the last member of each triple."""
    text = example("slices_corners.sdf").decode()
    if job.endswith("slow"):
        text = re.sub(r"\([0-9.]*:[0-9.]*:([0-9.]*)\)", r"(\1)", text)
    return (text.replace("blk", "other") if job.startswith("twin") else text).encode()


def lines_of(text):
    """The lines of jobs without their times, by their names."""
    return dict(re.findall(r"^(\S+)  +(done|as it was|REFUSED|FAILED|same|DIFFERS) +[0-9.]+ s$", text, re.MULTILINE))


def is_written(*jobs):
    return all(os.path.exists(f"sdf/{job}.sdf") and get(f"sdf/{job}.sdf") == wanted_sdf(job) for job in jobs)


def start(program, *words, **more):
    return subprocess.Popen([TOOL, "--program", program, *words], start_new_session=True, text=True, **more)
