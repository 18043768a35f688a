"""The trials of desk/gdc-run, which tools/check_program calls: jobs that are done, refused, run again, ended, and faults.

  python3 tools/run_trials.py [--program PROGRAM]

Each trial runs in a folder of its own.
"""
import glob
import gzip
import hashlib
import json
import os
import re
import signal
import subprocess
import sys
import time

sys.dont_write_bytecode = True

from desk_checks import parser, run_all
from run_cases import JOBS, SECONDS, TABLES, example, get, is_written, lines_of, put, put_files, put_script, run, start, sum_of
from run_cases import wanted_sdf
from run_faults import streams, unread, wrong_files

# What a design has that is too slow for its tables, and what gdc says of it in the file of its netlist.
HOT = "input-slew = 300\n"
HOT_PLACE = "{}:16:10: gdc: E41 outside cb0 A Z rise {} delay slew 300000000"
# A program that passes a run on, but for that of one netlist, of which it writes some bytes and then waits.
WAITING = """#!/bin/sh
case "$*" in
calc*blk.v*) head -c 1000 /dev/zero; exec sleep 50 ;;
esac
exec {program} "$@"
"""


def parts():
    return [name for name in os.listdir("sdf") if name.endswith(".part")]


def four_jobs(program):
    put_files()
    ran = run(program, "run.toml", "-j", "2")
    yield "the status of four jobs", ran.returncode == 0 and ran.stderr == "", ran.stdout, ran.stderr
    yield "a line for each", lines_of(ran.stdout) == dict.fromkeys(JOBS, "done"), ran.stdout
    summary = ran.stdout.splitlines()[-1]
    yield "the summary", bool(re.fullmatch(r"4 jobs: 4 done; [0-9.]+ s; sdf/manifest.json", summary)), summary
    yield "their SDF files", is_written(*JOBS)
    yield from what_manifest_has(program, json.loads(get("sdf/manifest.json")))
    before = {job: os.stat(f"sdf/{job}.sdf").st_ino for job in JOBS}
    os.remove("sdf/manifest.json")
    again = run(program, "run.toml")
    yield "a second run", lines_of(again.stdout) == dict.fromkeys(JOBS, "as it was"), again.stdout
    yield "files that are not written anew", before == {job: os.stat(f"sdf/{job}.sdf").st_ino for job in JOBS}
    yield "the manifest of a second run", list(json.loads(get("sdf/manifest.json"))["jobs"]) == JOBS
    put("slices_max.lib", example("slices_max.lib") + b"\n")
    put("sdf/blk.all.sdf", "half")
    changed = run(program, "run.toml")
    yield "what has changed is run again", lines_of(changed.stdout) == dict.fromkeys(JOBS, "done"), changed.stdout
    yield "their SDF files again", is_written(*JOBS)


def what_manifest_has(program, found):
    jobs = found["jobs"]
    yield "the program in the manifest", found["program"] == {"path": program, "version": "gdc 1", "sha256": sum_of(program)}
    words = ["calc", "--netlist", "twin.v", "--top", "other", "--spef", "slices_corners.spef", "--lib-min", "slices_min.lib"]
    words += ["--lib-typ", "slices_typ.lib", "--lib-max", "slices_max.lib", "--input-slew", "20", "--port-load", "5"]
    yield "words in the manifest", jobs["twin.all"]["words"] == words, jobs["twin.all"]["words"]
    inputs = ("blk.v", "slices_corners.spef.gz", "inverter.lib.gz", "slices_max.lib")
    slow = jobs["blk.slow"]
    yield "checksums of inputs", slow["inputs"] == {name: sum_of(name) for name in inputs}, slow["inputs"]
    yield "the words of gdc-lib", slow["joined"]["--lib"]["words"] == ["inverter.lib.gz", "slices_max.lib"], slow["joined"]
    well = all(record["status"] == 0 and record["said"] == "" and record["seconds"] > 0 for record in jobs.values())
    yield "statuses and seconds", well and list(jobs) == JOBS
    wanted = {job: {"file": f"{job}.sdf", "sha256": hashlib.sha256(wanted_sdf(job)).hexdigest()} for job in JOBS}
    yield "checksums of SDF files", {job: record["sdf"] for job, record in jobs.items()} == wanted


def refused(program):
    put_files()
    run(program, "run.toml", "--only", "twin.slow")
    put("run.toml", TABLES + HOT)
    ran = run(program, "run.toml")
    states = {"blk.slow": "done", "blk.all": "done", "twin.slow": "REFUSED", "twin.all": "REFUSED"}
    yield "a refused block", (ran.returncode, ran.stderr) == (1, "") and lines_of(ran.stdout) == states, ran.stdout
    lines = ran.stdout.splitlines()
    for job, corner in (("twin.slow", "only"), ("twin.all", "min")):
        place = next(number for number, line in enumerate(lines) if line.startswith(job))
        yield f"the place of {job}", lines[place + 1] == HOT_PLACE.format("twin.v", corner), lines[place + 1]
    yield "its remedy", "--outside extend" in ran.stdout
    yield "the others", is_written("blk.slow", "blk.all") and not os.path.exists("sdf/twin.all.sdf")
    is_aside = not os.path.exists("sdf/twin.slow.sdf") and get("sdf/twin.slow.sdf.old") == wanted_sdf("twin.slow")
    yield "an SDF of other inputs", is_aside and "  sdf/twin.slow.sdf was of an earlier run; it is sdf/twin.slow.sdf.old now" in lines
    record = json.loads(get("sdf/manifest.json"))["jobs"]["twin.slow"]
    is_well = (record["status"], record["sdf"]) == (1, None) and record["said"].startswith("gdc: E41 outside cb0")
    yield "what the manifest has", is_well, record
    yield "a summary", lines[-1].startswith("4 jobs: 2 done, 2 REFUSED; "), lines[-1]
    put("run.toml", TABLES + HOT + 'netlist = "twin.v.gz"\n')
    put("twin.v.gz", gzip.compress(get("twin.v")))
    packed = run(program, "run.toml", "--only", "twin.slow")
    yield "the place in a packed file", packed.stdout.splitlines()[1] == HOT_PLACE.format("twin.v.gz", "only"), packed.stdout


def layout(program):
    """A netlist with power pins and fillers, whose libraries gdc-lib makes fit."""
    put_files()
    netlist = example("slices.v").decode()
    netlist = re.sub(r"CLKBUF cb. \(", r"\g<0>.VDD(VDD), .VSS(VSS), ", netlist)
    put("blk.v", netlist.replace("CLKBUF cb0", "FILL4 fill (.VDD(VDD), .VSS(VSS));\n  CLKBUF cb0"))
    tables = TABLES.replace('slices_corners.spef.gz"', 'slices_corners.spef"\nstub = "FILL*"\npower = ["VDD", "VSS"]')
    put("run.toml", tables)
    ran = run(program, "run.toml", "--only", "blk.all")
    yield "power pins and fillers", ran.returncode == 0 and is_written("blk.all"), ran.stdout, ran.stderr
    words = json.loads(get("sdf/blk.all.json"))["joined"]["--lib-min"]["words"]
    yield "the words of gdc-lib", words == ["slices_min.lib", "--used", "blk.v", "--stub=FILL*", "--power=VDD,VSS"], words
    yield "the kept libraries", len(os.listdir("sdf/libraries")) == 3
    put("run.toml", TABLES + "cut = true\n")
    ran = run(program, "run.toml", "--only", "twin.slow")
    yield "libraries that are cut", ran.returncode == 0 and is_written("twin.slow"), ran.stdout, ran.stderr


def again(program):
    put_files()
    put("run.toml", TABLES + HOT)
    run(program, "run.toml")
    before = {name: sum_of(os.path.join("sdf", name)) for name in os.listdir("sdf") if os.path.isfile(os.path.join("sdf", name))}
    ran = run(program, "--again", "sdf/manifest.json")
    yield "all is the same again", ran.returncode == 0 and lines_of(ran.stdout) == dict.fromkeys(JOBS, "same"), ran.stdout
    os.mkdir("below")
    ran = run(program, "--again", "../sdf/manifest.json", cwd="below")
    yield "from another folder", ran.returncode == 0 and lines_of(ran.stdout) == dict.fromkeys(JOBS, "same"), ran.stdout
    after = {name: sum_of(os.path.join("sdf", name)) for name in os.listdir("sdf") if os.path.isfile(os.path.join("sdf", name))}
    yield "it writes nothing there", before == after
    other = os.path.abspath("other")
    put_script("other", get(program) + b"\n")
    ran = run(other, "--again", "sdf/manifest.json")
    line = f"{other} is another program than that of sdf/manifest.json"
    yield "another program", ran.returncode == 1 and ran.stdout.splitlines()[0] == line, ran.stdout
    put("sdf/blk.slow.sdf", get("sdf/blk.slow.sdf").replace(b"0.370", b"0.371"))
    put("slices_typ.lib", get("slices_typ.lib").replace(b"0.0505", b"0.0506", 1))
    put("blk.v", get("blk.v") + b"// no more\n")
    ran = run(program, "--again", "sdf/manifest.json")
    states = {"blk.slow": "DIFFERS", "blk.all": "DIFFERS", "twin.slow": "same", "twin.all": "DIFFERS"}
    yield "what has changed", ran.returncode == 1 and lines_of(ran.stdout) == states, ran.stdout
    said = set(ran.stdout.splitlines())
    wanted = {f"  {name} has another checksum" for name in ("sdf/blk.slow.sdf", "slices_typ.lib", "blk.v")} | {"  gdc writes another SDF"}
    yield "what is said of it", wanted <= said and "  sdf/blk.all.sdf has another checksum" not in said, ran.stdout
    yield "the summary", bool(re.match("4 jobs: 1 same, 3 DIFFERS; ", ran.stdout.splitlines()[-1])), ran.stdout
    os.remove("sdf/blk.all.sdf")
    os.remove("twin.v")
    ran = run(program, "--again", "sdf/manifest.json")
    wanted = {"  sdf/blk.all.sdf: No such file or directory", "  it ends with status 3 twin.v: No such file or directory"}
    yield "what is gone", ran.returncode == 1 and wanted <= set(ran.stdout.splitlines()), ran.stdout


def one_by_one(program):
    put_files()
    listed = run(program, "run.toml", "--list")
    yield "the list of jobs", (listed.returncode, listed.stdout.split("\n")) == (0, [*JOBS, ""]), listed.stdout
    ran = run(program, "run.toml", "--only", "twin.slow")
    yield "one job", ran.returncode == 0 and lines_of(ran.stdout) == {"twin.slow": "done"} and is_written("twin.slow"), ran.stdout
    yield "its files", sorted(os.listdir("sdf")) == ["libraries", "twin.slow.json", "twin.slow.sdf"], os.listdir("sdf")
    ran = run(program, "run.toml", "--only", "twin.fast")
    wanted = "gdc-run: run.toml has no job twin.fast; --list names those that it has\n"
    yield "a job that there is not", (ran.returncode, ran.stderr) == (2, wanted), ran.stderr
    os.mkdir("below")
    ran = run(program, "../run.toml", "--only", "blk.slow", cwd="below")
    yield "from another folder", ran.returncode == 0 and is_written("blk.slow"), ran.stdout, ran.stderr
    entered = f"gdc-run: Entering directory '{os.getcwd()}'"
    yield "the folder that is entered", ran.stdout.splitlines()[0] == entered, ran.stdout
    ran = run(program, "run.toml")
    states = {job: "as it was" if job in ("twin.slow", "blk.slow") else "done" for job in JOBS}
    yield "what is left", ran.returncode == 0 and lines_of(ran.stdout) == states, ran.stdout


def by_make(program):
    if not any(os.access(os.path.join(folder, "make"), os.X_OK) for folder in os.get_exec_path()):
        return
    os.mkdir("a folder")
    os.chdir("a folder")
    put_files()
    put("blk #1$.v", get("blk.v"))
    put("run.toml", TABLES + "\n[block.blk.slow]\nnetlist = \"blk #1$.v\"\n")
    made = run(program, "run.toml", "--make")
    put("jobs.mk", made.stdout)

    def make(*words):
        return subprocess.run(["make", "-f", "jobs.mk", *words], capture_output=True, text=True, timeout=SECONDS, check=False)

    planned = make("-n")
    yield "what make would do", len(re.findall(r"gdc-run run\.toml .*--only ", planned.stdout)) == 4, planned.stdout, planned.stderr
    ran = make("-j", "2")
    yield "what make does", ran.returncode == 0 and is_written(*JOBS) and os.path.exists("sdf/manifest.json"), ran.stdout, ran.stderr
    yield "nothing is left", make("-q").returncode == 0, make("-n").stdout
    time.sleep(0.01)
    os.utime("slices_typ.lib")
    planned = set(re.findall(r"--only (\S+)", make("-n").stdout))
    yield "an input that is touched", planned == {"blk.all", "twin.all"}, planned
    ran = make()
    yield "it is as it was", ran.returncode == 0 and make("-q").returncode == 0, ran.stdout


def wait_for(is_so):
    """Waits until something is so."""
    ends = time.monotonic() + SECONDS
    while not is_so():
        if time.monotonic() > ends:
            return False
        time.sleep(0.01)
    return True


def is_half():
    """Whether one job is done and another has written the beginning of its SDF."""
    half = glob.glob("sdf/blk.slow.sdf.*.part")
    return len(half) == 1 and os.path.getsize(half[0]) == 1000 and os.path.exists("sdf/twin.all.json")


def killed(program):
    put_files()
    put("run.toml", TABLES.replace("[block.blk]", '[block.blk]\ncorners = ["slow"]'))
    put_script("slow", WAITING.format(program=program))
    started = start(os.path.abspath("slow"), "run.toml", "-j", "2", stdout=subprocess.DEVNULL)
    yield "a job is in the middle", wait_for(is_half), os.listdir(".")
    started.kill()
    started.wait()
    left = sorted(name for name in os.listdir("sdf") if name.endswith(".sdf"))
    yield "no half file", left == ["twin.all.sdf", "twin.slow.sdf"] and is_written("twin.all", "twin.slow"), left
    # What the killed run started still runs, and has its file open.
    ran = run(program, "run.toml")
    states = {"blk.slow": "done", "twin.slow": "as it was", "twin.all": "as it was"}
    yield "a later run goes on", ran.returncode == 0 and lines_of(ran.stdout) == states, ran.stdout, ran.stderr
    yield "what it writes", is_written("blk.slow", "twin.slow", "twin.all") and not parts(), os.listdir("sdf")
    os.killpg(started.pid, signal.SIGKILL)


def ended(program):
    """A signal that can be caught leaves no part, and no program that runs."""
    for number in (signal.SIGTERM, signal.SIGINT):
        put_files()
        put("run.toml", TABLES.replace("[block.blk]", '[block.blk]\ncorners = ["slow"]'))
        put_script("slow", WAITING.format(program=program))
        started = start(os.path.abspath("slow"), "run.toml", "-j", "2", stdout=subprocess.PIPE, stderr=subprocess.PIPE)
        yield f"a job is in the middle at signal {number}", wait_for(is_half), os.listdir(".")
        started.send_signal(number)
        said = started.communicate(timeout=SECONDS)[1]
        wanted = f"gdc-run: ended by signal {int(number)}; a later run goes on with what is missing\n"
        yield f"the end by signal {number}", (started.returncode, said) == (128 + number, wanted), said
        yield f"what is left by signal {number}", not parts() and not os.path.exists("sdf/blk.slow.sdf"), os.listdir("sdf")
        try:
            os.killpg(started.pid, 0)
            yield f"programs that are left by signal {number}", False
        except ProcessLookupError:
            pass
        for name in os.listdir("sdf"):
            if os.path.isfile(os.path.join("sdf", name)):
                os.remove(os.path.join("sdf", name))


def main():
    asked = parser("Tries desk/gdc-run.", 1).parse_args()
    trials = (four_jobs, refused, unread, layout, again, one_by_one, by_make, killed, ended, wrong_files, streams)
    return run_all(asked, [(trial,) for trial in trials])


if __name__ == "__main__":
    sys.exit(main())
