"""What the checks of the tools in desk/ share: their words, the program, cases side by side, and the count; it is no command.

A case is a function that yields its checks, each as what is checked, whether all is well, and lines that tell more where it is not.
It runs in a folder of its own, in one of as many processes as there are processors.
"""
import argparse
import concurrent.futures
import os
import subprocess
import sys
import tempfile

ROOT = os.path.dirname(os.path.dirname(os.path.realpath(__file__)))
BUILT = os.path.join(ROOT, "crates", "gdc", "out", "gdc")
sys.path.insert(0, os.path.join(ROOT, "desk"))
# So many failures are told.
MOST_TOLD = 20


def parser(description, count):
    made = argparse.ArgumentParser(description=description)
    made.add_argument("--program", default=os.environ.get("GDC") or BUILT, help="else that of the environment variable GDC, else crates/gdc/out/gdc")
    made.add_argument("--count", type=int, default=count)
    made.add_argument("--seed", type=int, default=1)
    return made


def run_case(case, words):
    """The checks of a case, run in a folder of its own."""
    before = os.getcwd()
    with tempfile.TemporaryDirectory(prefix="desk-check-") as folder:
        os.chdir(folder)
        try:
            return [(what, bool(is_well), lines) for what, is_well, *lines in case(*words)]
        except (OSError, subprocess.SubprocessError) as error:
            return [(f"{case.__name__} {words[1:]}: {error}", False, [])]
        finally:
            os.chdir(before)


def run_all(asked, cases):
    """Runs cases, each a function and its words behind the program, prints what failed and the count, and answers the status."""
    asked.program = os.path.abspath(asked.program)
    if not os.access(asked.program, os.X_OK):
        print(f"{os.path.basename(sys.argv[0])}: there is no program at {asked.program}; run tools/build", file=sys.stderr)
        return 1
    passed = failed = 0
    with concurrent.futures.ProcessPoolExecutor(os.cpu_count()) as workers:
        started = [workers.submit(run_case, case, (asked.program, *words)) for case, *words in cases]
        for what, is_well, lines in (check for run in started for check in run.result()):
            passed, failed = passed + is_well, failed + (not is_well)
            if not is_well and failed <= MOST_TOLD:
                print(f"FAILED: {what}", *lines, sep="\n  ", flush=True)
    print(f"{passed} passed, {failed} failed")
    return 1 if failed else 0
