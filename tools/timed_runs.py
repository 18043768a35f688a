"""Times runs of programs as `./gdc` makes them, for the tools that measure; it is no command."""
import os
import subprocess
import sys
import time

# What `./gdc` asks of the C library, unless it is set otherwise: large pages of memory, where the system has them, and lists of up to 16 MB in
# memory that is used anew.
SETTINGS = {"GLIBC_TUNABLES": "glibc.malloc.hugetlb=1:glibc.malloc.mmap_threshold=16777216"}


def timed(words, out_path):
    """One run: seconds, seconds of a processor, peak of memory in bytes, and exit status."""
    with open(out_path, "wb") as out:
        began = time.perf_counter()
        child = subprocess.Popen(words, stdin=subprocess.DEVNULL, stdout=out, env={**SETTINGS, **os.environ})
        _, status, used = os.wait4(child.pid, 0)
        seconds = time.perf_counter() - began
    child.returncode = os.waitstatus_to_exitcode(status)
    return seconds, used.ru_utime + used.ru_stime, used.ru_maxrss * 1024, child.returncode


def least(words, out_path, rounds):
    """The least of the seconds and of the processor's seconds of so many runs, and the highest peak of memory."""
    runs = [timed(words, out_path) for _ in range(rounds)]
    ends = {run[3] for run in runs}
    if ends != {0}:
        sys.exit(f"bench: {' '.join(words)} ended with status {sorted(ends)}")
    return min(run[0] for run in runs), min(run[1] for run in runs), max(run[2] for run in runs)
