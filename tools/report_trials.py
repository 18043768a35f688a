#!/usr/bin/env python3
"""Tries desk/gdc-diff, gdc-report and gdc-cover over small files, whose values were worked by hand. tools/check_program runs it.

  tools/report_trials.py [--program PROGRAM]

The program is PROGRAM, else that of the environment variable GDC, else crates/gdc/out/gdc. The last line is 'N passed, M failed'. The
status is 0 only if nothing failed.
"""
import sys

sys.dont_write_bytecode = True

import cover_trials
import diff_trials
import statistics_trials
from desk_checks import parser, run_all

MODULES = (diff_trials, statistics_trials, cover_trials)


def main():
    asked = parser("Tries the tools of desk/ that compare and report delays.", 1).parse_args()
    return run_all(asked, [(trial,) for module in MODULES for trial in module.TRIALS])


if __name__ == "__main__":
    sys.exit(main())
