"""Runs all rows, or those whose sentences have the given word. The last line is 'N passed, M failed'."""

import importlib
import os
import sys
import traceback
from concurrent.futures import ThreadPoolExecutor

import program

SUBJECTS = (
    "symbols",
    "data",
    "liveness",
    "groups",
    "constructors",
    "libraries",
    "exports",
    "words",
    "cases",
    "sections",
    "debug",
    "bodies",
    "validity",
    "agreement",
    "partial",
    "shared",
    "limits",
)


def told(sentence, function):
    """What to print of the row, and whether it passes."""
    try:
        function()
        return "ok: " + sentence, True
    except AssertionError as wrong:
        return "FAILED: %s\n  %s" % (sentence, wrong), False
    except Exception:
        return "FAILED: %s\n  %s" % (sentence, traceback.format_exc(limit=-3)), False


def main():
    for subject in SUBJECTS:
        importlib.import_module("rows_of_" + subject)
    chosen = [one for one in program.rows if len(sys.argv) < 2 or sys.argv[1] in one[0]]
    passed = 0
    with ThreadPoolExecutor(os.cpu_count()) as pool:
        for line, passes in pool.map(lambda one: told(*one), chosen):
            print(line)
            passed += passes
    program.close_node()
    for one in sorted(program.skipped):
        print("skipped: " + one)
    print("%d passed, %d failed" % (passed, len(chosen) - passed))
    return 0 if passed == len(chosen) else 1


sys.exit(main())
