#!/usr/bin/env python3
"""Compares `dnsq gen N` with a reference client, for N of 1, 7, 100 and 1000.

usage: python3 tests/compare_gen.py REFERENCE_FOLDER PROGRAM [N..]

REFERENCE_FOLDER holds the package `plain` with the module `dnsq`; without it nothing is compared, and that is said. PROGRAM
is the built dnsq. Prints each N whose summaries differ, with both, or how many are the same.
"""

import os
import subprocess
import sys

COUNTS = (1, 7, 100, 1000)


def summary(command, count, folder=None):
    ran = subprocess.run([*command, "gen", str(count)], cwd=folder, stdin=subprocess.DEVNULL, capture_output=True)
    return ran.returncode, ran.stdout


def main():
    folder, program, *words = sys.argv[1:]
    if not os.path.isdir(os.path.join(folder, "plain")):
        print("skipped: there is no reference client")
        return 0
    counts = [int(word) for word in words] or COUNTS
    different = 0
    for count in counts:
        ours = summary([os.path.abspath(program)], count)
        theirs = summary([sys.executable, "-m", "plain.dnsq"], count, folder)
        if ours != theirs:
            different += 1
            print(f"gen {count}: {ours} and {theirs}")
    print(f"{len(counts) - different} of {len(counts)} the same")
    return 1 if different else 0


if __name__ == "__main__":
    sys.exit(main())
