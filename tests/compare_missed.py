#!/usr/bin/env python3
"""Compares what `trace_audit --all` says of right traces with what the definitions of this folder say, word for word.

    python3 tests/compare_missed.py PROGRAM REFERENCE_FOLDER [--traces N] [--events N]

PROGRAM is the built trace_audit, REFERENCE_FOLDER holds the package `plain`, whose generator makes scripts and whose client makes their
traces. N traces of each kind: as they are made; of a client without a cache, which misses hits; of one that serves nothing that has
expired, by a script in which that may serve, which misses such answers; of one that gives messages that fail, where what has expired may
serve; and as they are made, where the script keeps more entries.
Ends with status 1 where an answer differs; such traces are kept in the folder of --keep, where that is given.
"""

import argparse
import multiprocessing
import os
import subprocess
import sys
import tempfile
from collections import Counter

from definitions import texts
from definitions.right import Judge, verdict
from judge_by_definitions import Reference

WORKER = {}

# name: the stage of the reference client, and the lines that its script has more
KINDS = {
    "as made": (18, b""),
    "without a cache": (7, b""),
    "nothing serves that has expired": (16, b"set stale-for 604800\n"),
    "what fails is given": (17, b""),
    "more entries": (18, b"set max-cache-entries 1000000\n"),
}


class Asking(Judge):
    """A judge that keeps for each request that must not fail the row of its asking, and which of them fail."""

    def __init__(self, *args):
        super().__init__(*args)
        self.rows, self.missed = {}, set()

    def watches(self, k):
        self.rows[k] = self.h.row
        super().watches(k)

    def never_fails(self):
        self.missed |= {self.rows[x.request] for x in self.watched if self.h.now <= x.limit and x.request in self.failed_here}
        super().never_fails()


def wanted(script, trace):
    read, rows = texts.read_script(script), texts.read_trace(trace)
    found = verdict(read, texts.read_events(script), rows)
    if found != "right":
        return found
    judged = Asking(*read).judge(rows)
    for clause, words in (("Timely", "untimely"), ("Hit", "missed hit")):
        if clause in judged.faults:
            return "%s row %d" % (words, judged.faults[clause].row)
    return "missed stale row %d" % min(judged.missed) if judged.missed else "right"


def begin(folder, program):
    WORKER.update(reference=Reference(folder), program=program)


def said(script, trace):
    with tempfile.TemporaryDirectory() as folder:
        names = [os.path.join(folder, name) for name in ("script", "trace")]
        for name, text in zip(names, (script, trace)):
            with open(name, "wb") as file:
                file.write(text)
        ended = subprocess.run([WORKER["program"], "--all", *names], capture_output=True, timeout=120)
    return ended.stdout.decode().strip() or "status %d" % ended.returncode


def with_lines(script, more):
    """A script whose settings end with these lines."""
    lines = script.split(b"\n")
    place = next((n for n, line in enumerate(lines) if line.split(b" ")[0] in (b"words", b"at")), len(lines) - 1)
    return b"\n".join(lines[:place]) + b"\n" + more + b"\n".join(lines[place:])


def work(job):
    seed, kind, events = job
    stage, more = KINDS[kind]
    script, trace = WORKER["reference"].made(seed, events, "all" if stage > 7 else "servers", stage)
    script = with_lines(script, more)
    return job, wanted(script, trace), said(script, trace), script, trace


def main():
    parser = argparse.ArgumentParser()
    parser.add_argument("program")
    parser.add_argument("reference")
    parser.add_argument("--traces", type=int, default=250)
    parser.add_argument("--events", type=int, default=200)
    parser.add_argument("--processes", type=int, default=2)
    parser.add_argument("--keep")
    options = parser.parse_args()
    jobs = [(seed, kind, options.events) for kind in KINDS for seed in range(1, options.traces + 1)]
    counts, differ = Counter(), 0
    with multiprocessing.Pool(options.processes, begin, (options.reference, os.path.abspath(options.program))) as pool:
        for job, right, found, script, trace in pool.imap_unordered(work, jobs, 8):
            counts[right.split(" row ")[0]] += 1
            if right == found:
                continue
            differ += 1
            print("seed %d, %s: wanted %r, said %r" % (job[0], job[1], right, found))
            if options.keep:
                for name, text in (("script", script), ("trace", trace)):
                    with open(os.path.join(options.keep, "%s-%d.%s" % (job[1].replace(" ", "-"), job[0], name)), "wb") as file:
                        file.write(text)
    print("%d traces: %s; %d differ" % (len(jobs), ", ".join("%s %d" % pair for pair in sorted(counts.items())), differ))
    return 1 if differ else 0


if __name__ == "__main__":
    sys.exit(main())
