"""Times a client that is stepped by hand through more and more events, and tells what memory it takes.

usage: python3 bench/stepping.py PROGRAM

PROGRAM is what `bench/build --proved bench_steps` makes. One name after another is asked for and answered, three events each, by datagrams and on
one stream; no row is kept, and of the answers the cache keeps its thousand. Each run steps through 100,000, 1,000,000 and
10,000,000 events. Told are the least processor time of three runs each, how many times as long ten times as many events
take, and the most memory that a run had. More than 12 times as long, or more than 1 MB of memory more for ten times as many
events, ends with status 1.
"""

import os
import re
import subprocess
import sys
import time
from pathlib import Path

WAYS = ("datagrams", "streams")
EVENTS = (100_000, 1_000_000, 10_000_000)
EACH = 3
RUNS = 3
MOST = 12
MOST_MEMORY = 1024  # kilobytes


def memory_of(pid):
    """The most kilobytes that a process had in use so far; 0 where it has ended."""
    try:
        found = re.search(r"VmHWM:\s+(\d+) kB", Path("/proc/%d/status" % pid).read_text())
    except OSError:
        return 0
    return int(found.group(1)) if found else 0


def run(program, way, events):
    """The processor seconds and the kilobytes of memory of one run, whose replies are counted."""
    ran = subprocess.Popen([program, way, str(events)], stdout=subprocess.PIPE)
    memory = 0
    while True:
        ended, status, used = os.wait4(ran.pid, os.WNOHANG)
        if ended:
            break
        memory = max(memory, memory_of(ran.pid))
        time.sleep(0.002)
    ran.returncode = os.waitstatus_to_exitcode(status)
    replies = int(ran.stdout.read() or 0)
    if ran.returncode != 0 or replies != events // EACH:
        sys.exit("%s %d: status %d, %d replies" % (way, events, ran.returncode, replies))
    return used.ru_utime + used.ru_stime, memory


def main():
    if len(sys.argv) != 2:
        sys.exit(__doc__)
    good = True
    for way in WAYS:
        runs = [[run(sys.argv[1], way, events) for _ in range(RUNS)] for events in EVENTS]
        measured = [(min(seconds for seconds, _ in each), max(memory for _, memory in each)) for each in runs]
        for events, (seconds, memory) in zip(EVENTS, measured):
            print("%s: %d events: %.3f s, %.2f microseconds each, %d kB" % (way, events, seconds, seconds / events * 1e6, memory))
        for (fewer, memory), (more, more_memory) in zip(measured, measured[1:]):
            print("%s: ten times as many take %.1f times as long, and %+d kB" % (way, more / fewer, more_memory - memory))
            good = good and more <= MOST * fewer and more_memory - memory <= MOST_MEMORY
    if not good:
        sys.exit(1)


if __name__ == "__main__":
    main()
