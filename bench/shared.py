"""Times a client that threads share beside one that is stepped alone, and tells what a client without a journal keeps in memory.

usage: python3 bench/shared.py PROGRAM [EVENTS]

PROGRAM is what `bench/build --proved bench_steps` makes. An address is learned, and then asked for so many times (400,000); the cache answers each. Told
are the events a second by the clock, the best of five runs each: by a client alone, under a lock, shared without a journal,
shared with one by one thread, and by 1, 2 and 4 lanes with a thread each; and what each way adds to an event of the way before
it, in nanoseconds: the lock, the history, and the copies of events and outs with the journal that keeps them. Then the most memory that a client without a
journal had after 100,000 and after 10,000,000 events. More than 1 MB between these ends with status 1.
"""

import os
import re
import subprocess
import sys
import time
from pathlib import Path

RUNS = 5
WAYS = (("alone", "the client's step"), ("locked", "the lock"), ("counted", "the history"), ("journaled", "copies and journal"))
MOST_MEMORY = 1024  # kilobytes


def memory_of(pid):
    """The most kilobytes that a process had in use so far; 0 where it has ended."""
    try:
        found = re.search(r"VmHWM:\s+(\d+) kB", Path("/proc/%d/status" % pid).read_text())
    except OSError:
        return 0
    return int(found.group(1)) if found else 0


def run(program, way, lanes, events):
    """The seconds by the clock and the kilobytes of memory of one run, each of whose steps is done."""
    began = time.monotonic()
    ran = subprocess.Popen([program, way, str(lanes), str(events)], stdout=subprocess.PIPE)
    memory = 0
    while True:
        ended, status, _ = os.wait4(ran.pid, os.WNOHANG)
        if ended:
            break
        memory = max(memory, memory_of(ran.pid))
        time.sleep(0.002)
    ran.returncode = os.waitstatus_to_exitcode(status)
    steps = int(ran.stdout.read() or 0)
    if ran.returncode != 0 or steps != lanes * events:
        sys.exit("%s %d: status %d, %d steps" % (way, events, ran.returncode, steps))
    return time.monotonic() - began, memory


def best(program, way, lanes, events):
    return min(run(program, way, lanes, events)[0] for _ in range(RUNS))


def main():
    if len(sys.argv) not in (2, 3):
        sys.exit(__doc__)
    program = sys.argv[1]
    events = int(sys.argv[2]) if len(sys.argv) == 3 else 400_000
    before = 0.0
    for way, added in WAYS:
        took = best(program, way, 1, events)
        print("%-10s %9.0f events a second; %s: %.0f ns" % (way, events / took, added, (took - before) * 1e9 / events))
        before = took
    for lanes in (1, 2, 4):
        took = best(program, "lanes", lanes, events // lanes)
        print("%d lanes    %9.0f events a second" % (lanes, events / took))
    less, more = (run(program, "counted", 1, count)[1] for count in (100_000, 10_000_000))
    print("memory after 100,000 events %d kB, after 10,000,000 %d kB" % (less, more))
    sys.exit(0 if more - less <= MOST_MEMORY else 1)


if __name__ == "__main__":
    main()
