"""Times a client that 1, 2 and 4 lanes share, beside the replay of the same events by one client alone.

usage: python3 bench/lanes.py PROGRAM [EVENTS]

PROGRAM is the built dnsq. Each lane has so many events (20,000): a name is asked for, its place is opened, the answer comes,
and the name is asked for again, which the cache answers. Told are the events a second of `dnsq many` and of `dnsq replay`,
by the clock, the best of three runs each; both read a script and print what is done.
"""

import subprocess
import sys
import time

RUNS = 3
NAMES = 40


def name_of(number):
    label = b"h%d" % number
    return bytes([len(label)]) + label + b"\7example\3com\0"


def asked(number):
    return (b"\0\0\1\0\0\1\0\0\0\0\0\0" + name_of(number) + b"\0\1\0\1").hex()


def events_of(lane, count):
    """Questions for a lane's own names; of four in turn one is a tick."""
    lines = []
    for i in range(count):
        moment = i * 1000
        if i % 4 == 3:
            lines.append("at %d tick" % moment)
        else:
            lines.append("at %d ask %s 00000100 -" % (moment, asked(lane * NAMES + i % NAMES)))
    return lines


def seconds(program, command, text):
    best = None
    for _ in range(RUNS):
        began = time.monotonic()
        ran = subprocess.run([program, command], input=text, stdout=subprocess.PIPE, check=False)
        took = time.monotonic() - began
        if ran.returncode != 0:
            sys.exit("%s: status %d" % (command, ran.returncode))
        best = took if best is None else min(best, took)
    return best


def main():
    if len(sys.argv) not in (2, 3):
        sys.exit(__doc__)
    program = sys.argv[1]
    count = int(sys.argv[2]) if len(sys.argv) == 3 else 20_000
    head = ["conf nameserver 192.0.2.53", "conf options timeout:1"]
    for lanes in (1, 2, 4):
        each = [events_of(lane, count) for lane in range(lanes)]
        many = "\n".join(head + [line for lane in each for line in ["lane"] + lane]) + "\n"
        alone = "\n".join(head + [line for turn in zip(*each) for line in turn]) + "\n"
        for command, text in (("many", many), ("replay", alone)):
            took = seconds(program, command, text.encode())
            print("%d lanes %-6s %9.0f events a second" % (lanes, command, lanes * count / took))


if __name__ == "__main__":
    main()
