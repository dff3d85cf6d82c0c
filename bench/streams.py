"""Times a stream connection as requests in flight, frames and pieces grow in number.

usage: python3 bench/streams.py PROGRAM

PROGRAM is the built tool_transports. Each measure is taken at a size and at twice that size, in turn, five times; the
least time of each counts, and the ratio is told:

- so many requests are in flight, and are answered in reverse order (in rounds that ask as many in all);
- many requests are given up, so that ids are looked for among those that are held;
- a piece has so many frames;
- so many octets of one frame come one by one.
"""

import subprocess
import sys
import tempfile
import time

RUNS = 5
QUESTION = "0000010001"
ASK = "at 0 ask 000001000001000000000000" + QUESTION + " 00000100 -"


def answered(ids):
    return ["at 1 bytes 0 000c%04x81820000000000000000" % ident for ident in ids]


def asked(count):
    return [line for _ in range(count) for line in (ASK, "at 0 wrote 0 99")]


def in_flight(count, rounds):
    lines = []
    for _ in range(rounds):
        lines += ["walk 600000000 600000000 3600000000"] + asked(count) + answered(range(count - 1, -1, -1))
    return lines


def scattered(count):
    """Every other request is answered, and as many are asked again."""
    return ["walk 600000000 600000000 3600000000"] + asked(count) + answered(range(0, count, 2)) + asked(count // 2)


def many_frames(count):
    frame = "0033" + "ffff8180" + "00" * 47
    return ["walk 600000000 600000000 3600000000", "at 0 bytes 0 " + frame * count]


def one_by_one(count):
    octets = "%04x" % (count - 2) + "ffff8180" + "00" * (count - 6)
    return ["walk 600000000 600000000 3600000000"] + ["at 0 bytes 0 " + octets[i:i + 2] for i in range(0, 2 * count, 2)]


MEASURES = (
    ("500 and 1000 requests in flight, in reverse order, so often that as many are asked", lambda n: in_flight(500 * n, 40 // n)),
    ("500 and 1000 requests in flight, in reverse order, 20 times each", lambda n: in_flight(500 * n, 20)),
    ("15000 and 30000 requests, half of them answered and asked again", lambda n: scattered(15000 * n)),
    ("a piece of 8 and of 16 MB with 150000 and 300000 frames", lambda n: many_frames(150000 * n)),
    ("a frame of 30 and of 60 KB, octet by octet", lambda n: one_by_one(30000 * n)),
)


def seconds(program, path):
    with open(path, "rb") as text, tempfile.TemporaryFile() as told:
        began = time.perf_counter()
        subprocess.run([program], stdin=text, stdout=told, check=True)
        took = time.perf_counter() - began
        if told.seek(0, 2) == 0:
            sys.exit("nothing was told")
        return took


def main():
    if len(sys.argv) != 2:
        sys.exit(__doc__)
    with tempfile.TemporaryDirectory() as room:
        for number, (name, lines) in enumerate(MEASURES):
            paths = ["%s/%d-%d" % (room, number, n) for n in (1, 2)]
            for n, path in zip((1, 2), paths):
                with open(path, "w") as file:
                    file.write("".join("streams stream %s\n" % line for line in lines(n)))
            took = [[], []]
            for _ in range(RUNS):
                for times, path in zip(took, paths):
                    times.append(seconds(sys.argv[1], path))
            least = [min(times) for times in took]
            print("%s: %.3f s and %.3f s, ratio %.2f" % (name, least[0], least[1], least[1] / least[0]))


if __name__ == "__main__":
    main()
