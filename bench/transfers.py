"""Times the transfer of a zone by stream as the zone grows.

usage: python3 bench/transfers.py PROGRAM

PROGRAM is the built tool_transports. A zone of 10,000 and one of 100,000 records comes in frames of about 16 KB, each
record of 16 octets, so often that as many records come of each. Each is taken five times, in turn; the least time of
each counts, and the time of a record and the ratio are told.
"""

import subprocess
import sys
import tempfile
import time

RUNS = 5
IN_ALL = 1000000
IN_FRAME = 1000
QUESTION = "076578616d706c6503636f6d00" + "00fc0001"
QUERY = "000000000001000000000000" + QUESTION
SOA = "c00c00060001000000000016" + "0000" + "00000007" + "00" * 16
ADDRESS = "c00c00010001000000000004c0000201"


def frame(records):
    message = "000084000001%04x00000000" % len(records) + QUESTION + "".join(records)
    return "%04x" % (len(message) // 2) + message


def transfer(count):
    """The lines of one transfer: an SOA, addresses, and the SOA again."""
    records = [SOA] + [ADDRESS] * (count - 2) + [SOA]
    lines = ["transfer 1 " + QUERY, "at 1 wrote 0 99"]
    for at in range(0, count, IN_FRAME):
        lines.append("at 1 bytes 0 " + frame(records[at:at + IN_FRAME]))
    return lines


def seconds(program, path):
    with open(path, "rb") as text, tempfile.TemporaryFile() as told:
        began = time.perf_counter()
        subprocess.run([program], stdin=text, stdout=told, check=True)
        took = time.perf_counter() - began
        told.seek(-200, 2)
        if b"AlreadyDone" not in told.read():
            sys.exit("the transfer did not end")
        return took


def main():
    if len(sys.argv) != 2:
        sys.exit(__doc__)
    with tempfile.TemporaryDirectory() as room:
        sizes = (10000, 100000)
        paths = ["%s/%d" % (room, size) for size in sizes]
        for size, path in zip(sizes, paths):
            with open(path, "w") as file:
                lines = ["walk 600000000 600000000 3600000000"] + transfer(size) * (IN_ALL // size)
                file.write("".join("streams stream %s\n" % line for line in lines))
        took = [[], []]
        for _ in range(RUNS):
            for times, path in zip(took, paths):
                times.append(seconds(sys.argv[1], path))
        each = [min(times) / IN_ALL for times in took]
        print("a record of %d: %.0f ns; of %d: %.0f ns; ratio %.2f" % (sizes[0], each[0] * 1e9, sizes[1], each[1] * 1e9, each[1] / each[0]))


if __name__ == "__main__":
    main()
