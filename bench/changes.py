#!/usr/bin/env python3
"""Times what a server may send to make `zone_fetch` sort, search and change as much as it can, and whether twice as much takes twice as long.

    python3 bench/changes.py [--records N] PROGRAM

PROGRAM is the built zone_fetch, and N how many records the smaller of two transfers has, 50000 where nothing is said. Of each shape so many are
sent, and twice as many, each three times in turn. What counts is the processor time of the process, the least of three. Prints for each
shape both times, their ratio and `ok`, or `over` where it is more than 2.4; then it ends with status 1.
"""

import os
import socket
import struct
import subprocess
import sys
import tempfile
import threading
from pathlib import Path

sys.path.insert(0, str(Path(__file__).resolve().parent.parent / "tests"))
from hostile_zones import AXFR, IXFR, ZONE, Record, soa, wire_name  # noqa: E402

RUNS, MOST = 3, 2.4
IN_FRAME = 200


def address(owner, n):
    return Record(f"{owner}.{ZONE}", 1, struct.pack("!I", n))


def rising(count):
    return [address(f"h{n:07}", n) for n in range(count)]


def falling(count):
    return rising(count)[::-1]


def shuffled(count):
    """Records in an order that has no runs: a step that is prime to the count."""
    step = next(it for it in range(int(count * 0.618), count * 2) if all(it % p or count % p for p in range(2, it + 1)))
    return [address(f"h{n * step % count:07}", n * step % count) for n in range(count)]


def alike(count):
    """Owners that differ behind their first 48 octets."""
    return [address("a" * 48 + f"{n * 7919 % count:07}", n) for n in range(count)]


def one(count):
    return [address("h", 1)] * count


def whole(records):
    return None, [soa(2)] + records + [soa(2)]


def changed(base, batches):
    """Changes of a zone: each of the batches deletes and adds."""
    sent, serial = [], 1
    for gone, new in batches:
        sent += [soa(serial)] + gone + [soa(serial + 1)] + new
        serial += 1
    return base, [soa(serial)] + sent + [soa(serial)]


SHAPES = (
    ("a whole zone whose records come in falling order", lambda n: whole(falling(n))),
    ("one whose records come in no order", lambda n: whole(shuffled(n))),
    ("one whose owners begin alike", lambda n: whole(alike(n))),
    ("one that has one record over and over", lambda n: whole(one(n))),
    ("one change of a zone", lambda n: changed(rising(n), [(rising(1), falling(1))])),
    ("as many deletions as a zone has records", lambda n: changed(rising(n), [(shuffled(n), [])])),
    ("as many additions", lambda n: changed(rising(n), [([], [address(f"i{k:07}", k) for k in range(n)][::-1])])),
    ("as many batches, each of which deletes a record and adds it", lambda n: changed(rising(n), [([it], [it]) for it in shuffled(n)])),
    ("one record that is added and deleted over and over", lambda n: changed(rising(n), [(one(1), one(1)) for _ in range(n)])),
)


def frames(query, records):
    """A transfer as a stream: its records in frames."""
    question = query[12:]
    for at in range(0, len(records), IN_FRAME):
        piece = records[at:at + IN_FRAME]
        message = query[:2] + struct.pack("!HHHHH", 0x8400, 1, len(piece), 0, 0) + question + b"".join(it.octets() for it in piece)
        yield struct.pack("!H", len(message)) + message


def read_exactly(stream, count):
    octets = b""
    while len(octets) < count:
        more = stream.recv(count - len(octets))
        if not more:
            return octets
        octets += more
    return octets


def question_of(query):
    """A query with its question alone."""
    end = query.index(b"\0", 12) + 5
    return query[:12] + query[12:end]


def serve(listener, records):
    stream, _ = listener.accept()
    with stream:
        size = struct.unpack("!H", read_exactly(stream, 2))[0]
        query = question_of(read_exactly(stream, size))
        for frame in frames(query, records):
            stream.sendall(frame)


def printed(records):
    """A zone as `zone_fetch` prints it."""
    lines = sorted((it.kept() for it in records), key=lambda kept: (kept[0], kept[1], kept[3]))
    names = {it.kept()[0]: it.owner.lower() for it in records}
    return "".join(f"{names[kept[0]]} {kept[4]} {kept[2]} {kept[1]} {kept[3].hex()}\n" for kept in lines)


def took(program, base, records):
    """The processor time of a fetch, in seconds."""
    with socket.create_server(("127.0.0.1", 0)) as listener, tempfile.TemporaryDirectory() as room, open(f"{room}/told", "wb") as told:
        words = [program, "--port", str(listener.getsockname()[1])]
        if base is not None:
            Path(f"{room}/before").write_text(printed(base + [soa(1)]))
            words += ["--from", f"{room}/before"]
        server = threading.Thread(target=serve, args=(listener, records))
        server.start()
        child = subprocess.Popen([*words, ZONE, "127.0.0.1"], stdout=told, stderr=subprocess.PIPE)
        why = child.stderr.read()
        _, status, used = os.wait4(child.pid, 0)
        server.join()
    if status != 0:
        sys.exit(f"{program} ended with {os.waitstatus_to_exitcode(status)}: {why.decode()}")
    return used.ru_utime + used.ru_stime


def main():
    words, records = sys.argv[1:], 50000
    if words[:1] == ["--records"]:
        records, words = int(words[1]), words[2:]
    if len(words) != 1:
        sys.exit(__doc__)
    is_over = False
    for name, make in SHAPES:
        sent = [make(records), make(2 * records)]
        times = [[], []]
        for _ in range(RUNS):
            for found, it in zip(times, sent):
                found.append(took(words[0], *it))
        small, large = (min(found) for found in times)
        is_over |= large > MOST * small
        print(f"{name}: {small:.2f} s and {large:.2f} s, {large / small:.2f} times: {'over' if large > MOST * small else 'ok'}", flush=True)
    return 1 if is_over else 0


if __name__ == "__main__":
    sys.exit(main())
