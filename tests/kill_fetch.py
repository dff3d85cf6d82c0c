#!/usr/bin/env python3
"""Kills `zone_fetch --output` at any moment, and sees that the file that it is to replace is whole: as it was, or the new zone.

    python3 tests/kill_fetch.py PROGRAM [COUNT [SEED]]

PROGRAM is the built zone_fetch, and COUNT how many runs are killed, 1000 if it is left out. A server on loopback sends one of two zones
in turn. Each run is killed after a random part of the time that a whole run takes, which is measured before. A run that ends by itself
leaves the new zone, a status 0 and no other file. Prints how many runs left which, and how many a file beside it.
"""

import random
import signal
import subprocess
import sys
import tempfile
import time
from pathlib import Path

from hostile_zones import AXFR, ZONE, Record, Server, line, soa

RECORDS = 2000


def zone(serial):
    return [soa(serial)] + [Record(f"h{n}.{ZONE}", 16, b"\x20" + b"%032d" % (n + serial)) for n in range(RECORDS)] + [soa(serial)]


def text(records):
    return "".join(line(k) + "\n" for k in sorted({r.kept() for r in records}))


def messages(records):
    return [(0, records[at:at + 300]) for at in range(0, len(records), 300)]


def start(program, server, path):
    words = [program, "--output", str(path), "--port", str(server.port), ZONE, "127.0.0.1"]
    return subprocess.Popen(words, stdout=subprocess.PIPE, stderr=subprocess.PIPE)


def take(folder, path, old, new):
    """What the file is, and whether another lies beside it, which is taken away."""
    others = [other for other in folder.iterdir() if other != path]
    for other in others:
        other.unlink()
    found = path.read_text()
    if found not in (old, new):
        sys.exit(f"{len(found)} octets that are neither zone")
    return found == new, bool(others)


def main():
    program, count = sys.argv[1], int(sys.argv[2]) if len(sys.argv) > 2 else 1000
    rng = random.Random(int(sys.argv[3]) if len(sys.argv) > 3 else 1)
    server, zones = Server(), [zone(1), zone(2)]
    texts = [text(records) for records in zones]
    kept, replaced, beside = 0, 0, 0
    with tempfile.TemporaryDirectory() as top:
        folder = Path(top)
        path = folder / "zone"
        path.write_text(texts[0])
        server.sent = {AXFR: messages(zones[1])}
        began = time.time()
        out, said = start(program, server, path).communicate()
        took = time.time() - began
        if (out, said) != (b"", b"") or take(folder, path, texts[0], texts[1]) != (True, False):
            sys.exit(f"a run that was not killed: {out[:200]} {said[:200]}")
        for n in range(count):
            old, new = texts[(n + 1) % 2], texts[n % 2]
            path.write_text(old)
            server.sent = {AXFR: messages(zones[n % 2])}
            running = start(program, server, path)
            time.sleep(rng.random() * took * 1.1)
            running.send_signal(signal.SIGKILL)
            running.communicate()
            is_new, is_beside = take(folder, path, old, new)
            if running.returncode == 0 and not (is_new and not is_beside):
                sys.exit("a run ended with status 0 and left the old zone, or another file")
            kept, replaced, beside = kept + (not is_new), replaced + is_new, beside + is_beside
    print(f"{kept} runs left the file as it was, {replaced} replaced it, {beside} left a file beside it")


if __name__ == "__main__":
    main()
