#!/usr/bin/env python3
"""Times how long `zone_fetch` takes to fetch a whole zone from an NSD on loopback, beside kdig, and one change of it from a Knot.

    python3 bench/zones.py [--records N] [--rounds N] PROGRAM..

Each PROGRAM is a built zone_fetch. The zone has 1000000 records, of six types, where nothing is said. In each of the rounds (five)
each program and kdig fetch it in turn, into a file, and each program brings what was fetched before to a zone of which one record is
another (`--from`). What counts is the processor time of the process, of the user and the system; the least and the median of each are
told, the ratio to kdig's in the same round, and that of the change to the whole zone. Without a knotd there is no change.
"""

import os
import shutil
import signal
import statistics
import subprocess
import sys
import tempfile
import time
from pathlib import Path

sys.path.insert(0, str(Path(__file__).resolve().parent.parent / "tests"))
from compare_zones import ZONE, Knot, Nsd, line  # noqa: E402

HEAD = f"$ORIGIN {ZONE}.\n$TTL 300\n@ SOA ns hostmaster 1 3600 900 86400 300\n@ NS ns\nns A 127.0.0.1\nwww A 192.0.2.1\n"


class PatientKnot(Knot):
    """A Knot that waits for a client as long as it reads."""

    def start(self, words):
        conf = self.folder / "knot.conf"
        conf.write_text(conf.read_text().replace("server:\n", "server:\n    tcp-io-timeout: 0\n"))
        super().start(words)


def write_zone(path, records):
    with open(path, "w") as zone:
        zone.write(HEAD)
        for n in range(records - 4):
            zone.write(line(n) + "\n")


def served(kind, folder, records):
    """A server of the zone."""
    folder.mkdir()
    server = kind(folder)
    write_zone(server.zone, records)
    server.run()
    server.wait(1)
    return server


def with_one_change(server, program, before):
    """Fetches the zone, and then changes one record of it at the server."""
    took([program, "--port", str(server.port), ZONE, "127.0.0.1"], before)
    text = server.zone.read_text().replace("hostmaster 1 ", "hostmaster 2 ", 1).replace("www A 192.0.2.1", "www A 192.0.2.2", 1)
    server.zone.write_text(text)
    os.utime(server.zone, (time.time() + 2, time.time() + 2))
    server.process.send_signal(signal.SIGHUP)
    server.wait(2)


def took(words, path):
    """The processor time of a process that writes into a file, in seconds."""
    with open(path, "wb") as told:
        child = subprocess.Popen(words, stdout=told, stderr=subprocess.DEVNULL)
        _, status, used = os.wait4(child.pid, 0)
    if status != 0:
        sys.exit(f"{words[0]} ended with {status}")
    return used.ru_utime + used.ru_stime


def main():
    words, records, rounds = sys.argv[1:], 1000000, 5
    while words and words[0] in ("--records", "--rounds"):
        if words[0] == "--records":
            records = int(words[1])
        else:
            rounds = int(words[1])
        words = words[2:]
    if not words:
        sys.exit(__doc__)
    with tempfile.TemporaryDirectory() as room:
        servers = [served(Nsd, Path(room) / "nsd", records)]
        try:
            port = str(servers[0].port)
            kdig = ["kdig", "+noall", "+answer", "+tcp", "@127.0.0.1", "-p", port, ZONE, "AXFR"]
            asked = [[program, "--port", port, ZONE, "127.0.0.1"] for program in words] + [kdig]
            if shutil.which(Knot.program):
                servers.append(served(PatientKnot, Path(room) / "knot", records))
                with_one_change(servers[1], words[0], f"{room}/before")
                asked += [[program, "--port", str(servers[1].port), "--from", f"{room}/before", ZONE, "127.0.0.1"] for program in words]
            times = [[] for _ in asked]
            for _ in range(rounds):
                for found, it in zip(times, asked):
                    found.append(took(it, room + "/told"))
        finally:
            for server in servers:
                server.stop()
    tell(asked, times, len(words))


def ratios(mine, theirs):
    found = [a / b for a, b in zip(mine, theirs)]
    return f"{min(found):.2f} to {max(found):.2f}, median {statistics.median(found):.2f}"


def tell(asked, times, programs):
    """Tells the times of the whole zone, by programs and then by kdig, and of one change by the programs."""
    for at, (it, found) in enumerate(zip(asked, times)):
        changed = at > programs
        name = f"{it[0]}, one change" if changed else it[0]
        said = f"{name}: least {min(found):.2f} s, median {statistics.median(found):.2f} s; {ratios(found, times[programs])} of kdig's whole zone"
        print(said + (f"; {ratios(found, times[at - programs - 1])} of its own" if changed else ""))


if __name__ == "__main__":
    main()
