#!/usr/bin/env python3
"""Fetches zones by `zone_fetch` from real servers on loopback, and compares them with what kdig is sent.

    python3 tests/compare_zones.py PROGRAM [RECORDS]

PROGRAM is the built zone_fetch; RECORDS is how many records the zone has, 100000 where nothing is said. The zone is made here.
NSD and Knot each send it whole: it must be kdig's, record for record. BIND and Knot each make 20 new zones of it with 50 changes
a step, a record deleted and one added: what was fetched before and then changed by `--from` must be what they send whole.
Without a server it is passed over, and that is said. The first difference ends it with status 1.
"""

import os
import shutil
import signal
import socket
import subprocess
import sys
import tempfile
import time
from pathlib import Path

ZONE = "big.example"
STEPS, CHANGES = 20, 25
TYPES = {"A": 1, "NS": 2, "CNAME": 5, "SOA": 6, "PTR": 12, "MX": 15, "TXT": 16, "AAAA": 28, "SRV": 33}


def free_port():
    with socket.socket() as s:
        s.bind(("127.0.0.1", 0))
        return s.getsockname()[1]


def line(n):
    """A record of the zone, of one of six types."""
    kind = n % 6
    if kind == 0:
        return f"h{n} A 10.{n >> 16 & 255}.{n >> 8 & 255}.{n & 255}"
    if kind == 1:
        return f"h{n} AAAA 2001:db8::{n >> 16:x}:{n & 65535:x}"
    if kind == 2:
        return f"H{n} MX {n % 100} Mail.Example.NET."
    if kind == 3:
        return f'h{n} TXT "text {n}"'
    if kind == 4:
        return f"_s{n}._tcp SRV 1 2 {n % 60000} h{n}"
    return f"h{n} CNAME www"


def zone_text(serial, numbers):
    head = f"$ORIGIN {ZONE}.\n$TTL 300\n@ SOA ns hostmaster {serial} 3600 900 86400 300\n@ NS ns\nns A 127.0.0.1\nwww A 192.0.2.1\n"
    return head + "".join(line(n) + "\n" for n in numbers)


class Server:
    """A name server in a folder of its own."""

    def __init__(self, folder):
        self.folder, self.port, self.process = folder, free_port(), None
        self.zone = folder / "zone"

    def start(self, words):
        self.process = subprocess.Popen(words, stdout=subprocess.DEVNULL, stderr=subprocess.DEVNULL)

    def wait(self, serial):
        for _ in range(1200):
            if f" {serial} " in kdig(self.port, "SOA", "+nogeneric", "+short"):
                return
            time.sleep(0.1)
        sys.exit(f"no serial {serial} at {type(self).__name__}")

    def change(self, serial, numbers):
        self.zone.write_text(zone_text(serial, numbers))
        os.utime(self.zone, (time.time() + serial, time.time() + serial))
        self.process.send_signal(signal.SIGHUP)
        self.wait(serial)

    def stop(self):
        self.process.terminate()
        self.process.wait()


class Nsd(Server):
    program = "nsd"

    def run(self):
        conf = self.folder / "nsd.conf"
        conf.write_text(f"""server:
  ip-address: 127.0.0.1@{self.port}
  do-ip6: no
  username: ""
  chroot: ""
  zonesdir: "{self.folder}"
  pidfile: "{self.folder}/pid"
  xfrdfile: "{self.folder}/xfrd"
  xfrdir: "{self.folder}"
  zonelistfile: "{self.folder}/list"
  rrl-ratelimit: 0
  database: ""
remote-control:
  control-enable: no
zone:
  name: {ZONE}
  zonefile: zone
  provide-xfr: 127.0.0.1 NOKEY
""")
        self.start(["nsd", "-d", "-c", str(conf)])


class Knot(Server):
    program = "knotd"

    def run(self):
        conf = self.folder / "knot.conf"
        conf.write_text(f"""server:
    listen: 127.0.0.1@{self.port}
    rundir: {self.folder}
database:
    storage: {self.folder}
acl:
  - id: all
    address: 127.0.0.0/8
    action: transfer
zone:
  - domain: {ZONE}
    storage: {self.folder}
    file: zone
    zonefile-load: difference
    zonefile-sync: -1
    journal-content: changes
    acl: all
""")
        self.start(["knotd", "-c", str(conf)])


class Bind(Server):
    program = "named"

    def run(self):
        conf = self.folder / "named.conf"
        conf.write_text(f"""options {{
  directory "{self.folder}"; pid-file "{self.folder}/pid"; session-keyfile "{self.folder}/key";
  listen-on port {self.port} {{ 127.0.0.1; }}; listen-on-v6 {{ none; }};
  recursion no; allow-transfer {{ any; }}; ixfr-from-differences yes; dnssec-validation no;
}};
controls {{ }};
zone "{ZONE}" {{ type primary; file "zone"; masterfile-format text; max-ixfr-ratio unlimited; }};
""")
        self.start(["named", "-f", "-c", str(conf)])


def kdig(port, rtype, *options):
    return subprocess.run(["kdig", "+generic", "+retry=0", "+tcp", *options, "@127.0.0.1", "-p", str(port), ZONE, rtype],
                          capture_output=True, text=True).stdout


def name_at(octets, at):
    end = at
    while octets[end]:
        end += 1 + octets[end]
    return octets[at:end + 1].lower(), end + 1


def lowered(rtype, data):
    """The data with its names in lower case."""
    names = {2: [0], 5: [0], 12: [0], 15: [2], 33: [6], 6: [0, 0]}
    out, at = b"", 0
    for skip in names.get(rtype, []):
        name, end = name_at(data, at + skip)
        out, at = out + data[at:at + skip] + name, end
    return out + data[at:]


def records_of(text):
    """The records of lines of generic form, the SOA once."""
    found = set()
    for words in (text_line.split() for text_line in text.splitlines()):
        if len(words) < 7 or words[4] != "\\#":
            continue
        rtype = int(words[3][4:]) if words[3].startswith("TYPE") else TYPES[words[3]]
        data = bytes.fromhex("".join(words[6:]))
        found.add((words[0].lower().rstrip("."), int(words[1]), rtype, lowered(rtype, data)))
    return found


def printed(text):
    """The records of lines in numbers and digits."""
    found = set()
    for owner, ttl, _, rtype, digits in (text_line.split(" ") for text_line in text.splitlines()):
        found.add((owner.lower().rstrip("."), int(ttl), int(rtype), bytes.fromhex(digits.replace("-", ""))))
    return found


def fetch(program, port, *options):
    done = subprocess.run([program, *options, "--port", str(port), ZONE, "127.0.0.1"], capture_output=True, text=True)
    if done.returncode != 0:
        sys.exit(f"status {done.returncode}: {done.stdout[:200]}{done.stderr[:200]}")
    return done.stdout


def compare(what, ours, theirs):
    if ours != theirs:
        print(f"{what}: {len(ours)} records, kdig has {len(theirs)}; alone here {list(ours - theirs)[:3]}, alone there {list(theirs - ours)[:3]}")
        sys.exit(1)
    print(f"{what}: {len(ours)} records are kdig's")


def main():
    program, count = sys.argv[1], int(sys.argv[2]) if len(sys.argv) > 2 else 100000
    with tempfile.TemporaryDirectory() as top:
        for kind in (Nsd, Knot, Bind):
            if not shutil.which(kind.program) or not shutil.which("kdig"):
                print(f"skipped: no {kind.program}, or no kdig")
                continue
            folder = Path(top) / kind.__name__
            folder.mkdir()
            server = kind(folder)
            numbers = list(range(count))
            server.zone.write_text(zone_text(1, numbers))
            server.run()
            try:
                server.wait(1)
                compare(f"{kind.__name__} AXFR", printed(fetch(program, server.port)), records_of(kdig(server.port, "AXFR")))
                if kind is Nsd:
                    continue
                before = folder / "before"
                before.write_text(fetch(program, server.port))
                for step in range(STEPS):
                    numbers = numbers[CHANGES:] + [count + step * CHANGES + n for n in range(CHANGES)]
                    server.change(2 + step, numbers)
                changed = fetch(program, server.port, "--from", str(before))
                compare(f"{kind.__name__} IXFR", printed(changed), records_of(kdig(server.port, "AXFR")))
            finally:
                server.stop()


if __name__ == "__main__":
    main()
