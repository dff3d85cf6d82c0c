#!/usr/bin/env python3
"""Lets `zone_fetch --refresh` keep three zones of real servers on loopback, which change all the while.

    python3 tests/refresh_zones.py PROGRAM [CHANGES]

PROGRAM is the built zone_fetch; CHANGES is how often a zone is changed, 200 where nothing is said. One zone is Knot's, one NSD's, and one has
both as its primaries, the second of which stands still for a while. REFRESH is two seconds, RETRY one and EXPIRE six. Each change deletes a
record and adds one. Every tenth part of the changes a server is killed, and comes back some changes later; between these the program is ended
by SIGTERM, wherever it is, and begun again, and each file must be whole then: what kdig was sent of it once. Whenever the program says that a
file is up to date, the file is read at once and must have what kdig was sent of that zone under that serial, record for record. At the end
both servers stand, and each file must become the last zone. A zone whose servers are both dead is told as expired, once. Where a server is
lacking, BIND stands in for it, and that is said. The first difference ends it with status 1.
"""

import os
import shutil
import signal
import subprocess
import sys
import tempfile
import threading
import time
from pathlib import Path

import compare_zones
from compare_zones import Bind, Knot, Nsd, printed, records_of

REFRESH, RETRY, EXPIRE = 2, 1, 6
ZONES = ("one.example", "two.example", "both.example")
FIRST = 4294967200  # serials pass 2^32


def serial_at(step):
    return (FIRST + step) % 2**32 or 1


def zone_text(zone, serial, step):
    head = f"$ORIGIN {zone}.\n$TTL 300\n@ SOA ns hostmaster {serial} {REFRESH} {RETRY} {EXPIRE} 60\n@ NS ns\nns A 127.0.0.1\n"
    return head + "".join(f"h{n} A 192.0.2.{n % 250}\nt{n} TXT \"text {n}\"\n" for n in range(step, step + 20))


def transfer(zone, port):
    """The records that kdig is sent, and none where it is sent none."""
    done = subprocess.run(["kdig", "+generic", "+retry=0", "+tcp", "+time=2", "@127.0.0.1", "-p", str(port), zone, "AXFR"],
                          capture_output=True, text=True)
    return records_of(done.stdout)


def serial_of(zone, port):
    done = subprocess.run(["kdig", "+short", "+retry=0", "+time=1", "@127.0.0.1", "-p", str(port), zone, "SOA"], capture_output=True, text=True)
    words = done.stdout.split()
    return int(words[2]) if len(words) == 7 else None


class Primary:
    """A server of one zone, which is changed, killed and started again."""

    def __init__(self, kind, zone, folder):
        folder.mkdir()
        self.zone, self.kind = zone, kind
        compare_zones.ZONE = zone
        self.server = kind(folder)
        self.server.start = self.begin
        self.is_up = False

    def begin(self, words):
        """Starts the server in a group of its own, which is killed with it."""
        self.server.process = subprocess.Popen(words, stdout=subprocess.DEVNULL, stderr=subprocess.DEVNULL, start_new_session=True)

    def start(self):
        compare_zones.ZONE = self.zone
        self.server.run()
        self.is_up = True

    def kill(self):
        os.killpg(self.server.process.pid, signal.SIGKILL)
        self.server.process.wait()
        self.is_up = False

    def write(self, step):
        text = zone_text(self.zone, serial_at(step), step)
        new = self.server.folder / "zone.new"
        new.write_text(text)
        os.utime(new, (time.time() + step, time.time() + step))
        new.replace(self.server.zone)

    def change(self, step):
        """The zone of a step, and what kdig is sent of it where the server stands."""
        self.write(step)
        if not self.is_up:
            return None
        self.server.process.send_signal(signal.SIGHUP)
        return self.await_step(step)

    def await_step(self, step):
        for _ in range(200):
            if serial_of(self.zone, self.server.port) == serial_at(step):
                return transfer(self.zone, self.server.port)
            time.sleep(0.05)
        sys.exit(f"{self.kind.__name__} does not serve step {step} of {self.zone}")


class Watch:
    """A run of the program: what it says, line by line, and whether each file that it calls up to date is."""

    def __init__(self, words, files, known):
        self.words, self.files, self.known = words, files, known
        self.said, self.wrong, self.serials, self.expired = 0, [], {}, {}
        self.kinds, self.lines, self.stops = {}, [], 0
        self.begin()

    def begin(self):
        self.process = subprocess.Popen(self.words, stdout=subprocess.PIPE, stderr=subprocess.PIPE, text=True)
        self.thread = threading.Thread(target=self.read, daemon=True)
        self.thread.start()

    def end(self):
        """Ends it by SIGTERM. Each file that is there must be a zone that was a server's."""
        if self.process.poll() is not None:
            sys.exit(f"the program ended with status {self.process.returncode}: {self.lines[-3:]}")
        self.process.send_signal(signal.SIGTERM)
        status = self.process.wait(5)
        if status != -signal.SIGTERM:
            sys.exit(f"SIGTERM ends it by {status}")
        self.thread.join()
        self.stops += 1
        for zone, path in self.files.items():
            have = printed(path.read_text()) if path.exists() else None
            if have is not None and have not in [of for (name, _), of in self.known.items() if name == zone]:
                sys.exit(f"SIGTERM left {len(have)} records of {zone}, which no server has sent")

    def read(self):
        for text in self.process.stderr:
            self.lines.append(text)
            words = text.split()
            zone = words[1].rstrip(":").rstrip(".") if len(words) > 1 else ""
            if zone not in self.files:
                continue
            if " is up to date, " in text:
                self.check(zone, int(words[words.index("serial") + 1].rstrip(";")), text)
            self.count(zone, text)

    def count(self, zone, text):
        for kind in ("is up to date, serial", "has serial", "gave no SOA", "nothing came", "expired:", "failed", "asked for whole"):
            if kind in text:
                self.kinds[kind] = self.kinds.get(kind, 0) + 1
                break
        if "expired:" in text:
            self.expired[zone] = self.expired.get(zone, 0) + 1

    def check(self, zone, serial, text):
        have = printed(self.files[zone].read_text())
        self.said += 1
        self.serials[zone] = serial
        for _ in range(100):
            if (zone, serial) in self.known:
                break
            time.sleep(0.05)
        if have != self.known.get((zone, serial)):
            self.wrong.append(f"{text.strip()}: the file has {len(have)} records, kdig {len(self.known.get((zone, serial), []))}")


def await_that(holds, seconds, what):
    end = time.time() + seconds
    while not holds():
        if time.time() > end:
            sys.exit(f"not within {seconds} s: {what}")
        time.sleep(0.1)


def kinds():
    """Knot and NSD, or BIND in their place."""
    found = []
    for kind in (Knot, Nsd):
        if shutil.which(kind.program):
            found.append(kind)
        else:
            print(f"no {kind.program}: BIND stands in")
            found.append(Bind)
    return found


def primaries_in(top):
    knot, nsd = kinds()
    one = Primary(knot, ZONES[0], top / "one")
    two = Primary(nsd, ZONES[1], top / "two")
    both = Primary(knot, ZONES[2], top / "both1"), Primary(nsd, ZONES[2], top / "both2")
    return {ZONES[0]: [one], ZONES[1]: [two], ZONES[2]: list(both)}


def change_all(primaries, known, changes, watch):
    """So many changes of one zone after another. What is dead comes back at once with the last zone."""
    steps = dict.fromkeys(ZONES, 0)
    dead = []
    for change in range(changes):
        if change % max(changes // 10, 1) == max(changes // 15, 1):
            watch.end()
            watch.begin()
        if change % max(changes // 10, 1) == max(changes // 20, 1) and not dead:
            victim = primaries[ZONES[change // max(changes // 10, 1) % 3]][0]
            victim.kill()
            dead.append((change + max(changes // 20, 1), victim))
        for due, victim in list(dead):
            if change >= due:
                dead.remove((due, victim))
                victim.start()
                step = steps[victim.zone]
                known[(victim.zone, serial_at(step))] = victim.await_step(step)
        zone = ZONES[change % 3]
        steps[zone] += 1
        for primary in primaries[zone]:
            sent = primary.change(steps[zone])
            if sent is not None:
                known[(zone, serial_at(steps[zone]))] = sent
        time.sleep(0.4)
    for _, victim in dead:
        victim.start()
        known[(victim.zone, serial_at(steps[victim.zone]))] = victim.await_step(steps[victim.zone])
    return steps


def run(program, changes, top):
    primaries, known, files = primaries_in(top), {}, {}
    lines = []
    for zone, servers in primaries.items():
        for server in servers:
            server.write(0)
            server.start()
            known[(zone, serial_at(0))] = server.await_step(0)
        files[zone] = top / f"{zone}.zone"
        lines.append(f"{zone}. {files[zone]} " + " ".join(f"127.0.0.1@{s.server.port}" for s in servers))
    listed = top / "list"
    listed.write_text("# kept\n" + "\n".join(lines) + "\n")
    watch = Watch([program, "--refresh", str(listed)], files, known)
    try:
        steps = change_all(primaries, known, changes, watch)
        await_that(lambda: all(watch.serials.get(zone) == serial_at(steps[zone]) for zone in ZONES), 20, "each file is the last zone")
        told = watch.expired.get(ZONES[0], 0)
        for server in primaries[ZONES[0]]:
            server.kill()
        await_that(lambda: watch.expired.get(ZONES[0]) == told + 1, EXPIRE + 12, "a zone without primaries is told as expired")
        time.sleep(3)
        if watch.expired.get(ZONES[0]) != told + 1:
            sys.exit(f"it was told {watch.expired.get(ZONES[0])} times that the zone has expired")
        watch.end()
    finally:
        watch.process.kill()
        for servers in primaries.values():
            for server in servers:
                if server.is_up:
                    server.kill()
        (Path(os.environ.get("REFRESH_LOG", top / "log"))).write_text("".join(watch.lines))
    if watch.wrong:
        print("\n".join(watch.wrong[:5]))
        sys.exit(1)
    print(f"{changes} changes, {watch.stops} ends by SIGTERM: {watch.said} times a file was called up to date, and was; {watch.kinds}")


def main():
    program, changes = sys.argv[1], int(sys.argv[2]) if len(sys.argv) > 2 else 200
    if not shutil.which("kdig"):
        print("skipped: no kdig")
        return
    with tempfile.TemporaryDirectory() as top:
        run(program, changes, Path(top))


if __name__ == "__main__":
    main()
