#!/usr/bin/env python3
"""Has `zone_fetch --refresh` keep a zone of primaries on loopback that serve it or fail, and compares what it tells.

    python3 tests/tell_refresh.py PROGRAM

PROGRAM is the built zone_fetch. A primary here answers for the SOA by datagrams, and sends zones and changes by streams: it refuses, is not
authoritative, has no SOA, is silent or not there, fails at changes, cuts a transfer or ends it wrongly. Each time the sentences are to be
those that are written here, in order, and the file the primary's zone or what it was. SIGTERM ends each run. Lists and words that are wrong
end it with their statuses. The first differences end this with status 1.
"""

import signal
import socket
import struct
import subprocess
import sys
import tempfile
import threading
from pathlib import Path

import hostile_zones
from hostile_zones import AXFR, IXFR, SOA, ZONE, Record, line, plain, soa, wire_name

faults = []


def expect(what, got, wanted):
    if got != wanted:
        faults.append(f"{what}:\n  {got}\n  and not\n  {wanted}")


class Primary(hostile_zones.Server):
    """A server of a zone that also answers for the SOA by datagrams, as `says` has it, or not at all."""

    def __init__(self, says=None):
        super().__init__()
        self.says = says
        self.dgrams = socket.socket(socket.AF_INET, socket.SOCK_DGRAM)
        self.dgrams.bind(("127.0.0.1", self.port))
        threading.Thread(target=self.listen, daemon=True).start()

    def listen(self):
        while True:
            query, peer = self.dgrams.recvfrom(65535)
            if self.says is not None:
                self.dgrams.sendto(self.answer_for(query), peer)

    def answer_for(self, query):
        code, authoritative, records = self.says
        end = 12
        while query[end]:
            end += 1 + query[end]
        head = query[:2] + struct.pack("!HHHHH", 0x8000 | (0x0400 if authoritative else 0) | code, 1, len(records), 0, 0)
        return head + query[12:end + 5] + b"".join(r.octets() for r in records)

    def name(self):
        return f"127.0.0.1:{self.port}"


def serving(serial, sent=None):
    """A primary with a zone of this serial."""
    primary = Primary((0, True, [soa(serial)]))
    zone = [soa(serial), plain(1), plain(2), soa(serial)]
    primary.sent = {AXFR: [(0, zone)], **(sent or {})}
    return primary


def text(records):
    return "".join(line(k) + "\n" for k in sorted({r.kept() for r in records}))


def zone_of(serial):
    return text([soa(serial), plain(1), plain(2)])


def impatient(serial):
    """An SOA with RETRY and EXPIRE of a second."""
    data = wire_name("ns." + ZONE) + wire_name("host." + ZONE) + struct.pack("!IIIII", serial, 3600, 1, 1, 300)
    return Record(ZONE, SOA, data, serial)


def kept(program, folder, primaries, count, before=None):
    """So many sentences of a run that keeps the zone, and what its file is then."""
    listed, path = folder / "list", folder / "zone"
    listed.write_text("# kept\n\n" + f"{ZONE}. {path} " + " ".join(f"127.0.0.1@{p.port}" for p in primaries) + "\n")
    path.unlink(missing_ok=True)
    if before is not None:
        path.write_text(before)
    process = subprocess.Popen([program, "--refresh", str(listed)], stdout=subprocess.PIPE, stderr=subprocess.PIPE, text=True)
    stop = threading.Timer(40, process.kill)
    stop.start()
    lines = [process.stderr.readline() for _ in range(count)]
    process.send_signal(signal.SIGTERM)
    out, more = process.communicate()
    stop.cancel()
    expect("the end", (process.returncode, out, more), (-signal.SIGTERM, "", ""))
    head = f"zone_fetch: {ZONE}"
    lines = [it.removeprefix(head).rstrip("\n").replace(str(path), "FILE") for it in lines]
    return lines, path.read_text() if path.exists() else None


def begins(held):
    return f": kept in FILE, which has {held}"


def tells_of_zones(program, folder):
    one = serving(5)
    come = f": FILE is up to date, serial 5 came from {one.name()}; asked again in 3600 s"
    got = kept(program, folder, [one], 3)
    expect("no zone yet", got, ([begins("no zone yet"), f": {one.name()} has serial 5, and FILE has not; it is fetched from {one.name()}", come], zone_of(5)))
    other = kept(program, folder, [one], 3, text([soa(9, "other." + ZONE)]))
    expect("the file of another zone", other, got)
    same = f": FILE is up to date, serial 5 as {one.name()} has it; asked again in 3600 s"
    expect("the same serial", kept(program, folder, [one], 2, zone_of(5)), ([begins("serial 5"), same], zone_of(5)))
    less = f": {one.name()} has serial 5, and FILE has not; asked again in 900 s"
    expect("a lesser serial", kept(program, folder, [one], 2, zone_of(6)), ([begins("serial 6"), less], zone_of(6)))
    one.sent[IXFR] = [(0, [soa(5), soa(4), plain(3), soa(5), plain(1), soa(5)])]
    got = kept(program, folder, [one], 3, text([soa(4), plain(2), plain(3)]))
    has = f": {one.name()} has serial 5, and FILE has not; it is fetched from {one.name()}"
    expect("changes", got, ([begins("serial 4"), has, come], zone_of(5)))
    why = f" from {one.name()}: asked for whole: the server answered SERVFAIL where its changes were asked for"
    one.sent[IXFR] = [(2, [])]
    expect("SERVFAIL", kept(program, folder, [one], 4, zone_of(4)), ([begins("serial 4"), has, why, come], zone_of(5)))


def tells_of_failures(program, folder):
    for what, says, why in (
        ("REFUSED", (5, False, []), ": it answered REFUSED"),
        ("SERVFAIL", (2, False, []), ": it answered SERVFAIL"),
        ("no authority", (0, False, [soa(6)]), ": its answer is not authoritative"),
        ("no SOA", (0, True, [plain(1)]), ": its answer has no SOA of the zone"),
        ("another zone's SOA", (0, True, [soa(6, "a." + ZONE)]), ": its answer has no SOA of the zone"),
        ("silence", None, ": no answer came in 10 seconds"),
    ):
        one = Primary(says)
        got = kept(program, folder, [one], 2, zone_of(5))
        expect(what, got, ([begins("serial 5"), f": {one.name()} gave no SOA{why}; asked again in 900 s"], zone_of(5)))
    for what, sent, why in (
        ("a cut", {IXFR: []}, "failed transport: the server closed the stream before the transfer's end"),
        ("NOTAUTH", {IXFR: [(9, [])]}, "failed refused: the server answered NOTAUTH"),
        ("a wrong end", {IXFR: [(0, [soa(6), plain(1), impatient(6)])]},
         "failed transfer: what came is no transfer of the zone: it ends otherwise than it began, or has a record that no zone holds"),
    ):
        one = serving(6, sent)
        has = f": {one.name()} has serial 6, and FILE has not; it is fetched from {one.name()}"
        failed = [f" from {one.name()}: {why}", f": nothing came from {one.name()}; asked again in 900 s"]
        expect(what, kept(program, folder, [one], 4, zone_of(5)), ([begins("serial 5"), has, *failed], zone_of(5)))


def tells_of_turns(program, folder):
    gone, two = Primary((5, False, [])), serving(6)
    passed = f": {gone.name()} gave no SOA: it answered REFUSED; {two.name()} is asked"
    has = f": {two.name()} has serial 6, and FILE has not; it is fetched from {two.name()}"
    come = f": FILE is up to date, serial 6 came from {two.name()}; asked again in 3600 s"
    got = kept(program, folder, [gone, two], 4, "no zone\n")
    expect("the second primary", got, ([begins("no zone yet"), passed, has, come], zone_of(6)))
    lines, file = kept(program, folder, [gone], 5, text([impatient(5)]))
    expired = ": expired: no primary has confirmed it for as long as its SOA says"
    refused = f": {gone.name()} gave no SOA: it answered REFUSED; asked again in 1 s"
    expect("an expiry", (sorted(lines), file), (sorted([begins("serial 5"), expired, refused, refused, refused]), text([impatient(5)])))


def ends(program, folder):
    """Lists and words that are wrong."""
    listed, see = folder / "list", "; see zone_fetch --help\n"
    listed.write_text(f"{ZONE} zone 127.0.0.1\n{ZONE} zone\n")
    empty, none = folder / "empty", folder / "none"
    empty.write_text("# nothing\n")
    for words, status, said in (
        (["--refresh"], 2, f"no list stands behind --refresh{see}"),
        (["--text", "--most", "5", "--refresh"], 2, f"no list stands behind --refresh{see}"),
        (["--refresh", str(listed), "--text"], 2, f"--text stands behind the list, where no word may{see}"),
        (["--most", "+5", "--refresh", str(listed)], 2, f"+5 is no count of octets{see}"),
        (["--refresh", str(none)], 3, f"{none} could not be read\n"),
        (["--refresh", str(listed)], 1, f"{listed}: line 2: no primary stands behind the file\n"),
        (["--refresh", str(empty)], 1, f"{empty} names no zone\n"),
    ):
        done = subprocess.run([program, *words], capture_output=True, text=True, timeout=20)
        expect(words, (done.returncode, done.stdout, done.stderr), (status, "", f"zone_fetch: {said}"))


def main():
    program = sys.argv[1]
    with tempfile.TemporaryDirectory() as top:
        for test in (ends, tells_of_zones, tells_of_failures, tells_of_turns):
            test(program, Path(top))
    print("\n".join(faults) or "each is told as it is written")
    return 1 if faults else 0


if __name__ == "__main__":
    sys.exit(main())
