#!/usr/bin/env python3
"""Has `zone_fetch` fetch zones from a hostile server on loopback, and compares what it makes of them with what the forms say.

    python3 tests/hostile_zones.py PROGRAM [COUNT [SEED]]

PROGRAM is the built zone_fetch, and COUNT the number of transfers, 2000 if it is left out: whole zones and changes, cut into
messages anywhere, most of them then mangled: records dropped, doubled, swapped, with other serials, owners, cases, classes and
types, SOAs in the middle or behind the end, messages dropped, refused, or cut off. A list of records is a transfer where it has
one of the two forms (RFC 5936 2.2, RFC 1995 4), each record is of the class IN and of a type that a zone may hold, and a whole
zone ends with the SOA it began with; then the zone is to be the set that the form says without what is outside it, in order, and
else nothing of it is to be printed and the status to be 5. The zone before is read from a file whose lines stand in any order.
Where changes were asked for and the server answers FORMERR, NOTIMP or REFUSED, has none but a greater serial, or sends such that
delete what is not there or add what is, the whole zone is to be asked for, and a sentence to say so. Nothing is to be printed of
a zone with the serial of the one before (9), or one that is not greater (5). Behind these comes a transfer that never ends, which
`--most` is to end. Prints how many ended with which status, how many of them behind a second request, or the first that differs.
"""

import random
import socket
import struct
import subprocess
import sys
import tempfile
import threading
import time
from pathlib import Path

ZONE = "example.com"
AXFR, IXFR, SOA = 252, 251, 6
UNWILLING = (1, 4, 5)


def wire_name(text):
    return b"".join(bytes([len(label)]) + label.encode() for label in text.split(".") if label) + b"\0"


class Record:
    def __init__(self, owner, rtype, data, serial=None, ttl=300, rclass=1):
        self.owner, self.rtype, self.data, self.serial, self.ttl, self.rclass = owner, rtype, data, serial, ttl, rclass

    def octets(self):
        return wire_name(self.owner) + struct.pack("!HHIH", self.rtype, self.rclass, self.ttl, len(self.data)) + self.data

    def kept(self):
        """The record as a zone keeps it: owner and data in lower case, where the data is names."""
        data = self.data.lower() if self.rtype == 2 else self.data
        if self.rtype == SOA:
            data = self.data[:-20].lower() + self.data[-20:]
        return wire_name(self.owner).lower(), self.rtype, self.rclass, data, self.ttl

    def with_(self, **changes):
        return Record(**{**self.__dict__, **changes})


def soa(serial, owner=ZONE):
    data = wire_name("Ns." + ZONE) + wire_name("host." + ZONE) + struct.pack("!IIIII", serial, 3600, 900, 86400, 300)
    return Record(owner, SOA, data, serial)


def plain(n):
    owner = f"h{n}.{ZONE}" if n % 3 else f"H{n}.Example.COM"
    if n % 4 == 0:
        return Record(owner, 2, wire_name(f"Ns{n}.example.net"))
    if n % 4 == 1:
        return Record(owner, 16, b"\x03abc")
    return Record(owner, 1, struct.pack("!I", n))


# ---- the forms

def is_held(record):
    """Whether a zone may hold it: of the class IN, and of no meta type."""
    return record.rclass == 1 and record.rtype not in (0, 41) and not 128 <= record.rtype <= 255


def is_inside(record):
    return record.owner.lower() == ZONE or record.owner.lower().endswith("." + ZONE)


def whole_in(records):
    """The records of a whole zone, if these are one."""
    if len(records) < 2 or records[0].serial is None or records[-1].kept() != records[0].kept():
        return None
    return [r for r in records[1:-1] if is_inside(r)] if all(r.serial is None for r in records[1:-1]) else None


def batches_in(records):
    """The batches of changes, if these are such."""
    if len(records) < 4 or records[0].serial is None or records[-1].serial != records[0].serial:
        return None
    end, inner = records[0].serial, records[1:-1]
    starts = [i for i, r in enumerate(inner) if r.serial is not None]
    if not starts or starts[0] != 0 or len(starts) % 2:
        return None
    pieces = [inner[a:b] for a, b in zip(starts, starts[1:] + [len(inner)])]
    batches = list(zip(pieces[::2], pieces[1::2]))
    if any(gone[0].serial == end for gone, _ in batches) or batches[-1][1][0].serial != end:
        return None
    return batches


def is_greater(serial, than):
    """RFC 1982 3.2."""
    return 0 < (serial - than) % 2**32 < 2**31


def zone_after(before, kind, messages):
    """The zone, or None where a transfer is refused; a number where a server says a serial alone, and `again` where the whole zone is to be asked for."""
    records = []
    for at, (code, message) in enumerate(messages):
        if code != 0 or not message:
            return "again" if kind == IXFR and code in UNWILLING else None
        records = records + message
        if records[0].serial is None or not all(is_held(r) for r in records) or any(r.serial is not None and r.owner.lower() != ZONE for r in records):
            return None
        if kind == IXFR and at == 0 and len(records) == 1 and records[0].serial is not None:
            return records[0].serial
        body = whole_in(records)
        if body is not None:
            return {r.kept() for r in body} | {records[-1].kept()}
        if (kind == AXFR or records[1:] and records[1].serial is None) and any(r.serial is not None for r in records[1:]):
            return None
        batches = batches_in(records) if kind == IXFR else None
        if batches is None:
            continue
        zone, have, fit = {k for k in before if k[1] != SOA}, serial_of(before), True
        for gone, new in batches:
            if gone[0].serial != have:
                return None
            for item in (r.kept() for r in gone[1:] if is_inside(r)):
                fit = fit and item in zone
                zone.discard(item)
            for item in (r.kept() for r in new[1:] if is_inside(r)):
                fit = fit and item not in zone
                zone.add(item)
            have = new[0].serial
        return zone | {records[-1].kept()} if fit or not is_greater(have, serial_of(before)) else "again"
    return None


def judged(before, zone):
    """The status of a zone that came, and the zone if it is printed."""
    if zone is None:
        return 5, None
    serial = zone if isinstance(zone, int) else serial_of(zone)
    if before is None or is_greater(serial, serial_of(before)):
        return 0, zone
    return (9 if serial == serial_of(before) else 5), None


def expected(before, sent):
    """The status, the zone that is printed, and whether the whole zone is asked for behind its changes."""
    if before is None:
        return *judged(None, zone_after(None, AXFR, sent[AXFR])), False
    zone = zone_after(before, IXFR, sent[IXFR])
    if zone == "again" or (isinstance(zone, int) and is_greater(zone, serial_of(before))):
        return *judged(before, zone_after(None, AXFR, sent[AXFR])), True
    return *judged(before, zone), False


def serial_of(zone):
    return next(struct.unpack("!I", k[3][-20:-16])[0] for k in zone if k[1] == SOA)


# ---- what is sent

def cut(rng, records):
    messages = []
    while records:
        size = rng.choice([1, 2, 3, len(records)])
        messages.append((0, records[:size]))
        records = records[size:]
    return messages


def mangled(rng, records):
    """The records after one or two changes."""
    records = list(records)
    for _ in range(rng.choice([1, 1, 2])):
        at = rng.randrange(len(records))
        way = rng.randrange(10)
        if way == 0:
            del records[at]
        elif way == 1:
            records.insert(at, records[at])
        elif way == 2:
            other = rng.randrange(len(records))
            records[at], records[other] = records[other], records[at]
        elif way == 3:
            records.insert(at, soa(rng.choice([1, 2, 3, 4])))
        elif way == 4:
            records[at] = records[at].with_(owner=rng.choice(["www.example.org", "org", ZONE.upper(), "x." + ZONE]))
        elif way == 5:
            records[at] = soa(rng.choice([1, 2, 3, 4])) if records[at].serial is not None else records[at].with_(ttl=rng.choice([0, 7]))
        elif way == 6:
            records[at] = records[at].with_(rclass=rng.choice([1, 3]))
        elif way == 7:
            records.append(rng.choice([plain(1), soa(3)]))
        elif way == 8:
            records[at] = records[at].with_(rtype=rng.choice([0, 41, 127, 128, 252, 255, 256]), serial=None)
        else:
            records[at] = records[at].with_(owner=records[at].owner.swapcase())
        if not records:
            return [soa(1)]
    return records


def case(rng):
    """The zone before, and the messages of each kind of transfer."""
    numbers = rng.sample(range(40), rng.randrange(0, 12))
    base, step = rng.choice([1, 1, 1, 2**32 - 1]), rng.choice([1] * 8 + [2**31 - 1, 2**31, 2**32 - 1, 0])
    before = {plain(n).kept() for n in numbers} | {soa(base).kept()}
    records, serial, left = [], base, list(numbers)
    for _ in range(rng.choice([1, 1, 2, 3])):
        gone, new = rng.sample(left, min(len(left), rng.randrange(3))), rng.sample(range(40, 60), rng.randrange(3))
        if rng.random() < 0.1:
            gone = gone + [rng.randrange(60)]
        if rng.random() < 0.1:
            new = new + [rng.randrange(60)]
        after = (serial + step) % 2**32
        records += [soa(serial)] + [plain(n) for n in gone] + [soa(after)] + [plain(n) for n in new]
        serial, left = after, [n for n in left if n not in gone] + new
    whole = [soa(serial)] + [plain(n) for n in left] + [soa(serial)]
    changes = rng.choice([[soa(serial)] + records + [soa(serial)]] * 3 + [whole, [soa(base)], [soa(serial)], [soa((base - 1) % 2**32)]])
    sent = {}
    for kind, list_ in ((AXFR, whole), (IXFR, changes)):
        messages = cut(rng, mangled(rng, list_) if rng.random() < 0.8 else list_)
        if rng.random() < 0.1:
            messages[rng.randrange(len(messages))] = rng.choice([(1, []), (4, []), (5, []), (9, []), (0, []), (2, [plain(1)])])
        if rng.random() < 0.1:
            messages = messages[:-1]
        sent[kind] = messages
    return before, sent


class Server:
    """Sends what it is given to each question, and closes."""

    def __init__(self):
        self.listener = socket.create_server(("127.0.0.1", 0))
        self.port, self.sent, self.endless = self.listener.getsockname()[1], {}, False
        threading.Thread(target=self.serve, daemon=True).start()

    def serve(self):
        while True:
            stream, _ = self.listener.accept()
            try:
                self.answer(stream)
            except (OSError, struct.error, IndexError):
                pass  # who asks may be killed before the whole question came
            stream.close()

    def answer(self, stream):
        size = struct.unpack("!H", stream.recv(2, socket.MSG_WAITALL))[0]
        asked = stream.recv(size, socket.MSG_WAITALL)
        end = 12
        while asked[end]:
            end += 1 + asked[end]
        question, kind = asked[12:end + 5], struct.unpack("!H", asked[end + 1:end + 3])[0]
        for code, records in self.messages(kind):
            body = b"".join(r.octets() for r in records)
            message = asked[:2] + struct.pack("!HHHHH", 0x8400 | code, 1, len(records), 0, 0) + question + body
            stream.sendall(struct.pack("!H", len(message)) + message)

    def messages(self, kind):
        if not self.endless:
            return self.sent.get(kind, [])
        return endless()


def endless():
    yield 0, [soa(1)]
    n = 0
    while True:
        yield 0, [Record(f"h{n + i}.{ZONE}", 1, struct.pack("!I", n + i)) for i in range(500)]
        n += 500


def line(kept):
    owner, rtype, rclass, data, ttl = kept
    labels, at = [], 0
    while owner[at]:
        labels.append(owner[at + 1:at + 1 + owner[at]].decode())
        at += 1 + owner[at]
    return f"{'.'.join(labels)} {ttl} {rclass} {rtype} {data.hex() or '-'}"


def run(program, port, *options):
    done = subprocess.run([program, *options, "--port", str(port), ZONE, "127.0.0.1"], capture_output=True, text=True, timeout=60)
    return done.returncode, done.stdout, done.stderr


def lines_of(text):
    return [" ".join([row.split(" ", 1)[0].rstrip("."), row.split(" ", 1)[1]]) for row in text.splitlines()]


def agrees(server, status, zone, again, got, text, said):
    head = f"zone_fetch: {ZONE} from 127.0.0.1:{server.port}: "
    sentences = said.splitlines()
    if again and (not sentences or not sentences.pop(0).startswith(head + "asked for whole: ")):
        return False
    ends = {0: [], 5: [head + "failed "], 9: [head + "unchanged: "]}[status]
    if got != status or len(sentences) != len(ends) or not all(is_.startswith(begins) for is_, begins in zip(sentences, ends)):
        return False
    return lines_of(text) == ([line(k) for k in sorted(zone)] if status == 0 else [])


def main():
    program, count = sys.argv[1], int(sys.argv[2]) if len(sys.argv) > 2 else 2000
    rng = random.Random(int(sys.argv[3]) if len(sys.argv) > 3 else 1)
    server, ended, twice = Server(), {0: 0, 5: 0, 9: 0}, 0
    with tempfile.TemporaryDirectory() as folder:
        path = Path(folder) / "before"
        for n in range(count):
            before, server.sent = case(rng)
            if n % 2:
                before = None
            else:
                rows = [line(k) + "\n" for k in sorted(before)]
                rng.shuffle(rows)
                path.write_text("".join(rows))
            status, zone, again = expected(before, server.sent)
            got, text, said = run(program, server.port, *([] if before is None else ["--from", str(path)]))
            if not agrees(server, status, zone, again, got, text, said):
                print(f"transfer {n} differs: status {got}\n{text}{said}", "expected", status, again, zone and [line(k) for k in sorted(zone)])
                print([[(r.owner, r.rtype, r.serial) for r in records] for _, records in server.sent[AXFR if n % 2 else IXFR]])
                sys.exit(1)
            ended[status], twice = ended[status] + 1, twice + again
    print(f"{ended[0]} transfers taken, {ended[5]} refused, {ended[9]} without news, {twice} of them asked for whole, all as the forms say")
    server.endless, began = True, time.time()
    status, text, said = run(program, server.port, "--most", "20000000")
    print(f"a transfer without an end: status {status}, {said.strip()}, after {time.time() - began:.1f} s")
    sys.exit(0 if (status, text) == (5, "") and "failed too-large: its records take more than 20000000 octets" in said else 1)


if __name__ == "__main__":
    main()
