#!/usr/bin/env python3
"""Compares how `tool_texts` reads messages with another reader of them, on random and mangled messages.

    python3 tests/compare_messages.py REFERENCE_FOLDER PROGRAM [COUNT [SEED]]

REFERENCE_FOLDER has the package `plain` with the module `wire`; without it nothing is compared, and that is
said. PROGRAM is the built `tool_texts`, and COUNT the number of messages, 2000 if it is left out. Prints the first
message that differs, or how many were the same.
"""

import random
import subprocess
import sys

from reference import wire_of

TYPES = [1, 2, 3, 4, 5, 6, 7, 8, 9, 12, 14, 15, 16, 17, 18, 21, 24, 26, 28, 30, 33, 35, 39, 41, 46, 99]

# Types whose data has octets before, counted strings, names, and whether other octets may stand behind (RFC 3597 4).
FORMS = {17: (0, 0, 2, False), 18: (2, 0, 1, False), 21: (2, 0, 1, False), 24: (18, 0, 1, True), 26: (2, 0, 2, False),
         30: (0, 0, 1, True), 35: (4, 3, 1, False)}


def expected(wire, line):
    """What is printed of a message, by the reference."""
    if len(line) % 2 or any(c not in "0123456789abcdef" for c in line) or len(line) < 24:
        return ["refused"]
    message = wire.Message(bytes.fromhex(line))
    try:
        questions, sections = message.whole()
    except wire.ParseError:
        return ["refused"]
    octets = message.octets
    flags = octets[2] << 8 | octets[3]
    out = ["message %d %d %d %d %d %d" % ((message.id(), flags) + message.counts())]
    for name, rtype, rclass in questions:
        out.append("question %s %d %d" % (wire.name_text(name), rtype, rclass))
    for word, records in zip(("answer", "authority", "additional"), sections):
        for r in records:
            data = wire.data_octets(r.data_or_octets()).hex() or "-"
            out.append("%s %s %d %d %d %s" % (word, wire.name_text(r.owner), r.rtype, r.rclass, r.ttl, data))
    return out + ["end"]


class Writer:
    """A random message, with pointers to names before."""

    def __init__(self, rng):
        self.rng = rng
        self.octets = bytearray(rng.randbytes(4) + bytes(8))
        self.places = []

    def name(self):
        rng = self.rng
        before = list(self.places)
        for _ in range(rng.choice([0, 1, 1, 2, 2, 3])):
            self.places.append(len(self.octets))
            label = rng.randbytes(rng.choice([1, 2, 3, 7, 20, 63]))
            if rng.random() < 0.7:
                label = bytes([rng.choice(b"abcXYZ-1") for _ in label])
            self.octets += bytes([len(label)]) + label
        if before and rng.random() < 0.6:
            place = rng.choice(before)
            if place < 0x4000:
                self.places.append(len(self.octets))
                self.octets += (0xC000 | place).to_bytes(2, "big")
                return
        self.octets.append(0)

    def strings(self):
        return b"".join(bytes([n]) + self.rng.randbytes(n) for n in self.rng.choices(range(9), k=self.rng.randrange(4)))

    def options(self):
        out = b""
        for _ in range(self.rng.randrange(3)):
            octets = self.rng.randbytes(self.rng.randrange(6))
            out += self.rng.choice([10, 11, 65001]).to_bytes(2, "big") + len(octets).to_bytes(2, "big") + octets
        return out

    def data(self, rtype):
        rng = self.rng
        if rtype == 1:
            self.octets += rng.randbytes(4)
        elif rtype == 28:
            self.octets += rng.randbytes(16)
        elif rtype in (2, 3, 4, 5, 7, 8, 9, 12, 39):
            self.name()
        elif rtype == 14:
            self.name()
            self.name()
        elif rtype == 15:
            self.octets += rng.randbytes(2)
            self.name()
        elif rtype == 6:
            self.name()
            self.name()
            self.octets += rng.randbytes(20)
        elif rtype == 33:
            self.octets += rng.randbytes(6)
            self.name()
        elif rtype in FORMS:
            before, strings, names, has_rest = FORMS[rtype]
            self.octets += rng.randbytes(before)
            for _ in range(strings):
                self.octets += bytes([count := rng.randrange(4)]) + rng.randbytes(count)
            for _ in range(names):
                self.name()
            self.octets += rng.randbytes(rng.randrange(5) * has_rest)
        elif rtype == 16:
            self.octets += self.strings()
        elif rtype == 41:
            self.octets += self.options()
        else:
            self.octets += rng.randbytes(rng.randrange(9))

    def record(self):
        rng = self.rng
        self.name()
        rtype = rng.choice(TYPES)
        self.octets += rtype.to_bytes(2, "big") + rng.choice([b"\0\1", rng.randbytes(2)]) + rng.randbytes(4)
        at = len(self.octets)
        self.octets += b"\0\0"
        self.data(rtype)
        length = len(self.octets) - at - 2
        if rng.random() < 0.02:
            length = max(0, length + rng.choice([-2, -1, 1, 2]))
        self.octets[at:at + 2] = length.to_bytes(2, "big")

    def message(self):
        rng = self.rng
        counts = [rng.choice([0, 1, 1, 2]), rng.randrange(4), rng.randrange(3), rng.randrange(3)]
        for _ in range(counts[0]):
            self.name()
            self.octets += rng.choice(TYPES).to_bytes(2, "big") + b"\0\1"
        for _ in range(sum(counts[1:])):
            self.record()
        for i, count in enumerate(counts):
            self.octets[4 + 2 * i:6 + 2 * i] = count.to_bytes(2, "big")
        return bytes(self.octets)


def mangled(rng, octets):
    """A message with a few octets changed, cut, or doubled."""
    out = bytearray(octets)
    for _ in range(rng.choice([0, 0, 0, 0, 0, 1, 1, 2, 5])):
        way = rng.randrange(4)
        at = rng.randrange(len(out)) if out else 0
        if way == 0 and out:
            out[at] = rng.choice([0, 1, 0x3F, 0x40, 0x80, 0xC0, 0xFF, rng.randrange(256)])
        elif way == 1:
            del out[at:at + rng.randrange(1, 4)]
        elif way == 2:
            out[at:at] = rng.randbytes(rng.randrange(1, 4))
        elif way == 3 and rng.random() < 0.3:
            del out[at:]
    return bytes(out)


def line_of(rng):
    if rng.random() < 0.02:
        return rng.choice(["", "0", "0g", "ABCD", "12345", rng.randbytes(11).hex(), rng.randbytes(12).hex()])
    return mangled(rng, Writer(rng).message()).hex()


def blocks(lines):
    """The lines of each message."""
    out = []
    block = []
    for line in lines:
        block.append(line)
        if line in ("refused", "end"):
            out.append(block)
            block = []
    return out + ([block] if block else [])


def main():
    if not 3 <= len(sys.argv) <= 5:
        sys.exit(__doc__)
    reference, program = sys.argv[1:3]
    wire = wire_of(reference)
    count = int(sys.argv[3]) if len(sys.argv) > 3 else 2000
    rng = random.Random(int(sys.argv[4]) if len(sys.argv) > 4 else 1)
    lines = [line_of(rng) for _ in range(count)]
    ran = subprocess.run([program], input="".join("message " + line + "\n" for line in lines), capture_output=True, text=True)
    found = blocks(ran.stdout.splitlines())
    refused = 0
    for at, line in enumerate(lines):
        wanted = expected(wire, line)
        got = found[at] if at < len(found) else ["nothing"]
        if wanted != got:
            print("message %d differs: %s" % (at, line))
            print("wanted:", *wanted, sep="\n  ")
            print("got:", *got, sep="\n  ")
            print(ran.stderr)
            sys.exit(1)
        refused += wanted == ["refused"]
    print("%d messages are the same, %d of them refused" % (count, refused))


if __name__ == "__main__":
    main()
