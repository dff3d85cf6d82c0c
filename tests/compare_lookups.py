#!/usr/bin/env python3
"""Compares `tool_lookups` with another client's lookups, on random and mangled answers.

    python3 tests/compare_lookups.py REFERENCE_FOLDER PROGRAM [COUNT [SEED]]

REFERENCE_FOLDER has the package `plain` with the modules `wire` and `lookup`; without it nothing is compared, and that is
said. PROGRAM is the built `tool_lookups`, and COUNT the number of lookups, 1000 if it is left out. Prints the first lookup that
differs, or how many were the same, and how many of them found something.
"""

import random
import subprocess
import sys

from reference import wire_of

LABELS = [b"com", b"example", b"www", b"x", b"y"]
NAMES = [(b"example", b"com"), (b"www", b"example", b"com"), (b"x", b"example", b"com"), (b"y", b"x", b"com"), ()]
SERVICE = (b"_s", b"_tcp", b"example", b"com")


class Writer:
    """An answer, with pointers to names before."""

    def __init__(self, rng, qname, qtype):
        self.rng = rng
        self.octets = bytearray(b"\0\0\x81\x80" + bytes(8))
        self.places = {}
        self.owners = [qname]
        self.name(qname)
        self.octets += qtype.to_bytes(2, "big") + b"\0\1"

    def cased(self, label):
        return bytes(c ^ 32 if chr(c).isalpha() and self.rng.random() < 0.2 else c for c in label)

    def name(self, labels):
        for at in range(len(labels)):
            before = self.places.get(labels[at:])
            if before is not None and self.rng.random() < 0.7:
                self.octets += (0xC000 | before).to_bytes(2, "big")
                return
            self.places[labels[at:]] = len(self.octets)
            self.octets += bytes([len(labels[at])]) + self.cased(labels[at])
        self.octets.append(0)

    def record(self, owner, rtype, data):
        """A record, whose data is octets and names in turn."""
        rng = self.rng
        self.name(owner)
        self.octets += rtype.to_bytes(2, "big") + rng.choice([b"\0\1"] * 9 + [b"\0\3"]) + b"\0\0\0\x3c"
        at = len(self.octets)
        self.octets += b"\0\0"
        for part in data:
            if isinstance(part, tuple):
                self.name(part)
            else:
                self.octets += part
        length = len(self.octets) - at - 2
        if rng.random() < 0.03:
            length = max(0, length + rng.choice([-1, 1]))
        self.octets[at:at + 2] = length.to_bytes(2, "big")

    def owner(self):
        """A name that was met before, mostly the last one."""
        rng = self.rng
        return self.owners[-1] if rng.random() < 0.7 else rng.choice(NAMES + self.owners)

    def answer(self, rtypes):
        """Some record of the answer section."""
        rng = self.rng
        rtype = rng.choice(rtypes)
        owner = self.owner()
        target = rng.choice(NAMES)
        if rtype == 5:
            self.record(owner, 5, [target])
            if owner == self.owners[-1]:
                self.owners.append(target)
        elif rtype == 1:
            self.record(owner, 1, [rng.randbytes(4)])
        elif rtype == 28:
            self.record(owner, 28, [rng.randbytes(16)])
        elif rtype == 12:
            self.record(owner, 12, [target])
        else:
            self.record(owner, 33, [bytes([0, rng.randrange(3), 0, rng.randrange(4), 31, rng.randrange(256)]), target])

    def additional(self):
        rng = self.rng
        if rng.random() < 0.7:
            self.record(rng.choice(NAMES), 1, [rng.randbytes(4)])
        else:
            self.record(rng.choice(NAMES), 28, [rng.randbytes(16)])

    def message(self, rtypes, addresses):
        rng = self.rng
        answers = rng.choice([0, 1, 1, 2, 3, 5])
        for _ in range(answers):
            self.answer(rtypes)
        others = rng.randrange(6) if addresses else 0
        for _ in range(others):
            self.additional()
        counts = [1, answers, 0, others]
        if rng.random() < 0.03:
            counts[rng.randrange(4)] += rng.choice([-1, 1])
        for i, count in enumerate(counts):
            self.octets[4 + 2 * i:6 + 2 * i] = max(0, count).to_bytes(2, "big")
        return bytes(self.octets)


def mangled(rng, octets):
    """A message with an octet changed or cut off, now and then."""
    out = bytearray(octets)
    if rng.random() < 0.1:
        out[rng.randrange(12, len(out))] = rng.choice([0, 1, 0x3F, 0x40, 0xC0, 0xFF, rng.randrange(256)])
    if rng.random() < 0.03:
        del out[rng.randrange(12, len(out)):]
    return bytes(out)


def answer_of(rng, qname, qtype, rtypes, addresses=False):
    """An answer, or none."""
    if rng.random() < 0.1:
        return "-"
    return mangled(rng, Writer(rng, qname, qtype).message(rtypes, addresses)).hex()


def line_of(rng):
    kind = rng.choice(["addr", "host", "host", "srv", "srv"])
    if kind == "addr":
        return "addr " + answer_of(rng, (b"1", b"2", b"0", b"192", b"in-addr", b"arpa"), 12, [12, 12, 12, 5, 1])
    if kind == "host":
        name = rng.choice(NAMES)
        return "host %s %s" % (answer_of(rng, name, 28, [28, 28, 5, 1]), answer_of(rng, name, 1, [1, 1, 1, 5, 28]))
    words = ",".join(str(rng.choice([0, 2**64 - 1, rng.randrange(2**64)])) for _ in range(6))
    return "srv %s %s" % (words, answer_of(rng, SERVICE, 33, [33, 33, 33, 33, 5, 1], True))


def got_of(lookup, wire, digits):
    return lookup.QueryFault() if digits == "-" else wire.Message(bytes.fromhex(digits))


def host_text(fault):
    return {"NoQuestion": "no question in the answer", "CnameLoop": "no canonical name in the answer"}.get(fault.kind) or fault.fault.display()


def addr_lines(lookup, wire, digits):
    try:
        found = lookup.lookup_addr(lookup.ListResolver([got_of(lookup, wire, digits)]), ("v4", b"\xc0\0\2\1"))
    except lookup.QueryFault as fault:
        return ["fault " + fault.display()]
    return ["name " + wire.name_text(name) for name in found.iter()]


def host_lines(lookup, wire, aaaa, a):
    try:
        found = lookup.FoundHosts(got_of(lookup, wire, aaaa), got_of(lookup, wire, a))
    except lookup.HostFault as fault:
        return ["fault " + host_text(fault)]
    names = wire.name_text(found.qname()), wire.name_text(found.canonical_name())
    out = ["host %s %s %s" % (*names, "true" if found.is_empty() else "false")]
    return out + ["at " + wire.socket_text(ip, port) for ip, port in found.port_iter(53)]


def srv_lines(lookup, wire, machine, words, digits):
    words = machine.ListWords([int(word) for word in words.split(",")])
    resolver = lookup.ListResolver([got_of(lookup, wire, digits)])
    try:
        found = lookup.lookup_srv(resolver, words, (b"_s", b"_tcp"), (b"example", b"com"), 99)
    except lookup.SrvError as error:
        return ["fault " + error.display()]
    if found is None:
        return ["absent"]
    out = []
    for item in found.items:
        out.append("server %d %d %d %s" % (item.priority, item.weight, item.port, wire.name_text(item.target)))
        out += ["at " + wire.socket_text(ip, item.port) for ip in item.addresses]
    return out


def expected(lookup, wire, machine, line):
    """What tool_lookups prints for a line, by the reference."""
    kind, *parts = line.split(" ")
    if kind == "addr":
        return addr_lines(lookup, wire, *parts)
    if kind == "host":
        return host_lines(lookup, wire, *parts)
    return srv_lines(lookup, wire, machine, *parts)


def blocks(lines):
    """The lines of each lookup."""
    out = []
    block = []
    for line in lines:
        if line == "end":
            out.append(block)
            block = []
        else:
            block.append(line)
    return out


def main():
    if not 3 <= len(sys.argv) <= 5:
        sys.exit(__doc__)
    reference, program = sys.argv[1:3]
    wire = wire_of(reference)
    from plain import lookup, machine

    count = int(sys.argv[3]) if len(sys.argv) > 3 else 1000
    rng = random.Random(int(sys.argv[4]) if len(sys.argv) > 4 else 1)
    lines = [line_of(rng) for _ in range(count)]
    ran = subprocess.run([program], input="".join(line + "\n" for line in lines), capture_output=True, text=True)
    found = blocks(ran.stdout.splitlines())
    some = 0
    for at, line in enumerate(lines):
        wanted = expected(lookup, wire, machine, line)
        got = found[at] if at < len(found) else ["nothing"]
        if wanted != got:
            print("lookup %d differs: %s" % (at, line))
            print("wanted:", *wanted, sep="\n  ")
            print("got:", *got, sep="\n  ")
            print(ran.stderr)
            sys.exit(1)
        some += any(text.startswith(("at ", "name ")) for text in wanted)
    print("%d lookups are the same, of which %d found something" % (count, some))


if __name__ == "__main__":
    main()
