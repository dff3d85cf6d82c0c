#!/usr/bin/env python3
"""Compares what messages do to a zone transfer with a reference client, over random transfers.

    python3 tests/compare_transfers.py REFERENCE_FOLDER PROGRAM [COUNT [SEED]]
    python3 tests/compare_transfers.py REFERENCE_FOLDER expect < LINES

REFERENCE_FOLDER has the package `plain`; without it nothing is compared, and that is said. PROGRAM is the built
`tool_transports`, and COUNT the number of transfers, 3000 if it is left out: SOAs of few serials and other records in few or
many messages, with and without a question, some of them mangled or refused. Prints the first transfer that
differs, or how many messages were the same. `expect` prints what the reference says of lines `ask QUERY`, MESSAGE and
`cut N`, as `tool_transports` reads them behind the word `transfer`.
"""

import random
import subprocess
import sys

from reference import wire_of

EXAMPLE = b"\x07example\x03com\0"
AXFR, IXFR = 252, 251


def state_text(state):
    return state[0] if len(state) == 1 else "%s(Serial(%d))" % state


def cut(wire, octets, size):
    """The messages of so many records that a message is cut into."""
    message = wire.Message(octets)
    questions, _ = message.questions()
    records, _ = message.section(0)
    head = octets[:4] + len(questions).to_bytes(2, "big")
    asked = b"".join(wire.name_octets(name) + rtype.to_bytes(2, "big") + rclass.to_bytes(2, "big") for name, rtype, rclass in questions)
    parts = []
    for at in range(0, len(records), size):
        part = records[at:at + size]
        body = b""
        for r in part:
            data = wire.data_octets(r.data())
            numbers = r.rtype.to_bytes(2, "big") + r.rclass.to_bytes(2, "big") + r.ttl.to_bytes(4, "big")
            body += wire.name_octets(r.owner) + numbers + len(data).to_bytes(2, "big") + data
        parts.append(head + len(part).to_bytes(2, "big") + bytes(4) + asked + body)
    return parts


def expected(wire, xfr, request, lines):
    """What `tool_transports` prints for each line behind the word `transfer`, by the reference."""
    asked, state, last, out = None, None, b"", []
    for line in lines:
        word, _, rest = line.rpartition(" ")
        if word == "ask":
            asked = request.RequestMessageMulti(bytes.fromhex(rest))
        elif word != "cut":
            last = bytes.fromhex(line)
        if word:
            state = xfr.IXFR_INIT if asked.base.msg.first_question()[1] == IXFR else xfr.AXFR_INIT
        parts = cut(wire, last, int(rest)) if word == "cut" else [] if word == "ask" else [last]
        found = []
        for part in parts:
            ends, state, taken = xfr.check_stream(asked, state, wire.Message(part))
            found.append("%s %s %s" % (str(ends).lower(), state_text(state), str(taken).lower()))
        out.append(found)
    return out


def query(qtype):
    return bytes([0, 0, 0, 0, 0, 1]) + bytes(6) + EXAMPLE + qtype.to_bytes(2, "big") + b"\0\1"


def soa(serial):
    return EXAMPLE + b"\0\6\0\1" + bytes(4) + b"\0\x16" + bytes(2) + serial.to_bytes(4, "big") + bytes(16)


def record(rng, ways):
    """An SOA of one of few serials, or another record; now and then one whose data isn't whole."""
    if rng.random() < ways["soas"]:
        return soa(7 if rng.random() < ways["ends"] else rng.choice([8, 9]))
    rtype, data = rng.choice([(1, rng.randbytes(4)), (28, rng.randbytes(16)), (16, b"\1a"), (46, rng.randbytes(9))])
    if rng.random() < ways["faults"]:
        data = data[:-1] if rng.random() < 0.5 else data + b"\0"
    return EXAMPLE + rtype.to_bytes(2, "big") + b"\0\1" + bytes(4) + len(data).to_bytes(2, "big") + data


def message(rng, qtype, first, ways):
    faulty = lambda: rng.random() < ways["faults"]
    flags = bytes([0x04 if faulty() else 0x84, rng.choice([1, 5]) if faulty() else 0])
    questions = [] if not first and rng.random() < 0.5 or faulty() else [qtype]
    if faulty():
        questions = rng.choice([[AXFR], [IXFR], [qtype, qtype]])
    records = [record(rng, ways) for _ in range(rng.choice([0, 1, 1, 2, 3, 4]))]
    if first and not faulty():
        records[:1] = [soa(7), soa(8)] if qtype == IXFR and rng.random() < 0.6 else [soa(7)]
    asked = b"".join(EXAMPLE + q.to_bytes(2, "big") + b"\0\1" for q in questions)
    counts = [len(questions), len(records) + faulty(), 0, 0]
    head = (b"\0\1" if faulty() else bytes(2)) + flags + b"".join(n.to_bytes(2, "big") for n in counts)
    octets = head + asked + b"".join(records)
    return octets[:-1] if len(octets) > 12 and faulty() else octets


def transfer(rng):
    """The lines of a transfer."""
    qtype = rng.choice([AXFR, IXFR])
    ways = {"soas": rng.choice([0.05, 0.2, 0.5]), "ends": rng.choice([0.1, 0.9]), "faults": rng.choice([0, 0.02, 0.2])}
    lines = ["ask " + query(qtype).hex()]
    for at in range(rng.choice([1, 2, 3, 5, 8])):
        lines.append(message(rng, qtype, at == 0, ways).hex())
    return lines


def reference(folder):
    wire = wire_of(folder)
    from plain import request, xfr

    return wire, xfr, request


def main():
    if not 3 <= len(sys.argv) <= 5:
        sys.exit(__doc__)
    modules = reference(sys.argv[1])
    if sys.argv[2] == "expect":
        for found in expected(*modules, sys.stdin.read().splitlines()):
            for line in found:
                print(line)
        return
    count = int(sys.argv[3]) if len(sys.argv) > 3 else 3000
    rng = random.Random(int(sys.argv[4]) if len(sys.argv) > 4 else 1)
    lines = [line for _ in range(count) for line in transfer(rng)]
    ran = subprocess.run([sys.argv[2]], input="".join("streams transfer %s\n" % line for line in lines), capture_output=True, text=True)
    got, at, same = ran.stdout.splitlines(), 0, 0
    for line, found in zip(lines, expected(*modules, lines)):
        if got[at:at + len(found)] != found:
            print("a message differs: %s" % line)
            print("wanted:", *found, sep="\n  ")
            print("got:", *got[at:at + len(found)], sep="\n  ")
            print(ran.stderr)
            sys.exit(1)
        at += len(found)
        same += len(found)
    print("%d messages of %d transfers are the same" % (same, count))


if __name__ == "__main__":
    main()
