#!/usr/bin/env python3
"""Compares how `tool_texts` prints messages with kdig, on stored messages and on random ones.

    python3 tests/compare_presentation.py MESSAGES PROGRAM [COUNT [SEED]]

MESSAGES is a file of JSON, a list of objects with a message as `hex`; without it only random messages are compared.
PROGRAM is the built `tool_texts`, or `try`, which runs it unproved by `rt try`. COUNT is the number of random
messages, 300 if it is left out. kdig (of the package knot-dnsutils) prints what a server of this script on loopback
answers it; without kdig nothing is compared, and that is said. Texts are compared up to blanks. Prints the first
message that differs, or how many were the same.

Made even before: six types that are printed here by their numbers; kdig's NOTIMPL, which is IANA's NOTIMP, and its names of
codes that only signatures of transactions have; the decimals of whole metres and seconds and the quotes around alpn, which are dig's;
the flags for which it has no room; and the empty data outside the class IN, which it leaves out.
No random message has what kdig prints in a form of its own: moments past 2038 as if they were before 1970, types that it
doesn't know, data that can't be read, where it stops, and kinds and algorithms of certificates that have a name, which it
prints by number.
"""

import itertools
import json
import os
import pathlib
import random
import re
import shutil
import socket
import struct
import subprocess
import sys
import threading

TOP = pathlib.Path(__file__).resolve().parent.parent
NAMES = {
    "NOTIMPL": "NOTIMP", "BADKEY": "RCODE17", "BADTIME": "RCODE18", "BADMODE": "RCODE19", "BADNAME": "RCODE20",
    "BADALG": "RCODE21", "BADTRUNC": "RCODE22",
}
TYPES = {"TYPE104": "NID", "TYPE105": "L32", "TYPE106": "L64", "TYPE107": "LP", "TYPE108": "EUI48", "TYPE109": "EUI64"}
SKIPPED = (";; Received", ";; Time", ";; From", ";; WARNING: query/response question", ";; WARNING: response doesn't have")


class Kdig:
    """kdig, which asks a server that answers with a message under the question's id."""

    def __init__(self):
        self.message = b""
        self.socket = socket.socket(socket.AF_INET, socket.SOCK_DGRAM)
        self.socket.bind(("127.0.0.1", 0))
        self.port = self.socket.getsockname()[1]
        threading.Thread(target=self.serve, daemon=True).start()

    def serve(self):
        while True:
            asked, sender = self.socket.recvfrom(65535)
            self.socket.sendto(asked[:2] + self.message[2:], sender)

    def lines_of(self, message):
        """What kdig prints of a message, or None where it refuses it or a record of it."""
        self.message = message
        words = ["kdig", "@127.0.0.1", "-p", str(self.port), "+ignore", "+nobadcookie", "+retry=0", "+time=2", "x", "A"]
        ran = subprocess.run(words, capture_output=True)
        text = (ran.stdout + ran.stderr).decode("latin1")
        if ";; ERROR" in text or "can't print" in text or "malformed" in text:
            return None
        return even([line for line in text.splitlines() if not line.startswith(SKIPPED)])


def six_flags(line):
    """A line of flags without those behind the first 17 characters."""
    flags = re.match(r";; Flags: ([^;]*)", line)
    while flags and len(flags[1]) > 17:
        line = line.replace(flags[1], flags[1].rpartition(" ")[0])
        flags = re.match(r";; Flags: ([^;]*)", line)
    return line


def alike(line):
    """A record without the decimals of whole metres and seconds, and without the quotes around alpn, which dig prints and kdig doesn't."""
    line = re.sub(r"\.000 ([NSEW])\b", r" \1", line.replace(".00m", "m"))
    return re.sub(r'\balpn="((?:[^"\\]|\\.)*)"', r"alpn=\1", line)


def even(lines):
    """Lines without the blanks in them, the id, and empty ones."""
    out = []
    for line in map(six_flags, lines):
        line = alike(re.sub(r"; id: \d+$", "", line))
        line = re.sub(r"(status|ext-rcode): (\w+)$", lambda found: found[1] + ": " + NAMES.get(found[2], found[2]), line)
        line = re.sub(r"\bTYPE10[4-9]\b", lambda found: TYPES[found[0]], line)
        line = re.sub(r"((CH|NONE|ANY|CLASS\d+)\sTYPE\d+)\s\\# 0$", r"\1", line)
        line = "".join(line.split())
        if line:
            out.append(line)
    return out


def printed(program, messages):
    """The lines that the tool prints of each message."""
    text = "".join("present " + message.hex() + "\n" for message in messages)
    if program == "try":
        ran = subprocess.run(["rt", "try"], input=text, capture_output=True, text=True, cwd=TOP / "crates/tool_texts")
    else:
        ran = subprocess.run([program], input=text, capture_output=True, text=True)
    out, block = [], []
    for line in ran.stdout.splitlines():
        if line == "end":
            out.append(even(block))
            block = []
        else:
            block.append(line)
    if len(out) != len(messages):
        sys.exit("%d of %d messages were printed\n%s" % (len(out), len(messages), ran.stderr[-2000:]))
    return out


def number(count, value):
    return value.to_bytes(count, "big")


class Writer:
    """Random messages with data of the types that have a form of their own."""

    def __init__(self, rng):
        self.rng = rng

    def octets(self, most, least=0):
        return self.rng.randbytes(self.rng.randrange(least, most + 1))

    def label(self):
        if self.rng.random() < 0.3:
            return self.octets(9, 1)
        return bytes(self.rng.choice(b"abcXYZ019-_*") for _ in range(self.rng.randrange(1, 9)))

    def name(self):
        return b"".join(number(1, len(l)) + l for l in (self.label() for _ in range(self.rng.randrange(4)))) + b"\0"

    def shortened(self):
        """A name whose end may be a pointer to that of the question, as in data of the types that RFC 3597 4 names."""
        return self.name()[:-1] + self.rng.choice([b"\0", b"\xc0\x0c"])

    def string(self):
        octets = self.octets(9)
        if self.rng.random() < 0.6:
            octets = bytes(self.rng.choice(b'abc XYZ"\\,;=') for _ in range(self.rng.randrange(9)))
        return number(1, len(octets)) + octets

    def strings(self):
        return b"".join(self.string() for _ in range(self.rng.randrange(1, 4)))

    def types(self):
        windows = sorted(self.rng.sample(range(256), self.rng.randrange(3)))
        out = b""
        for window in windows:
            bits = self.octets(6, 1) if window else number(8, 1 << self.rng.choice([62, 61, 58, 48, 35, 17, 16, 1, 0]))
            out += number(1, window) + number(1, len(bits)) + bits
        return out

    def location(self):
        rng = self.rng
        extents = bytes(rng.randrange(1, 10) * 16 + rng.randrange(9) for _ in range(3))
        latitude = 2**31 + rng.randrange(-90, 90) * 3600000 + rng.choice([0, 1000, rng.randrange(3600000)])
        longitude = 2**31 + rng.randrange(-180, 180) * 3600000 + rng.choice([0, 60000, rng.randrange(3600000)])
        height = rng.choice([10000000, 0, 9999800, rng.randrange(20000000)])
        return b"\0" + extents + number(4, latitude) + number(4, longitude) + number(4, height)

    def parameters(self):
        rng = self.rng
        values = {
            0: lambda: number(2, 1) + number(2, 4),
            1: lambda: b"".join(number(1, len(s)) + s for s in rng.choices([b"h2", b"h3", b"f\\oo,bar", b"http/1.1"], k=rng.randrange(1, 4))),
            2: lambda: b"",
            3: lambda: rng.randbytes(2),
            4: lambda: rng.randbytes(4 * rng.randrange(1, 4)),
            5: lambda: self.octets(20, 1),
            6: lambda: rng.choice([bytes(15) + b"\1", rng.randbytes(16), rng.randbytes(32)]),
            667: lambda: self.octets(9),
            65000: lambda: b'a "b",\\',
        }
        keys = sorted(rng.sample(sorted(values), rng.randrange(5)))
        return b"".join(number(2, key) + number(2, len(v)) + v for key, v in ((key, values[key]()) for key in keys))

    def prefixes(self):
        rng = self.rng
        out = b""
        for _ in range(rng.randrange(4)):
            family, bits, most = rng.choice([(1, 32, 4), (2, 128, 16)])
            address = self.octets(most).rstrip(b"\0")
            out += number(2, family) + number(1, rng.randrange(bits + 1)) + number(1, len(address) + rng.choice([0, 128])) + address
        return out

    def moments(self):
        return number(4, self.rng.randrange(1500000000, 2100000000)) + number(4, self.rng.randrange(1500000000, 2100000000))

    def data(self, rtype):
        rng = self.rng
        small = lambda count: rng.randbytes(count)
        forms = {
            1: lambda: small(4),
            28: lambda: rng.choice([small(16), bytes(16), b"\x20\1\x0d\xb8" + bytes(11) + b"\1", bytes(10) + b"\xff\xff" + small(4)]),
            6: lambda: self.name() + self.name() + small(20),
            13: lambda: self.string() + self.string(),
            14: lambda: self.name() + self.name(),
            15: lambda: small(2) + self.name(),
            16: self.strings,
            17: lambda: self.shortened() + self.shortened(),
            18: lambda: small(2) + self.shortened(),
            29: self.location,
            33: lambda: small(6) + self.name(),
            35: lambda: small(4) + self.string() + self.string() + self.string() + self.shortened(),
            36: lambda: small(2) + self.name(),
            37: lambda: number(2, rng.choice([0, 9, 65535])) + small(2) + number(1, rng.choice([0, 9, 200])) + self.octets(32, 1),
            42: self.prefixes,
            43: lambda: small(4) + self.octets(32, 1),
            44: lambda: small(2) + self.octets(32, 1),
            46: lambda: number(2, rng.choice([1, 47, 12345])) + small(6) + self.moments() + small(2) + self.name() + self.octets(40, 1),
            47: lambda: self.name() + self.types(),
            48: lambda: small(4) + self.octets(40, 1),
            50: lambda: small(4) + self.string() + rng.choice([b"\5" + small(5), b"\x14" + small(20)]) + self.types(),
            51: lambda: small(4) + self.string(),
            52: lambda: small(3) + self.octets(32, 1),
            59: lambda: small(4) + self.octets(32, 1),
            60: lambda: small(4) + self.octets(40, 1),
            61: lambda: self.octets(20, 1),
            62: lambda: small(6) + self.types(),
            63: lambda: small(6) + self.octets(48, 1),
            64: lambda: small(2) + self.name() + self.parameters(),
            65: lambda: small(2) + self.name() + self.parameters(),
            99: self.strings,
            104: lambda: small(10),
            105: lambda: small(6),
            106: lambda: small(10),
            107: lambda: small(2) + self.name(),
            108: lambda: small(6),
            109: lambda: small(8),
            256: lambda: small(4) + self.octets(20),
            257: lambda: small(1) + number(1, 5) + b"issue" + self.octets(20),
            12345: lambda: self.octets(9),
        }
        return forms[rtype]() if rtype in forms else self.name()

    def record(self):
        rtype = self.rng.choice([1, 2, 5, 6, 12, 13, 14, 15, 16, 17, 18, 28, 29, 33, 35, 36, 37, 39, 42, 43, 44, 46, 47, 48,
                                 50, 51, 52, 59, 60, 61, 62, 63, 64, 65, 99, 104, 105, 106, 107, 108, 109, 256, 257, 12345])
        rclass = self.rng.choice([1, 1, 1, 3, 254, 255, 77])
        data = self.data(rtype)
        return self.name() + struct.pack(">HHIH", rtype, rclass, self.rng.randrange(2**32), len(data)) + data

    def extension(self):
        rng = self.rng
        options = b""
        for _ in range(rng.randrange(4)):
            code, value = rng.choice([(10, rng.randbytes(8)), (10, rng.randbytes(24)), (12, bytes(rng.randrange(9))), (3, b"server 1"),
                                      (15, number(2, rng.randrange(25))), (15, number(2, 6) + b"bogus text"), (65001, self.octets(9)),
                                      (8, b"\0\1\x18\0\xc0\0\2"), (8, b"\0\2\x38\0\x20\1\x0d\xb8\0\0\1")])
            options += number(2, code) + number(2, len(value)) + value
        ttl = rng.choice([0, 0x8000, 0x01000000, 0x00010000])
        return b"\0" + struct.pack(">HHIH", 41, rng.choice([512, 1232, 4096]), ttl, len(options)) + options

    def message(self):
        rng = self.rng
        sections = [[self.record() for _ in range(rng.randrange(3))] for _ in range(3)]
        if rng.random() < 0.5:
            sections[2].append(self.extension())
        flags = 0x8000 | rng.randrange(0x8000) & ~0x0200
        question = self.name() + number(2, rng.choice([1, 28, 257, 12345])) + number(2, rng.choice([1, 1, 3, 255, 77]))
        counts = [1] + [len(section) for section in sections]
        return b"\0\1" + number(2, flags) + b"".join(number(2, c) for c in counts) + question + b"".join(sum(sections, []))


def main():
    if not 3 <= len(sys.argv) <= 5:
        sys.exit(__doc__)
    if shutil.which("kdig") is None:
        print("skipped: there is no kdig")
        return
    rng = random.Random(int(sys.argv[4]) if len(sys.argv) > 4 else 1)
    messages = []
    if os.path.exists(sys.argv[1]):
        messages = [bytes.fromhex(m["hex"]) for m in json.load(open(sys.argv[1], encoding="utf-8"))]
    stored = len(messages)
    messages += [Writer(rng).message() for _ in range(int(sys.argv[3]) if len(sys.argv) > 3 else 300)]
    kdig = Kdig()
    refused = 0
    for at, (message, got) in enumerate(zip(messages, printed(sys.argv[2], messages))):
        wanted = kdig.lines_of(message)
        if wanted is None:
            refused += 1
        elif wanted != got:
            print("message %d differs: %s" % (at, message.hex()))
            for a, b in itertools.zip_longest(wanted, got):
                if a != b:
                    print("kdig: %s\ntool: %s" % (a, b))
            sys.exit(1)
    print("%d messages are the same, %d of them stored; kdig refused %d more" % (len(messages) - refused, stored, refused))
    if refused * 10 > len(messages):
        sys.exit("kdig refused more than a tenth")


if __name__ == "__main__":
    main()
