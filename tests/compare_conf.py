#!/usr/bin/env python3
"""Compares `dnsq conf` with a reference client on random and mangled configurations.

    python3 tests/compare_conf.py REFERENCE_FOLDER PROGRAM [COUNT [SEED]]

REFERENCE_FOLDER holds the package `plain`; PROGRAM is the built dnsq. Without the folder nothing is
compared, and that is said. Both are given the same octets, and have to write the same and end with the
same status. The first difference is printed with its input, and ends the comparison with status 1.
"""

import random
import subprocess
import sys
from pathlib import Path

ROOT = Path(__file__).resolve().parent.parent

WHITE = [" ", " ", " ", "\t", "  ", "\x0b", "\x0c", "\u0085", "\u00a0", "\u1680", "\u2003", "\u2028", "\u202f",
         "\u205f", "\u3000", "\u200b", "\ufeff", "\r"]
ADDRESSES = ["256.0.0.1", "1.2.3", "01.2.3.4", "1.2.3.4.", "::", "::1", "0.0.0.0", "255.255.255.255", "192.0.2.53",
             "2001:db8::53", "2001:DB8:0:0:1:0:0:1", "1:2:3:4:5:6:7:8", "1:2:3:4:5:6:7::", "::ffff:192.0.2.1",
             "64:ff9b::192.0.2.33", "1::2::3", "fe80::1%eth0", "[::1]", "192.0.2.1:53", "12345::", "ns.example"]
NAMES = [".", "example", "example.com", "example.com.", "CORP.Example", "a..b", "..", "\\.", "a\\.b", "\\032", "\\256",
         "\\04", "a\\", "_srv._tcp.example", "x" * 63, "x" * 64, ".".join(["y" * 60] * 4), ".".join(["y" * 63] * 4),
         "bücher.example", "a b", "-"]
FLAGS = ["use-vc", "inet6", "rotate", "no-check-names", "ip6-bytestring", "ip6-dotint", "no-ip6-dotint", "edns0",
         "single-request", "single-request-reopen", "no-tld-query", "debug", "trust-ad", "no-reload", "aa-only",
         "use-inet6", "Rotate", "rotate:", "ndots", "timeout"]
NUMBERED = ["ndots", "timeout", "attempts", "max-inflight", "rotate", ""]
NUMBERS = ["0", "1", "2", "5", "30", "007", "+3", "-1", "", "+", "1.5", "x", "18446744073709551615",
           "18446744073709551616", "99999999999999999999", "٣", "3:4"]


def option(rng):
    if rng.random() < 0.5:
        return rng.choice(FLAGS)
    return rng.choice(NUMBERED) + ":" + rng.choice(NUMBERS if rng.random() < 0.2 else NUMBERS[:7])


def words(rng):
    kind = rng.randrange(12)
    if kind < 4:
        out = ["nameserver"] + [rng.choice(ADDRESSES[7:13] if rng.random() < 0.8 else ADDRESSES)]
    elif kind < 6:
        out = ["domain", rng.choice(NAMES[:5] if rng.random() < 0.8 else NAMES)]
    elif kind < 8:
        out = ["search"] + [rng.choice(NAMES[:5] if rng.random() < 0.8 else NAMES) for _ in range(rng.randrange(5))]
    elif kind < 10:
        out = ["options"] + [option(rng) for _ in range(rng.randrange(5))]
    elif kind < 11:
        out = ["sortlist", "192.0.2.0/24"]
    else:
        out = [rng.choice(["# made", ";", "#", "", "lookup", "Nameserver"])]
    if rng.random() < 0.05:
        out.append(rng.choice(["x", "#", "; y"]))
    if rng.random() < 0.03:
        out.pop()
    return out


def line(rng):
    parts = words(rng)
    white = WHITE if rng.random() < 0.3 else WHITE[:5]
    text = parts[0] if parts else ""
    for part in parts[1:]:
        text += rng.choice(white) + part
    if rng.random() < 0.03:
        text = rng.choice(white) + text
    if rng.random() < 0.1:
        text += rng.choice(white)
    return text


def mangled(rng, octets):
    octets = bytearray(octets)
    for _ in range(rng.randrange(1, 4)):
        at = rng.randrange(len(octets) + 1)
        kind = rng.randrange(4)
        if kind == 0:
            octets.insert(at, rng.choice([0, 9, 10, 13, 32, 35, 46, 58, 59, 92, 127, 128, 0xC2, 0xE2, 0xFF]))
        elif kind == 1 and at < len(octets):
            del octets[at]
        elif kind == 2 and at < len(octets):
            octets[at] = rng.randrange(256)
        else:
            del octets[at:]
    return bytes(octets)


def configuration(rng):
    end = rng.choice(["\n", "\n", "\n", "\r\n"])
    octets = end.join(line(rng) for _ in range(rng.randrange(8))).encode("utf-8")
    if rng.random() < 0.8:
        octets += end.encode()
    if rng.random() < 0.15:
        octets = mangled(rng, octets)
    return octets


def answer(command, folder, octets):
    done = subprocess.run(command, cwd=folder, input=octets, stdout=subprocess.PIPE, check=False)
    return done.returncode, done.stdout


def main():
    if len(sys.argv) < 3:
        sys.exit(__doc__)
    reference, program = sys.argv[1], Path(sys.argv[2]).resolve()
    count = int(sys.argv[3]) if len(sys.argv) > 3 else 2000
    seed = int(sys.argv[4]) if len(sys.argv) > 4 else 1
    if not (Path(reference) / "plain").is_dir():
        print("skipped: there is no reference client")
        return 0
    taken = 0
    for i in range(count):
        octets = configuration(random.Random(seed * 1000003 + i))
        want = answer([sys.executable, "-m", "plain.dnsq", "conf"], reference, octets)
        have = answer([str(program), "conf"], ROOT, octets)
        if have != want:
            print(f"configuration {i} of seed {seed}: {octets!r}\nreference: {want!r}\nprogram:   {have!r}")
            return 1
        taken += want[0] == 0
    print(f"{count} configurations, {taken} of them taken: the same")
    return 0


if __name__ == "__main__":
    sys.exit(main())
