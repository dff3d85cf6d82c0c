#!/usr/bin/env python3
"""Writes what an NSD on loopback answers of a zone with every octet in names and in data, as messages for comparisons.

    python3 tests/zone_answers.py FILE

FILE becomes a list of JSON, as `tests/compare_presentation.py` takes it: the answer to each question for an owner of the
zone and a type that it has there, and to some for what it hasn't. The zone has for each octet a name with it, and a
text, a certification authority and a rewriting rule with it in their strings; and records of the types that people read
in a form of their own, among them some of unknown types, with no data and with data of other lengths. Without NSD
nothing is written, and that is said.
"""

import json
import shutil
import socket
import struct
import subprocess
import sys
import tempfile
import time
from pathlib import Path

ZONE = "odd.example."
HEAD = """$ORIGIN odd.example.
$TTL 300
@ SOA ns host\\.master 4294967295 3600 900 2147483647 0
@ NS ns
ns A 127.0.0.1
"""
# what stands behind an owner of its own
RECORDS = """
NAPTR 100 10 "S" "SIP+D2U" "" _sip._udp
NAPTR 65535 0 "" "" "!^.*$!sip:in\\"fo\\\\@example.com!" .
NAPTR 1 2 "u" "E2U+sip" "!^\\\\+44(.*)$!sip:\\\\1@example.com!i" a\\.b.c
CAA 0 issue "ca.example.net; policy=ev"
CAA 128 iodef "mailto:security@example.com"
CAA 0 issue ";"
CAA 255 tbs "unknown"
SVCB 0 other
SVCB 1 . alpn=h2,h3 port=8443
SVCB 16 svc mandatory=alpn,ipv4hint alpn="f\\\\\\\\oo\\\\,bar,h2" ipv4hint=192.0.2.1,192.0.2.2
SVCB 1 svc key667="hello\\210qoo" key65000="a b\\"c\\\\d"
HTTPS 0 www
HTTPS 1 . alpn=h3,h2 no-default-alpn port=443 ipv4hint=192.0.2.7 ipv6hint=2001:db8::7,2001:db8::8
HTTPS 3 svc alpn=h2 ech=AEP+DQA/ ipv6hint=::ffff:192.0.2.33
TLSA 3 1 1 0123456789abcdef0123456789abcdef0123456789abcdef0123456789abcdef
TLSA 0 0 0 00
SMIMEA 3 1 2 ffeeddccbbaa99887766554433221100
SSHFP 2 1 123456789abcdef67890123456789abcdef67890
SSHFP 4 2 c0ffee00c0ffee00c0ffee00c0ffee00c0ffee00c0ffee00c0ffee00c0ffee00
LOC 42 21 54 N 71 6 18 W -24m 30m
LOC 52 14 5.123 N 0 8 50.5 E 10m
LOC 0 0 0 S 0 0 0.001 W 0m 1m 10000m 10m
LOC 90 0 0 N 180 0 0 E 42849672.95m 90000000m 1m 2m
LOC 32 7 19 S 116 2 25 E 10.50m 0.50m 0.01m 3m
URI 10 1 "https://www.example.com/a\\"b"
URI 0 65535 "ftp://ftp.example/"
DNAME else\\.where.example
CNAME \\000\\255\\;x
PTR a\\032b
MX 0 .
MX 65535 mx\\@mail
SRV 0 65535 5060 _under.score
HINFO "PC \\"x\\"" "OS\\092 2"
RP mail\\.box.example txt
AFSDB 1 afs
KX 10 kx
MINFO r e
TXT "" "a" "\\000\\001\\255"
TXT "plain" "with \\"quotes\\" and \\\\ and ; and #"
SPF "v=spf1 -all"
AAAA ::
AAAA 2001:db8:0:1:1:1:1:1
AAAA 1:0:0:2:0:0:0:3
AAAA ::ffff:192.0.2.1
A 255.255.255.255
DS 60485 5 1 2bb183af5f22588179a53b0a98631fad1a292118
CDS 0 0 0 00
DNSKEY 256 3 13 AQPSKmynfzW4kyBv015MUG2DeIQ3Cbl+BBZH4b/0PY1kxkmvHjcZc8no
CDNSKEY 0 3 0 AA==
RRSIG A 13 2 300 20380119031407 19700101000000 12345 odd.example. AQIDBA==
NSEC host\\.name A MX RRSIG NSEC TYPE1234
NSEC3PARAM 1 0 12 aabbccdd
NSEC3PARAM 1 0 0 -
NSEC3 1 1 12 aabbccdd 2t7b4g4vsa5smi47k61mv5bv1a22bojr MX DNSKEY NS SOA NSEC3PARAM RRSIG
OPENPGPKEY mQINBFit2jsBEADrbl5vjVxYeAE0g0IDYCBpHirv1Sjlqxx5gjtPhb2YhvyDMXjq
TYPE12345 \\# 0
TYPE65280 \\# 3 616263
TYPE100 \\# 20 000102030405060708090a0b0c0d0e0f10111213
"""
NUMBERS = {
    "A": 1, "NS": 2, "CNAME": 5, "SOA": 6, "PTR": 12, "HINFO": 13, "MINFO": 14, "MX": 15, "TXT": 16, "RP": 17, "AFSDB": 18, "AAAA": 28,
    "LOC": 29, "SRV": 33, "NAPTR": 35, "KX": 36, "DNAME": 39, "DS": 43, "SSHFP": 44, "RRSIG": 46, "NSEC": 47, "DNSKEY": 48,
    "NSEC3": 50, "NSEC3PARAM": 51, "TLSA": 52, "SMIMEA": 53, "CDS": 59, "CDNSKEY": 60, "OPENPGPKEY": 61, "SVCB": 64, "HTTPS": 65, "SPF": 99,
    "URI": 256, "CAA": 257,
}


def number_of(word):
    return NUMBERS[word] if word in NUMBERS else int(word[4:])


def listed():
    """The lines of the zone behind its head, and the questions: labels and a type."""
    lines, asked = [], []
    for at, record in enumerate(RECORDS.strip().splitlines()):
        lines.append("r%d %s" % (at, record))
        asked.append(([b"r%d" % at], number_of(record.split()[0])))
    for octet in range(256):
        lines.append("n%d CNAME a\\%03db" % (octet, octet))
        lines.append("\\%03d.o TXT \"%d\"" % (octet, octet))
        lines.append("t%d TXT \"\\%03d\" \"a\\%03db\"" % (octet, octet, octet))
        lines.append("c%d CAA 0 issue \"x\\%03dy\"" % (octet, octet))
        lines.append("p%d NAPTR 1 2 \"A\" \"\\%03d\" \"\\%03d\" \\%03d" % (octet, octet, octet, octet))
        asked += [([b"n%d" % octet], 5), ([bytes([octet]), b"o"], 16), ([b"t%d" % octet], 16), ([b"c%d" % octet], 257), ([b"p%d" % octet], 35)]
    asked += [([b"missing"], 1), ([b"r0"], 1), ([], 6), ([], 2), ([b"missing"], 12345)]
    return lines, asked


def question(number, labels, rtype):
    name = b"".join(bytes([len(label)]) + label for label in labels + [b"odd", b"example"]) + b"\0"
    opt = b"\0" + struct.pack(">HHIH", 41, 4096, 0, 0)
    return struct.pack(">HHHHHH", number, 0x0100, 1, 0, 0, 1) + name + struct.pack(">HH", rtype, 1) + opt


def free_port():
    with socket.socket(socket.AF_INET, socket.SOCK_DGRAM) as s:
        s.bind(("127.0.0.1", 0))
        return s.getsockname()[1]


def answers(port, asked):
    """What the server answers each question, in order."""
    out = []
    with socket.socket(socket.AF_INET, socket.SOCK_DGRAM) as s:
        s.settimeout(5)
        s.connect(("127.0.0.1", port))
        for number, (labels, rtype) in enumerate(asked):
            s.send(question(number, labels, rtype))
            out.append(s.recv(65535))
    return out


def serve(folder, port, lines):
    (folder / "zone").write_text(HEAD + "\n".join(lines) + "\n")
    (folder / "nsd.conf").write_text("""server:
  ip-address: 127.0.0.1@%d
  username: ""
  chroot: ""
  zonesdir: "%s"
  database: ""
  pidfile: "%s/nsd.pid"
  xfrdfile: "%s/xfrd"
  xfrdir: "%s"
  zonelistfile: "%s/zonelist"
  rrl-ratelimit: 0
  server-count: 1
  minimal-responses: no
remote-control:
  control-enable: no
zone:
  name: %s
  zonefile: zone
""" % (port, folder, folder, folder, folder, folder, ZONE))
    server = subprocess.Popen(["nsd", "-d", "-c", str(folder / "nsd.conf")], stdout=subprocess.DEVNULL, stderr=open(folder / "log", "w"))
    for _ in range(100):
        time.sleep(0.1)
        try:
            if server.poll() is None and answers(port, [([], 6)])[0][3] & 0x0F == 0:
                return server
        except OSError:
            pass
    server.kill()
    sys.exit("nsd does not serve: " + (folder / "log").read_text()[-2000:])


def main():
    if len(sys.argv) != 2:
        sys.exit(__doc__)
    if shutil.which("nsd") is None:
        print("skipped: there is no nsd")
        return
    lines, asked = listed()
    with tempfile.TemporaryDirectory() as made:
        port = free_port()
        server = serve(Path(made), port, lines)
        try:
            messages = answers(port, asked)
        finally:
            server.terminate()
            server.wait()
    Path(sys.argv[1]).write_text(json.dumps([{"hex": message.hex()} for message in messages]))
    print("%d messages, of which %d say that there is no such name" % (len(messages), sum(m[3] & 0x0F == 3 for m in messages)))


if __name__ == "__main__":
    main()
