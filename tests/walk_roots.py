#!/usr/bin/env python3
"""Walks from a root on loopback down to names, by `dns_lookup +trace` beside `dig +trace`.

    python3 tests/walk_roots.py PROGRAM

PROGRAM is the built dns_lookup. An NSD serves a root, a Knot a zone below it, and a BIND zones below both, at addresses of 127.0.0.0/8 and one
port. Servers of this test's own stand beside them: one that is given, which knows the root's servers and the addresses of all hosts, one that
refuses, one that refers to its own zone again, one that refers to the root, one that has a wrong address beside a referral, and one that
is silent. dig looks up the names of servers by the system, so it is run where `/etc/hosts` has them (by a mount of its own, so this runs as root).

Of each walk the blocks that are written, one for each message that came, are those of dig, up to the order of records, blanks, octets and times: who
was asked, under which name, and the records. Where servers lie or fail dig goes on otherwise: what it writes first is compared, and how `dns_lookup`
ends. No server of a zone is asked with RD set. The first difference ends it with status 1; without dig or one of the servers nothing is compared.
"""

import os
import re
import shutil
import socket
import struct
import subprocess
import sys
import tempfile
import threading
import time
from pathlib import Path

from ask_servers import expect, skipped

GIVEN, ROOT, BELOW = "127.0.0.30", "127.0.0.31", "127.0.0.32"
# BIND listens at addresses of interfaces alone.
DEEP = "127.0.0.1"
REFUSES, AGAIN, UPWARD, WRONG, SILENT = "127.0.0.34", "127.0.0.35", "127.0.0.36", "127.0.0.37", "127.0.0.38"
HOSTS = {"a.roots": ROOT, "ns.test": BELOW, "ns.deep.test": DEEP, "ns.lame": REFUSES, "ns.again": AGAIN, "ns.upward": UPWARD,
         "ns.wrong": WRONG, "ns.silent": SILENT, "ns2.lame": DEEP, "ns2.silent": DEEP}
ROOT_ZONE = """$TTL 300
. SOA a.roots. hostmaster.roots. 1 3600 900 86400 300
. NS a.roots.
a.roots. A 127.0.0.31
test. NS ns.test.
ns.test. A 127.0.0.32
lone. NS ns.deep.test.
lame. NS ns.lame.
lame. NS ns2.lame.
ns.lame. A 127.0.0.34
ns2.lame. A 127.0.0.1
again. NS ns.again.
ns.again. A 127.0.0.35
upward. NS ns.upward.
ns.upward. A 127.0.0.36
wrong. NS ns.wrong.
ns.wrong. A 127.0.0.37
silent. NS ns.silent.
silent. NS ns2.silent.
ns.silent. A 127.0.0.38
ns2.silent. A 127.0.0.1
"""
BELOW_ZONE = """$TTL 300
@ SOA ns hostmaster 1 3600 900 86400 300
@ NS ns
ns A 127.0.0.32
www A 192.0.2.1
www AAAA 2001:db8::1
alias CNAME www.deep
deep NS ns.deep
ns.deep A 127.0.0.1
"""
DEEP_ZONE = """$TTL 300
@ SOA ns hostmaster 1 3600 900 86400 300
@ NS ns.deep.test.
ns A 127.0.0.1
www A 192.0.2.2
www A 192.0.2.3
text TXT "one" "two words"
*.wild A 192.0.2.4
"""
EQUAL = [["www.test", "A"], ["www.test", "AAAA"], ["www.deep.test", "A"], ["deep.test", "SOA"], ["deep.test", "DS"], ["missing.deep.test", "A"],
         ["www.deep.test", "MX"], ["missing", "A"], [".", "NS"], ["www.lone", "A"], ["alias.test", "A"], ["many.deep.test", "A"], ["a.b.wild.lone", "A"],
         ["www.deep.test", "A", "+nodnssec"], ["www.deep.test", "A", "+additional"], ["www.deep.test", "A", "+noauthority"], ["test", "NS", "+tcp"],
         ["text.deep.test", "TXT", "+norecurse"], ["sub.wrong", "A"]]


def labels(name):
    return b"".join(bytes([len(label)]) + label.encode() for label in name.strip(".").split(".") if label) + b"\0"


def record(owner, rtype, data):
    octets = socket.inet_aton(data) if rtype == 1 else labels(data)
    return labels(owner) + struct.pack("!HHIH", rtype, 1, 300, len(octets)) + octets


def asked(query):
    """The name and the type that a query asks, and the octets of its question."""
    at, parts = 12, []
    while query[at]:
        parts.append(query[at + 1:at + 1 + query[at]].decode().lower())
        at += 1 + query[at]
    return ".".join(parts), int.from_bytes(query[at + 1:at + 3], "big"), query[12:at + 5]


def answer(query, code=0, answers=(), authority=(), additional=(), aa=False):
    sections = [[record(*r) for r in part] for part in (answers, authority, additional)]
    flags = 0x8000 | (0x0400 if aa else 0) | (query[2] << 8 & 0x0100) | code
    return query[:2] + struct.pack("!5H", flags, 1, *map(len, sections)) + asked(query)[2] + b"".join(sum(sections, []))


def reply(address, query):
    """What a server of this test's own says; none where it is silent."""
    name, rtype, _ = asked(query)
    if address == GIVEN:
        if not name:
            return answer(query, answers=[("", 2, "a.roots")], aa=True)
        host = HOSTS.get(name)
        return answer(query, 0 if host else 3, answers=[(name, 1, host)] if host and rtype == 1 else [])
    if address == REFUSES:
        return answer(query, 5)
    if address == AGAIN:
        return answer(query, authority=[("again", 2, "ns.again")], additional=[("ns.again", 1, AGAIN)])
    if address == UPWARD:
        return answer(query, authority=[("", 2, "a.roots")], additional=[("a.roots", 1, ROOT)])
    if address == WRONG:
        return answer(query, authority=[("sub.wrong", 2, "ns.deep.test")], additional=[("ns.deep.test", 1, REFUSES)])
    return None


class Liar:
    """A server at an address, which keeps what it is asked."""

    def __init__(self, address, port):
        self.address, self.asked = address, []
        self.udp = socket.socket(socket.AF_INET, socket.SOCK_DGRAM)
        self.udp.bind((address, port))
        self.tcp = socket.create_server((address, port))
        threading.Thread(target=self.by_datagrams, daemon=True).start()
        threading.Thread(target=self.by_streams, daemon=True).start()

    def said(self, query):
        self.asked.append((*asked(query)[:2], query[2] & 1))
        return reply(self.address, query)

    def by_datagrams(self):
        while True:
            query, peer = self.udp.recvfrom(65535)
            said = self.said(query)
            if said:
                self.udp.sendto(said, peer)

    def by_streams(self):
        while True:
            peer, _ = self.tcp.accept()
            length = peer.recv(2, socket.MSG_WAITALL)
            said = self.said(peer.recv(int.from_bytes(length, "big"), socket.MSG_WAITALL)) if len(length) == 2 else None
            if said:
                peer.sendall(len(said).to_bytes(2, "big") + said)
            peer.close()


def nsd(folder, port):
    (folder / "nsd.conf").write_text("""server:
  ip-address: %s@%d
  username: ""
  chroot: ""
  zonesdir: "%s"
  database: ""
  pidfile: "%s/nsd.pid"
  xfrdfile: "%s/xfrd"
  xfrdir: "%s"
  zonelistfile: "%s/zonelist"
  rrl-ratelimit: 0
remote-control:
  control-enable: no
zone:
  name: .
  zonefile: root
""" % (ROOT, port, *[folder] * 5))
    (folder / "root").write_text(ROOT_ZONE)
    return ["nsd", "-d", "-c", str(folder / "nsd.conf")]


def knotd(folder, port):
    (folder / "knot.conf").write_text("""server:
  listen: %s@%d
  rundir: "%s"
database:
  storage: "%s"
zone:
  - domain: test
    storage: "%s"
    file: below
    semantic-checks: off
""" % (BELOW, port, folder, folder, folder))
    (folder / "below").write_text(BELOW_ZONE)
    return ["knotd", "-c", str(folder / "knot.conf")]


def named(folder, port):
    zones = ["deep.test", "lone", "lame", "silent", "sub.wrong"]
    (folder / "named.conf").write_text("""options {
  directory "%s";
  pid-file "%s/named.pid";
  session-keyfile "%s/session.key";
  listen-on port %d { %s; };
  listen-on-v6 { none; };
  recursion no;
  dnssec-validation no;
  minimal-responses no;
  max-records-per-type 0;
};
controls { };
%s
""" % (folder, folder, folder, port, DEEP, "\n".join('zone "%s" { type primary; file "deep"; check-names ignore; };' % zone for zone in zones)))
    (folder / "deep").write_text(DEEP_ZONE + "".join("many A 10.0.%d.%d\n" % (n // 256, n % 256) for n in range(120)) + "@ A 192.0.2.5\n")
    return ["named", "-g", "-c", str(folder / "named.conf")]


def serve(kind, words, address, port, folder):
    """The server, once it answers."""
    server = subprocess.Popen(words, stdout=subprocess.DEVNULL, stderr=open(folder / kind, "w"))
    for _ in range(100):
        time.sleep(0.1)
        said = subprocess.run(["dig", "+norec", "+time=1", "+tries=1", "-p", str(port), "@" + address, ".", "SOA"], capture_output=True, text=True).stdout
        if "status: " in said:
            return server
    server.kill()
    skipped("%s does not serve: %s" % (kind, (folder / kind).read_text()[-300:]))
    return None


def free_port():
    """A port at which nothing listens at any of the addresses."""
    with socket.socket(socket.AF_INET, socket.SOCK_DGRAM) as one, socket.socket(socket.AF_INET, socket.SOCK_STREAM) as other:
        one.bind(("0.0.0.0", 0))
        other.bind(("0.0.0.0", one.getsockname()[1]))
        return one.getsockname()[1]


def blocks(text):
    """Of each message that came its records, in order, and the address, the port and the name of who sent it; and the lines that say why another is asked."""
    found, records, lines = [], [], []
    for line in text.splitlines():
        came = re.match(r";; Received \d+ bytes from (\S+)#(\d+)\((\S+)\) in \d+ ms$", line)
        if came:
            found.append((sorted(records), came.groups(), lines))
            records, lines = [], []
        elif line.startswith(";; BAD"):
            lines = ["BAD REFERRAL"]
        elif line and not line.startswith(";"):
            records.append(" ".join(line.split()).lower())
    return found


class Walks:
    def __init__(self, program, folder, port):
        self.program, self.port = program, port
        self.hosts = folder / "hosts"
        self.hosts.write_text("127.0.0.1 localhost\n" + "".join("%s %s\n" % (address, host) for host, address in HOSTS.items()))

    def ours(self, words, *more):
        ran = subprocess.run([self.program, "@" + GIVEN, "-p", str(self.port), "+trace", *more, *words], capture_output=True, text=True)
        return ran.returncode, ran.stdout, ran.stderr

    def digs(self, words, *more):
        command = ["dig", "-p", str(self.port), "@" + GIVEN, "+time=1", "+tries=1", "+trace", *more, *words]
        inside = "mount --bind %s /etc/hosts && exec %s" % (self.hosts, " ".join(command))
        return subprocess.run(["unshare", "-m", "sh", "-c", inside], capture_output=True, text=True).stdout


def compare(walks):
    for words in EQUAL:
        called = " ".join(words)
        status, out, said = walks.ours(words)
        expect(status == 0 and said == "", "%s: status %d, %s%s" % (called, status, said, out))
        one, other = blocks(out), blocks(walks.digs(words))
        expect(one == other and one, "%s: its blocks:\n%s\nnot\n%s" % (called, one, other))
        print("%s: %d steps" % (called, len(one)))


def lies(walks):
    """What comes of servers that lie or fail: our blocks, of which those of dig are the first."""
    for name, status_wanted, address, bad in (("www.again", 5, AGAIN, True), ("www.upward", 5, UPWARD, True)):
        status, out, said = walks.ours([name, "A"])
        one, other = blocks(out), blocks(walks.digs([name, "A"]))
        expect(status == status_wanted and said.startswith("dns_lookup: no answer: "), "%s: status %d, %s" % (name, status, said))
        expect(one == other[:len(one)], "%s: its blocks:\n%s\nnot\n%s" % (name, one, other[:len(one)]))
        expect(one[-1][1][0] == address and one[-1][2] == (["BAD REFERRAL"] if bad else []) and len(one) == 3, "%s: its last block: %s" % (name, one[-1]))
        print("%s: %d steps, and dig has %d" % (name, len(one), len(other)))
    status, out, said = walks.ours(["www.lame", "A"])
    expect(status == 0 and said == "", "www.lame: status %d, %s" % (status, said))
    one = blocks(out)
    expect([block[1][0] for block in one] in ([GIVEN, ROOT, REFUSES, DEEP], [GIVEN, ROOT, DEEP]), "www.lame: its servers: %s" % one)
    for block in blocks(walks.digs(["www.lame", "A"])):
        expect(block in one, "www.lame: a block of dig: %s" % (block,))
    print("www.lame: %d messages" % len(one))
    status, out, said = walks.ours(["www.silent", "A"], "+time=1")
    expect(status == 0 and blocks(out)[-1][1][0] == DEEP, "www.silent: status %d, %s%s" % (status, said, out))
    print("www.silent: passed by")
    status, out, said = walks.ours(["www.test", "A"], "+short")
    expect(status == 0 and out.splitlines()[-1].startswith("192.0.2.1 from server "), "+short: status %d, %s" % (status, out))
    for name, status_wanted, sentence in (("missing.deep.test", 9, "there is no such name"), ("www.deep.test", 10, "has no records of this type")):
        status, _, said = walks.ours([name, "MX"], "+short")
        expect(status == status_wanted and sentence in said, "%s +short: status %d, %s" % (name, status, said))


def recursion(liars):
    """RD is set at most where the servers that are given are asked."""
    for liar in liars:
        expect(liar.asked, "nothing was asked at " + liar.address)
        for name, rtype, rd in liar.asked:
            expect(liar.address == GIVEN or not rd, "%s %d at %s: RD is set" % (name, rtype, liar.address))


def main():
    if os.geteuid() != 0:
        return skipped("this needs root, for a file of hosts of its own")
    for kind in ("dig", "nsd", "knotd", "named", "unshare"):
        if not shutil.which(kind):
            return skipped("%s is not installed" % kind)
    servers = []
    with tempfile.TemporaryDirectory() as name:
        folder, port = Path(name), free_port()
        os.chmod(folder, 0o755)
        try:
            for kind, words, address in (("nsd", nsd, ROOT), ("knotd", knotd, BELOW), ("named", named, DEEP)):
                server = serve(kind, words(folder, port), address, port, folder)
                if not server:
                    return None
                servers.append(server)
            liars = [Liar(address, port) for address in (GIVEN, REFUSES, AGAIN, UPWARD, WRONG, SILENT)]
            walks = Walks(os.path.abspath(sys.argv[1]), folder, port)
            compare(walks)
            lies(walks)
            recursion(liars)
        finally:
            for server in servers:
                server.kill()
                server.wait()
    return None


if __name__ == "__main__":
    if len(sys.argv) != 2:
        sys.exit(__doc__)
    main()
