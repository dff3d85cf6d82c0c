#!/usr/bin/env python3
"""Asks real servers by `dnsq query`, and compares what they answer with what kdig is answered.

    sudo python3 tests/ask_servers.py PROGRAM

PROGRAM is the built dnsq. An NSD, a BIND and an Unbound, as far as they are installed, serve one zone on loopback, and a configuration that names 127.0.0.1 is mounted over
/etc/resolv.conf in a mount namespace of this script's own, so nothing outside sees it. Twelve questions are asked: an
address, an alias, a name that is not there, mail exchangers, the start of the zone, services, an IPv6 address, an answer
that is truncated and comes by TCP, one of about 60,000 octets, one that is refused, one at a port where nobody listens, and
one at a port where nobody answers. Of the first ten the sections agree with kdig's, record by record and as counts. Without
any of the servers, kdig or a namespace nothing is compared, and that is said. The first difference ends it with status 1.
"""

import os
import re
import resource
import shutil
import socket
import subprocess
import sys
import tempfile
import time
from pathlib import Path

INSIDE = "ASK_SERVERS_INSIDE"
TYPES = {"A": 1, "NS": 2, "CNAME": 5, "SOA": 6, "PTR": 12, "MX": 15, "TXT": 16, "AAAA": 28, "SRV": 33}
NAMED = {2: [0], 5: [0], 12: [0], 15: [2], 33: [6], 6: [0, None]}
ZONE = "example."
HEAD = """$ORIGIN example.
$TTL 300
@ SOA ns hostmaster 7 3600 900 86400 300
@ NS ns
ns A 127.0.0.1
www A 192.0.2.1
www A 192.0.2.2
www AAAA 2001:db8::1
alias CNAME www
mail MX 10 mx1.mail
mail MX 20 mx2.mail
mx1.mail A 192.0.2.25
_sip._udp SRV 10 60 5060 sip1
_sip._udp SRV 20 0 5061 sip2
sip1 A 192.0.2.60
"""
ASKED = [("www.example", "A"), ("alias.example", "A"), ("missing.example", "A"), ("mail.example", "MX"),
         ("example", "SOA"), ("_sip._udp.example", "SRV"), ("www.example", "AAAA"), ("many.example", "A"),
         ("huge.example", "TXT"), ("www.elsewhere", "A")]


def skipped(why):
    print("skipped: " + why)
    sys.exit(0)


def zone():
    many = "".join("many A 10.0.%d.%d\n" % (n // 256, n % 256) for n in range(200))
    huge = "".join('huge TXT "%05d%s"\n' % (n, "x" * 200) for n in range(278))
    return HEAD + many + huge


def free_port():
    with socket.socket(socket.AF_INET, socket.SOCK_DGRAM) as s:
        s.bind(("127.0.0.1", 0))
        return s.getsockname()[1]


def name_at(octets, at):
    """The labels of a name, and where the octets behind it stand."""
    labels, end = [], None
    while True:
        head = octets[at]
        if head >= 0xC0:
            end = at + 2 if end is None else end
            at = (head & 0x3F) << 8 | octets[at + 1]
        elif head == 0:
            return tuple(labels), at + 1 if end is None else end
        else:
            labels.append(octets[at + 1:at + 1 + head].lower())
            at += 1 + head


def spelled(labels):
    return b"".join(bytes([len(label)]) + label for label in labels) + b"\0"


def data_of(octets, rtype, at, end):
    """The data of a record with its names spelled out."""
    out = b""
    for step in NAMED.get(rtype, []):
        skip = step or 0
        out += octets[at:at + skip]
        labels, at = name_at(octets, at + skip)
        out += spelled(labels)
    return out + octets[at:end]


def sections_of(octets):
    """The response code, and the records of each section but OPT records."""
    counts = [int.from_bytes(octets[4 + 2 * n:6 + 2 * n], "big") for n in range(4)]
    at = 12
    for _ in range(counts[0]):
        at = name_at(octets, at)[1] + 4
    sections = []
    for count in counts[1:]:
        records = []
        for _ in range(count):
            owner, at = name_at(octets, at)
            rtype = int.from_bytes(octets[at:at + 2], "big")
            length = int.from_bytes(octets[at + 8:at + 10], "big")
            if rtype != 41:
                records.append((spelled(owner), rtype, data_of(octets, rtype, at + 10, at + 10 + length)))
            at += 10 + length
        sections.append(sorted(records))
    return octets[3] & 0x0F, sections


def text_labels(text):
    return [label.lower().encode() for label in text.rstrip(".").split(".") if label]


def of_kdig(port, name, rtype):
    """The same, as kdig prints it with each record's data as octets."""
    out = subprocess.run(["kdig", "+generic", "+edns=0", "+retry=0", "@127.0.0.1", "-p", str(port), name, rtype],
                         capture_output=True, text=True, check=True).stdout
    status = re.search(r"status: (\w+)", out).group(1)
    counts = [int(n) for n in re.search(r"ANSWER: (\d+); AUTHORITY: (\d+); ADDITIONAL: (\d+)", out).groups()]
    counts[2] -= 1 if "EDNS PSEUDOSECTION" in out else 0
    sections = []
    for title in ("ANSWER", "AUTHORITY", "ADDITIONAL"):
        part = re.search(r";; %s SECTION:\n(.*?)(\n\n|\Z)" % title, out, re.S)
        records = []
        for line in part.group(1).splitlines() if part else []:
            words = line.split()
            data = bytes.fromhex("".join(words[6:]))
            number = int(words[3][4:]) if words[3].startswith("TYPE") else TYPES[words[3]]
            whole = data_of(data, number, 0, len(data))
            records.append((spelled(text_labels(words[0])), number, whole))
        sections.append(sorted(records))
    rcode = {"NOERROR": 0, "FORMERR": 1, "SERVFAIL": 2, "NXDOMAIN": 3, "REFUSED": 5}[status]
    return rcode, sections, counts


def query(program, port, name, rtype):
    ran = subprocess.run([*program, "query", name, rtype, "--port", str(port)], capture_output=True, text=True,
                         stdin=subprocess.DEVNULL)
    return ran.returncode, ran.stdout


def expect(holds, what):
    if not holds:
        print("differs: " + what)
        sys.exit(1)


def compare(program, port):
    for name, rtype in ASKED:
        status, line = query(program, port, name, rtype)
        expect(status == 0 and line.startswith("reply 0 ok "), "%s %s: status %d, %s" % (name, rtype, status, line[:80]))
        octets = bytes.fromhex(line.split()[3])
        rcode, sections = sections_of(octets)
        want, records, counts = of_kdig(port, name, rtype)
        expect(rcode == want, "%s %s: response code %d, not %d" % (name, rtype, rcode, want))
        expect(sections == records, "%s %s: its records" % (name, rtype))
        expect([len(s) for s in sections] == counts, "%s %s: its counts" % (name, rtype))
        print("%s %s: %d octets, response code %d, %s records" % (name, rtype, len(octets), rcode, counts))


def unanswered(program):
    dead = free_port()
    status, line = query(program, dead, "www.example", "A")
    expect(status == 5 and line == "reply 0 err Dgram Receive refused\n", "dead port: status %d, %s" % (status, line))
    print("dead port: " + line.strip())
    with socket.socket(socket.AF_INET, socket.SOCK_DGRAM) as silent:
        silent.bind(("127.0.0.1", 0))
        before = resource.getrusage(resource.RUSAGE_CHILDREN)
        began = time.monotonic()
        status, line = query(program, silent.getsockname()[1], "www.example", "A")
        took = time.monotonic() - began
        after = resource.getrusage(resource.RUSAGE_CHILDREN)
    expect(status == 5 and line == "reply 0 err TimedOut\n", "silent port: status %d, %s" % (status, line))
    busy = after.ru_utime + after.ru_stime - before.ru_utime - before.ru_stime
    print("silent port: %s after %.2f s, of which %.3f s on a processor" % (line.strip(), took, busy))


def nsd(folder, port):
    (folder / "nsd.conf").write_text("""server:
  ip-address: 127.0.0.1@%d
  username: ""
  chroot: ""
  zonesdir: "%s"
  database: ""
  pidfile: "%s/nsd.pid"
  xfrdfile: "%s/xfrd"
  xfrdir: "%s"
  zonelistfile: "%s/zonelist"
  rrl-ratelimit: 0
remote-control:
  control-enable: no
zone:
  name: %s
  zonefile: zone
""" % (port, *[folder] * 5, ZONE))
    return ["nsd", "-d", "-c", str(folder / "nsd.conf")]


def named(folder, port):
    (folder / "named.conf").write_text("""options {
  directory "%s";
  pid-file "%s/named.pid";
  session-keyfile "%s/session.key";
  listen-on port %d { 127.0.0.1; };
  listen-on-v6 { none; };
  recursion no;
  dnssec-validation no;
  minimal-responses no;
  max-records-per-type 0;
};
controls { };
zone "example" { type primary; file "zone"; check-names ignore; };
""" % (folder, folder, folder, port))
    return ["named", "-g", "-c", str(folder / "named.conf")]


def unbound(folder, port):
    (folder / "unbound.conf").write_text("""server:
  interface: 127.0.0.1@%d
  username: ""
  chroot: ""
  directory: "%s"
  pidfile: "%s/unbound.pid"
  use-syslog: no
  module-config: "iterator"
  access-control: 127.0.0.0/8 allow
  local-zone: "elsewhere." refuse
remote-control:
  control-enable: no
auth-zone:
  name: %s
  zonefile: "%s/zone"
  for-downstream: yes
  for-upstream: no
""" % (port, folder, folder, ZONE, folder))
    return ["unbound", "-d", "-c", str(folder / "unbound.conf")]


SERVERS = {"nsd": nsd, "named": named, "unbound": unbound}


def serve(kind, folder, port):
    (folder / "zone").write_text(zone())
    server = subprocess.Popen(SERVERS[kind](folder, port), stdout=subprocess.DEVNULL, stderr=open(folder / "log", "w"))
    for _ in range(100):
        time.sleep(0.1)
        if server.poll() is not None:
            break
        asked = subprocess.run(["kdig", "+short", "+time=1", "+retry=0", "@127.0.0.1", "-p", str(port), "www.example", "A"],
                               capture_output=True, text=True).stdout
        if "192.0.2.1" in asked:
            return server
    server.kill()
    print("%s does not serve: %s" % (kind, (folder / "log").read_text()[-300:]))
    sys.exit(1)


def inside(program):
    with tempfile.TemporaryDirectory() as made:
        folder = Path(made)
        (folder / "resolv.conf").write_text("nameserver 127.0.0.1\n")
        if subprocess.run(["mount", "--bind", str(folder / "resolv.conf"), "/etc/resolv.conf"]).returncode:
            skipped("nothing can be mounted over /etc/resolv.conf")
        try:
            for kind in SERVERS:
                if not shutil.which(kind):
                    print(kind + " is missing")
                    continue
                print("== " + kind)
                port = free_port()
                server = serve(kind, folder, port)
                try:
                    compare(program, port)
                finally:
                    server.terminate()
                    server.wait()
            unanswered(program)
        finally:
            subprocess.run(["umount", "/etc/resolv.conf"])
    print("all agree")


def main():
    if len(sys.argv) < 2:
        sys.exit(__doc__)
    program = [os.path.abspath(sys.argv[1])]
    if os.environ.get(INSIDE):
        return inside(program)
    for tool in ("kdig", "unshare"):
        if not shutil.which(tool):
            skipped(tool + " is missing")
    if not any(map(shutil.which, SERVERS)):
        skipped("each of the servers is missing")
    if subprocess.run(["unshare", "--mount", "true"], stderr=subprocess.DEVNULL).returncode:
        skipped("no mount namespace can be made")
    os.environ[INSIDE] = "1"
    os.execvp("unshare", ["unshare", "--mount", "--propagation", "private", sys.executable, *sys.argv])


if __name__ == "__main__":
    main()
