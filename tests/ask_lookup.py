#!/usr/bin/env python3
"""Asks real servers by `dns_lookup`, and compares what it writes with what kdig does.

    python3 tests/ask_lookup.py PROGRAM

PROGRAM is the built dns_lookup. An NSD, a BIND and a Knot serve one zone on loopback, each at a port of its own, and each is
asked the same questions: every type that the zone has, aliases, a name that is not there, one that has no such type, one
outside the zone, an answer that is truncated and comes by TCP, and an address. Of each answer the response code, the flags,
the counts and the records of each section agree with kdig's up to blanks, and so do the server and the transport that are
told. `+short` writes the data of kdig's answer section. Then come a port where nobody listens, one where nobody answers, one
that answers under another id, one that answers another question and one that sends few octets: each ends with status 5, one
sentence on standard error, and a line for the server, which says how often it was asked and what it brought. Wrong words end
with status 2 and a sentence that names the word. A server that is not installed is left out, and that is said; without kdig
or any server nothing is compared. The first difference ends it with status 1.
"""

import json
import os
import re
import shutil
import socket
import subprocess
import sys
import tempfile
import threading
import time
from pathlib import Path

from ask_servers import expect, free_port, skipped
from compare_presentation import alike

ZONE = r"""$ORIGIN example.
$TTL 300
@ SOA ns hostmaster 7 3600 900 86400 300
@ NS ns
ns A 127.0.0.1
www A 192.0.2.1
www A 192.0.2.2
www AAAA 2001:db8::1
alias CNAME www
@ MX 10 mail
@ MX 20 mail.elsewhere.
mail A 192.0.2.25
text TXT "one" "two words" "a \"quote\" and a \\ and \001\255"
_sip._udp SRV 10 60 5060 www
old DNAME new
sub NS ns.sub
ns.sub A 192.0.2.53
@ CAA 0 issue "ca.example; account=1"
naptr NAPTR 100 10 "u" "E2U+sip" "!^.*$!sip:info@example!" .
_443._tcp TLSA 3 1 1 0d6fce3cf4ce3a4a9d3a2b1f0f6c1ae02d1dc5dd85c4aa25ab4fd32ccdb20a01
loc LOC 52 22 23.000 N 4 53 32.000 E -2.00m 1.00m 10000m 10m
ssh SSHFP 1 1 dd465c09cfa51fb45020cc83316fff21b9ec74ac
host HINFO "PDP-11" "UNIX"
@ RP hostmaster text
uri URI 10 1 "https://www.example/"
strange TYPE65400 \# 4 01020304
od\.d\032name A 192.0.2.9
svc SVCB 1 www alpn=h2,h3 port=8443
web HTTPS 1 . ipv4hint=192.0.2.1
other CNAME alias
away CNAME www.elsewhere.
back PTR www
*.wild TXT "any"
secure NS ns.secure
ns.secure A 192.0.2.54
secure DS 60485 5 1 2bb183af5f22588179a53b0a98631fad1a292118
"""
ASKED = [["www.example", "A"], ["www.example", "aaaa"], ["alias.example", "A"], ["example", "MX"], ["example", "NS"],
         ["example", "SOA"], ["text.example", "TXT"], ["_sip._udp.example", "SRV"], ["a.old.example", "A"],
         ["x.sub.example", "A"], ["example", "CAA"], ["naptr.example", "NAPTR"], ["_443._tcp.example", "TLSA"],
         ["loc.example", "LOC"], ["ssh.example", "SSHFP"], ["host.example", "HINFO"], ["example", "RP"],
         ["uri.example", "URI"], ["strange.example", "TYPE65400"], [r"od\.d\032name.example", "A"],
         ["missing.example", "A"], ["www.example", "MX"], ["www.elsewhere", "A"], ["many.example", "A"],
         ["www.example", "A", "+tcp"], ["example", "SOA", "+dnssec"], ["-x", "192.0.2.1"],
         ["svc.example", "SVCB"], ["web.example", "HTTPS"], ["other.example", "AAAA"], ["away.example", "A"],
         ["back.example", "PTR"], ["a.wild.example", "TXT"], ["secure.example", "DS"], ["_udp.example", "A"],
         ["text.example", "TXT", "+tcp"], ["example", "TYPE257"], [r"\119ww.example.", "A"], ["old.example", "DNAME"],
         ["missing.example", "MX", "+dnssec"], ["A", "IN", "www.example"], ["www.example", "IN", "A"], ["-t", "MX", "example"], ["-tMX", "-qexample", "+nodnssec"]]
WRONG = [(["@192.0.2.1:53", "example"], "@192.0.2.1:53"), (["-p", "0", "example"], "0"), (["example", "-t", "NOTYPE"], "NOTYPE"),
         (["a..b"], "a..b"), (["example", "@192.0.2.1", "elsewhere"], "elsewhere"), (["example", "NONE"], "NONE"),
         (["example", "+nssearch"], "start of a zone at each of its servers"), (["@::1%lo", "example"], "@::1%lo"), (["example", "+fast"], "+fast"),
         (["-x", "one"], "one"), (["example", "+tls"], "TLS"), (["-b", "192.0.2.1", "example"], "-b"), (["example", "IXFR=7"], "IXFR=7"),
         (["example", "+time=601"], "+time=601"), (["example", "AXFR"], "AXFR"), ([], "name"), (["-p"], "-p")]
# Words by which other flags are set, and parts of a message written.
LAYOUTS = [["www.example", "A", "+norec"], ["www.example", "A", "+cdflag", "+adflag"], ["example", "SOA", "+nsid", "+dnssec"]]


def nsd(folder, port):
    (folder / "nsd.conf").write_text("""server:
  ip-address: 127.0.0.1@%d
  username: ""
  chroot: ""
  zonesdir: "%s"
  database: ""
  pidfile: "%s/nsd.pid"
  xfrdfile: "%s/xfrd"
  xfrdir: "%s"
  zonelistfile: "%s/zonelist"
  rrl-ratelimit: 0
remote-control:
  control-enable: no
zone:
  name: example.
  zonefile: zone
""" % (port, *[folder] * 5))
    return ["nsd", "-d", "-c", str(folder / "nsd.conf")]


def named(folder, port):
    (folder / "named.conf").write_text("""options {
  directory "%s";
  pid-file "%s/named.pid";
  session-keyfile "%s/session.key";
  listen-on port %d { 127.0.0.1; };
  listen-on-v6 { none; };
  recursion no;
  dnssec-validation no;
  minimal-responses no;
};
controls { };
zone "example" { type primary; file "zone"; check-names ignore; };
""" % (folder, folder, folder, port))
    return ["named", "-g", "-c", str(folder / "named.conf")]


def knotd(folder, port):
    (folder / "knot.conf").write_text("""server:
  listen: 127.0.0.1@%d
  rundir: "%s"
database:
  storage: "%s"
zone:
  - domain: example
    storage: "%s"
    file: zone
    semantic-checks: off
""" % (port, folder, folder, folder))
    return ["knotd", "-c", str(folder / "knot.conf")]


def serve(kind, folder):
    """The server and its port, once it answers; none where it is not installed or does not serve."""
    words = {"nsd": nsd, "named": named, "knotd": knotd}[kind]
    if not shutil.which(kind):
        print("left out: %s is not installed" % kind)
        return None
    port = free_port()
    (folder / "zone").write_text(ZONE + "".join("many A 10.0.%d.%d\n" % (n // 256, n % 256) for n in range(100)))
    server = subprocess.Popen(words(folder, port), stdout=subprocess.DEVNULL, stderr=open(folder / "log", "w"))
    for _ in range(100):
        time.sleep(0.1)
        if server.poll() is not None:
            break
        asked = subprocess.run(["kdig", "+short", "+time=1", "+retry=0", "@127.0.0.1", "-p", str(port), "www.example", "A"],
                               capture_output=True, text=True).stdout
        if "192.0.2.1" in asked:
            return server, port
    server.kill()
    print("left out: %s does not serve: %s" % (kind, (folder / "log").read_text()[-300:]))
    return None


def read(text):
    """The response code, the flags, the counts without OPT records, and the records of each section with single blanks."""
    status = re.search(r"status: ([A-Z0-9]+)", text).group(1)
    flags = re.search(r"Flags:([a-z ]*);", text).group(1).split()
    counts = [int(n) for n in re.search(r"QUERY: (\d+); ANSWER: (\d+); AUTHORITY: (\d+); ADDITIONAL: (\d+)", text).groups()]
    counts[3] -= 1 if "EDNS PSEUDOSECTION" in text else 0
    sections = {}
    for title in ("QUESTION", "ANSWER", "AUTHORITY", "ADDITIONAL"):
        part = re.search(r";; %s SECTION:\n(.*?)(\n\n|\Z)" % title, text, re.S)
        sections[title] = sorted(alike(" ".join(line.split())) for line in part.group(1).splitlines()) if part else []
    return status, flags, counts, sections


def keepalive(text):
    """The octets of the option by which a server says how long a stream may be idle (RFC 7828), which kdig does not ask for."""
    option = re.search(r";; Option \(11\): ([0-9A-F]*)\n", text)
    return 4 + len(option.group(1)) // 2 if option else 0


def run(program, words):
    ran = subprocess.run([program, *words], capture_output=True, text=True, stdin=subprocess.DEVNULL, errors="replace")
    return ran.returncode, ran.stdout, ran.stderr


def compare(program, kind, port):
    at = ["@127.0.0.1", "-p", str(port)]
    for words in ASKED + LAYOUTS:
        called = "%s %s" % (kind, " ".join(words))
        status, out, said = run(program, at + words)
        expect(status == 0 and said == "", "%s: status %d, %s" % (called, status, said))
        asked = subprocess.run(["kdig", "+edns=0", "+bufsize=1232", "+retry=0", *at, *words], capture_output=True, text=True, check=True).stdout
        ours, theirs = read(out), read(asked)
        for what, one, other in zip(("response code", "flags", "counts"), ours, theirs):
            expect(one == other, "%s: its %s: %s, not %s" % (called, what, one, other))
        for title, records in ours[3].items():
            expect(records == theirs[3][title], "%s: its %s section: %s, not %s" % (called, title, records, theirs[3][title]))
        way = re.search(r"@%d\((UDP|TCP)\)" % port, asked).group(1)
        expect(";; SERVER: 127.0.0.1:%d (%s)\n" % (port, way) in out, "%s: its server" % called)
        size = int(re.search(r";; Received (\d+) B", asked).group(1)) + keepalive(out)
        expect(";; MSG SIZE  rcvd: %d\n" % size in out, "%s: its size is not %d" % (called, size))
        print("%s: %s, %s records by %s" % (called, ours[0], ours[2][1:], way))
    for words, ends in ((["alias.example", "A"], 0), (["text.example", "TXT"], 0), (["missing.example", "A"], 9), (["www.example", "MX"], 10), (["www.elsewhere", "A"], 11)):
        status, out, _ = run(program, at + words + ["+short"])
        asked = subprocess.run(["kdig", "+short", "+retry=0", *at, *words], capture_output=True, text=True, check=True).stdout
        expect(status == ends and sorted(out.splitlines()) == sorted(asked.splitlines()), "%s %s +short: %s" % (kind, words, out))
    status, out, _ = run(program, at + ["www.example", "+short"])
    expect(status == 0 and sorted(out.split()) == ["192.0.2.1", "192.0.2.2", "2001:db8::1"], "%s: A and AAAA: %s" % (kind, out))
    print("%s: +short agrees" % kind)
    several(program, kind, at)
    objects(program, kind, at)


def several(program, kind, at):
    """Several names on a line, and parts of their answers."""
    shown = subprocess.run(["kdig", "+noall", "+answer", "+retry=0", *at, "www.example", "A"], capture_output=True, text=True, check=True).stdout
    status, out, said = run(program, at + ["+noall", "+answer", "www.example", "A", "mail.example", "A", "+short"])
    lines = [" ".join(line.split()) for line in out.splitlines()]
    theirs = [" ".join(line.split()) for line in shown.splitlines() if line and not line.startswith(";")]
    expect((status, said) == (0, "") and sorted(lines[:-1]) == sorted(theirs) and lines[-1:] == ["192.0.2.25"], "%s: two names: %s" % (kind, lines))
    status, out, said = run(program, at + ["example", "SOA", "+multiline", "+noall", "+answer"])
    expect(status == 0 and re.search(r"\t7\t; serial\n\t+3600\t; refresh \(1 hour\)\n", out), "%s: an SOA on several lines: %s" % (kind, out))
    print("%s: several names agree" % kind)


def objects(program, kind, at):
    """Each member of the object of a message that both write, but for those of one message alone."""
    def plain(one):
        return {name: value for name, value in one.items() if name not in ("dateString", "dateSeconds", "msgLength", "ID")}

    def flat(records):
        # kdig has no presentation form of a type without a name.
        left = [{name: value for name, value in one.items() if name not in ("RDLENGTH", "RDATAHEX") and not name.startswith("rdataTYPE")} for one in records]
        return sorted(json.dumps(one, sort_keys=True) for one in left)

    for words in (["www.example", "A"], ["example", "MX"], ["text.example", "TXT"], ["missing.example", "A"], ["example", "SOA", "+dnssec"], ["strange.example", "TYPE65400"]):
        status, out, said = run(program, at + words + ["+json"])
        theirs = plain(json.loads(subprocess.run(["kdig", "+json", "+edns=0", "+bufsize=1232", "+retry=0", *at, *words], capture_output=True, text=True, check=True).stdout))
        ours = plain(json.loads(out))
        expect(status == 0 and said == "" and out.count("\n") == 1, "%s: %s as JSON: %s" % (kind, words, said))
        for name, value in theirs.items():
            if name.endswith("RRs"):
                expect(flat(ours[name]) == flat(value), "%s: %s as JSON: %s: %s" % (kind, words, name, ours[name]))
            else:
                expect(ours[name] == value, "%s: %s as JSON: %s: %s, not %s" % (kind, words, name, ours[name], value))
    print("%s: +json agrees" % kind)


def lie(server, changed):
    """Answers every datagram with what is changed of it."""
    while True:
        try:
            octets, peer = server.recvfrom(65535)
        except OSError:
            return
        server.sendto(changed(octets), peer)


def unanswered(program):
    def ends(what, port, brought):
        began = time.monotonic()
        status, out, said = run(program, ["@127.0.0.1", "-p", str(port), "www.example", "A", "+time=2"])
        took = time.monotonic() - began
        expect(status == 5 and out == "", "%s: status %d, %s" % (what, status, out))
        lines = said.splitlines()
        expect(lines[0].startswith("dns_lookup: no answer"), "%s: %s" % (what, said))
        told = ["dns_lookup: 127.0.0.1:%d (UDP)%s: %s" % (port, often, brought) for often in [re.search(r"\(UDP\)(, asked \d+ times)?: ", said).group(1) or ""]]
        expect(lines[1:] == told and ", asked " in told[0], "%s: %s" % (what, said))
        expect(took < 4, "%s: it took %.1f s" % (what, took))
        print("%s: %s after %.2f s" % (what, said.strip(), took))

    ends("a port where nobody listens", free_port(), "connection refused")
    other_id = lambda octets: bytes([octets[0] ^ 1]) + octets[1:2] + b"\x84\x00" + octets[4:]
    other_name = lambda octets: octets[:2] + b"\x84\x00" + octets[4:13] + b"x" + octets[14:]
    short = lambda octets: octets[:11]
    lies = (("a silent server", None, "no answer"), ("a server with another id", other_id, "an answer with another id"),
            ("one with another question", other_name, "an answer to another question, or one that can't be read"),
            ("one with few octets", short, "octets that are no message"))
    for what, changed, brought in lies:
        with socket.socket(socket.AF_INET, socket.SOCK_DGRAM) as server:
            server.bind(("127.0.0.1", 0))
            if changed:
                threading.Thread(target=lie, args=(server, changed), daemon=True).start()
            ends(what, server.getsockname()[1], brought)


def wrong_words(program):
    for words, named_word in WRONG:
        status, out, said = run(program, words)
        expect(status == 2 and out == "", "%s: status %d, %s" % (words, status, out))
        expect(named_word in said and said.startswith("dns_lookup: ") and said.count("\n") == 1, "%s: %s" % (words, said))
    print("wrong words are named")


def main():
    if len(sys.argv) < 2:
        sys.exit(__doc__)
    program = os.path.abspath(sys.argv[1])
    wrong_words(program)
    unanswered(program)
    if not shutil.which("kdig"):
        skipped("kdig is missing")
    compared = 0
    for kind in ("nsd", "named", "knotd"):
        with tempfile.TemporaryDirectory() as made:
            started = serve(kind, Path(made))
            if started:
                server, port = started
                try:
                    compare(program, kind, port)
                    compared += 1
                finally:
                    server.terminate()
                    server.wait()
    if not compared:
        skipped("there is no server")
    print("all agree")


if __name__ == "__main__":
    main()
