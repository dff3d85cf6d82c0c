#!/usr/bin/env python3
"""Asks real servers through `dns_forward`, and compares what comes with what they answer when they are asked directly.

    sudo python3 tests/ask_forwarder.py PROGRAM [SERVER..]

PROGRAM is the built dns_forward. NSD, BIND, Knot and Unbound, as far as they are installed (or those that are named: nsd, named, knotd,
unbound), serve one zone on loopback, each at a high port of its own, and a forwarder stands before each. In this order, which ends with
status 1 at the first difference:

ninety: kdig asks both each question of tests/forwarder_questions.py; the status, the sections record by record and the flags agree, and
the TTLs of the first answer. A second answer, which comes of what is kept, has no AA, and its TTLs are those of the time that went by.
sections: dig, kdig and drill ask both, by datagrams and by a stream, with and without OPT, with DO, at small sizes; the sections agree,
record by record, but for TTLs and OPT. Twice, so that the second answer comes of what is kept.
clients: two with cookies, one without EDNS and one with DO get OPT as RFC 6891 and RFC 7873 allow: none where they sent none, and else
one of version 0 without options, with DO as they sent it.
odd: queries that a cache must not be poisoned by, each before a plain one, which must be answered as the server does.
getent (Unbound) and dnsperf (the first server): glibc's resolver is answered, over a configuration in a mount namespace of its own; so is every query of dnsperf's.
ends: SIGTERM ends it within a second. Before the first server also: other addresses of this host, IPv6 too, are listened; a dead server is passed
by; a port in use is status 5, and 0.0.0.0 and :: are status 2, each with its sentence; files are read as they are found; with standard error closed it goes on.

What needs a tool that is not installed, or a namespace that can't be made, is left out, and that is said. How it stands up to load and to who
means it ill: tests/press_forwarder.py.
"""

import atexit
import os
import re
import shutil
import signal
import socket
import struct
import subprocess
import sys
import tempfile
import time
from pathlib import Path

from ask_servers import SERVERS, expect, free_port, name_at, skipped, zone
from forwarder_questions import ASKED, RECORDS

NAMES = [("www.example", "A"), ("WwW.eXample", "A"), ("alias.example", "A"), ("missing.example", "A"), ("mail.example", "MX"), ("many.example", "A"),
         ("huge.example", "TXT"), ("www.elsewhere", "A")]
NAMED = {"NS", "CNAME", "SOA", "PTR", "MX", "SRV", "DNAME", "RP", "AFSDB"}
TURNS = "18446744073709551615"
STARTED = []
atexit.register(lambda: [it.kill() for it in STARTED])
WAYS = {
    "dig": [["+notcp"], ["+tcp"], ["+noedns"], ["+dnssec"], ["+bufsize=600"], ["+ignore", "+noedns"], ["+norec"], ["+cd"]],
    "kdig": [[], ["+tcp"], ["+dnssec"], ["+noedns"]],
    "drill": [[], ["-t"], ["-D"]],
}


def question(name, rtype):
    labels = [label.encode() for label in name.split(".") if label]
    return b"".join(bytes([len(label)]) + label for label in labels) + b"\0" + struct.pack(">HH", rtype, 1)


def query(name, rtype=1, flags=0x0100, qd=1, answers=b"", an=0, rules=b"", ns=0, more=b"", ar=0, behind=b"", number=0x4242):
    return struct.pack(">HHHHHH", number, flags, qd, an, ns, ar) + question(name, rtype) + answers + rules + more + behind


def opt(version=0, options=b"", size=1232, flags=0):
    return b"\0" + struct.pack(">HHBBHH", 41, size, 0, version, flags, len(options)) + options


def record(name, rtype, data):
    return question(name, rtype) + struct.pack(">IH", 60, len(data)) + data


def by_datagram(port, octets, seconds=3, at="127.0.0.1"):
    """The answer that comes by a datagram from where it was asked, if one does."""
    with socket.socket(socket.AF_INET6 if ":" in at else socket.AF_INET, socket.SOCK_DGRAM) as s:
        s.settimeout(seconds)
        s.connect((at, port))
        try:
            s.send(octets)
            return s.recv(65535)
        except OSError:
            return None


def stream(port):
    s = socket.create_connection(("127.0.0.1", port))
    s.settimeout(10)
    return s


def framed(octets):
    return struct.pack(">H", len(octets)) + octets


def frame(s):
    head = b""
    while len(head) < 2:
        more = s.recv(2 - len(head))
        if not more:
            return None
        head += more
    left, octets = struct.unpack(">H", head)[0], b""
    while len(octets) < left:
        more = s.recv(left - len(octets))
        if not more:
            return None
        octets += more
    return octets


def status(octets):
    return None if octets is None else octets[3] & 15


def sections(tool, way, port, name, rtype):
    """The records of an answer and its status, without TTLs and OPT."""
    if tool == "drill":
        # Its own sizes differ from query to query only by what it is told.
        words = ["drill", "-p", str(port)] + way + ["@127.0.0.1", name, rtype]
    else:
        words = [tool, "-p", str(port), "@127.0.0.1", name, rtype, "+nocookie" if tool == "dig" else "+nocookie", "+retry=0", "+time=5"] + way
    out = subprocess.run(words, capture_output=True, text=True, timeout=30).stdout
    found = re.search(r"(?:status|rcode): (\w+)", out)
    lines = []
    for line in out.splitlines():
        if line and not line.startswith((";", " ")):
            owner, _ttl, rest = re.split(r"\s+", line, maxsplit=2)
            lines.append(owner.lower() + " " + re.sub(r"\s+", " ", rest).lower())
    return found and found.group(1), sorted(lines), " tc" in out or " TC" in out


def compare_sections(what, server, port):
    count = 0
    for tool, ways in WAYS.items():
        if not shutil.which(tool):
            print("skipped: no " + tool)
            continue
        for way in ways:
            for name, rtype in NAMES:
                if tool == "drill" and rtype == "ANY":
                    continue
                direct = sections(tool, way, server, name, rtype)
                for turn in ["first", "kept"]:
                    through = sections(tool, way, port, name, rtype)
                    count += 1
                    # What is cut where the direct one is not, and the other way round, agrees in what it has.
                    if direct[2] or through[2]:
                        expect(direct[0] == through[0], "%s: %s %s %s %s (%s): %r, directly %r" % (what, tool, way, name, rtype, turn, through, direct))
                        continue
                    expect(direct == through, "%s: %s %s %s %s (%s): %r, directly %r" % (what, tool, way, name, rtype, turn, through, direct))
    print("%s: %d answers have the sections of those asked for directly" % (what, count))


def odd_queries():
    tsig = record("key", 250, question("hmac-sha256", 0)[:-4] + b"\0" * 6 + struct.pack(">HH", 300, 0) + struct.pack(">HHH", 0x4242, 0, 0))
    address = b"\1\2\3\4"
    return [
        ("an answer record", lambda n: query(n, answers=record(n, 1, address), an=1), 1),
        ("an authority record", lambda n: query(n, rules=record(n, 1, address), ns=1), 1),
        ("a TSIG record", lambda n: query(n, more=tsig, ar=1), 1),
        ("two OPT records", lambda n: query(n, more=opt() + opt(1), ar=2), 1),
        ("version 1 of EDNS", lambda n: query(n, more=opt(1), ar=1), 0),
        ("RCODE 5", lambda n: query(n, flags=0x0105), 0),
        ("TC", lambda n: query(n, flags=0x0300), 0),
        ("AA and Z", lambda n: query(n, flags=0x0540), 0),
        ("an option that ends behind its record", lambda n: query(n, more=opt(0, b"\0\1\0\5a"), ar=1), 1),
        ("NSID", lambda n: query(n, more=opt(0, b"\0\3\0\0"), ar=1), 0),
        ("a cookie", lambda n: query(n, more=opt(0, b"\0\12\0\10abcdefgh"), ar=1), 0),
        ("a size of 0", lambda n: query(n, more=opt(0, b"", 0), ar=1), 0),
        ("type OPT", lambda n: query(n, 41), 1),
        ("AXFR", lambda n: query(n, 252), 5),
        ("IXFR", lambda n: query(n, 251), 5),
        ("NOTIFY", lambda n: query(n, flags=0x2400), 4),
        ("UPDATE", lambda n: query(n, flags=0x2800), 4),
        ("no question", lambda n: query(n, qd=0), 1),
        ("two questions", lambda n: query(n, qd=2, behind=question(n, 1)), 1),
        ("octets behind it", lambda n: query(n, behind=b"junk"), 0),
        ("a response", lambda n: query(n, flags=0x8100), None),
        ("eleven octets", lambda n: query(n)[:11], None),
    ]


def ask_odd(what, port):
    for at, (why, made, wanted) in enumerate(odd_queries()):
        name = "o%d.example" % at
        got = by_datagram(port, made(name), 0.3 if wanted is None else 3)
        expect(status(got) == wanted, "%s: a query with %s: %r" % (what, why, got))
        for rtype in [1, 1]:
            plain = by_datagram(port, query(name, rtype, number=7))
            expect(plain is not None and plain[:2] == b"\0\7" and status(plain) == 0 and plain[7] == 1, "%s: a plain query behind one with %s: %r" % (what, why, plain))
            expect(b"\xc0\x0c\0\1\0\1" in plain and bytes([0, 4, 10, 9, 0, at]) in plain, "%s: a plain query behind one with %s: %r" % (what, why, plain))
            expect(opt()[:5] not in plain, "%s: OPT in the answer of a plain query behind one with %s: %r" % (what, why, plain))
    print("%s: %d odd queries poison nothing" % (what, len(odd_queries())))


def knotd(folder, port):
    (folder / "knot.conf").write_text(
        "server:\n  rundir: %s\n  listen: 127.0.0.1@%d\ndatabase:\n  storage: %s\ntemplate:\n  - id: default\n    storage: %s\n"
        "    zonefile-load: whole\n    zonefile-sync: -1\n    journal-content: none\nzone:\n  - domain: example.\n    file: zone\n" % (folder, port, folder, folder))
    return ["knotd", "-c", str(folder / "knot.conf")]


def by_kdig(port, name, rtype):
    """The status of an answer, its flags, and of each section the records, as text without TTLs, and the TTLs."""
    words = ["kdig", "+noidn", "+retry=0", "+time=9", "+edns=0", "+bufsize=1232", "@127.0.0.1", "-p", str(port), "-q", name, "-t", rtype]
    out = subprocess.run(words, capture_output=True, text=True).stdout
    head, flags = re.search(r"status: (\w+);", out), re.search(r"Flags: ([a-z ]*);", out)
    sections, ttls = [], []
    for title in ["ANSWER", "AUTHORITY", "ADDITIONAL"]:
        part = re.search(r";; %s SECTION:\n(.*?)(\n\n|\Z)" % title, out, re.S)
        records = []
        for line in part.group(1).splitlines() if part else []:
            owner, ttl, rclass, kind, data = (re.split(r"\s+", line, maxsplit=4) + [""])[:5]
            data = re.sub(r"\s+", " ", data)
            # Letters of names are equal in either case, and a server may spell one as it was asked.
            records.append((owner.lower(), rclass, kind, data.lower() if kind in NAMED else data, int(ttl)))
        records.sort()
        sections.append([it[:4] for it in records])
        ttls += [it[4] for it in records]
    return head and head.group(1), set(flags.group(1).split()) if flags else None, sections, ttls


def ask_ninety(what, server, port):
    if not shutil.which("kdig"):
        return print("skipped: no kdig")
    codes = {}
    for name, rtype in ASKED:
        began = time.time()
        code, flags, sections, ttls = by_kdig(server, name, rtype)
        expect(code is not None, "%s: %s %s asked directly" % (what, name, rtype))
        codes[code] = codes.get(code, 0) + 1
        for turn in ["first", "kept"]:
            got = by_kdig(port, name, rtype)
            where = "%s: %s %s (%s)" % (what, name, rtype, turn)
            expect((got[0], got[2]) == (code, sections), "%s: %r, directly %r" % (where, got, (code, sections)))
            expect(got[1] in [flags, flags - {"aa"}], "%s: flags %r, directly %r" % (where, got[1], flags))
            ages = [before - after for before, after in zip(ttls, got[3])]
            expect(all(0 <= age <= 2 + time.time() - began + 300 for age in ages), "%s: TTLs %r, directly %r" % (where, got[3], ttls))
    print("%s: %d questions are answered as directly: %s" % (what, len(ASKED), codes))


def opt_in(octets):
    """The OPT record of an answer: its size, the high bits of the code, its version, its flags and its data."""
    counts, at, found = struct.unpack(">HHHH", octets[4:12]), 12, []
    for _ in range(counts[0]):
        at = name_at(octets, at)[1] + 4
    for _ in range(sum(counts[1:])):
        at = name_at(octets, at)[1]
        rtype, size, code, version, flags, length = struct.unpack(">HHBBHH", octets[at:at + 10])
        if rtype == 41:
            found.append((size, code, version, flags, octets[at + 10:at + 10 + length]))
        at += 10 + length
    return found


def ask_clients(what, port):
    plain = (1232, 0, 0, 0, b"")
    clients = [("a client with a cookie", opt(0, b"\0\12\0\10abcdefgh"), [plain]), ("another with a cookie", opt(0, b"\0\12\0\10ijklmnop"), [plain]),
               ("one without EDNS", b"", []), ("one with DO", opt(flags=0x8000), [(1232, 0, 0, 0x8000, b"")]),
               ("one with a cookie and DO", opt(0, b"\0\12\0\10qrstuvwx", flags=0x8000), [(1232, 0, 0, 0x8000, b"")])]
    for name, rtype in [("www.example", 1), ("mail.example", 15), ("none.example", 1), ("www.elsewhere", 1), ("many.example", 1)]:
        for _ in range(2):
            for why, more, wanted in clients:
                asked = query(name, rtype, more=more, ar=1 if more else 0, number=0x7777)
                for got in [by_datagram(port, asked), by_stream(port, asked)]:
                    expect(got is not None and got[:2] == b"ww" and got[12:12 + len(question(name, rtype))] == question(name, rtype), "%s: %s: %r" % (what, why, got))
                    expect(opt_in(got) == wanted, "%s: %s asks for %s: %r" % (what, why, name, opt_in(got)))
    print("%s: clients with cookies, without EDNS and with DO get OPT as they may" % what)


def by_stream(port, octets):
    with stream(port) as s:
        s.sendall(framed(octets))
        return frame(s)


def start(program, port, server, options=(), conf=b"nameserver 127.0.0.1\n", **how):
    """A forwarder that is listened at a port and asks a server, once it can be asked."""
    forwarder = subprocess.Popen([program, *options, "--port", str(server), str(port), TURNS], stdin=subprocess.PIPE, **how)
    forwarder.stdin.write(conf)
    forwarder.stdin.close()
    at = options[1] if options[:1] == ["--listen"] else "127.0.0.1"
    STARTED.append(forwarder)
    for _ in range(200):
        if forwarder.poll() is not None or by_datagram(port, query("example", 252), 0.1, at) is not None:
            break
        time.sleep(0.05)
    return forwarder


def ends_by(forwarder, number):
    forwarder.send_signal(number)
    try:
        return forwarder.wait(1)
    except subprocess.TimeoutExpired:
        forwarder.kill()
        return None


def ask_getent(program, server, folder):
    """glibc's resolver asks port 53 alone, of the servers of /etc/resolv.conf. It takes an answer without records, AA and RA for none, so that the server behind
    must be a resolver."""
    if not shutil.which("getent") or subprocess.run(["unshare", "--mount", "true"], stderr=subprocess.DEVNULL).returncode:
        return print("skipped: no getent, or no mount namespace can be made")
    (folder / "resolv.conf").write_text("nameserver 127.0.0.153\n")
    (folder / "nsswitch.conf").write_text("hosts: dns\n")
    forwarder = start(program, 53, server, ["--listen", "127.0.0.153"])
    if forwarder.poll() is not None:
        return print("skipped: port 53 can't be listened")
    mounted = "".join("mount --bind %s/%s /etc/%s && " % (folder, name, name) for name in ["resolv.conf", "nsswitch.conf"])
    for words, wanted in [("ahosts www.example", {"192.0.2.1", "192.0.2.2", "2001:db8::1"}), ("hosts www.example", {"2001:db8::1"}), ("ahostsv4 chain1.example", {"192.0.2.1", "192.0.2.2"}),
                          ("ahosts missing.example", set()), ("ahostsv4 many.example", {"10.0.0.%d" % n for n in range(200)})]:
        ran = subprocess.run(["unshare", "--mount", "--propagation", "private", "sh", "-c", mounted + "getent " + words], capture_output=True, text=True)
        found = {line.split()[0] for line in ran.stdout.splitlines()}
        expect(found == wanted, "getent %s: %r, %s" % (words, found, ran.stderr))
    ends_by(forwarder, signal.SIGKILL)
    print("getent: glibc's resolver is answered")


def ask_dnsperf(port, folder):
    if not shutil.which("dnsperf"):
        return print("skipped: no dnsperf")
    (folder / "asked").write_text("".join("o%d.example A\nn%d.wild.example A\nwww.example AAAA\n" % (n % len(odd_queries()), n) for n in range(2000)))
    out = subprocess.run(["dnsperf", "-s", "127.0.0.1", "-p", str(port), "-d", str(folder / "asked"), "-n", "2", "-c", "4", "-q", "40"], capture_output=True, text=True).stdout
    told = re.search(r"Queries completed:\s+(\d+)", out), re.search(r"NOERROR (\d+)", out)
    expect(all(it and int(it.group(1)) == 12000 for it in told), "dnsperf: " + out)
    print("dnsperf: 12000 queries are answered")


def is_sentence(told, beginning):
    """Whether one line is told, which begins so behind the program's name."""
    return told.count(b"\n") == 1 and told.endswith(b"\n") and told.startswith(b"dns_forward: " + beginning.encode())


def ask_words(program, server):
    port = free_port()
    for words, named in [(["--listen", "0.0.0.0", "5353", "1"], "--listen 0.0.0.0: "), (["--listen", "::", "5353", "1"], "--listen ::: "), (["--policy", "other", "5353", "1"], "--policy other: "),
                         (["0", "1"], "0: "), (["--entries"], "--entries: "), ([], "no port")]:
        ran = subprocess.run([program, *words], input=b"nameserver 127.0.0.1\n", capture_output=True)
        expect((ran.returncode, ran.stdout) == (2, b"") and is_sentence(ran.stderr, named), "%r: status %d, %r, %r" % (words, ran.returncode, ran.stdout, ran.stderr))
    for words in ["--help"], ["--version"]:
        ran = subprocess.run([program, *words], stdin=subprocess.DEVNULL, capture_output=True)
        expect(ran.returncode == 0 and ran.stdout.startswith((b"usage: dns_forward", b"dns_forward ")) and ran.stderr == b"", "%r: status %d, %r" % (words, ran.returncode, ran.stdout))
    note = "dns_forward: line 1 has something else than one address behind nameserver\n"
    for words, conf, wanted, told in [
            ([], "nameserver x\n", (1, b"no nameserver line is taken\n"), note + "dns_forward: standard input: no nameserver line is taken\n"),
            ([], "nameserver 127.0.0.1:5353\nnameserver 127.0.0.1\n", (0, b"answered 0\n"), note),
            ([], "nameserver fe80::1%lo\n", (0, b"answered 0\n"), "dns_forward: line 1 has a zone identifier, which is dropped with what stands behind it\n"),
            ([], "nameserver 127.0.0.1 # main\n", (0, b"answered 0\n"), ""),
            (["--policy", "crate"], "nameserver x\n", (1, b"line 1 refused\n"), "dns_forward: standard input: line 1 refused\n"),
            (["--policy", "crate"], "nameserver 127.0.0.1\n", (0, b"answered 0\n"), "")]:
        ran = subprocess.run([program, *words, "--port", str(server), str(port), "1"], input=conf.encode(), capture_output=True)
        expect((ran.returncode, ran.stdout, ran.stderr) == (*wanted, told.encode()), "%r %r: status %d, %r, %r" % (words, conf, ran.returncode, ran.stdout, ran.stderr))
    with socket.socket(socket.AF_INET, socket.SOCK_DGRAM) as used:
        used.bind(("127.0.0.1", port))
        ran = subprocess.run([program, "--port", str(server), str(port), "1"], input=b"nameserver 127.0.0.1\n", capture_output=True)
    expect((ran.returncode, ran.stdout) == (5, b"") and is_sentence(ran.stderr, "can't listen at port %d of 127.0.0.1: address in use" % port), "a port in use: status %d, %r" % (ran.returncode, ran.stderr))
    ran = subprocess.run([program, "--port", str(port), str(port), "1"], input=b"nameserver 127.0.0.1\n", capture_output=True)
    expect(ran.returncode == 5 and is_sentence(ran.stderr, "the server 127.0.0.1:%d is this very forwarder" % port), "a server that is the forwarder: status %d, %r" % (ran.returncode, ran.stderr))
    listens = ["--listen", "127.0.0.2", "--listen", "127.0.0.3"]
    if Path("/proc/net/if_inet6").exists() and Path("/proc/net/if_inet6").read_text():
        listens += ["--listen", "::1"]
    forwarder = start(program, port, server, listens)
    for at in listens[1::2]:
        got = by_datagram(port, query("www.example"), 3, at), by_stream_at(at, port, query("www.example"))
        expect(all(it is not None and status(it) == 0 and it[7] == 2 for it in got), "listened at %s: %r" % (at, got))
    expect(by_datagram(port, query("www.example"), 0.3) is None, "it is listened at an address that was not said")
    ends_by(forwarder, signal.SIGKILL)
    closed = subprocess.Popen(["sh", "-c", 'exec "$@" 2>&-', "", program, "--status", "1", "--port", str(server), str(port), TURNS], stdin=subprocess.PIPE)
    STARTED.append(closed)
    closed.stdin.write(b"nameserver 127.0.0.1\n")
    closed.stdin.close()
    time.sleep(2.5)
    got = by_datagram(port, query("www.example"))
    expect(closed.poll() is None and got is not None and status(got) == 0, "with standard error closed: %r, %r" % (closed.poll(), got))
    ends_by(closed, signal.SIGKILL)
    told = start(program, port, server, ["--status", "1"], stderr=subprocess.PIPE)
    for _ in range(3):
        expect(by_datagram(port, query("www.example")) is not None, "no answer beside --status")
    time.sleep(2.2)
    ends_by(told, signal.SIGKILL)
    lines = told.stderr.read().decode().splitlines()
    found = [re.match(r"dns_forward: queries (\d+), hits (\d+), misses (\d+), refused (\d+), waiting (\d+), stale (\d+), entries (\d+), memory [1-9]\d* KiB$", it) for it in lines]
    expect(len(lines) >= 2 and all(found), "--status 1: %r" % lines)
    queries, hits, misses, refused, waiting, stale, entries = map(int, found[-1].groups())
    expect(queries == hits + misses + refused and hits >= 2 and misses >= 1 and [waiting, stale, entries] == [0, 0, 1], "--status 1 counts otherwise: %r" % lines[-1])
    practised = start(program, port, server, [], conf=b"nameserver 127.0.0.77\nnameserver 127.0.0.1\n")
    for n in range(8):
        got = by_datagram(port, query("o%d.example" % n))
        expect(got is not None and status(got) == 0 and got[7] == 1, "a dead server: %r" % got)
    ends_by(practised, signal.SIGKILL)
    print("words: the statuses and their sentences, files as they are found, other addresses, standard error closed, --status and a dead server")


def by_stream_at(at, port, octets):
    with socket.create_connection((at, port), 5) as s:
        s.sendall(framed(octets))
        return frame(s)


def main():
    if len(sys.argv) < 2:
        sys.exit(__doc__)
    program = os.path.abspath(sys.argv[1])
    made = {"nsd": SERVERS["nsd"], "named": SERVERS["named"], "knotd": knotd, "unbound": SERVERS["unbound"]}
    servers = [(name, made[name]) for name in sys.argv[2:] or made if shutil.which(name)]
    if not servers or not shutil.which("dig"):
        skipped("none of the servers, or no dig")
    for number, (name, serving_words) in enumerate(servers):
        with tempfile.TemporaryDirectory() as place:
            folder = Path(place)
            os.chmod(place, 0o755)
            (folder / "zone").write_text(zone() + RECORDS + "".join("o%d A 10.9.0.%d\n" % (n, n) for n in range(len(odd_queries()))))
            server, port = free_port(), free_port()
            with open(folder / "server.log", "wb") as log:
                serving = subprocess.Popen(serving_words(folder, server), stdout=log, stderr=log)
            forwarder = None
            try:
                for _ in range(100):
                    if status(by_datagram(server, query("www.example"), 0.2)) == 0:
                        break
                    time.sleep(0.1)
                else:
                    print((folder / "server.log").read_text())
                    skipped("the %s of this machine does not serve" % name)
                if number == 0:
                    ask_words(program, server)
                if name == "unbound":
                    ask_getent(program, server, folder)
                forwarder = start(program, port, server)
                expect(forwarder.poll() is None, "%s: the forwarder ended by %r" % (name, forwarder.poll()))
                ask_ninety(name, server, port)
                compare_sections(name, server, port)
                ask_clients(name, port)
                ask_odd(name, port)
                if number == 0:
                    ask_dnsperf(port, folder)
                expect(ends_by(forwarder, signal.SIGTERM) == -signal.SIGTERM, "%s: SIGTERM ends it by %r" % (name, forwarder.poll()))
            finally:
                for it in [serving, forwarder]:
                    if it and it.poll() is None:
                        it.kill()
                        it.wait()
    print("ok")


if __name__ == "__main__":
    main()
