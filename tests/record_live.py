#!/usr/bin/env python3
"""Records `dns_lookup` and `dns_forward` at work, and compares what was recorded with what servers and clients saw.

    python3 tests/record_live.py DNS_LOOKUP DNS_FORWARD DNSQ TRACE_AUDIT [lookup] [forward] [cost] [faults] [--seconds N] [--reference FOLDER] [--keep FOLDER]

The four are the built programs; without further words all four parts are run. An NSD serves a zone on loopback behind a relay of this script's own,
which keeps each datagram and each stream's octets that a client sends it, in order. In the second quarter of the time the relay says nothing, in the third it is closed,
so that clients are refused, and then it is back; some answers are truncated, so that clients come by streams.

lookup: lookups one behind another, for so many seconds (60), each recorded. Of each record: a replay by `dnsq replay` ends well; what it sends, datagram for
datagram and octet for octet, is what the relay got, and so is what it writes by streams; the addresses of its last reply are those that `dns_lookup` wrote, or there is none;
`trace_audit` says `right`, and so does tests/definitions (its `Right`, `Timely`, `Deferred`, `Hit` and `Stale`) and, where the reference's folder is named, its `check_right`.
The file is its owner's alone, and no other file is written over.

forward: `dns_forward --record` under dnsperf, held to 1,000 queries a second, for so many seconds, half of them for names that were not asked before. The same of its
record, as far as it goes: it ends at 16777216 octets. Beside dnsperf this script asks ten queries a second of its own, and what is answered to them has the records of the replies to them.

cost: queries a second of dnsperf without a limit, without a record and with one, in turn five times each: hits alone, and misses alone; and the processor time of the forwarder for one, which is
less at the mercy of other work. Where the median of that says that it answers more than 20% fewer in the same time, this ends with status 1.

faults: a record on a full device; on a tmpfs of 100 KiB; under RLIMIT_FSIZE; in a folder that is not there; over a file that is there. A forwarder's on a tmpfs that is full while it serves: it goes
on, and what was written is right. A record that is cut at each octet behind its head: its whole lines replay to the first rows. What a script can't tell is refused, by a line and status 8.

The first difference ends it with status 1. What needs a tool that is not installed is left out, and that is said. It runs as root.
"""

import argparse
import os
import random
import re
import resource
import shutil
import signal
import socket
import statistics
import subprocess
import sys
import tempfile
import threading
import time
from collections import Counter
from pathlib import Path

from ask_servers import expect, free_port, nsd, sections_of, skipped
from definitions import texts
from definitions.right import verdict

TOP = Path(__file__).resolve().parent.parent
FULL = 16777216
TURNS = "18446744073709551615"
ZONE = """$ORIGIN example.
$TTL 300
@ SOA ns hostmaster 7 3600 900 86400 300
@ NS ns
ns A 127.0.0.1
www A 192.0.2.1
www A 192.0.2.2
www AAAA 2001:db8::1
alias CNAME www
*.w A 192.0.2.7
""" + "".join('*.big A 10.0.%d.%d\n' % (n // 256, n % 256) for n in range(150))


class Relay:
    """Stands before a server on loopback and keeps what clients send; silent or closed while it is told so."""

    def __init__(self, server):
        self.server, self.port, self.silent, self.open = server, None, False, False
        self.datagrams, self.streams = [], []
        self.start()

    def start(self):
        self.udp = socket.socket(socket.AF_INET, socket.SOCK_DGRAM)
        self.udp.setsockopt(socket.SOL_SOCKET, socket.SO_RCVBUF, 8 << 20)
        self.udp.bind(("127.0.0.1", self.port or 0))
        self.port = self.udp.getsockname()[1]
        self.tcp = socket.socket(socket.AF_INET, socket.SOCK_STREAM)
        self.tcp.setsockopt(socket.SOL_SOCKET, socket.SO_REUSEADDR, 1)
        self.tcp.bind(("127.0.0.1", self.port))
        self.tcp.listen(256)
        self.up = socket.socket(socket.AF_INET, socket.SOCK_DGRAM)
        self.up.setsockopt(socket.SOL_SOCKET, socket.SO_RCVBUF, 8 << 20)
        self.up.connect(("127.0.0.1", self.server))
        self.open, self.waits = True, {}
        for work in (self.hear, self.answer, self.accept):
            threading.Thread(target=work, daemon=True).start()

    def close(self):
        self.open = False
        for one in (self.udp, self.tcp, self.up):
            try:
                one.shutdown(socket.SHUT_RDWR)
            except OSError:
                pass
            one.close()
        time.sleep(0.05)

    def hear(self):
        udp, up, waits, number = self.udp, self.up, self.waits, 0
        while self.open:
            try:
                query, peer = udp.recvfrom(65535)
            except OSError:
                return
            # A socket that is shut down gives an empty one.
            if query:
                self.datagrams.append(query)
            if self.silent or len(query) < 12:
                continue
            number = (number + 1) & 0xFFFF
            waits[number] = (query[:2], peer)
            try:
                up.send(number.to_bytes(2, "big") + query[2:])
            except OSError:
                pass

    def answer(self):
        udp, up, waits = self.udp, self.up, self.waits
        while self.open:
            try:
                reply = up.recv(65535)
            except ConnectionRefusedError:
                continue
            except OSError:
                return
            waiting = waits.pop(int.from_bytes(reply[:2], "big"), None)
            if waiting and not self.silent:
                try:
                    udp.sendto(waiting[0] + reply[2:], waiting[1])
                except OSError:
                    pass

    def accept(self):
        tcp = self.tcp
        while self.open:
            try:
                one, _ = tcp.accept()
            except OSError:
                return
            kept = bytearray()
            self.streams.append(kept)
            threading.Thread(target=self.carry, args=(one, kept), daemon=True).start()

    def carry(self, one, kept):
        with one:
            try:
                other = socket.create_connection(("127.0.0.1", self.server))
            except OSError:
                return
            threading.Thread(target=self.back, args=(other, one), daemon=True).start()
            with other:
                while self.open:
                    try:
                        octets = one.recv(65536)
                    except OSError:
                        return
                    if not octets:
                        return
                    kept += octets
                    if not self.silent:
                        other.sendall(octets)

    def back(self, other, one):
        while self.open:
            try:
                octets = other.recv(65536)
                if not octets:
                    return
                if not self.silent:
                    one.sendall(octets)
            except OSError:
                return


def seasons(relay, began, seconds, stop):
    """Silent in the second quarter of the time, closed in the third, and open again."""
    def until(share):
        stop.wait(max(0, began + share * seconds - time.monotonic()))

    until(0.25)
    relay.silent = True
    until(0.5)
    relay.silent = False
    if not stop.is_set():
        relay.close()
    until(0.75)
    if not relay.open:
        relay.start()


def serve_zone(folder):
    port = free_port()
    (folder / "zone").write_text(ZONE)
    server = subprocess.Popen(nsd(folder, port), stdout=subprocess.DEVNULL, stderr=open(folder / "log", "w"))
    for _ in range(100):
        time.sleep(0.1)
        asked = subprocess.run(["kdig", "+short", "+time=1", "+retry=0", "@127.0.0.1", "-p", str(port), "www.example", "A"], capture_output=True, text=True)
        if "192.0.2.1" in asked.stdout:
            return server, port
    server.kill()
    print("nsd does not serve: " + (folder / "log").read_text()[-300:])
    sys.exit(1)


class Trace:
    """A record, and the trace of its replay."""

    def __init__(self, programs, record, what):
        self.programs, self.what, self.record = programs, what, record
        self.script = record.with_suffix(".script")
        text = record.read_bytes()
        self.octets = len(text)
        # A record ends at its last whole line.
        self.script.write_bytes(text[:text.rfind(b"\n") + 1])
        ran = subprocess.run([programs.dnsq, "replay"], stdin=open(self.script), capture_output=True, timeout=900)
        expect(ran.returncode == 0, "%s: replay ends with %d: %s" % (what, ran.returncode, ran.stdout[-200:]))
        self.trace = record.with_suffix(".trace")
        self.trace.write_bytes(ran.stdout)
        self.lines = ran.stdout.decode().splitlines()
        events = [line for line in self.script.read_text().splitlines() if line.startswith("at ")]
        expect([line for line in self.lines if line.startswith("at ")] == events, what + ": the trace has other events")
        self.events = len(events)

    def outs(self, name):
        return [line.split()[2:] for line in self.lines if line.startswith("> %s " % name)]

    def sends(self):
        return [bytes.fromhex(words[-1]) for words in self.outs("send")]

    def writes(self):
        """What is written at each place, in the order in which they were opened."""
        at = {words[0]: bytearray() for words in self.outs("open-stream")}
        for line in self.lines:
            words = line.split()
            if line.startswith(("> write ", "> resume ")):
                at[words[2]] += bytes.fromhex(words[-1])
        return list(at.values())

    def replies(self):
        return {int(words[0]): words[1:] for words in self.outs("reply")}

    def judge(self, reference, most=None):
        """Whether it is right: by the auditor, by the definitions, and by a reference's judge; the two in Python of the first rows alone."""
        ran = subprocess.run([self.programs.trace_audit, str(self.script), str(self.trace)], capture_output=True, text=True, timeout=3600)
        expect(ran.returncode == 0 and ran.stdout.strip() == "right", "%s: the auditor says %r (%d)" % (self.what, ran.stdout[-200:], ran.returncode))
        script, trace = self.script, self.trace
        if most and self.events > most:
            script, trace = self.cut(most)
        found = verdict(texts.read_script(script.read_bytes()), texts.read_events(script.read_bytes()), texts.read_trace(trace.read_bytes()))
        expect(found == "right", "%s: the definitions say %s" % (self.what, found))
        if reference:
            judged = subprocess.run([sys.executable, "-m", "plain.check_right", "--stage", "17", str(script.resolve()), str(trace.resolve())], cwd=reference, capture_output=True, text=True)
            expect(judged.returncode == 0, "%s: check_right says %s" % (self.what, (judged.stdout + judged.stderr)[-300:]))

    def cut(self, most):
        """The script of its first events, and the trace of that."""
        head, count = [], 0
        for line in self.script.read_text().splitlines(True):
            count += line.startswith("at ")
            if count > most:
                break
            head.append(line)
        script = self.record.with_suffix(".first.script")
        script.write_text("".join(head))
        ran = subprocess.run([self.programs.dnsq, "replay"], stdin=open(script), capture_output=True, timeout=300)
        expect(ran.returncode == 0, self.what + ": a replay of the first events")
        trace = self.record.with_suffix(".first.trace")
        trace.write_bytes(ran.stdout)
        expect(ran.stdout.splitlines()[:-1] == [line.encode() for line in self.lines][:len(ran.stdout.splitlines()) - 1], self.what + ": the first events have other rows")
        return script, trace

    def picture(self, rows):
        script, trace = self.cut(rows) if self.events > rows else (self.script, self.trace)
        file = self.record.with_suffix(".svg")
        ran = subprocess.run([sys.executable, str(TOP / "tools/trace_picture")], stdin=open(trace), capture_output=True)
        expect(ran.returncode == 0, self.what + ": no picture")
        file.write_bytes(ran.stdout)
        return file


def same_sent(trace, relay, first=0, first_stream=0, ended=False):
    """What a replay sends is what the relay got: each datagram once, octet for octet, but for those that came while it was closed; and by streams, one by one.

    Each place has a socket of its own, so their order among one another is the system's. Where the record ended, more came behind it.
    """
    left, got = Counter(trace.sends()), 0
    for octets in relay.datagrams[first:]:
        if left[octets]:
            left[octets] -= 1
            got += 1
        else:
            expect(ended, "%s: the relay got a datagram that the replay does not send: %s" % (trace.what, octets.hex()))
    written, streams = [bytes(octets) for octets in trace.writes()], 0
    for kept in relay.streams[first_stream:]:
        octets = bytes(kept)
        at = next((n for n, one in enumerate(written) if one[:len(octets)] == octets), None)
        if at is None:
            expect(ended, trace.what + ": a stream's octets are none of the replay's")
        else:
            written.pop(at)
            streams += 1
    return got, sum(left.values()), streams


def mode_of(file):
    return file.stat().st_mode & 0o777


def addresses_of(octets):
    data = [record[2] for record in sections_of(octets)[1][0] if record[1] == 1]
    return sorted(".".join(map(str, octets)) for octets in data)


def lookup(programs, folder, options):
    server, port = serve_zone(folder)
    relay = Relay(port)
    began, stop = time.monotonic(), threading.Event()
    threading.Thread(target=seasons, args=(relay, began, options.seconds, stop), daemon=True).start()
    records, answered, none, datagrams, lost, streams = [], 0, 0, 0, 0, 0
    number = 0
    try:
        while time.monotonic() < began + options.seconds:
            number += 1
            name = ["www.example", "alias.example", "missing.example", "n%d.w.example" % number, "n%d.big.example" % number][number % 5]
            record = folder / ("lookup%d.record" % number)
            record.unlink(missing_ok=True)
            first, first_stream = len(relay.datagrams), len(relay.streams)
            ran = subprocess.run([programs.dns_lookup, "--record", str(record), "@127.0.0.1", "-p", str(relay.port), name, "A", "+short", "+time=1"], capture_output=True, text=True, timeout=60)
            time.sleep(0.02)
            trace = Trace(programs, record, "lookup %d (%s)" % (number, name))
            expect(mode_of(record) == 0o600, trace.what + ": the file's mode")
            got = same_sent(trace, relay, first, first_stream)
            datagrams, lost, streams = datagrams + got[0], lost + got[1], streams + got[2]
            words = trace.replies()[0]
            if ran.returncode == 0:
                answered += 1
                shown = sorted(line for line in ran.stdout.splitlines() if re.fullmatch(r"[0-9.]+", line) and not line.endswith("."))
                expect(words[0] == "ok" and addresses_of(bytes.fromhex(words[1])) == shown, "%s: the reply is %s, and %s was written" % (trace.what, words[:1], shown))
            else:
                none += 1
                expect(ran.returncode == 5 and words[0] == "err", "%s: status %d, and the reply is %s; %s" % (trace.what, ran.returncode, words[:2], ran.stderr))
            trace.judge(options.reference)
            records.append(trace)
    finally:
        stop.set()
        server.terminate()
    longest = max(records, key=lambda it: it.events)
    print("lookup: %d lookups, %d answered, %d without an answer; %d events at most in one, %d octets; %d datagrams came of %d, %d streams; all agree" % (
        len(records), answered, none, longest.events, max(it.octets for it in records), datagrams, datagrams + lost, streams))
    print("picture: %s" % longest.picture(200))


def queries(folder, misses, hits):
    file = folder / "queries"
    with open(file, "w") as it:
        for n in range(misses):
            it.write("n%d.%s.example A\n" % (n, "big" if n % 97 == 0 else "w"))
            for _ in range(hits):
                it.write("%s A\n" % random.choice(["www.example", "alias.example", "missing.example"]))
    return file


def forwarder(programs, port, upstream, record=None, words=()):
    command = [programs.dns_forward] + (["--record", str(record)] if record else []) + ["--port", str(upstream), *words, str(port), TURNS]
    server = subprocess.Popen(command, stdin=subprocess.PIPE, stdout=subprocess.PIPE, stderr=subprocess.PIPE)
    server.stdin.write(b"nameserver 127.0.0.1\noptions timeout:3\n")
    server.stdin.close()
    for _ in range(100):
        time.sleep(0.1)
        with socket.socket(socket.AF_INET, socket.SOCK_DGRAM) as s:
            s.settimeout(1)
            s.connect(("127.0.0.1", port))
            try:
                s.send(struct_query(1, "www.example"))
                s.recv(65535)
                return server
            except OSError:
                pass
        expect(server.poll() is None, "dns_forward ends with %s" % server.returncode)
    server.kill()
    expect(False, "dns_forward does not serve")


def dnsperf(port, file, *words):
    out = subprocess.run(["dnsperf", "-s", "127.0.0.1", "-p", str(port), "-d", str(file), *words], capture_output=True, text=True, timeout=900).stdout
    found = {name: float(number) for name, number in re.findall(r"(Queries sent|Queries completed|Queries lost|Queries per second):\s+([0-9.]+)", out)}
    expect("Queries completed" in found, "dnsperf says nothing: " + out[-300:])
    return found


class Asker:
    """Asks ten queries a second of its own, for names that nobody else asks, and keeps what is answered."""

    def __init__(self, port):
        self.port, self.answers, self.open = port, {}, True
        self.thread = threading.Thread(target=self.ask)
        self.thread.start()

    def ask(self):
        number = 0
        while self.open:
            number += 1
            name = "own%d.w.example" % number
            query = struct_query(number, name)
            with socket.socket(socket.AF_INET, socket.SOCK_DGRAM) as s:
                s.settimeout(0.1)
                try:
                    s.connect(("127.0.0.1", self.port))
                    s.send(query)
                    began = time.monotonic()
                    reply = s.recv(65535)
                    self.answers[name] = reply
                    time.sleep(max(0, 0.1 - (time.monotonic() - began)))
                except OSError:
                    time.sleep(0.05)

    def close(self):
        self.open = False
        self.thread.join()


def question(name):
    return b"".join(bytes([len(label)]) + label.encode() for label in name.split(".")) + b"\0\0\1\0\1"


def struct_query(number, name):
    return (number & 0xFFFF).to_bytes(2, "big") + b"\1\0\0\1\0\0\0\0\0\0" + question(name)


def asked_names(trace):
    """The number of the request that asked for each name of the asker's own."""
    found, number = {}, 0
    for line in trace.lines:
        words = line.split()
        if words[0] == "at" and words[2] == "ask":
            base = bytes.fromhex(words[3])
            end, labels = 12, []
            while base[end]:
                labels.append(base[end + 1:end + 1 + base[end]].decode().lower())
                end += 1 + base[end]
            found.setdefault(".".join(labels), number)
            number += 1
    return found


def forward(programs, folder, options):
    if not shutil.which("dnsperf"):
        print("left out: forward, since dnsperf is missing")
        return
    server, port = serve_zone(folder)
    relay = Relay(port)
    front, record = free_port(), folder / "forward.record"
    record.unlink(missing_ok=True)
    began, stop = time.monotonic(), threading.Event()
    program = forwarder(programs, front, relay.port, record)
    threading.Thread(target=seasons, args=(relay, began, options.seconds, stop), daemon=True).start()
    try:
        asker = Asker(front)
        found = dnsperf(front, queries(folder, 40 * options.seconds * 25, 1), "-l", str(options.seconds), "-Q", "1000", "-t", "5")
        asker.close()
        time.sleep(0.5)
    finally:
        stop.set()
        program.send_signal(signal.SIGTERM)
        program.wait(10)
        server.terminate()
    told = program.stderr.read().decode().strip()
    trace = Trace(programs, record, "forward")
    expect(mode_of(record) == 0o600, "forward: the file's mode")
    expect(trace.octets <= FULL, "forward: more octets than a script has")
    ended = "the record ended" in told
    got = same_sent(trace, relay, ended=ended)
    names, replies = asked_names(trace), trace.replies()
    compared = 0
    for name, octets in asker.answers.items():
        if name in names and names[name] in replies:
            words = replies[names[name]]
            rcode, sections = sections_of(octets)
            if words[0] == "ok":
                expect(sections_of(bytes.fromhex(words[1]))[1][0] == sections[0], "forward: %s was answered otherwise" % name)
            else:
                expect(rcode == 2, "forward: %s was answered, and its reply is an error" % name)
            compared += 1
    errors = sum(1 for words in replies.values() if words[0] == "err")
    print("forward: dnsperf sent %d queries and had %d answers, %d lost; %d events in %d octets, %s; %d requests, %d replies, %d of them errors; the relay got %d datagrams of %d, and %d streams, which agree; %d answers of %d agree" % (
        found["Queries sent"], found["Queries completed"], found["Queries lost"], trace.events, trace.octets, told or "not ended", len(names), len(replies), errors, got[0], got[0] + got[1], got[2], compared, len(asker.answers)))
    last = [line for line in trace.lines if line.startswith("at ")][-1].split()[1]
    first = [line for line in trace.lines if line.startswith("at ")][0].split()[1]
    print("forward: the record lasts %.1f s" % ((int(last) - int(first)) / 1e6))
    print("picture: %s" % trace.picture(200))
    sys.stdout.flush()
    trace.judge(options.reference, most=3000)
    print("forward: right")


def used_by(program):
    """How many seconds of a processor a program took so far."""
    words = Path("/proc/%d/stat" % program.pid).read_text().rpartition(")")[2].split()
    return (int(words[11]) + int(words[12])) / os.sysconf("SC_CLK_TCK")


def cost(programs, folder, options):
    if not shutil.which("dnsperf"):
        print("left out: cost, since dnsperf is missing")
        return
    server, port = serve_zone(folder)
    hits = folder / "hits"
    hits.write_text("".join("%s A\n" % name for name in ["www.example", "alias.example", "missing.example", "one.w.example"]))
    misses = queries(folder, 400000, 0)
    failed = False
    try:
        for kind, file in (("hits", hits), ("misses", misses)):
            rates, times = {False: [], True: []}, {False: [], True: []}
            for turn in range(10):
                recorded = turn % 2 == 1
                front = free_port()
                record = folder / ("cost%s%d.record" % (kind, turn))
                record.unlink(missing_ok=True)
                program = forwarder(programs, front, port, record if recorded else None)
                began = used_by(program)
                try:
                    found = dnsperf(front, file, "-l", "8", "-q", "50", "-t", "5")
                    used = used_by(program) - began
                finally:
                    program.send_signal(signal.SIGTERM)
                    program.wait(10)
                told = program.stderr.read().decode()
                rates[recorded].append(found["Queries per second"])
                times[recorded].append(1e6 * used / max(1, found["Queries completed"]))
                if recorded:
                    print("  %s, recorded: %d a second; %s" % (kind, rates[recorded][-1], told.strip() or "%d octets" % record.stat().st_size))
                    record.unlink()
            plain, kept = statistics.median(rates[False]), statistics.median(rates[True])
            before, after = statistics.median(times[False]), statistics.median(times[True])
            print("cost of a record, %s: %d queries a second without (%s), %d with (%s): %.1f%% less" % (
                kind, plain, " ".join("%d" % it for it in rates[False]), kept, " ".join("%d" % it for it in rates[True]), 100 * (1 - kept / plain)))
            print("  processor time of a query: %.1f us without (%s), %.1f with (%s): %.1f%% fewer in the same time" % (
                before, " ".join("%.1f" % it for it in times[False]), after, " ".join("%.1f" % it for it in times[True]), 100 * (1 - before / after)))
            failed |= before < 0.8 * after
    finally:
        server.terminate()
    expect(not failed, "recording costs more than 20%")


def said(programs, words, record, before=None):
    ran = subprocess.run([programs.dns_lookup, "--record", str(record), *words], capture_output=True, text=True, timeout=60, preexec_fn=before)
    return ran.returncode, ran.stdout, ran.stderr


def ask_all(port, count):
    """Asks so many names that were not asked before, one behind another; each has its answer."""
    for number in range(count):
        with socket.socket(socket.AF_INET, socket.SOCK_DGRAM) as s:
            s.settimeout(5)
            s.connect(("127.0.0.1", port))
            s.send(struct_query(number, "full%d.w.example" % number))
            rcode, sections = sections_of(s.recv(65535))
            expect(rcode == 0 and len(sections[0]) == 1, "a forwarder on a full disk answers %d otherwise" % number)


def full_disk(programs, folder, port, options):
    """A forwarder whose disk is full serves on, and its record is right up to its last whole line."""
    room = folder / "disk"
    room.mkdir()
    if subprocess.run(["mount", "-t", "tmpfs", "-o", "size=1600k", "none", str(room)]).returncode != 0:
        print("left out: a small file system can't be mounted")
        return
    try:
        record, front = room / "forward.record", free_port()
        program = forwarder(programs, front, port, record)
        try:
            ask_all(front, 1500)
        finally:
            program.send_signal(signal.SIGTERM)
            program.wait(10)
        told = program.stderr.read().decode()
        copy = folder / "full.record"
        copy.write_bytes(record.read_bytes())
    finally:
        subprocess.run(["umount", str(room)])
    expect(told == "dns_forward: the record ended: it could not be written\n", "a full disk: %r" % told)
    trace = Trace(programs, copy, "a full disk")
    expect(trace.events > 300, "a full disk: %d events alone" % trace.events)
    trace.judge(options.reference, most=500)
    print("a forwarder on a full disk: 1500 answers, and a record of %d octets with %d events, of which %d octets are whole lines" % (trace.octets, trace.events, trace.script.stat().st_size))


def faults(programs, folder, options):
    server, port = serve_zone(folder)
    words = ["@127.0.0.1", "-p", str(port), "www.example", "A", "+short"]
    try:
        # A file that is there, a device, a folder that is not there.
        other = folder / "other"
        other.write_text("kept")
        for path in (other, Path("/dev/full"), folder / "none" / "record"):
            status, out, errors = said(programs, words, path)
            expect((status, out) == (8, "") and errors == "dns_lookup: nothing is recorded: it could not be made or written\n", "%s: status %d, %r" % (path, status, errors))
        expect(other.read_text() == "kept", "a file is written over")
        link = folder / "link"
        link.symlink_to(folder / "behind")
        expect(said(programs, words, link)[0] == 8 and not (folder / "behind").exists(), "a link is followed")
        status, out, errors = said(programs, words + ["+time=x"], folder / "unused")
        expect(status == 2 and not (folder / "unused").exists(), "a file is made though the words are refused")

        # A limit that is reached within the first lines, at each of many octets: before the first event nothing is asked, and behind it the lookup goes on.
        whole = folder / "whole.record"
        whole.unlink(missing_ok=True)
        status, out, errors = said(programs, words, whole)
        expect(status == 0 and errors == "", "a whole record: status %d, %s" % (status, errors))
        head = whole.read_bytes().index(b"\nat ") + 1
        size = whole.stat().st_size
        # (How long a record is varies by its words' digits.)
        ended = 0
        for most in [0, 1, 1000, *range(head - 100, size + 100, 20), size + 1000]:
            record = folder / ("limit%d.record" % most)
            record.unlink(missing_ok=True)
            status, out, errors = said(programs, words, record, lambda: resource.setrlimit(resource.RLIMIT_FSIZE, (most, most)) or signal.signal(signal.SIGXFSZ, signal.SIG_IGN))
            if status == 8:
                expect(most < size and out == "" and errors == "dns_lookup: nothing is recorded: it could not be made or written\n", "a limit of %d octets: %r, %r" % (most, out, errors))
            else:
                expect(most > 1000 and status == 0 and sorted(out.split()) == ["192.0.2.1", "192.0.2.2"], "a limit of %d octets: status %d, %r, %r" % (most, status, out, errors))
                told = re.fullmatch(r"dns_lookup: the record ended: it could not be written; events behind it: ([1-3])\n", errors)
                expect(told or errors == "" and most > head, "a limit of %d octets: %r" % (most, errors))
                expect(record.stat().st_size <= most, "a limit of %d octets is passed" % most)
                trace = Trace(programs, record, "a limit of %d octets" % most)
                expect(trace.events + (int(told.group(1)) if told else 0) == 3, "a limit of %d octets: %d events" % (most, trace.events))
                ended += bool(told)
        expect(ended > 3, "no record ended at a limit")
        print("a file that may not grow: %d records ended, and each lookup had its answer" % ended)

        # A small file system that is full.
        room = folder / "small"
        room.mkdir()
        if subprocess.run(["mount", "-t", "tmpfs", "-o", "size=100k", "none", str(room)]).returncode == 0:
            try:
                for pages in (head // 4096, head // 4096 + 1):
                    record = room / ("record%d" % pages)
                    (room / "filling").write_bytes(b"x" * (100 * 1024 - pages * 4096))
                    status, out, errors = said(programs, words, record)
                    expect(status in (0, 8) and (status == 0 or out == ""), "a full file system: status %d, %r" % (status, errors))
                    print("a file system with %d octets left: status %d, %s" % (pages * 4096, status, errors.strip() or "the record is whole"))
                    record.unlink(missing_ok=True)
            finally:
                subprocess.run(["umount", str(room)])
        else:
            print("left out: a small file system can't be mounted")

        # A record that is cut anywhere replays up to its last whole line.
        full = Trace(programs, whole, "a whole record")
        text = whole.read_bytes()
        for at in range(head, size):
            cut = folder / "cut.record"
            cut.write_bytes(text[:at])
            trace = Trace(programs, cut, "a record of %d octets" % at)
            expect(trace.lines[:-1] == full.lines[:len(trace.lines) - 1], "a record that is cut at %d replays otherwise" % at)
            expect(trace.events == text[head:at].count(b"\n"), "a record that is cut at %d has %d events" % (at, trace.events))
        print("a record that is cut at each of %d octets: its whole lines replay" % (size - head))
        full_disk(programs, folder, port, options)
        print("faults: each is told, and the client goes on")
    finally:
        server.terminate()


PARTS = {"lookup": lookup, "forward": forward, "cost": cost, "faults": faults}


def main():
    parser = argparse.ArgumentParser()
    for name in ("dns_lookup", "dns_forward", "dnsq", "trace_audit"):
        parser.add_argument(name, type=os.path.abspath)
    parser.add_argument("parts", nargs="*", choices=[[], *PARTS])
    parser.add_argument("--seconds", type=int, default=60)
    parser.add_argument("--reference")
    parser.add_argument("--keep")
    options = parser.parse_args()
    if not shutil.which("nsd") or not shutil.which("kdig"):
        skipped("nsd or kdig is missing")
    with tempfile.TemporaryDirectory() as room:
        for part in options.parts or PARTS:
            folder = Path(options.keep or room) / part
            folder.mkdir(parents=True, exist_ok=True)
            PARTS[part](options, folder, options)


if __name__ == "__main__":
    main()
