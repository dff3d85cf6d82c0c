#!/usr/bin/env python3
"""Several forwarders behind dnsdist, of which one is stopped under load.

    python3 tests/deployed.py PROGRAM

PROGRAM is the built dns_forward. An NSD on loopback serves a zone of 2,000 names, three forwarders ask it, and dnsdist stands before
them with the settings that docs/DEPLOYING.md shows: it picks one by the name that is asked, and asks each every second whether it
answers. Names are asked of dnsdist at a steady rate, each by a datagram under an id and from a port of its own, and again after
half a second while nothing came, up to three seconds. One forwarder is killed amid that.

It ends with status 1 where an answer is wrong, where a query that was first sent later than the interval of the checks and their
timeout after the kill was not answered at once, or where an earlier one was not answered at all. It prints how many were asked,
how many were sent again, and how many of these between the kill and that moment.
"""

import random
import selectors
import shutil
import signal
import socket
import struct
import subprocess
import sys
import tempfile
import time
from pathlib import Path

from ask_servers import expect, free_port

NAMES, RATE, SECONDS, KILLED_AT = 2000, 1000, 9.0, 3.0
CHECKED_AFTER = 1.0 + 1.0 + 0.25  # the interval between two checks, the timeout of one, and what this machine needs


def question(name):
    return b"".join(bytes([len(label)]) + label.encode() for label in name.split(".")) + b"\0" + struct.pack(">HH", 1, 1)


def address(number):
    return "192.0.2.%d" % (number % 250 + 1)


def address_in(octets, asked):
    """The address of an answer's first record, whose owner is the name that was asked."""
    return octets[len(asked) + 12:len(asked) + 16] if octets[len(asked):len(asked) + 2] == b"\xc0\x0c" else None


def nsd(folder, port):
    records = "".join("name%d A %s\n" % (number, address(number)) for number in range(NAMES))
    (folder / "zone").write_text("$ORIGIN example.\n$TTL 300\n@ SOA ns admin 1 3600 600 86400 60\n NS ns\nns A 127.0.0.1\n" + records)
    (folder / "nsd.conf").write_text(
        "server:\n ip-address: 127.0.0.1\n port: %d\n username: \"\"\n zonesdir: \"%s\"\n database: \"\"\n pidfile: \"%s/nsd.pid\"\n"
        " logfile: \"%s/nsd.log\"\n xfrdfile: \"%s/xfrd\"\n xfrdir: \"%s\"\n zonelistfile: \"%s/list\"\nremote-control:\n control-enable: no\n"
        "zone:\n name: example\n zonefile: zone\n" % (port, *[folder] * 6))
    return ["nsd", "-d", "-c", str(folder / "nsd.conf")]


def dnsdist(folder, port, forwarders):
    servers = "".join(
        'newServer({address="127.0.0.1:%d", weight=100, checkName="name0.example.", checkType="A", mustResolve=true, '
        "checkInterval=1, checkTimeout=1000, maxCheckFailures=1})\n" % forwarder for forwarder in forwarders)
    (folder / "dnsdist.conf").write_text(
        'setLocal("127.0.0.1:%d")\nsetACL({"127.0.0.0/8"})\nsetSecurityPollSuffix("")\n%ssetServerPolicy(chashed)\n' % (port, servers))
    return ["dnsdist", "--supervised", "--disable-syslog", "-C", str(folder / "dnsdist.conf")]


def is_answered(port, number=0, seconds=0.5):
    with socket.socket(socket.AF_INET, socket.SOCK_DGRAM) as s:
        s.settimeout(seconds)
        asked = struct.pack(">HHHHHH", 1, 0x0100, 1, 0, 0, 0) + question("name%d.example" % number)
        s.sendto(asked, ("127.0.0.1", port))
        try:
            return address_in(s.recv(512), asked) == socket.inet_aton(address(number))
        except OSError:
            return False


def wait_for(port, what):
    end = time.monotonic() + 20
    while not is_answered(port):
        expect(time.monotonic() < end, what + " does not answer")


class Asked:
    """A query that waits for its answer."""

    def __init__(self, number, port, selector):
        self.number, self.id = number, random.randrange(65536)
        self.octets = struct.pack(">HHHHHH", self.id, 0x0100, 1, 0, 0, 0) + question("name%d.example" % number)
        self.socket = socket.socket(socket.AF_INET, socket.SOCK_DGRAM)
        self.socket.setblocking(False)
        self.socket.connect(("127.0.0.1", port))
        self.first = self.last = time.monotonic()
        self.sent = 0
        selector.register(self.socket, selectors.EVENT_READ, self)
        self.send()

    def send(self):
        self.sent, self.last = self.sent + 1, time.monotonic()
        self.socket.send(self.octets)

    def take(self):
        octets = self.socket.recv(512)
        expect(octets[:2] == self.octets[:2] and octets[12:len(self.octets)] == self.octets[12:], "an answer to another question")
        expect(octets[3] & 15 == 0 and address_in(octets, self.octets) == socket.inet_aton(address(self.number)), "a wrong answer of name%d" % self.number)


def ask(port, kill):
    """Asks at a steady rate, and kills amid it. The moment of that, and of each query when it was first sent and how often."""
    selector, waiting, told, begun, killed, asked = selectors.DefaultSelector(), set(), [], time.monotonic(), None, 0
    while waiting or asked < RATE * SECONDS:
        now = time.monotonic()
        if killed is None and now - begun >= KILLED_AT:
            kill()
            killed = time.monotonic()
        while asked < RATE * SECONDS and begun + asked / RATE <= now:
            waiting.add(Asked(random.randrange(NAMES), port, selector))
            asked += 1
        for key, _events in selector.select(0.001):
            query = key.data
            query.take()
            selector.unregister(query.socket)
            query.socket.close()
            waiting.discard(query)
            told.append((query.first, query.sent))
        for query in [query for query in waiting if now - query.last >= 0.5]:
            expect(now - query.first < 3, "name%d was not answered" % query.number)
            query.send()
    return killed, told


def main():
    program = str(Path(sys.argv[1]).resolve())
    for needed in ("nsd", "dnsdist"):
        if not shutil.which(needed):
            print("skipped: no " + needed)
            return
    with tempfile.TemporaryDirectory() as temporary:
        folder, running = Path(temporary), []
        try:
            server, front, ports = free_port(), free_port(), [free_port() for _ in range(3)]
            running.append(subprocess.Popen(nsd(folder, server), stdout=subprocess.DEVNULL, stderr=subprocess.DEVNULL))
            wait_for(server, "nsd")
            for port in ports:
                words = [program, "--port", str(server), str(port), "18446744073709551615"]
                forwarder = subprocess.Popen(words, stdin=subprocess.PIPE)
                forwarder.stdin.write(b"nameserver 127.0.0.1\n")
                forwarder.stdin.close()
                running.append(forwarder)
                wait_for(port, "a forwarder")
            running.append(subprocess.Popen(dnsdist(folder, front, ports), stdout=subprocess.DEVNULL, stderr=subprocess.DEVNULL))
            wait_for(front, "dnsdist")
            time.sleep(2)
            killed, told = ask(front, lambda: running[2].send_signal(signal.SIGKILL))
        finally:
            for process in running:
                process.kill()
    after = [sent for first, sent in told if first >= killed + CHECKED_AFTER]
    amid = [sent for first, sent in told if killed <= first < killed + CHECKED_AFTER]
    print("%d asked, %d sent again, %d of these within %.2f s of the kill; of %d asked later %d sent again"
          % (len(told), sum(sent > 1 for _first, sent in told), sum(sent > 1 for sent in amid), CHECKED_AFTER, len(after), sum(sent > 1 for sent in after)))
    expect(len(after) > RATE and all(sent == 1 for sent in after), "a query was lost after the check")


if __name__ == "__main__":
    main()
