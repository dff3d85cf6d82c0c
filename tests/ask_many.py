#!/usr/bin/env python3
"""Asks real servers for the addresses of 1,000 hosts at once by `example_many`, while a tenth of what is sent is lost.

    python3 tests/ask_many.py PROGRAM [HOSTS]

PROGRAM is the built example_many. An NSD, a BIND and a Knot serve one zone on loopback, each behind a relay that drops a tenth of the
datagrams, each way. Each host has its addresses, in the order of the names; and the last host, which is not there, is said to have none. Then
come a server that drops all, at which each host has its fault, and one server half of whose answers are about another host, which are
no answers: not each host is answered then, but with no other's addresses. A server that is not installed is left out, and that is said. The first difference ends it with status 1.
"""

import os
import random
import select
import shutil
import socket
import subprocess
import sys
import tempfile
import threading
import time
from pathlib import Path

from ask_lookup import knotd, named, nsd
from ask_servers import expect, free_port, skipped

HEAD = """$ORIGIN example.
$TTL 300
@ SOA ns hostmaster 7 3600 900 86400 300
@ NS ns
ns A 127.0.0.1
"""
LOST = 0.1
# What six tries bring at least where four tenths of them bring an answer.
LEAST = 0.85


def addresses(number):
    """The addresses of a host, as they are printed: IPv6 first."""
    return ["2001:db8::%x" % (number + 1), "10.0.%d.%d" % (number // 256, number % 256)]


def zone(count):
    lines = ("h%d AAAA %s\nh%d A %s\n" % (n, addresses(n)[0], n, addresses(n)[1]) for n in range(count))
    return HEAD + "".join(lines)


def answers(port):
    """Whether the zone's first host is answered."""
    query = b"\x12\x34\x01\x00\x00\x01\x00\x00\x00\x00\x00\x00\x02h0\x07example\x00\x00\x01\x00\x01"
    with socket.socket(socket.AF_INET, socket.SOCK_DGRAM) as asking:
        asking.settimeout(0.5)
        asking.connect(("127.0.0.1", port))
        try:
            asking.send(query)
            return asking.recv(512)[6:8] == b"\x00\x01"
        except OSError:
            return False


def serve(kind, words, folder, count):
    """The server and its port, once it answers; none where it is not installed or does not serve."""
    if not shutil.which(kind):
        print("left out: %s is not installed" % kind)
        return None
    port = free_port()
    (folder / "zone").write_text(zone(count))
    server = subprocess.Popen(words(folder, port), stdout=subprocess.DEVNULL, stderr=open(folder / "log", "w"))
    for _ in range(200):
        time.sleep(0.1)
        if server.poll() is not None:
            break
        if answers(port):
            return server, port
    server.kill()
    print("left out: %s does not serve: %s" % (kind, (folder / "log").read_text()[-300:]))
    return None


class Relay:
    """Hands datagrams on to a server at this port, and its answers back, and drops some of both. None is handed on where there is no server."""

    def __init__(self, server, lost, changed=None):
        self.lost, self.changed, self.chance = lost, changed, random.Random(5)
        self.sent, self.dropped = 0, 0
        self.down = socket.socket(socket.AF_INET, socket.SOCK_DGRAM)
        self.down.setsockopt(socket.SOL_SOCKET, socket.SO_RCVBUF, 1 << 22)
        self.down.bind(("127.0.0.1", 0))
        self.port = self.down.getsockname()[1]
        self.up = socket.socket(socket.AF_INET, socket.SOCK_DGRAM)
        self.up.setsockopt(socket.SOL_SOCKET, socket.SO_RCVBUF, 1 << 22)
        self.up.connect(("127.0.0.1", server or 9))
        # By the id that the server is asked under: who asked, and under which id.
        self.waiting = {}
        self.ends, self.end = socket.socketpair()
        self.thread = threading.Thread(target=self.run, daemon=True)
        self.thread.start()

    def drops(self):
        self.sent += 1
        dropped = self.chance.random() < self.lost
        self.dropped += dropped
        return dropped

    def run(self):
        while True:
            ready = select.select([self.down, self.up, self.ends], [], [])[0]
            if self.ends in ready:
                return
            if self.down in ready:
                octets, peer = self.down.recvfrom(65535)
                if not self.drops():
                    number = self.sent % 65536
                    self.waiting[number] = peer, octets[:2]
                    self.up.send(number.to_bytes(2, "big") + octets[2:])
            if self.up in ready:
                octets = self.up.recv(65535)
                peer, under = self.waiting.get(int.from_bytes(octets[:2], "big"), (None, None))
                if peer and not self.drops():
                    octets = under + octets[2:]
                    self.down.sendto(self.changed(self.chance, octets) if self.changed else octets, peer)

    def stop(self):
        self.end.close()
        self.thread.join()
        for each in (self.down, self.up, self.ends):
            each.close()


def of_another(chance, octets):
    """Half of the answers, with another digit in the first label of their question."""
    if chance.random() < 0.5:
        return octets
    at = 12 + octets[12]
    return octets[:at] + bytes([octets[at] ^ 1]) + octets[at + 1:]


def ask(program, port, names):
    began = time.monotonic()
    ran = subprocess.run([program, "127.0.0.1", str(port), *names], capture_output=True, text=True, stdin=subprocess.DEVNULL)
    return ran.returncode, ran.stdout, ran.stderr, time.monotonic() - began


def compare(program, what, relay, count):
    names = ["h%d.example" % n for n in range(count)]
    status, out, said, took = ask(program, relay.port, names + ["missing.example"])
    expect(status == 0, "%s: status %d, %s" % (what, status, said))
    due = ["%s %s" % (name, address) for n, name in enumerate(names) for address in addresses(n)]
    lines = out.splitlines()
    if not relay.changed:
        expect(said == "missing.example: no address\n" or said == "", "%s: %s" % (what, said[:300]))
        expect(len(lines) == len(due), "%s: %d addresses, not %d" % (what, len(lines), len(due)))
    expect(len(lines) >= LEAST * len(due), "%s: %d addresses of %d" % (what, len(lines), len(due)))
    left = iter(due)
    for line in lines:
        expect(line in left, "%s: %s is no address of its host, or not in order" % (what, line))
    told = "%s: %d addresses of %d hosts in %.1f s, %d of %d datagrams were dropped"
    print(told % (what, len(lines), count, took, relay.dropped, relay.sent), flush=True)


def all_dropped(program):
    relay = Relay(None, 1)
    try:
        status, out, said, took = ask(program, relay.port, ["h0.example", "h1.example"])
    finally:
        relay.stop()
    expect(status == 0 and out == "", "a silent server: status %d, %s" % (status, out))
    expect(said == "h0.example: request timed out\nh1.example: request timed out\n", "a silent server: %s" % said)
    print("a silent server: each host has its fault after %.1f s" % took, flush=True)


def main():
    if len(sys.argv) < 2:
        sys.exit(__doc__)
    program = os.path.abspath(sys.argv[1])
    count = int(sys.argv[2]) if len(sys.argv) > 2 else 1000
    compared = 0
    for kind, words in (("nsd", nsd), ("named", named), ("knotd", knotd)):
        with tempfile.TemporaryDirectory() as made:
            started = serve(kind, words, Path(made), count)
            if not started:
                continue
            server, port = started
            try:
                for what, changed in ((kind, None), ("%s, half of whose answers are about others" % kind, of_another)):
                    relay = Relay(port, LOST, changed)
                    try:
                        compare(program, what, relay, count)
                    finally:
                        relay.stop()
                compared += 1
            finally:
                server.terminate()
                server.wait()
    if not compared:
        skipped("there is no server")
    all_dropped(program)
    print("all are answered")


if __name__ == "__main__":
    main()
