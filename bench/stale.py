#!/usr/bin/env python3
"""Tells what a forwarder gives of what has expired where its server fails, and how soon, beside Unbound and dnsmasq.

    python3 bench/stale.py PROGRAM

PROGRAM is the built dns_forward. Each forwarder has a server of its own on loopback, whose answer has a TTL of 2. It is asked once, and then its
server fails: it answers SERVFAIL, is silent, or is closed. Three seconds later the name is asked four times, one behind another, and the code, the TTL
and the time of each answer are told. Last, where it answers SERVFAIL, 100 queries a second come for that name in five seconds: told is how many
answers were an expired one, and how often the server was asked. Unbound and dnsmasq are passed over where they are missing, and that is said.
"""

import os
import shutil
import socket
import struct
import subprocess
import sys
import tempfile
import threading
import time
from pathlib import Path

sys.path.insert(0, os.path.dirname(os.path.abspath(__file__)))
from forward import UNBOUND, dnsmasq, ours
from sockets import free_port

MODES = ("servfail", "silent", "closed")
NAME = b"\4name\7example\0"
RATE, SECONDS = 100, 5
EXPIRED = "  serve-expired: yes\n  serve-expired-ttl: 86400\n  serve-expired-client-timeout: %d\nforward-zone:"


def by_practice(program, folder, port, server):
    words = ours(program, folder, port, server)
    return [words[0], "--stale", "86400"] + words[1:]


def in_a_second(program, folder, port, server):
    words = by_practice(program, folder, port, server)
    with open(folder / "resolv.conf", "a", encoding="ascii") as it:
        it.write("options timeout:1 attempts:1\n")
    return words


def unbound(wait):
    def made(_program, folder, port, server):
        text = UNBOUND.replace("forward-zone:", EXPIRED % wait)
        (folder / "unbound.conf").write_text(text % {"port": port, "folder": folder, "server": server})
        return ["unbound", "-c", str(folder / "unbound.conf")]
    return made


def with_stale_cache(program, folder, port, server):
    return dnsmasq(program, folder, port, server) + ["--use-stale-cache=86400"]


FORWARDERS = {
    "ours": by_practice,
    "ours, timeout:1 attempts:1": in_a_second,
    "unbound": unbound(0),
    "unbound, client timeout 1.8 s": unbound(1800),
    "dnsmasq": with_stale_cache,
}


class Server:
    """It answers well until it is told how to fail, and counts who asks."""

    def __init__(self, port):
        self.mode, self.asked = "good", 0
        self.socket = socket.socket(socket.AF_INET, socket.SOCK_DGRAM)
        self.socket.bind(("127.0.1.1", port))
        self.socket.settimeout(0.1)
        self.thread = threading.Thread(target=self.serve, daemon=True)
        self.thread.start()

    def serve(self):
        while self.mode != "closed":
            try:
                query, client = self.socket.recvfrom(4096)
            except TimeoutError:
                continue
            self.asked += 1
            question = query[12:query.index(b"\0", 12) + 5]
            if self.mode == "good":
                answer = b"\x81\x80\0\1\0\1\0\0\0\0" + question + bytes.fromhex("c00c00010001000000020004c0000201")
                self.socket.sendto(query[:2] + answer, client)
            elif self.mode == "servfail":
                self.socket.sendto(query[:2] + b"\x81\x82\0\1\0\0\0\0\0\0" + question, client)
        self.socket.close()

    def end(self):
        self.mode = "closed"
        self.thread.join()


def client_of(port):
    it = socket.socket(socket.AF_INET, socket.SOCK_DGRAM)
    it.connect(("127.0.0.1", port))
    it.settimeout(15)
    return it


def query_of(number):
    return struct.pack(">HHHHHH", number, 0x100, 1, 0, 0, 0) + NAME + b"\0\1\0\1"


def is_expired(answer):
    return answer[3] & 15 == 0 and answer[7] == 1


def ask(port):
    """The code and the TTL of the answer, and its time."""
    begun = time.time()
    with client_of(port) as it:
        try:
            it.send(query_of(7))
            answer = it.recv(4096)
        except OSError as why:
            return "%s %.2f s" % (type(why).__name__, time.time() - begun)
    ttl = struct.unpack(">I", answer[-10:-6])[0] if answer[7] else "-"
    return "code %d TTL %s %.2f s" % (answer[3] & 15, ttl, time.time() - begun)


def press(port):
    """Of so many queries a second, how many answers were an expired one."""
    good, begun = 0, time.time()
    with client_of(port) as it:
        def read():
            nonlocal good
            for _ in range(RATE * SECONDS):
                try:
                    good += is_expired(it.recv(4096))
                except OSError:
                    return
        it.settimeout(5)
        reader = threading.Thread(target=read)
        reader.start()
        for number in range(RATE * SECONDS):
            it.send(query_of(number))
            time.sleep(max(0, begun + (number + 1) / RATE - time.time()))
        reader.join()
    return good


def try_one(name, program, mode, folder, told):
    port, at = free_port(), free_port()
    server = Server(at)
    words = FORWARDERS[name](program, folder, port, at)
    source = open(folder / "resolv.conf", "rb") if name.startswith("ours") else subprocess.DEVNULL
    with subprocess.Popen(words, stdin=source, stdout=subprocess.DEVNULL, stderr=subprocess.DEVNULL) as child:
        time.sleep(2)
        try:
            first = ask(port)
            server.mode = mode
            time.sleep(3)
            told[name] = "%s; then %s" % (first, ", ".join(ask(port) for _ in range(4)))
            if mode == "servfail":
                before = server.asked
                good = press(port)
                told[name] += "; of %d queries %d expired ones, %d to the server" % (RATE * SECONDS, good, server.asked - before)
        finally:
            child.kill()
            server.end()


def main():
    if len(sys.argv) != 2:
        sys.exit(__doc__)
    program = os.path.abspath(sys.argv[1])
    names = [it for it in FORWARDERS if it.startswith("ours") or shutil.which(it.split(",")[0])]
    for name in FORWARDERS.keys() - set(names):
        print("skipped: there is no " + name)
    for mode in MODES:
        told = {}
        with tempfile.TemporaryDirectory() as place:
            running = []
            for n, name in enumerate(names):
                folder = Path(place) / str(n)
                folder.mkdir()
                running.append(threading.Thread(target=try_one, args=(name, program, mode, folder, told)))
            for it in running:
                it.start()
            for it in running:
                it.join()
        for name in names:
            print("%s, %s: %s" % (mode, name, told.get(name, "failed")), flush=True)
    return 0


if __name__ == "__main__":
    sys.exit(main())
