#!/usr/bin/env python3
"""Tells what a forwarder's memory is where it keeps answers of some 60 KB, and what a hit of one costs.

    python3 bench/large.py PROGRAM [ANSWERS]

PROGRAM is the built dns_forward. A server of this script's own answers each datagram with TC, and each name by a stream with 3,745
addresses: 59,970 octets. ANSWERS names (2,000) are asked, 20 at a time, by datagrams, whose answers are cut, and a tenth of them once more by a
stream each, so that it is seen that they are kept: the server is not asked again. Then a name whose answer has a record of authority behind its addresses, so that it can't be
given by its own octets, is asked by datagrams again and again: each is cut, and may take half a millisecond of a processor at most. The memory that the system holds for the forwarder is told after each tenth,
and what an answer takes of it: more than four times its octets and 0.7 KB ends with status 1, as does a kept answer that is not given whole, and memory
that grows by more than a tenth as the same names are asked again.
"""

import os
import socket
import struct
import subprocess
import sys
import tempfile
import threading
import time
from pathlib import Path

ADDRESSES = 3745
ANSWERS = 2000
AT_ONCE = 20
# An NS record of the question's name, which names the question's name.
AUTHORITY = struct.pack("!HHHIHH", 0xC00C, 2, 1, 86400, 2, 0xC00C)
MOST_CUT = 500
HEADER = struct.Struct("!HHHHHH")


def question_of(message):
    end = 12
    while message[end]:
        end += message[end] + 1
    return message[12:end + 5]


def answer_to(query, records, flags=0x8580, authority=b""):
    return HEADER.pack(int.from_bytes(query[:2], "big"), flags, 1, len(records) // 16, len(authority) > 0, 0) + question_of(query) + records + authority


def without_age(answer):
    """An answer behind its flags, without the TTLs of its records."""
    first = 12 + len(question_of(answer))
    return answer[4:first], [answer[at:at + 6] + answer[at + 10:at + 16] for at in range(first, len(answer), 16)]


class Server:
    """Answers by datagrams with TC, and by streams whole."""

    def __init__(self):
        self.asked = 0
        self.datagrams = socket.socket(socket.AF_INET, socket.SOCK_DGRAM)
        self.datagrams.bind(("127.0.1.1", 0))
        self.port = self.datagrams.getsockname()[1]
        self.streams = socket.create_server(("127.0.1.1", self.port), backlog=512)
        self.records = b"".join(struct.pack("!HHHIH4s", 0xC00C, 1, 1, 86400, 4, struct.pack("!I", 0x0A000000 + n)) for n in range(ADDRESSES))
        for work in (self.cut_all, self.take_all):
            threading.Thread(target=work, daemon=True).start()

    def cut_all(self):
        while True:
            query, peer = self.datagrams.recvfrom(4096)
            self.datagrams.sendto(answer_to(query, b"", 0x8780), peer)

    def take_all(self):
        while True:
            stream, _ = self.streams.accept()
            threading.Thread(target=self.answer_all, args=(stream,), daemon=True).start()

    def answer_all(self, stream):
        with stream, stream.makefile("rb") as read:
            while True:
                size = read.read(2)
                if len(size) < 2:
                    return
                query = read.read(int.from_bytes(size, "big"))
                message = answer_to(query, self.records, authority=AUTHORITY if query[13:14] == b"a" else b"")
                self.asked += 1
                try:
                    stream.sendall(struct.pack("!H", len(message)) + message)
                except OSError:
                    return


def free_port():
    with socket.socket(socket.AF_INET, socket.SOCK_DGRAM) as it:
        it.bind(("127.0.0.1", 0))
        return it.getsockname()[1]


def query(number, id, first=b"n"):
    name = b"%s%d" % (first, number)
    return HEADER.pack(id, 0x0100, 1, 0, 0, 0) + bytes([len(name)]) + name + b"\x05large\x00\x00\x01\x00\x01"


def ask(client, port, numbers):
    """Asks so many at a time until each has its answer. How many were sent again."""
    waiting, left, again = {}, list(reversed(numbers)), 0
    while left or waiting:
        while left and len(waiting) < AT_ONCE:
            number = left.pop()
            waiting[number] = time.monotonic()
            client.sendto(query(number, number % 65536), ("127.0.0.1", port))
        try:
            answer = client.recv(4096)
            number = int(answer[13:13 + answer[12]][1:])
            if waiting.pop(number, None) is not None and answer[3] & 15:
                sys.exit("the answer to name %d has the code %d" % (number, answer[3] & 15))
        except TimeoutError:
            pass
        for number, since in list(waiting.items()):
            if time.monotonic() - since > 10:
                again += 1
                waiting[number] = time.monotonic()
                client.sendto(query(number, number % 65536), ("127.0.0.1", port))
    return again


def whole(port, number):
    with socket.create_connection(("127.0.0.1", port), 20) as stream, stream.makefile("rb") as read:
        message = query(number, 7)
        stream.sendall(struct.pack("!H", len(message)) + message)
        return read.read(int.from_bytes(read.read(2), "big"))


def cut(client, port, count):
    """Asks so many times for one name with authority behind its answer, and takes each answer."""
    for id in range(count):
        client.sendto(query(0, id, b"a"), ("127.0.0.1", port))
        answer = client.recv(4096)
        if answer[:2] != struct.pack("!H", id) or not answer[2] & 2 or answer[3] & 15:
            sys.exit("a datagram is not cut: %s" % answer[:12].hex())


def memory(child):
    return int(Path("/proc/%d/statm" % child.pid).read_text().split()[1]) * os.sysconf("SC_PAGE_SIZE")


def seconds(child):
    fields = Path("/proc/%d/stat" % child.pid).read_text().rsplit(")", 1)[1].split()
    return (int(fields[11]) + int(fields[12])) / os.sysconf("SC_CLK_TCK")


def measure(program, answers):
    server, port = Server(), free_port()
    octets = 12 + len(question_of(query(0, 0))) + len(server.records)
    with tempfile.TemporaryDirectory() as folder:
        conf = Path(folder) / "resolv.conf"
        conf.write_text("nameserver 127.0.1.1\n")
        with open(conf, "rb") as source:
            child = subprocess.Popen([program, "--entries", str(max(answers, 100)), "--port", str(server.port), str(port), "18446744073709551615"], stdin=source)
    try:
        time.sleep(0.5)
        client = socket.socket(socket.AF_INET, socket.SOCK_DGRAM)
        client.settimeout(1)
        first, is_well = memory(child), True
        for tenth in range(10):
            numbers = range(answers * tenth // 10, answers * (tenth + 1) // 10)
            took = seconds(child)
            again = ask(client, port, numbers)
            now = memory(child)
            print("%7d answers: %8.1f MB, %6.0f octets each, %5.0f us of processor for each of the last, %d sent again"
                  % (numbers.stop, now / 1e6, (now - first) / numbers.stop, (seconds(child) - took) * 1e6 / len(numbers), again))
        is_well &= (now - first) / answers <= 4 * octets + 700
        asked, kept, took = server.asked, range(0, answers, 10), seconds(child)
        given = [without_age(whole(port, number)) == without_age(answer_to(query(number, 7), server.records)) for number in kept]
        is_well &= server.asked == asked and all(given)
        print("%d of them asked again by a stream: the server was asked %d times, %d were whole, %.0f us of processor each, %.1f MB"
              % (len(kept), server.asked - asked, sum(given), (seconds(child) - took) * 1e6 / len(kept), memory(child) / 1e6))
        ask(client, port, list(kept))
        print("and by a datagram: %.1f MB" % (memory(child) / 1e6))
        is_well &= memory(child) - first <= 1.1 * (now - first) + 40e6
        cut(client, port, 1)
        took = seconds(child)
        cut(client, port, 2000)
        each = (seconds(child) - took) * 1e6 / 2000
        is_well &= each <= MOST_CUT
        print("one with authority behind it, again by a datagram: %.0f us of processor%s" % (each, "" if each <= MOST_CUT else ", over"))
        print("an answer has %d octets, and %.2f times as many are held for it" % (octets, (now - first) / answers / octets))
        return is_well
    finally:
        child.kill()
        child.wait()


def main():
    if len(sys.argv) not in (2, 3):
        sys.exit(__doc__)
    sys.exit(not measure(sys.argv[1], int(sys.argv[2]) if len(sys.argv) == 3 else ANSWERS))


main()
