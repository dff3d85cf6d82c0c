#!/usr/bin/env python3
"""Asks servers that misbehave by `dnsq query`, and sees that the one right answer is taken, and no other.

    sudo python3 tests/ask_misbehaving.py PROGRAM

PROGRAM is the built dnsq. A configuration that names 127.0.0.1 is mounted over /etc/resolv.conf in a mount namespace of this
script's own. Each server answers one question, late, behind something wrong, or by a stream that is cut oddly; the answer that
`query` writes must be the right one, octet for octet. The first that differs ends it with status 1.
"""

import os
import shutil
import socket
import struct
import subprocess
import sys
import tempfile
import threading
import time
from pathlib import Path

INSIDE = "ASK_MISBEHAVING_INSIDE"
ADDRESS = bytes([192, 0, 2, 7])


def answer(query, flags=0x8180, ident=None, question=None, address=ADDRESS):
    ident = query[:2] if ident is None else ident
    question = query[12:12 + question_length(query)] if question is None else question
    record = b"\xc0\x0c" + struct.pack(">HHIH", 1, 1, 300, 4) + address
    return ident + struct.pack(">HHHHH", flags, 1, 1, 0, 0) + question + record


def question_length(query):
    at = 12
    while query[at]:
        at += 1 + query[at]
    return at + 5 - 12


def other_id(query):
    return struct.pack(">H", struct.unpack(">H", query[:2])[0] ^ 1)


def other_question(query):
    return b"\x05other" + query[12 + 1 + query[12]:12 + question_length(query)]


LIE = bytes([203, 0, 113, 1])
# What a server sends by datagrams: pauses in seconds, and octets made of the query. The last one is right.
BY_DATAGRAM = {
    "answers after one second": lambda q: [1.0, answer(q)],
    "answers after 4.5 seconds": lambda q: [4.5, answer(q)],
    "another id first": lambda q: [answer(q, ident=other_id(q), address=LIE), answer(q)],
    "1,000 other ids first": lambda q: [answer(q, ident=struct.pack(">H", n), address=LIE) for n in range(1000)
                                        if struct.pack(">H", n) != q[:2]] + [0.05, answer(q)],
    "junk first": lambda q: [b"\xff" * 40, answer(q)],
    "an empty datagram first": lambda q: [b"", answer(q)],
    "a bare header first": lambda q: [q[:2] + b"\x81\x80" + b"\0" * 8, answer(q)],
    "another question first": lambda q: [answer(q, question=other_question(q), address=LIE), answer(q)],
    "a query in place of an answer first": lambda q: [answer(q, flags=0x0100, address=LIE), answer(q)],
    "its answer twice": lambda q: [answer(q), answer(q)],
}


def octet_by_octet(connection, frame):
    for octet in frame:
        connection.sendall(bytes([octet]))
        time.sleep(0.002)


def in_pieces(connection, frame):
    for piece in (frame[:1], frame[1:7], frame[7:20], frame[20:]):
        connection.sendall(piece)
        time.sleep(0.1)


def behind_another_id(connection, frame):
    wrong = frame[:2] + other_id(frame[2:]) + frame[4:-4] + LIE
    connection.sendall(wrong + frame)


def half_closed(connection, frame):
    connection.sendall(frame)
    connection.shutdown(socket.SHUT_WR)
    time.sleep(0.3)


# How a server hands on a frame by a stream, and how many connections it closes or resets before.
BY_STREAM = {
    "octet by octet": (octet_by_octet, None, 0),
    "in pieces": (in_pieces, None, 0),
    "behind a frame under another id": (behind_another_id, None, 0),
    "half closed behind it": (half_closed, None, 0),
    "one connection closed first": (socket.socket.sendall, "close", 1),
    "one connection reset first": (socket.socket.sendall, "reset", 1),
}


def query(program, port):
    ran = subprocess.run([*program, "query", "www.example", "A", "--port", str(port)], capture_output=True, text=True,
                         stdin=subprocess.DEVNULL)
    return ran.returncode, ran.stdout


def see(program, what, port, given):
    began = time.monotonic()
    status, line = query(program, port)
    took = time.monotonic() - began
    if status != 0 or line != "reply 0 ok %s\n" % given[0].hex():
        print("differs: %s: status %d, %s" % (what, status, line[:120].strip()))
        sys.exit(1)
    print("%s: the right answer, after %.2f s" % (what, took))


def by_datagram(program, what, make):
    given = []

    def serve(server):
        octets, peer = server.recvfrom(4096)
        steps = make(octets)
        given.append(steps[-1])
        for step in steps:
            if isinstance(step, float):
                time.sleep(step)
            else:
                server.sendto(step, peer)
    with socket.socket(socket.AF_INET, socket.SOCK_DGRAM) as server:
        server.bind(("127.0.0.1", 0))
        threading.Thread(target=serve, args=(server,), daemon=True).start()
        see(program, what, server.getsockname()[1], given)


def by_stream(program, what, how):
    hand_on, fault, times = how
    given = []

    def frames(listener):
        for _ in range(times):
            connection, _ = listener.accept()
            connection.recv(4096)
            if fault == "reset":
                connection.setsockopt(socket.SOL_SOCKET, socket.SO_LINGER, struct.pack("ii", 1, 0))
            connection.close()
        connection, _ = listener.accept()
        octets = connection.recv(4096)[2:]
        given.append(answer(octets))
        hand_on(connection, struct.pack(">H", len(given[0])) + given[0])
        time.sleep(0.5)
        connection.close()

    def truncates(server):
        octets, peer = server.recvfrom(4096)
        server.sendto(answer(octets, flags=0x8380), peer)
    with socket.socket() as listener, socket.socket(socket.AF_INET, socket.SOCK_DGRAM) as server:
        listener.bind(("127.0.0.1", 0))
        listener.listen()
        server.bind(listener.getsockname())
        threading.Thread(target=frames, args=(listener,), daemon=True).start()
        threading.Thread(target=truncates, args=(server,), daemon=True).start()
        see(program, what, listener.getsockname()[1], given)


def inside(program):
    with tempfile.TemporaryDirectory() as made:
        conf = Path(made) / "resolv.conf"
        conf.write_text("nameserver 127.0.0.1\n")
        if subprocess.run(["mount", "--bind", str(conf), "/etc/resolv.conf"]).returncode:
            print("skipped: nothing can be mounted over /etc/resolv.conf")
            return
        try:
            for what, make in BY_DATAGRAM.items():
                by_datagram(program, what, make)
            for what, how in BY_STREAM.items():
                by_stream(program, "by a stream, " + what, how)
        finally:
            subprocess.run(["umount", "/etc/resolv.conf"])
    print("all right")


def main():
    if len(sys.argv) < 2:
        sys.exit(__doc__)
    program = [os.path.abspath(sys.argv[1])]
    if os.environ.get(INSIDE):
        return inside(program)
    if not shutil.which("unshare") or subprocess.run(["unshare", "--mount", "true"], stderr=subprocess.DEVNULL).returncode:
        print("skipped: no mount namespace can be made")
        return
    os.environ[INSIDE] = "1"
    os.execvp("unshare", ["unshare", "--mount", "--propagation", "private", sys.executable, *sys.argv])


if __name__ == "__main__":
    main()
