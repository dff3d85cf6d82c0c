#!/usr/bin/env python3
"""Asks a server that compresses names in the data of seven types through `dns_forward`, and sees that they stay what they are.

    python3 tests/ask_compressed.py DNS_FORWARD [ZONE_FETCH]

DNS_FORWARD and ZONE_FETCH are built programs. RFC 3597 4 lets the data of RP, AFSDB, RT, SIG, PX, NXT and NAPTR have compressed names, which a
receiver reads out. The server here answers each type with two addresses whose owners are written whole, and then data whose names
end in pointers: copied into a message that is composed anew, they would name something else. What kdig and dig (where they are
installed) print of the forwarder's answer must be what they print of the server's own: asked first, asked again, a second later,
with DO and without, by datagram and by stream. Data of these types that can't be read must come as it was sent, and is not kept: the server
is asked again. A zone of such records, fetched by `zone_fetch --text`, must load into
named-checkzone, which then prints the records of kdig's AXFR. Prints the first that differs, or how many were the same.
"""

import re
import shutil
import socket
import struct
import subprocess
import sys
import tempfile
import threading
import time

TYPES = {"RP": 17, "AFSDB": 18, "RT": 21, "SIG": 24, "PX": 26, "NXT": 30, "NAPTR": 35}
# Data that its type's form doesn't read: names that are cut or lack, a signature's front that is, strings that are.
UNREAD = {17: b"\4mail", 18: b"\0\1\4mail", 21: b"\0\1", 24: bytes(17), 26: b"\0\x0a\1a\0", 30: b"\4nex", 35: b"\0\x64\0\x0a\1u\7E2U+sip\5re"}
WAYS = ([], [], ["+dnssec"], ["+tcp"], ["+tcp", "+dnssec"])


def data_of(rtype, pointer):
    """Data of a type, whose names end in a pointer."""
    def name(label):
        return bytes([len(label)]) + label + pointer

    if rtype == 17:
        return name(b"mail") + name(b"text")
    if rtype in (18, 21):
        return b"\0\1" + name(b"mail")
    if rtype == 24:
        return struct.pack(">HBBIIIH", 1, 5, 2, 300, 1800000000, 1700000000, 4711) + name(b"signer") + b"signature"
    if rtype == 26:
        return b"\0\x0a" + name(b"mail") + name(b"x400")
    if rtype == 30:
        return name(b"next") + b"\x62\0\0\x08"
    return b"\0\x64\0\x0a" + b"\1u" + b"\7E2U+sip" + b"\0" + name(b"replace")


ASKED = []


def record(owner, rtype, data):
    return owner + struct.pack(">HHIH", rtype, 1, 300, len(data)) + data


def zone(query, question):
    """A transfer of a zone with a record of each type, whose names end in a pointer to its name in the question."""
    pointer = b"\xc0\x0c"
    soa = record(pointer, 6, b"\2ns" + pointer + b"\4host" + pointer + struct.pack(">5I", 7, 3600, 600, 86400, 300))
    records = [soa, record(pointer, 2, b"\2ns" + pointer), record(b"\2ns" + pointer, 1, bytes([192, 0, 2, 1]))]
    records += [record(bytes([len(it)]) + it.lower().encode() + pointer, rtype, data_of(rtype, pointer)) for it, rtype in TYPES.items()]
    return query[:2] + b"\x84\0" + struct.pack(">4H", 1, len(records) + 1, 0, 0) + question + b"".join(records) + soa


def answer(query, longest):
    """The answer to a query: two addresses with owners written whole, and data that points at the second of them."""
    end = 12
    while query[end]:
        end += 1 + query[end]
    qname, question = query[12:end + 1], query[12:end + 5]
    rtype = struct.unpack(">H", query[end + 1:end + 3])[0]
    if rtype == 252:
        return zone(query, question)
    if qname.startswith(b"\3cut"):
        ASKED.append(rtype)
        return query[:2] + b"\x84\0" + struct.pack(">4H", 1, 1, 0, 0) + question + record(b"\xc0\x0c", rtype, UNREAD[rtype])
    out = query[:2] + b"\x84\0" + struct.pack(">4H", 1, 3, 0, 0) + question
    for last in (4, 5):
        place = len(out)
        out += record(qname, 1, bytes([192, 0, 2, last]))
    out += record(qname, rtype, data_of(rtype, struct.pack(">H", 0xC000 | place)))
    return out if len(out) <= longest else out[:2] + b"\x86\0" + struct.pack(">4H", 1, 0, 0, 0) + question


def serve(port):
    """Answers at a port, by datagrams and by streams, while this process runs."""
    datagrams = socket.socket(socket.AF_INET, socket.SOCK_DGRAM)
    datagrams.bind(("127.0.0.1", port))
    streams = socket.create_server(("127.0.0.1", port))

    def by_datagrams():
        while True:
            query, peer = datagrams.recvfrom(4096)
            datagrams.sendto(answer(query, 4096), peer)

    def by_stream(connection):
        with connection, connection.makefile("rb") as it:
            while len(count := it.read(2)) == 2:
                out = answer(it.read(struct.unpack(">H", count)[0]), 65535)
                connection.sendall(struct.pack(">H", len(out)) + out)

    def by_streams():
        while True:
            threading.Thread(target=by_stream, args=(streams.accept()[0],), daemon=True).start()

    for it in (by_datagrams, by_streams):
        threading.Thread(target=it, daemon=True).start()


def printed(tool, port, name, rtype, way):
    """The answer section that a tool prints, without its TTLs."""
    words = [tool, "@127.0.0.1", "-p", str(port), name, "-t", f"TYPE{TYPES[rtype]}", "+noall", "+answer", *way]
    text = subprocess.run(words, capture_output=True, text=True, timeout=30).stdout
    return [re.sub(r"\t\d+\t|\s+\d+\s+IN\s+", " ", line, count=1) for line in text.splitlines() if line and line[0] != ";"]


def unread(port):
    """Whether data that can't be read comes as it was sent, and is asked for each time."""
    for rtype, data in UNREAD.items():
        query = struct.pack(">6H", 4711, 0x0100, 1, 0, 0, 0) + b"\3cut\4good\4test\0" + struct.pack(">HH", rtype, 1)
        with socket.socket(socket.AF_INET, socket.SOCK_DGRAM) as it:
            it.connect(("127.0.0.1", port))
            it.settimeout(5)
            for turn in (1, 2):
                it.send(query)
                got = it.recv(4096)
                if not got.endswith(struct.pack(">H", len(data)) + data) or ASKED.count(rtype) != turn:
                    print(f"type {rtype}, asked {turn} times: the server was asked {ASKED.count(rtype)} times, and it came", got.hex(), sep="\n")
                    return False
    print(f"unread data of {len(UNREAD)} types came as it was sent, and was not kept")
    return True


def loaded(text):
    """The records that named-checkzone makes of a zone's text, in its order."""
    with tempfile.NamedTemporaryFile("w", suffix=".zone") as it:
        it.write(text)
        it.flush()
        words = ["named-checkzone", "-D", "-i", "none", "-k", "ignore", "-n", "ignore", "-o", "-", "good.test", it.name]
        ran = subprocess.run(words, capture_output=True, text=True)
    return ran.returncode, [line for line in ran.stdout.splitlines() if "\t" in line or " IN " in line]


def compare_zones(program, server):
    """Whether a fetched zone loads, and is what kdig is sent."""
    ours = subprocess.run([program, "--text", "--port", str(server), "good.test", "127.0.0.1"], capture_output=True, text=True)
    theirs = subprocess.run(["kdig", "@127.0.0.1", "-p", str(server), "good.test", "AXFR", "+noall", "+answer"], capture_output=True, text=True)
    (status, got), (_, wanted) = loaded(ours.stdout), loaded(theirs.stdout)
    if ours.returncode or status or got != wanted or len(got) < 3 + len(TYPES):
        print("the zone that is fetched, and kdig's:", ours.stderr, *got, "", *wanted, sep="\n")
        return False
    print(f"{len(got)} records of a zone were the same")
    return True


def free_port():
    with socket.socket() as it:
        it.bind(("127.0.0.1", 0))
        return it.getsockname()[1]


def main():
    if len(sys.argv) not in (2, 3):
        print(__doc__.strip())
        return 2
    tools = [it for it in ("kdig", "dig") if shutil.which(it)]
    if not tools:
        print("skipped: neither kdig nor dig is installed")
        return 77
    server, port = free_port(), free_port()
    serve(server)
    forwarder = subprocess.Popen([sys.argv[1], "--port", str(server), str(port)], stdin=subprocess.PIPE, stderr=subprocess.DEVNULL)
    forwarder.stdin.write(b"nameserver 127.0.0.1\n")
    forwarder.stdin.close()
    time.sleep(0.5)
    same = 0
    try:
        for number, tool in enumerate(tools):
            for rtype in TYPES:
                name = f"a{number}.{rtype.lower()}.good.test"
                for turn, way in enumerate(WAYS):
                    if turn == 2:
                        time.sleep(1.1)
                    wanted, got = printed(tool, server, name, rtype, way), printed(tool, port, name, rtype, way)
                    if not wanted or wanted != got:
                        print(f"{tool} {rtype} {' '.join(way)}, time {turn}: the server's answer and the forwarder's", wanted, got, sep="\n")
                        return 1
                    same += 1
        if not unread(port):
            return 1
    finally:
        forwarder.kill()
    print(f"{same} answers were the same")
    if len(sys.argv) == 3:
        if not (shutil.which("kdig") and shutil.which("named-checkzone")):
            print("skipped the zone: no kdig, or no named-checkzone")
        elif not compare_zones(sys.argv[2], server):
            return 1
    return 0


if __name__ == "__main__":
    sys.exit(main())
