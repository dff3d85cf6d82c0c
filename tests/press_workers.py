#!/usr/bin/env python3
"""Presses `dns_forward --workers` by load, and takes its memory away.

    python3 tests/press_workers.py PROGRAM [QUERIES [WORKERS]]

PROGRAM is the built dns_forward. With NSD and dnsperf, and a process beside it that only computes:

load: QUERIES queries (10,000,000) by dnsperf to WORKERS workers (4), of which a tenth ask for 5,000 names in turn where 2,000 are kept, so that a server is asked.
Meanwhile this script asks too, for 256 names of which each has an address of its own, spelled and numbered at random, by datagrams and, one in a hundred, by a stream: each
answer has the id, the spelling and the address that belong to its query. None of its queries has no answer within five seconds; of those by dnsperf none is lost
but at the beginning, where the system's buffers are full. Memory at the end is at most a tenth above that of the first fifth, and descriptors are as before, but for one a worker.
memory: the limit of the process's addresses is set to what it has and 4 megabytes more, and names are asked that were never asked. It ends with status 6, and what was answered
until then was right.
"""

import multiprocessing
import os
import random
import resource
import socket
import struct
import subprocess
import sys
import tempfile
import time
from pathlib import Path

from ask_forwarder import frame, framed, start, stream
from ask_servers import expect, free_port
from press_forwarder import memory

sys.path.insert(0, str(Path(__file__).resolve().parent.parent / "bench"))
import sockets as bench_sockets

OWN = 256
MOST_SECONDS = 5


def spelled(name):
    return "".join(random.choice((letter.lower(), letter.upper())) for letter in name)


def query_for(name, ident):
    labels = b"".join(bytes([len(it)]) + it.encode() for it in name.split("."))
    return struct.pack(">HHHHHH", ident, 0x100, 1, 0, 0, 0) + labels + b"\0\0\1\0\1"


def belongs(got, asked, address):
    """Whether octets answer a query: its id, its question as it is spelled there, no error, and this address alone. NSD has records behind it."""
    record = got[len(asked):len(asked) + 16]
    return (got[:2] == asked[:2] and got[2] & 0x80 and got[3] & 15 == 0 and got[4:8] == b"\0\1\0\1" and got[12:len(asked)] == asked[12:]
            and record[:6] == b"\xc0\x0c\0\1\0\1" and record[10:] == b"\0\4" + address)


def ask_once(port, by_stream, at, seconds=MOST_SECONDS):
    """What became of a query for one of the names that have an address of their own: `right`, `wrong`, or `none` where no answer came."""
    name, address = "c%d.example" % at, bytes([192, 0, 2, at])
    asked = query_for(spelled(name), random.randrange(65536))
    if by_stream:
        with stream(port) as s:
            s.sendall(framed(asked))
            got = frame(s)
    else:
        with socket.socket(socket.AF_INET, socket.SOCK_DGRAM) as s:
            s.settimeout(seconds)
            s.connect(("127.0.0.1", port))
            try:
                s.send(asked)
                got = s.recv(65535)
            except OSError:
                got = None
    return "none" if got is None else "right" if belongs(got, asked, address) else "wrong"


def ask_all_the_time(port, ends, told):
    counts = {"right": 0, "wrong": 0, "none": 0}
    while not ends.is_set():
        counts[ask_once(port, random.randrange(100) == 0, random.randrange(OWN))] += 1
    told.put(counts)


def compute(ends):
    while not ends.is_set():
        sum(it * it for it in range(100_000))


def press_by_load(program, queries, workers, place):
    server_port, port = bench_sockets.free_port(), free_port()
    bench_sockets.ZONE += "".join("c%d 60 A 192.0.2.%d\n" % (it, it) for it in range(OWN))
    nsd = bench_sockets.serve(place, server_port)
    forwarder = start(program, port, server_port, ["--entries", "2000", "--workers", str(workers)], conf=b"nameserver 127.0.1.1\n")
    names = Path(place) / "names"
    names.write_text("".join("n%d.example A\n" % (n if n % 10 == 0 else random.randrange(200)) for n in range(50_000)))
    ends, told = multiprocessing.Event(), multiprocessing.Queue()
    beside = [multiprocessing.Process(target=ask_all_the_time, args=(port, ends, told)), multiprocessing.Process(target=compute, args=(ends,))]
    for it in beside:
        it.start()
    before, seen = memory(forwarder), []
    asking = subprocess.Popen(["dnsperf", "-s", "127.0.0.1", "-p", str(port), "-d", str(names), "-n", str(queries // 50_000), "-c", "8", "-q", "80"],
                              stdout=subprocess.PIPE, text=True)
    while asking.poll() is None:
        time.sleep(0.5)
        seen.append(memory(forwarder))
    out = asking.stdout.read()
    ends.set()
    counts = told.get()
    nsd.terminate()
    time.sleep(6)
    after, early, late = memory(forwarder), max(it[0] for it in seen[:len(seen) // 5 + 1]), max(it[0] for it in seen)
    print("\n".join(line.strip() for line in out.splitlines() if "Queries" in line or "Response codes" in line))
    print("load: %d of its own queries right, %d wrong, %d without an answer" % (counts["right"], counts["wrong"], counts["none"]))
    expect(counts["wrong"] == 0 and counts["none"] == 0, "an answer that is wrong, or none")
    # Each worker has handles of the sockets from its first datagram on.
    expect(late <= early * 1.1 and after[2] <= before[2] + workers, "memory %d KiB in the first fifth, %d at most; descriptors %d, before %d" % (early, late, after[2], before[2]))
    print("load: %d KiB of memory in the first fifth, at most %d; descriptors %d at most, %d at the end, %d before" % (early, late, max(it[2] for it in seen), after[2], before[2]))
    forwarder.kill()


def addresses(process):
    lines = Path("/proc/%d/status" % process.pid).read_text().splitlines()
    return 1024 * next(int(line.split()[1]) for line in lines if line.startswith("VmSize"))


def press_by_memory(program, workers, place):
    server_port, port = bench_sockets.free_port(), free_port()
    nsd = bench_sockets.serve(place, server_port)
    forwarder = start(program, port, server_port, ["--entries", "100000000", "--workers", str(workers)], conf=b"nameserver 127.0.1.1\n")
    expect(ask_once(port, False, 7) == "right", "no answer")
    most = addresses(forwarder) + 4 * 1024 * 1024
    resource.prlimit(forwarder.pid, resource.RLIMIT_AS, (most, most))
    names = Path(place) / "names"
    names.write_text("".join("m%d.example A\n" % n for n in range(400_000)))
    asking = subprocess.Popen(["dnsperf", "-s", "127.0.0.1", "-p", str(port), "-d", str(names), "-l", "30", "-t", "1"], stdout=subprocess.PIPE, text=True)
    right = 0
    for _ in range(10_000):
        if forwarder.poll() is not None:
            break
        got = ask_once(port, False, random.randrange(OWN), 0.2)
        expect(got != "wrong", "an answer is wrong where memory runs out")
        right += got == "right"
    try:
        ended = forwarder.wait(30)
    except subprocess.TimeoutExpired:
        ended = None
    asking.kill()
    nsd.terminate()
    print("memory: it ended by %r, behind %d right answers" % (ended, right))
    expect(ended == 6, "it ended by %r" % ended)


def main():
    if len(sys.argv) < 2:
        sys.exit(__doc__)
    program = os.path.abspath(sys.argv[1])
    queries = int(sys.argv[2]) if len(sys.argv) > 2 else 10_000_000
    workers = int(sys.argv[3]) if len(sys.argv) > 3 else 4
    with tempfile.TemporaryDirectory() as place:
        os.chmod(place, 0o755)
        press_by_load(program, queries, workers, place)
        press_by_memory(program, workers, place)
    print("ok")


if __name__ == "__main__":
    main()
