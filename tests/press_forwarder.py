#!/usr/bin/env python3
"""Presses `dns_forward` by load, and by peers that mean it ill.

    python3 tests/press_forwarder.py PROGRAM [--long]

PROGRAM is the built dns_forward. A server of this script's own on loopback answers names that begin with `ok` at once, one that begins
with `big` by about 60,000 octets over a stream, with `bigslow` so three seconds later, and none else. In this order, which ends with status 1 at the first difference:

streams: a query octet by octet; two in one write; 3,800 at once, each answered once; 101 streams, of which the quietest is closed and the
others serve; a peer that asks for 60 megabytes and reads nothing, which is closed while the others are served, and memory stays below 100
megabytes.
waiting: 10,000 queries by 100 streams for one name whose answer of 60,000 octets comes three seconds later. 251 have it, the others SERVFAIL;
memory stays at 40 megabytes at most.
silence: 100,000 datagrams that get no answer from 1,000 ports, and a query behind them that does.
flood: 14,000 queries a second for 20 seconds to which the server is silent. Memory stays at 40 megabytes at most, names that were
answered before are answered meanwhile, and afterwards descriptors and new names are as before.
death: the server ends under 1,000 queries a second and comes back two seconds later. Each query is answered, those before and after by
an address.
long (--long alone; NSD and dnsperf): 10,000,000 queries, of which a tenth ask for 5,000 names in turn where 2,000 are kept, so that a server is asked.
Descriptors are as before, and memory at the end is at most a tenth above that of the first fifth.

Where a datagram was lost, as the system may where its buffers are full, it is sent again, and how many were is told.
"""

import atexit
import multiprocessing
import os
import random
import selectors
import shutil
import signal
import socket
import struct
import subprocess
import sys
import tempfile
import threading
import time
from pathlib import Path

from ask_forwarder import by_datagram, frame, framed, query, question, start, status, stream
from ask_servers import expect, free_port

sys.path.insert(0, str(Path(__file__).resolve().parent.parent / "bench"))
import sockets as bench_sockets


def answered(octets, by_stream):
    """The server's answer to a query, if it has one."""
    end = 12
    while octets[end]:
        end += 1 + octets[end]
    end += 5
    if octets[13:15] == b"ok":
        return octets[:2] + b"\x81\x80\0\1\0\1\0\0\0\0" + octets[12:end] + b"\xc0\x0c\0\1\0\1\0\0\0\x3c\0\4\1\2\3\4"
    if octets[13:16] == b"big":
        if not by_stream:
            return octets[:2] + b"\x83\x80\0\1\0\0\0\0\0\0" + octets[12:end]
        text = b"".join(b"\xff" + b"x" * 255 for _ in range(230))
        return octets[:2] + b"\x81\x80\0\1\0\1\0\0\0\0" + octets[12:end] + b"\xc0\x0c\0\x10\0\1\0\0\0\x3c" + struct.pack(">H", len(text)) + text
    return None


def serve_stream(s):
    try:
        while (asked := frame(s)) is not None:
            if asked[13:20] == b"bigslow":
                time.sleep(3)
            answer = answered(asked, True)
            if answer:
                s.sendall(framed(answer))
    except OSError:
        pass


def serve_streams(listener):
    while True:
        s, _ = listener.accept()
        threading.Thread(target=serve_stream, args=(s,), daemon=True).start()


def serve(port):
    dgrams, listener = socket.socket(socket.AF_INET, socket.SOCK_DGRAM), socket.socket()
    listener.setsockopt(socket.SOL_SOCKET, socket.SO_REUSEADDR, 1)
    for s in [dgrams, listener]:
        s.bind(("127.0.0.1", port))
    listener.listen(100)
    threading.Thread(target=serve_streams, args=(listener,), daemon=True).start()
    while True:
        octets, peer = dgrams.recvfrom(4096)
        answer = answered(octets, False)
        if answer:
            dgrams.sendto(answer, peer)


def port_of_no_client():
    """A free port below those that the system gives clients, so that none of them has it while the server is dead."""
    while True:
        port = random.randrange(20000, 32000)
        with socket.socket(socket.AF_INET, socket.SOCK_DGRAM) as it:
            try:
                it.bind(("127.0.0.1", port))
                return port
            except OSError:
                continue


def server_at(port):
    server = multiprocessing.Process(target=serve, args=(port,), daemon=True)
    server.start()
    while by_datagram(port, query("ok.example"), 0.2) is None:
        time.sleep(0.05)
    return server


def memory(process):
    """The memory of a process in kibibytes, the most that it had, and how many descriptors are open."""
    lines = Path("/proc/%d/status" % process.pid).read_text().splitlines()
    told = {line.split(":")[0]: line.split()[1] for line in lines if line.startswith("Vm")}
    return int(told["VmRSS"]), int(told["VmHWM"]), len(os.listdir("/proc/%d/fd" % process.pid))


def asked_often(port, name, number=0x4242, seconds=0.5, times=20):
    """The answer to a query that is sent again where none came, and how often it was sent."""
    for sent in range(1, times + 1):
        got = by_datagram(port, query(name, number=number), seconds)
        if got is not None:
            return got, sent
    return None, times


def one_by_one(port):
    with stream(port) as s:
        for octet in framed(query("ok.example", number=9)):
            s.sendall(bytes([octet]))
            time.sleep(0.002)
        got = frame(s)
        expect(got is not None and got[:2] == b"\0\x09" and got[7] == 1, "a query octet by octet: %r" % got)
        s.sendall(framed(query("ok1.example", number=10)) + framed(query("ok2.example", number=11)))
        both = sorted(octets[:2] for octets in [frame(s), frame(s)])
        expect(both == [b"\0\x0a", b"\0\x0b"], "two queries in one write: %r" % both)
        s.sendall(framed(b"short"))
        expect(frame(s) is None, "a frame without a header does not end its stream")


def many_at_once(port):
    """3,800 queries behind one another without waiting, of which half were never asked before."""
    asked = [query("ok%d.example" % (n % 1900), number=n) for n in range(3800)]
    with stream(port) as s:
        sender = threading.Thread(target=s.sendall, args=(b"".join(framed(it) for it in asked),))
        sender.start()
        numbers = set()
        for _ in asked:
            got = frame(s)
            expect(got is not None and status(got) in [0, 2] and got[12:] and asked[int.from_bytes(got[:2], "big")][12:] == got[12:len(asked[int.from_bytes(got[:2], "big")])],
                   "one of 3,800 queries: %r" % got)
            numbers.add(got[:2])
        sender.join()
    expect(len(numbers) == 3800, "%d of 3,800 queries are answered" % len(numbers))


def many_streams(port):
    many = []
    for _ in range(101):
        many.append(stream(port))
        time.sleep(0.005)
    time.sleep(0.5)
    many[0].settimeout(2)
    try:
        expect(many[0].recv(1) == b"", "the quietest of 101 streams is not closed")
    except ConnectionResetError:
        pass
    for at in [1, 50, 100]:
        many[at].sendall(framed(query("ok.example", number=at)))
        got = frame(many[at])
        expect(got is not None and got[1] == at, "stream %d of 101: %r" % (at, got))
    for s in many:
        s.close()


def never_reads(port, process):
    deaf = socket.socket(socket.AF_INET, socket.SOCK_STREAM)
    deaf.setsockopt(socket.SOL_SOCKET, socket.SO_RCVBUF, 4096)
    deaf.connect(("127.0.0.1", port))
    deaf.setblocking(False)
    asked = framed(query("big.example", 16, number=12))
    sent, closed, began, longest = 0, False, time.time(), 0
    while sent < 1000 * len(asked) and time.time() - began < 20 and not closed:
        try:
            sent += deaf.send(asked)
        except BlockingIOError:
            time.sleep(0.01)
        except (ConnectionResetError, BrokenPipeError):
            closed = True
        if sent % (100 * len(asked)) == 0:
            at = time.time()
            expect(asked_often(port, "ok.example")[0] is not None, "nothing is served beside a peer that reads nothing")
            longest = max(longest, time.time() - at)
    most = memory(process)[1]
    expect(most < 100_000, "%d KiB of memory beside a peer that reads nothing" % most)
    print("streams: a peer that read nothing of what %d queries brought %s; at most %d KiB of memory; another waited %.3f s at most"
          % (sent // len(asked), "was closed" if closed else "stays", most, longest))
    deaf.close()


def press_streams(port, process):
    one_by_one(port)
    many_at_once(port)
    many_streams(port)
    print("streams: a query octet by octet, two at once, 3,800 at once, and 101 streams")
    never_reads(port, process)


def press_by_waiting(port, process):
    """Each stream asks thrice before any asks more, so that what is owed to one stays small."""
    # From here on the most memory that it had is told anew (proc(5)).
    Path("/proc/%d/clear_refs" % process.pid).write_text("5")
    before = memory(process)[0]
    many = [stream(port) for _ in range(100)]
    for numbers in [[0], [1], [2], range(3, 100)]:
        for s in many:
            s.sendall(b"".join(framed(query("bigslow.example", 16, number=n)) for n in numbers))
    whole, away = 0, 0
    for s in many:
        for _ in range(100):
            got = frame(s)
            expect(got is not None and status(got) in [0, 2], "a query that waits beside others: %r" % (got and got[:12]))
            whole, away = whole + (len(got) > 50_000), away + (status(got) == 2)
        s.close()
    most = memory(process)[1]
    expect([whole, away] == [251, 9_749], "%d that wait have the answer, and %d SERVFAIL" % (whole, away))
    expect(most <= 40_000, "%d KiB of memory where 10,000 ask for one answer, %d before them" % (most, before))
    print("waiting: of 10,000 queries by streams %d have the answer, and %d SERVFAIL; at most %d KiB of memory, before them %d" % (whole, away, most, before))


def press_by_silence(port, process):
    before = memory(process)
    senders = [socket.socket(socket.AF_INET, socket.SOCK_DGRAM) for _ in range(1000)]
    kinds = [query("ok.example", flags=0x8100), query("ok.example")[:11], b"", query("big.example", flags=0x8500, number=1)]
    for n in range(100_000):
        senders[n % 1000].sendto(kinds[n % 4], ("127.0.0.1", port))
        if n % 100 == 0:
            expect(asked_often(port, "ok.example")[0] is not None, "nothing is served amid datagrams without an answer")
    for s in senders:
        s.setblocking(False)
        try:
            expect(False, "an answer to what has none: %r" % s.recv(512))
        except BlockingIOError:
            pass
        s.close()
    after = memory(process)
    expect(after[2] == before[2] and after[0] < before[0] + 8000, "memory and descriptors after 100,000 datagrams: %r, before %r" % (after, before))
    print("silence: 100,000 datagrams have no answer; %d KiB of memory, before them %d" % (after[0], before[0]))


def flood(port, rate, seconds, sent):
    senders = [socket.socket(socket.AF_INET, socket.SOCK_DGRAM) for _ in range(50)]
    began, count = time.time(), 0
    while time.time() - began < seconds:
        for _ in range(int((time.time() - began) * rate) - count):
            senders[count % 50].sendto(query("q%d.example" % count, number=count & 0xFFFF), ("127.0.0.1", port))
            count += 1
        time.sleep(0.002)
    sent.value = count


def press_by_flood(port, process):
    # From here on the most memory that it had is told anew (proc(5)).
    Path("/proc/%d/clear_refs" % process.pid).write_text("5")
    before = memory(process)
    sent = multiprocessing.Value("i", 0)
    flooding = multiprocessing.Process(target=flood, args=(port, 14_000, 20, sent), daemon=True)
    flooding.start()
    hits, again, longest, descriptors = 0, 0, 0, 0
    while flooding.is_alive():
        began = time.time()
        got, times = asked_often(port, "ok.example")
        expect(got is not None and status(got) == 0, "a name that is kept is not answered amid a flood: %r" % got)
        longest, hits, again, descriptors = max(longest, time.time() - began), hits + 1, again + times - 1, max(descriptors, memory(process)[2])
        time.sleep(0.02)
    most = memory(process)[1]
    expect(most <= 40_000, "%d KiB of memory in a flood" % most)
    time.sleep(6)
    slowest = 0
    for n in range(20):
        began = time.time()
        got, _ = asked_often(port, "okflood%d.example" % n)
        expect(got is not None and status(got) == 0, "a new name after a flood: %r" % got)
        slowest = max(slowest, time.time() - began)
    after = memory(process)
    expect(after[2] <= before[2] + 1, "%d descriptors after a flood, %d before" % (after[2], before[2]))
    print("flood: %d queries in 20 s; at most %d KiB and %d descriptors; %d names that are kept were answered within %.3f s, %d were sent again; new names afterwards within %.3f s"
          % (sent.value, most, descriptors, hits, longest, again, slowest))


class Waiting:
    """A query that waits for its answer, and is sent again each second."""

    def __init__(self, name, port, selector):
        self.octets, self.begun, self.sent = query(name, number=random.randrange(65536)), time.monotonic(), 0
        self.socket = socket.socket(socket.AF_INET, socket.SOCK_DGRAM)
        self.socket.connect(("127.0.0.1", port))
        selector.register(self.socket, selectors.EVENT_READ, self)
        self.send()

    def send(self):
        self.sent, self.last = self.sent + 1, time.monotonic()
        self.socket.send(self.octets)


def press_by_death(port, server_port, server):
    selector, waiting, told, begun, count, state, back = selectors.DefaultSelector(), set(), [], time.monotonic(), 0, "alive", 0
    while waiting or count < 6000:
        now = time.monotonic()
        if state == "alive" and now - begun > 2:
            server.kill()
            state = "dead"
        if state == "dead" and now - begun > 4:
            server = server_at(server_port)
            state, back = "back", time.monotonic()
        while count < 6000 and begun + count / 1000 <= now:
            waiting.add(Waiting("okdeath%d.example" % count, port, selector))
            count += 1
        for key, _ in selector.select(0.002):
            asked = key.data
            got = asked.socket.recv(4096)
            expect(got[:2] == asked.octets[:2] and status(got) in [0, 2], "an answer as the server dies: %r" % got)
            selector.unregister(asked.socket)
            asked.socket.close()
            waiting.discard(asked)
            told.append((asked.begun, status(got), asked.sent))
        for asked in [it for it in waiting if now - it.last > 1]:
            expect(now - asked.begun < 12, "a query has no answer as the server dies")
            asked.send()
    early = [it for it in told if it[0] < begun + 1.9]
    late = [it for it in told if it[0] > back + 0.1]
    expect(len(late) > 500 and all(it[1] == 0 for it in early + late), "answers before and after the server's death: %r" % [it for it in early + late if it[1]][:9])
    print("death: %d queries are answered, %d by SERVFAIL, %d were sent again" % (len(told), sum(it[1] == 2 for it in told), sum(it[2] > 1 for it in told)))


def press_long(program):
    if not shutil.which("dnsperf") or not (shutil.which("nsd") or os.path.exists("/usr/sbin/nsd")):
        return print("skipped: no NSD or dnsperf")
    with tempfile.TemporaryDirectory() as place:
        os.chmod(place, 0o755)
        server_port, port = bench_sockets.free_port(), free_port()
        nsd = bench_sockets.serve(place, server_port)
        forwarder = start(program, port, server_port, ["--entries", "2000"], conf=b"nameserver 127.0.1.1\n")
        names = Path(place) / "names"
        names.write_text("".join("n%d.example A\n" % (n if n % 10 == 0 else random.randrange(200)) for n in range(50_000)))
        before, seen = memory(forwarder), []
        asking = subprocess.Popen(["dnsperf", "-s", "127.0.0.1", "-p", str(port), "-d", str(names), "-n", "200", "-c", "8", "-q", "80"], stdout=subprocess.PIPE, text=True)
        while asking.poll() is None:
            time.sleep(0.5)
            seen.append(memory(forwarder))
        out = asking.stdout.read()
        nsd.terminate()
        time.sleep(6)
        after, early, late = memory(forwarder), max(it[0] for it in seen[:len(seen) // 5 + 1]), max(it[0] for it in seen)
        print("\n".join(line.strip() for line in out.splitlines() if "Queries" in line or "Response codes" in line))
        expect(late <= early * 1.1 and after[2] <= before[2], "memory %d KiB in the first fifth, %d at most; descriptors %d, before %d" % (early, late, after[2], before[2]))
        print("long: %d KiB of memory in the first fifth, at most %d; descriptors %d at most, %d at the end, %d before" % (early, late, max(it[2] for it in seen), after[2], before[2]))
        forwarder.kill()


def main():
    if len(sys.argv) < 2:
        sys.exit(__doc__)
    program = os.path.abspath(sys.argv[1])
    server_port, port = port_of_no_client(), free_port()
    server = server_at(server_port)
    forwarder = start(program, port, server_port)
    atexit.register(forwarder.kill)
    expect(status(by_datagram(port, query("ok.example"))) == 0, "no answer")
    press_streams(port, forwarder)
    press_by_waiting(port, forwarder)
    press_by_silence(port, forwarder)
    press_by_flood(port, forwarder)
    press_by_death(port, server_port, server)
    expect(forwarder.poll() is None, "it ended by %r" % forwarder.poll())
    forwarder.send_signal(signal.SIGTERM)
    expect(forwarder.wait(1) == -signal.SIGTERM, "SIGTERM ends it by another status")
    if "--long" in sys.argv:
        press_long(program)
    print("ok")


if __name__ == "__main__":
    main()
