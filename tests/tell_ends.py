#!/usr/bin/env python3
"""Has `zone_fetch` and `dns_lookup` end in each way that a test can bring about, and compares what they say.

usage: python3 tests/tell_ends.py ZONE_FETCH DNS_LOOKUP

On status 0 nothing stands on standard error, on every other one sentence there names the cause, and nothing else is written. It needs a `/dev/full`, and servers on loopback that it opens itself.
"""

import pathlib
import re
import socket
import struct
import subprocess
import sys
import tempfile
import threading

import hostile_zones
from hostile_zones import soa

TOP = pathlib.Path(__file__).resolve().parent.parent
RELEASE = re.search(r'RELEASE: &str = "([^"]+)"', (TOP / "crates/program_words/src/release.rt").read_text(encoding="utf-8")).group(1)

faults = []


def ran(program, words, out=subprocess.PIPE):
    done = subprocess.run([program, *words], stdout=out, stderr=subprocess.PIPE, stdin=subprocess.DEVNULL, timeout=120)
    return done.returncode, (done.stdout or b"").decode(), done.stderr.decode()


def expect(what, got, wanted):
    if got != wanted:
        faults.append(f"{what}:\n  {got}\n  and not\n  {wanted}")


def serve(answer):
    """A server of streams at a free port that does this with each."""
    listener = socket.create_server(("127.0.0.1", 0))

    def go():
        while True:
            stream, _ = listener.accept()
            with stream:
                length = struct.unpack("!H", stream.recv(2, socket.MSG_WAITALL))[0]
                answer(stream, stream.recv(length, socket.MSG_WAITALL))

    threading.Thread(target=go, daemon=True).start()
    return listener.getsockname()[1]


def refuse(code):
    def answer(stream, query):
        reply = query[:2] + bytes([0x84, code]) + query[4:6] + bytes(6) + query[12:]
        stream.sendall(struct.pack("!H", len(reply)) + reply)
    return answer


def pages(program):
    name = pathlib.PurePath(program).name
    for word, begins in (("--help", f"usage: {name} "), ("--version", f"{name} {RELEASE} (proved with Rattle's logic ")):
        status, out, said = ran(program, [word])
        expect(f"{name} {word}", (status, out.startswith(begins), out.endswith("\n"), said), (0, True, True, ""))
        with open("/dev/full", "wb") as full:
            expect(f"{name} {word} to a full device", ran(program, [word], full), (4, "", f"{name}: writing to standard output failed\n"))


def fetches(program, folder):
    see = "; see zone_fetch --help\n"
    for words, said in (
        ([], "no zone is asked for"),
        (["--port"], "no port stands behind --port"),
        (["--most"], "no count of octets stands behind --most"),
        (["--from"], "no file stands behind --from"),
        (["--output"], "no file stands behind --output"),
        (["--port", "0", "a.test", "127.0.0.1"], "0 is no port from 1 to 65535"),
        (["--port", "65536", "a.test", "127.0.0.1"], "65536 is no port from 1 to 65535"),
        (["--most", "+1", "a.test", "127.0.0.1"], "+1 is no count of octets"),
        (["a..test", "127.0.0.1"], "a..test is neither an option nor the name of a zone"),
        (["a.test"], "no address of a server stands behind the zone"),
        (["a.test", "ns.a.test"], "ns.a.test stands behind the zone a.test, where the server must, and is no address"),
        (["--port=53", "a.test", "127.0.0.1"], "a.test stands behind the zone --port=53, where the server must, and is no address"),
        (["a.test", "::1", "--text"], "--text stands behind the server's address, where no word may"),
        (["--help", "--help"], "--help stands behind the zone --help, where the server must, and is no address"),
    ):
        expect(words, ran(program, words), (2, "", f"zone_fetch: {said}{see}"))
    file = folder / "before"
    expect("no file", ran(program, ["--from", str(file), "a.test", "127.0.0.1"]), (3, "", f"zone_fetch: {file} could not be read\n"))
    first, other = f"A.test 300 IN SOA ; {22 * '00'}\n", f"b.a.test 300 1 6 {22 * '00'}\n"
    for text, why in (
        ("", "no SOA"),
        ("a.test 1 1 1 00\n", "no SOA"),
        ("\xff", "the file is no text"),
        (first + "a.test 1 1 1\n", "line 2: fewer than five words"),
        (first + "a.test 1 1 1 00", "line 2: no line feed behind it"),
        (first + "a..test 1 1 1 00\n", "line 2: the owner is no name"),
        (first + "a.test 4294967296 1 1 00\n", "line 2: the TTL is no number of 32 bits"),
        (first + "a.test 1 INN 1 00\n", "line 2: the class has no such name, and is no number of 16 bits"),
        (first + "a.test 1 1 TYPE65536 00\n", "line 2: the type has no such name, and is no number of 16 bits"),
        (first + "a.test 1 1 1 0\n", "line 2: the data is not in pairs of hexadecimal digits"),
        (first + "a.test 1 IN A 192.0.2.1 ;\n" + other, "line 2: the data is not in pairs of hexadecimal digits"),
        (first + "a.test 1 1 1 00\n" + other, "line 3: a second SOA"),
        (other + first, "line 1: an SOA of another zone"),
        (other + "\n", "line 1: an SOA of another zone"),
        ("\n" + other, "line 1: fewer than five words"),
        (f"a.test 1 1 6 {19 * '00'}\n", "line 1: an SOA without a serial"),
    ):
        file.write_bytes(text.encode("latin-1"))
        said = f"zone_fetch: {file}: no printed zone: {why}\n"
        expect(text, ran(program, ["--from", str(file), "a.test", "127.0.0.1"]), (1, "", said))
    with socket.create_server(("127.0.0.1", 0)) as closed:
        port = closed.getsockname()[1]
    at = lambda port: ["--port", str(port), "a.test", "127.0.0.1"]
    left = lambda port, why: (5, "", f"zone_fetch: a.test from 127.0.0.1:{port}: {why}\n")
    expect("a closed port", ran(program, at(port)), left(port, "failed connect: connection refused"))
    for code, name in ((2, "SERVFAIL"), (5, "REFUSED"), (9, "NOTAUTH")):
        port = serve(refuse(code))
        expect(name, ran(program, at(port)), left(port, f"failed refused: the server answered {name}"))
    port = serve(lambda stream, query: stream.sendall(b"\x00\x64" + query[:20]))
    expect("a cut stream", ran(program, at(port)), left(port, "failed transport: the stream was cut within a message"))
    port = serve(lambda stream, query: None)
    expect("a closed stream", ran(program, at(port)), left(port, "failed transport: the server closed the stream before the transfer's end"))


def changes(program, folder):
    """What comes of a request for changes of a zone with serial 5, which all others' serials are compared with."""
    server, file = hostile_zones.Server(), folder / "zone"
    zone, text = hostile_zones.ZONE, lambda serial: hostile_zones.line(soa(serial).kept()) + "\n"
    head = f"zone_fetch: {zone} from 127.0.0.1:{server.port}: "
    same, why = f"{head}unchanged: its serial is 5, which {file} has\n", f"{head}asked for whole: "
    older = f"{head}failed serial: its serial 4 is not greater than 5, which {file} has\n"
    misfit = [(0, [soa(6), soa(5), hostile_zones.plain(1), soa(6), soa(6)])]
    file.write_text(text(5))
    words = ["--port", str(server.port), zone, "127.0.0.1"]
    for what, sent, serial, ends in (
        ("the same serial alone", [(0, [soa(5)])], 5, (9, "", same)),
        ("an older serial alone", [(0, [soa(4)])], 4, (5, "", older)),
        ("a serial half of all ahead", [(0, [soa(2**31 + 5)])], 4, (5, "", older.replace(" 4 ", f" {2**31 + 5} "))),
        ("a serial alone", [(0, [soa(6)])], 6, (0, text(6), f"{why}the server has no changes, and a zone with serial 6\n")),
        ("FORMERR", [(1, [])], 6, (0, text(6), f"{why}the server answered FORMERR where its changes were asked for\n")),
        ("NOTIMP", [(4, [])], 4, (5, "", f"{why}the server answered NOTIMP where its changes were asked for\n{older}")),
        ("REFUSED", [(5, [])], 5, (9, "", f"{why}the server answered REFUSED where its changes were asked for\n{same}")),
        ("NOTAUTH", [(9, [])], 6, (5, "", f"{head}failed refused: the server answered NOTAUTH\n")),
        ("a misfit", misfit, 6, (0, text(6), f"{why}of its changes 1 delete what is not there, or add what is\n")),
    ):
        server.sent = {hostile_zones.IXFR: sent, hostile_zones.AXFR: [(0, [soa(serial), soa(serial)])]}
        expect(what, ran(program, ["--from", str(file), *words]), ends)
    server.sent = {hostile_zones.AXFR: [(0, [soa(6), soa(6)])]}
    expect("a file", ran(program, ["--output", str(file), *words]), (0, "", ""))
    expect("a file's folder", [(path, path.read_text()) for path in folder.glob("zone*")], [(file, text(6))])
    none = folder / "none" / "zone"
    expect("no folder", ran(program, ["--output", str(none), *words]), (4, "", f"zone_fetch: {none} could not be written\n"))
    server.sent = {hostile_zones.AXFR: [(0, [soa(7), soa(8)])]}
    expect("a wrong end", ran(program, ["--output", str(file), *words])[:2], (5, ""))
    expect("a file after a wrong end", file.read_text(), text(6))


def lookups(program):
    see = "; see dns_lookup --help\n"
    for words, said in (
        ([], "no name is asked for"),
        (["-p"], "no port stands behind -p"),
        (["-x"], "no address stands behind -x"),
        (["-w"], "-w is no option"),
        (["-k", "a.test"], "-k asks for a signed request (TSIG), and none is signed"),
        (["a.test", "-t", "NOTYPE"], "NOTYPE is neither a known type nor TYPE with a number"),
        (["a.test", "@192.0.2.1", "b.test"], "b.test is another name behind a server that stands behind a name, and servers are asked for all names"),
        (["a.test", "AXFR"], "AXFR is no type that one message answers"),
        (["a.test", "NONE"], "NONE is another class than IN, CH and HS"),
        (["a.test", "+unknownformat"], "+unknownformat asks for a text of records that is not written"),
        (["a.test", "+ndots=65536"], "+ndots=65536 gives no count of dots from 0 to 65535"),
        (["a.test", "+domain=a..b"], "+domain=a..b gives no suffix by +domain=NAME"),
        (["@192.0.2.1:53", "a.test"], "@192.0.2.1:53 names no server: it is no address, and no name whose address is found"),
    ):
        expect(words, ran(program, words), (2, "", f"dns_lookup: {said}{see}"))
    expect("a recorded walk", ran(program, ["--record", "/dev/full", "+trace", "a.test"]), (2, "", "dns_lookup: +trace is not recorded\n"))


def main():
    if len(sys.argv) != 3:
        sys.exit(__doc__.split("\n\n", 2)[1])
    fetch, lookup = sys.argv[1:]
    for program in sys.argv[1:]:
        pages(program)
    with tempfile.TemporaryDirectory() as folder:
        fetches(fetch, pathlib.Path(folder))
        changes(fetch, pathlib.Path(folder))
    lookups(lookup)
    print("\n".join(faults) or "each end is told")
    sys.exit(1 if faults else 0)


if __name__ == "__main__":
    main()
