#!/usr/bin/env python3
"""Asks servers that lose, refuse, are silent or lie, by `dns_lookup` beside dig, kdig and glibc, in one run.

    python3 tests/ask_practice.py PROGRAM [servers] [loss] [files]

PROGRAM is the built dns_lookup; without further words all three parts are run. Servers on loopback listen at one high port,
and each command is run where `/etc/resolv.conf` is a file of this test's own (by a mount of its own, so it runs as root). glibc is
asked by a C program of twenty lines over `res_nquery`, which getent calls too, since getent knows no port but 53.

servers: several servers of which the first does not serve, twenty times each. `dns_lookup` must answer wherever another one does, and past a server
that is dead within half a second in the median.

loss: a server that loses three in ten of what comes and of what goes, 200 questions each. `dns_lookup` must get 178 answers with
the options as they are, and 195 with `attempts:3`.

files: files as they are found on systems. What `dns_lookup` asks, in order, is compared with what glibc's `res_ninit` reads, and what
it tells of their lines is written. Each difference that is not listed beside its file ends this with status 1.
"""

import os
import random
import re
import socket
import statistics
import subprocess
import sys
import tempfile
import threading
import time
from concurrent.futures import ThreadPoolExecutor
from pathlib import Path

from ask_servers import expect, skipped

GLIBC = r"""
#include <arpa/inet.h>
#include <arpa/nameser.h>
#include <netinet/in.h>
#include <resolv.h>
#include <stdio.h>
#include <stdlib.h>
#include <string.h>

int main(int argc, char **argv) {
    struct __res_state state;
    memset(&state, 0, sizeof state);
    if (res_ninit(&state)) return 2;
    if (argc < 2) {
        for (int i = 0; i < state.nscount; i++) {
            char text[64];
            if (state.nsaddr_list[i].sin_family == AF_INET) inet_ntop(AF_INET, &state.nsaddr_list[i].sin_addr, text, sizeof text);
            else if (state._u._ext.nsaddrs[i]) inet_ntop(AF_INET6, &state._u._ext.nsaddrs[i]->sin6_addr, text, sizeof text);
            else strcpy(text, "?");
            printf("%s ", text);
        }
        printf("%d %d\n", state.retrans, state.retry);
        return 0;
    }
    for (int i = 0; i < state.nscount; i++) state.nsaddr_list[i].sin_port = htons(atoi(argv[1]));
    unsigned char answer[65536];
    int length = res_nquery(&state, argv[2], ns_c_in, ns_t_a, answer, sizeof answer);
    if (length < 0) return 1;
    return 0;
}
"""
NAME = "www.example"
ADDRESSES = ["127.0.0.1", "127.0.0.2", "127.0.0.3"]


def answer(query, code=0, truncated=False):
    """What a server says to a query: one address, or a code without one."""
    end = 12
    while query[end]:
        end += 1 + query[end]
    question = query[12:end + 5]
    has_data = code == 0 and not truncated
    flags = 0x8180 | code | (0x0200 if truncated else 0)
    header = query[:2] + flags.to_bytes(2, "big") + b"\0\1" + (b"\0\1" if has_data else b"\0\0") + b"\0\0\0\0"
    return header + question + (b"\xc0\x0c\0\1\0\1\0\0\0\x3c\0\4\xc0\0\2\1" if has_data else b"")


class Server:
    """A server at an address, which does what its kind says, until it is closed."""

    def __init__(self, kind, address, port):
        self.kind, self.open, self.asked = kind, True, 0
        self.sockets = []
        if kind == "closed":
            return
        self.udp = socket.socket(socket.AF_INET, socket.SOCK_DGRAM)
        self.udp.setsockopt(socket.SOL_SOCKET, socket.SO_RCVBUF, 1 << 20)
        self.udp.bind((address, port))
        self.sockets.append(self.udp)
        threading.Thread(target=self.serve_udp, daemon=True).start()
        if kind in ("good", "tcp silent", "tcp reset", "lossy"):
            self.tcp = socket.socket(socket.AF_INET, socket.SOCK_STREAM)
            self.tcp.setsockopt(socket.SOL_SOCKET, socket.SO_REUSEADDR, 1)
            self.tcp.bind((address, port))
            self.tcp.listen(64)
            self.sockets.append(self.tcp)
            threading.Thread(target=self.serve_tcp, daemon=True).start()

    def serve_udp(self):
        while self.open:
            try:
                query, peer = self.udp.recvfrom(65535)
            except OSError:
                return
            if len(query) < 17:
                continue
            self.asked += 1
            for reply, wait in self.replies(query):
                if wait:
                    threading.Timer(wait, self.send, (reply, peer)).start()
                else:
                    self.send(reply, peer)

    def send(self, reply, peer):
        try:
            self.udp.sendto(reply, peer)
        except OSError:
            pass

    def replies(self, query):
        kind = self.kind
        if kind == "silent":
            return []
        if kind == "lossy":
            return [(answer(query), 0)] if random.random() < 0.7 and random.random() < 0.7 else []
        if kind in ("SERVFAIL", "REFUSED", "NOTIMP"):
            return [(answer(query, {"SERVFAIL": 2, "NOTIMP": 4, "REFUSED": 5}[kind]), 0)]
        if kind == "junk":
            return [(b"junk", 0)]
        if kind == "late 1 s":
            return [(answer(query), 1.0)]
        if kind in ("tcp silent", "tcp refused", "tcp reset"):
            return [(answer(query, 0, True), 0)]
        return [(answer(query), 0)]

    def serve_tcp(self):
        kept = []
        while self.open:
            try:
                stream, _ = self.tcp.accept()
            except OSError:
                return
            if self.kind == "tcp silent":
                kept.append(stream)
            elif self.kind == "tcp reset":
                stream.setsockopt(socket.SOL_SOCKET, socket.SO_LINGER, b"\1\0\0\0\0\0\0\0")
                stream.close()
            else:
                threading.Thread(target=self.serve_stream, args=(stream,), daemon=True).start()

    def serve_stream(self, stream):
        with stream:
            frame = stream.recv(65537)
            if len(frame) > 14:
                reply = answer(frame[2:])
                stream.sendall(len(reply).to_bytes(2, "big") + reply)

    def close(self):
        self.open = False
        for one in self.sockets:
            try:
                one.shutdown(socket.SHUT_RDWR)
            except OSError:
                pass
            one.close()


def free_port():
    """A high port that is free at each of the addresses, by datagrams and streams."""
    while True:
        port = random.randrange(20000, 32000)
        try:
            for address in ADDRESSES:
                for kind in (socket.SOCK_DGRAM, socket.SOCK_STREAM):
                    with socket.socket(socket.AF_INET, kind) as one:
                        one.bind((address, port))
            return port
        except OSError:
            continue


def beside(conf, words, alone=False):
    """Runs a command where the system's configuration is this one, for 40 s at most: its status, output and errors, and how long it took.

    One that is alone reaches no address at all, not even this host's.
    """
    began = time.monotonic()
    mounted = ["unshare", "-mn" if alone else "-m", "sh", "-c", 'mount --bind "$0" /etc/resolv.conf && exec "$@"', str(conf)]
    try:
        ran = subprocess.run(mounted + words, capture_output=True, text=True, errors="replace", stdin=subprocess.DEVNULL, timeout=40)
    except subprocess.TimeoutExpired:
        return 124, "", "", time.monotonic() - began
    return ran.returncode, ran.stdout, ran.stderr, time.monotonic() - began


def tools(program, glibc, port):
    """How each tool asks for the address, and whether its run answered."""
    has_address = lambda ran: "192.0.2.1" in ran[1]
    return {
        "dns_lookup": ([program, "-p", str(port), NAME, "A"], lambda ran: ran[0] == 0 and has_address(ran)),
        "glibc": ([glibc, str(port), NAME], lambda ran: ran[0] == 0),
        "dig": (["dig", "-p", str(port), NAME, "A"], has_address),
        "kdig": (["kdig", "-p", str(port), NAME, "A"], has_address),
    }


def conf_of(folder, kinds, options=""):
    path = Path(folder) / "conf"
    path.write_text("".join("nameserver %s\n" % address for address, _ in zip(ADDRESSES, kinds)) + options)
    return path


SERVERS = [["closed", "good"], ["closed", "silent", "good"], ["good", "closed"], ["SERVFAIL", "good"], ["REFUSED", "good"],
           ["NOTIMP", "good"], ["NOTIMP", "NOTIMP", "good"], ["NOTIMP", "closed", "good"], ["NOTIMP", "silent", "good"],
           ["silent", "good"], ["silent", "silent", "good"], ["junk", "good"], ["late 1 s", "good"],
           ["tcp silent", "good"], ["tcp refused", "good"], ["tcp reset", "good"]]


def servers(program, glibc):
    print("| First, then | dns_lookup | glibc | dig | kdig |\n|---|---|---|---|---|")
    for kinds in SERVERS:
        port = free_port()
        started = [Server(kind, address, port) for kind, address in zip(kinds, ADDRESSES)]
        cells, medians = [], {}
        with tempfile.TemporaryDirectory() as folder:
            conf = conf_of(folder, kinds)
            for tool, (words, is_answered) in tools(program, glibc, port).items():
                times = 20 if tool == "dns_lookup" else 2
                with ThreadPoolExecutor(4) as pool:
                    runs = list(pool.map(lambda _: beside(conf, words), range(times)))
                good = sum(map(is_answered, runs))
                medians[tool] = statistics.median(ran[3] for ran in runs)
                cells.append("%d of %d, %s%.2f s" % (good, times, "over " if medians[tool] > 40 else "", medians[tool]))
                if tool == "dns_lookup":
                    expect(good == times, "%s: %d of %d answered: %s" % (kinds, good, times, [ran[2] for ran in runs if ran[0]][:2]))
        for one in started:
            one.close()
        print("| %s | %s |" % (", ".join(kinds), " | ".join(cells)), flush=True)
        dead = kinds[0] in ("closed", "silent") and len(kinds) == 2
        expect(not dead or medians["dns_lookup"] < 0.5, "%s: %.2f s in the median" % (kinds, medians["dns_lookup"]))


def loss(program, glibc):
    print("| 30% lost each way | answered | mean |\n|---|---|---|")
    port = free_port()
    server = Server("lossy", ADDRESSES[0], port)
    with tempfile.TemporaryDirectory() as folder:
        for options in ("", "options attempts:3\n"):
            conf = conf_of(folder, ["lossy"], options)
            for tool, (words, is_answered) in tools(program, glibc, port).items():
                if options and tool in ("dig", "kdig"):
                    continue
                with ThreadPoolExecutor(25) as pool:
                    runs = list(pool.map(lambda _: beside(conf, words), range(200)))
                good = sum(map(is_answered, runs))
                took = statistics.mean(ran[3] for ran in runs)
                print("| %s%s | %d of 200 | %.1f s |" % (tool, ", attempts:3" if options else "", good, took), flush=True)
                if tool == "dns_lookup":
                    least = 195 if options else 178
                    expect(good >= least, "%d of 200 answered%s, not %d" % (good, options and " with " + options.strip(), least))
    server.close()


# A file, with what is told of it, and why glibc reads other servers, where it does.
FILES = [
    # Those that an exact reader refuses.
    ("a zone identifier", "nameserver fe80::1%eth0\nnameserver 127.0.0.1\n", ["line 1 has a zone"], ""),
    ("a comment behind an address", "nameserver 127.0.0.1 # x\n", [], ""),
    ("a short address", "nameserver 10.1\nnameserver 127.0.0.1\n", ["line 1 has something else"], "glibc takes 10.1 for 10.0.0.1"),
    ("an indented comment", " # indented\nnameserver 127.0.0.1\n", [], ""),
    ("lookup", "lookup file bind\nnameserver 127.0.0.1\n", ["line 1 skipped"], ""),
    ("family", "family inet6\nnameserver 127.0.0.1\n", ["line 1 skipped"], ""),
    ("a number that is none", "nameserver 127.0.0.1\noptions foo:bar\n", ["line 2 has an option"], ""),
    ("a timeout that is none", "nameserver 127.0.0.1\noptions timeout:x attempts:3\n", ["line 2 has an option"], "glibc takes timeout:x for 0 s, and asks for 1 s at least"),
    ("two names behind domain", "domain a b\nnameserver 127.0.0.1\n", ["line 1 has something else"], ""),
    ("a name with an empty label", "search a..b\nnameserver 127.0.0.1\n", ["line 1 skipped"], ""),
    ("an unknown word", "magic on\nnameserver 127.0.0.1\n", ["line 1 skipped"], ""),
    # As they are found on systems.
    ("systemd-resolved, stub", "# This is /run/systemd/resolve/stub-resolv.conf managed by man:systemd-resolved(8).\n# Do not edit.\n\nnameserver 127.0.0.53\noptions edns0 trust-ad\nsearch .\n", [], ""),
    ("systemd-resolved, uplink", "# This is /run/systemd/resolve/resolv.conf managed by man:systemd-resolved(8).\n\nnameserver 192.168.1.1\nnameserver fd00::1\nsearch lan\n", [], ""),
    ("systemd-resolved, link-local", "nameserver 192.168.1.1\nnameserver fe80::1%2\nsearch fritz.box\n", ["line 2 has a zone"], ""),
    ("systemd-resolved, too many", "nameserver 10.0.0.1\nnameserver 10.0.0.2\nnameserver 10.0.0.3\n# Too many DNS servers configured, the following entries may be ignored.\nnameserver 10.0.0.4\nsearch corp.example\n", [], "glibc takes three servers"),
    ("NetworkManager", "# Generated by NetworkManager\nsearch home.arpa\nnameserver 192.168.178.1\nnameserver fd12:3456:789a::1\n", [], ""),
    ("NetworkManager, no server", "# Generated by NetworkManager\n", [], ""),
    ("NetworkManager, three and a zone", "# Generated by NetworkManager\nnameserver 10.2.3.1\nnameserver 2001:db8::53\nnameserver fe80::1%wlp2s0\n", ["line 4 has a zone"], ""),
    ("NetworkManager, with a rotation", "# Generated by NetworkManager\nnameserver 10.2.3.1\noptions timeout:1 attempts:1 rotate\n", [], ""),
    ("resolvconf", "# Dynamic resolv.conf(5) file for glibc resolver(3) generated by resolvconf(8)\n#     DO NOT EDIT THIS FILE BY HAND -- YOUR CHANGES WILL BE OVERWRITTEN\nnameserver 127.0.0.1\nsearch example.org\n", [], ""),
    ("openresolv", "# Generated by resolvconf\ndomain lan\nnameserver 192.168.0.1\n", [], ""),
    ("dhcpcd", "# Generated by dhcpcd from eth0.dhcp\n# /etc/resolv.conf.head can replace this line\ndomain lan\nsearch lan\nnameserver 192.168.0.254\n# /etc/resolv.conf.tail can replace this line\n", [], ""),
    ("dhclient", "domain example.net\nsearch example.net. corp.example.net.\nnameserver 198.51.100.1\nnameserver 198.51.100.2\n", [], ""),
    ("OpenBSD", "# Generated by em0 dhclient\nsearch example.com\nnameserver 192.0.2.53\nlookup file bind\n", ["line 4 skipped"], ""),
    ("OpenBSD, resolvd", "nameserver 192.168.1.1 # resolvd: em0\nnameserver fe80::1%em0 # resolvd: em0\nlookup file bind\nfamily inet4\n", ["line 2 has a zone", "line 3 skipped", "line 4 skipped"], ""),
    ("FreeBSD", "# Generated by resolvconf\nsearch lan\nnameserver 192.168.1.1\noptions edns0\n", [], ""),
    ("NetBSD", "nameserver 10.0.0.53\nlookup bind file\noptions tcp\n", ["line 2 skipped"], ""),
    ("macOS", "#\n# macOS Notice\n#\n# This file is not consulted for DNS hostname resolution\n#\nsearch fritz.box\nnameserver fd00::2\nnameserver 192.168.178.1\n", [], ""),
    ("Solaris", "domain example.com\nnameserver 192.0.2.1\nnameserver 192.0.2.2\nsortlist 192.0.2.0/255.255.255.0\n", [], ""),
    ("Docker, default bridge", "# Generated by Docker Engine.\n# This file can be edited; Docker Engine will not make further changes once it\n# has been modified.\n\nnameserver 8.8.8.8\nnameserver 8.8.4.4\n\n# Based on host file: '/etc/resolv.conf' (legacy)\n", [], ""),
    ("Docker, user network", "nameserver 127.0.0.11\noptions ndots:0\n", [], ""),
    ("Docker Desktop", "# Generated by Docker Engine.\nnameserver 192.168.65.7\n", [], ""),
    ("Podman", "search dns.podman\nnameserver 10.89.0.1\n", [], ""),
    ("Kubernetes", "search default.svc.cluster.local svc.cluster.local cluster.local\nnameserver 10.96.0.10\noptions ndots:5\n", [], ""),
    ("Kubernetes, of a cloud", "nameserver 172.20.0.10\nsearch prod.svc.cluster.local svc.cluster.local cluster.local eu-west-1.compute.internal\noptions ndots:5 single-request-reopen\n", [], ""),
    ("Kubernetes, local cache", "search kube-system.svc.cluster.local\nnameserver 169.254.20.10\noptions ndots:5 timeout:2 attempts:3 use-vc\n", [], ""),
    ("WSL", "# This file was automatically generated by WSL. To stop automatic generation of this file, add the following entry to /etc/wsl.conf:\n# [network]\n# generateResolvConf = false\nnameserver 172.28.144.1\n", [], ""),
    ("WSL, mirrored", "# This file was automatically generated by WSL.\nnameserver 10.255.255.254\nsearch home\n", [], ""),
    ("written on Windows", "nameserver 192.0.2.1\r\nsearch example.com\r\n", [], "glibc takes the carriage return for part of the address"),
    ("Alpine", "nameserver 1.1.1.1\nnameserver 9.9.9.9\n", [], ""),
    ("an image of a cloud", "; generated by /usr/sbin/dhclient-script\nsearch ec2.internal\noptions timeout:2 attempts:5\nnameserver 172.31.0.2\n", [], ""),
    ("Google Cloud", "domain c.project.internal\nsearch c.project.internal. google.internal.\nnameserver 169.254.169.254\n", [], ""),
    ("options of its own", "nameserver 127.0.0.1\noptions no-aaaa trust-ad inet6 debug ndots:2\n", [], ""),
    ("great numbers", "nameserver 127.0.0.1\noptions timeout:600 attempts:100 ndots:99\n", [], ""),
    ("tabs and blanks", "nameserver\t127.0.0.1   \n\tsearch example.com\n", [], ""),
    ("no line feed at its end", "nameserver 127.0.0.1", [], ""),
    ("Latin-1 in a comment", b"# f\xfcr alle\nnameserver 127.0.0.1\n", [], ""),
    ("a host for a server", "nameserver dns.example\nnameserver 127.0.0.1\n", ["line 1 has something else"], ""),
    ("empty", "", [], ""),
]


def read_by(glibc, conf):
    status, out, _, _ = beside(conf, [glibc])
    expect(status == 0, "glibc reads nothing")
    *read, retrans, retry = out.split()
    return read, int(retrans), int(retry)


def asked_in(program, conf):
    """What is told of a file, and the servers that are asked, in order."""
    ran = beside(conf, [program, "-p", "9", "+time=1", NAME, "A"], alone=True)
    notes = re.findall(r"dns_lookup: /etc/resolv.conf: (.*)\n", ran[2])
    brought = re.findall(r"dns_lookup: \[?([0-9a-f.:]+?)\]?:9 \((?:UDP|TCP)\)(?:, asked \d+ times)?: ", ran[2])
    return notes, list(dict.fromkeys(brought))


def files(program, glibc):
    for name, text, told, other in FILES:
        with tempfile.TemporaryDirectory() as folder:
            conf = Path(folder) / "conf"
            conf.write_bytes(text if isinstance(text, bytes) else text.encode())
            theirs, retrans, retry = read_by(glibc, conf)
            for _ in range(3):  # one lookup in twenty probes another server than the first
                notes, ours = asked_in(program, conf)
                same = ours == theirs or "rotate" in str(text) and sorted(ours) == sorted(theirs)
                if same or other:
                    break
            expect(len(notes) == len(told) and all(note.startswith(wanted) for note, wanted in zip(notes, told)), "%s: told %s" % (name, notes))
            expect(same or other, "%s: asked %s, and glibc reads %s" % (name, ours, theirs))
            print("%s: asked %s%s%s" % (name, ", ".join(ours), "; told: %s" % "; ".join(notes) if notes else "", "" if same else "; glibc: %s, for %s" % (", ".join(theirs), other)))


def main():
    if len(sys.argv) < 2:
        sys.exit(__doc__)
    program = os.path.abspath(sys.argv[1])
    if os.geteuid() or subprocess.run(["unshare", "-m", "true"], capture_output=True).returncode:
        skipped("it takes mounts of its own")
    with tempfile.TemporaryDirectory() as folder:
        source, glibc = Path(folder) / "glibc.c", str(Path(folder) / "glibc")
        source.write_text(GLIBC)
        if subprocess.run(["cc", "-O1", "-o", glibc, str(source), "-lresolv"], capture_output=True).returncode:
            skipped("no C compiler")
        for part in sys.argv[2:] or ["servers", "loss", "files"]:
            {"servers": servers, "loss": loss, "files": files}[part](program, glibc)
    print("all agree")


if __name__ == "__main__":
    main()
