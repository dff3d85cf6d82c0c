#!/usr/bin/env python3
"""Asks many questions in one process over real sockets, and tells its descriptors, its memory and its processor time.

    python3 bench/sockets.py PROGRAM [NAMES]

PROGRAM is what `bench/build --proved bench_sockets` makes. An NSD on loopback, at 100 addresses, has an answer for every name. First
NAMES (60,000) are asked of one server, one at a time: its descriptors and its memory are looked at each tenth of a second, and those of
the last half may not pass those of the first by more than a descriptor or a tenth. Then 1,000, 3,000 and 10,000 are asked at once of 100
servers, and the processor time of each is told, and the exponent between the first and the last: more than 1.3 ends with status 1, as
does a name without a message. Where there is a C compiler, bench/ask.c asks the same names, in turn with the program, five times each, and
the ratio of their processor times is told. Without NSD nothing is measured, and that is said.
"""

import math
import os
import resource
import shutil
import socket
import subprocess
import sys
import tempfile
import time

ADDRESSES = 100
MOST_EXPONENT = 1.3
ZONE = """$ORIGIN example.
$TTL 300
@ SOA ns hostmaster 7 3600 900 86400 300
@ NS ns
ns A 127.0.0.1
* A 192.0.2.1
"""


def free_port():
    with socket.socket(socket.AF_INET, socket.SOCK_DGRAM) as it:
        it.bind(("127.0.1.1", 0))
        return it.getsockname()[1]


def serve(folder, port, more=""):
    """An NSD at each of the addresses, with more lines for its server."""
    with open(os.path.join(folder, "zone"), "w") as it:
        it.write(ZONE)
    addresses = "".join("  ip-address: 127.0.1.%d\n" % (n + 1) for n in range(ADDRESSES))
    with open(os.path.join(folder, "nsd.conf"), "w") as it:
        it.write("""server:
%s  port: %d
  username: ""
  chroot: ""
  zonesdir: "%s"
  pidfile: "%s/pid"
  database: ""
  xfrdfile: "%s/xfrd"
  zonelistfile: "%s/list"
  logfile: "%s/log"
  server-count: 1
  rrl-ratelimit: 0
%sremote-control:
  control-enable: no
zone:
  name: example
  zonefile: zone
""" % (addresses, port, folder, folder, folder, folder, folder, more))
    nsd = subprocess.Popen([shutil.which("nsd") or "/usr/sbin/nsd", "-d", "-c", os.path.join(folder, "nsd.conf")],
                           stdout=subprocess.DEVNULL, stderr=subprocess.DEVNULL)
    query = bytes.fromhex("000100000001000000000000") + b"\x03www\x07example\x00\x00\x01\x00\x01"
    for _ in range(100):
        with socket.socket(socket.AF_INET, socket.SOCK_DGRAM) as it:
            it.settimeout(0.1)
            try:
                it.sendto(query, ("127.0.1.1", port))
                it.recv(512)
                return nsd
            except OSError:
                time.sleep(0.1)
    nsd.terminate()
    sys.exit("NSD does not answer")


def more_descriptors():
    most = resource.getrlimit(resource.RLIMIT_NOFILE)[1]
    resource.setrlimit(resource.RLIMIT_NOFILE, (most, most))


def ask(program, port, servers, names, at_once):
    """Its processor time, and its descriptors and memory as they were seen."""
    words = [program, str(port), str(servers), str(names), str(at_once)]
    child = subprocess.Popen(words, stdout=subprocess.PIPE, preexec_fn=more_descriptors)
    seen = []
    while True:
        pid, status, usage = os.wait4(child.pid, os.WNOHANG)
        if pid:
            break
        try:
            descriptors = len(os.listdir("/proc/%d/fd" % child.pid))
            with open("/proc/%d/statm" % child.pid) as it:
                memory = int(it.read().split()[1]) * 4
            seen.append((descriptors, memory))
        except OSError:
            pass
        time.sleep(0.1)
    child.returncode = status
    out = child.stdout.read().decode().strip()
    if out != str(names):
        sys.exit("of %d names %s had a message" % (names, out or "none"))
    return usage.ru_utime + usage.ru_stime, seen


def one_at_a_time(program, port, names):
    took, seen = ask(program, port, 1, names, 1)
    half = len(seen) // 2
    first, last = seen[: half] or seen, seen[half:] or seen
    descriptors = [max(it[0] for it in part) for part in (first, last)]
    memory = [max(it[1] for it in part) for part in (first, last)]
    print("%d names one at a time: %.2f s, %d descriptors, %d KB at first and %d KB at last"
          % (names, took, max(descriptors), memory[0], memory[1]))
    return descriptors[1] <= descriptors[0] + 1 and memory[1] <= memory[0] * 1.1


def at_once(program, port):
    taken = {}
    for names in (1000, 3000, 10000):
        took, seen = ask(program, port, ADDRESSES, names, names)
        taken[names] = took
        print("%d names at once: %.2f s, %d descriptors" % (names, took, max(it[0] for it in seen) if seen else 0))
    exponent = math.log(taken[10000] / taken[1000], 10)
    print("exponent %.2f" % exponent)
    return exponent <= MOST_EXPONENT


def beside_c(program, port, folder, names):
    """The ratio of its processor time to that of the program in C, the median of five."""
    compiler, made = shutil.which("cc"), os.path.join(folder, "ask")
    source = os.path.join(os.path.dirname(os.path.abspath(__file__)), "ask.c")
    if not compiler or subprocess.call([compiler, "-O2", source, "-o", made]) != 0:
        print("skipped: there is no C compiler")
        return
    ratios = []
    for _ in range(5):
        before = resource.getrusage(resource.RUSAGE_CHILDREN)
        out = subprocess.check_output([made, str(port), str(names)]).decode().strip()
        after = resource.getrusage(resource.RUSAGE_CHILDREN)
        if out != str(names):
            sys.exit("of %d names %s had an answer in C" % (names, out))
        by_hand = after.ru_utime + after.ru_stime - before.ru_utime - before.ru_stime
        ours = ask(program, port, 1, names, 1)[0]
        print("a question: %.1f us, by hand in C %.1f us" % (ours / names * 1e6, by_hand / names * 1e6))
        ratios.append(ours / by_hand)
    print("ratio %.2f" % sorted(ratios)[2])


def main():
    if len(sys.argv) < 2:
        sys.exit(__doc__)
    if not (shutil.which("nsd") or os.path.exists("/usr/sbin/nsd")):
        print("skipped: there is no nsd")
        return 0
    names = int(sys.argv[2]) if len(sys.argv) > 2 else 60000
    port = free_port()
    with tempfile.TemporaryDirectory() as folder:
        nsd = serve(folder, port)
        try:
            flat = one_at_a_time(sys.argv[1], port, names)
            in_line = at_once(sys.argv[1], port)
            beside_c(sys.argv[1], port, folder, names // 3)
        finally:
            nsd.terminate()
            nsd.wait()
    return 0 if flat and in_line else 1


if __name__ == "__main__":
    sys.exit(main())
