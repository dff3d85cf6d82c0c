#!/usr/bin/env python3
"""Tells the processor time that a hit and a miss take a forwarder, beside Unbound and dnsmasq.

    python3 bench/forward.py PROGRAM [ROUNDS [SECONDS]]
    python3 bench/forward.py --workers N PROGRAM [ROUNDS [SECONDS]]

PROGRAM is the built dns_forward. An NSD on loopback has an answer of one record for every name, since Unbound hands on no more of it. Each forwarder is one process of one thread; with two
processors or more it is kept on the first, and dnsperf with NSD on the others. In ROUNDS rounds (5), in turn, dnsperf asks each for SECONDS seconds
(3): first for 1,000 names that it has answered before, which are hits, then for names that were never asked, which are misses. The
processor time of the forwarder's process by queries that were answered is told, and its share in the system, round by round, and then
the medians and their ratios to ours. Queries that were lost, or answered by another code than NOERROR, are told too. Without NSD or
dnsperf nothing is measured, and that is said; nor are Unbound and dnsmasq where they are missing.

With --workers N ours alone is asked for hits, with one thread and with N workers, in turn, each on the first N processors and dnsperf on
the others: how many it answers a second, the ratio of the medians, and of the processor time of a query what is not in the system. What
a worker holds the lock for is a part of that, since it makes no system call under it.
"""

import os
import re
import shutil
import statistics
import subprocess
import sys
import tempfile
import time
from pathlib import Path

sys.path.insert(0, os.path.dirname(os.path.abspath(__file__)))
from sockets import free_port, serve

HITS = 1000
MISSES = 400_000
TICKS = os.sysconf("SC_CLK_TCK")
UNBOUND = """server:
  interface: 127.0.0.1@%(port)d
  port: %(port)d
  num-threads: 1
  do-ip6: no
  do-daemonize: no
  username: ""
  chroot: ""
  directory: "%(folder)s"
  pidfile: ""
  use-syslog: no
  logfile: ""
  verbosity: 0
  module-config: "iterator"
  do-not-query-localhost: no
  access-control: 127.0.0.0/8 allow
  outgoing-range: 4096
  num-queries-per-thread: 2048
forward-zone:
  name: "."
  forward-addr: 127.0.1.1@%(server)d
remote-control:
  control-enable: no
"""


def ours(program, folder, port, server):
    (folder / "resolv.conf").write_text("nameserver 127.0.1.1\n")
    return [program, "--port", str(server), str(port), "18446744073709551615"]


def unbound(_program, folder, port, server):
    (folder / "unbound.conf").write_text(UNBOUND % {"port": port, "folder": folder, "server": server})
    return ["unbound", "-c", str(folder / "unbound.conf")]


def dnsmasq(_program, _folder, port, server):
    return ["dnsmasq", "-k", "--port=%d" % port, "--listen-address=127.0.0.1", "--bind-interfaces", "--no-resolv", "--no-hosts", "--server=127.0.1.1#%d" % server,
            "--cache-size=10000", "--user=root", "--pid-file=", "--dns-forward-max=2000"]


FORWARDERS = {"ours": ours, "unbound": unbound, "dnsmasq": dnsmasq}


def pinned(words, others):
    """A command on the first processor, or on the others."""
    count = os.cpu_count() or 1
    if count < 2 or not shutil.which("taskset"):
        return words
    return ["taskset", "-c", "1-%d" % (count - 1) if others else "0"] + words


def ticks(pid):
    fields = Path("/proc/%d/stat" % pid).read_text().rsplit(")", 1)[1].split()
    return int(fields[11]), int(fields[12])


def ask(pid, port, names, seconds, outstanding):
    """Microseconds a query that was answered, those in the system among them, how many a second, and what was lost or of another code."""
    before = ticks(pid)
    words = ["dnsperf", "-s", "127.0.0.1", "-p", str(port), "-d", str(names), "-l", str(seconds), "-c", "4", "-q", str(outstanding)]
    out = subprocess.run(pinned(words, True), capture_output=True, text=True).stdout
    after = ticks(pid)
    answered = int(re.search(r"Queries completed:\s+(\d+)", out).group(1))
    lost = int(re.search(r"Queries lost:\s+(\d+)", out).group(1))
    rate = float(re.search(r"Queries per second:\s+([\d.]+)", out).group(1))
    good = re.search(r"NOERROR (\d+)", out)
    user, system = (after[0] - before[0]) / TICKS, (after[1] - before[1]) / TICKS
    each = 1e6 / max(answered, 1)
    return (user + system) * each, system * each, rate, lost, answered - (int(good.group(1)) if good else 0)


def names_for_misses(folder, count, begin):
    path = folder / ("misses%d" % begin)
    with open(path, "w") as it:
        for n in range(begin, begin + count):
            it.write("m%d.example A\n" % n)
    return path


def measure(program, folder, port_of, server, rounds, seconds):
    running, taken = {}, {}
    try:
        for name, made in FORWARDERS.items():
            if name != "ours" and not shutil.which(name):
                print("skipped: there is no " + name)
                continue
            port_of[name] = free_port()
            words = pinned(made(program, folder, port_of[name], server), False)
            source = open(folder / "resolv.conf", "rb") if name == "ours" else subprocess.DEVNULL
            running[name] = subprocess.Popen(words, stdin=source, stdout=subprocess.DEVNULL, stderr=subprocess.DEVNULL)
        time.sleep(1)
        hits = folder / "hits"
        hits.write_text("".join("h%d.example A\n" % n for n in range(HITS)))
        begin = 0
        for turn in range(rounds):
            for name, child in running.items():
                if turn == 0:
                    subprocess.run(["dnsperf", "-s", "127.0.0.1", "-p", str(port_of[name]), "-d", str(hits), "-n", "2", "-c", "1", "-q", "20"], capture_output=True)
                misses = names_for_misses(folder, MISSES, begin)
                for kind, asked, outstanding in [("hit", hits, 200), ("miss", misses, 90)]:
                    found = ask(child.pid, port_of[name], asked, seconds, outstanding)
                    print("%-5s %-8s %6.2f us of processor, %5.2f in the system, %8.0f a second, %d lost, %d not NOERROR" % ((kind, name) + found))
                    taken.setdefault((kind, name), []).append(found[0])
                os.unlink(misses)
            begin += MISSES
    finally:
        for child in running.values():
            child.kill()
            child.wait()
    return taken


def on(first, last, words):
    """A command on these processors."""
    return ["taskset", "-c", "%d-%d" % (first, last)] + words if shutil.which("taskset") else words


def measure_workers(program, folder, server, count, rounds, seconds):
    """How many hits a second one thread answers, and so many workers, on as many processors as there are workers."""
    last = (os.cpu_count() or 1) - 1
    others = (min(count, last), last)
    hits = folder / "hits"
    hits.write_text("".join("h%d.example A\n" % n for n in range(HITS)))
    running, port_of, rates, owns = {}, {}, {}, {}
    try:
        for workers in (1, count):
            port_of[workers] = free_port()
            words = ours(program, folder, port_of[workers], server)
            words = on(0, count - 1, [words[0], "--workers", str(workers)] + words[1:])
            with open(folder / "resolv.conf", "rb") as source:
                running[workers] = subprocess.Popen(words, stdin=source, stdout=subprocess.DEVNULL, stderr=subprocess.DEVNULL)
        time.sleep(1)
        for turn in range(rounds):
            for workers, child in running.items():
                asked = ["dnsperf", "-s", "127.0.0.1", "-p", str(port_of[workers]), "-d", str(hits)]
                if turn == 0:
                    subprocess.run(asked + ["-n", "2", "-c", "1", "-q", "20"], capture_output=True)
                before = ticks(child.pid)
                threads = others[1] - others[0] + 1
                out = subprocess.run(on(*others, asked + ["-l", str(seconds), "-T", str(threads), "-c", "16", "-q", "400"]), capture_output=True, text=True).stdout
                after = ticks(child.pid)
                rate = float(re.search(r"Queries per second:\s+([\d.]+)", out).group(1))
                lost = int(re.search(r"Queries lost:\s+(\d+)", out).group(1))
                answered = int(re.search(r"Queries completed:\s+(\d+)", out).group(1))
                good = re.search(r"NOERROR (\d+)", out)
                each = 1e6 * (sum(after) - sum(before)) / TICKS / max(answered, 1)
                own = 1e6 * (after[0] - before[0]) / TICKS / max(answered, 1)
                wrong = answered - (int(good.group(1)) if good else 0)
                print("%2d workers: %8.0f a second, %5.2f us of processor, %5.2f outside the system, %d lost, %d not NOERROR" % (workers, rate, each, own, lost, wrong))
                rates.setdefault(workers, []).append(rate)
                owns.setdefault(workers, []).append(own)
    finally:
        for child in running.values():
            child.kill()
            child.wait()
    one, many = statistics.median(rates[1]), statistics.median(rates[count])
    print("one thread %.0f a second, %d workers %.0f: %.2f times; under the lock at most %.2f us a query" % (one, count, many, many / one, statistics.median(owns[count])))


def main():
    if len(sys.argv) < 2:
        sys.exit(__doc__)
    workers = 0
    if sys.argv[1] == "--workers":
        workers = int(sys.argv[2])
        del sys.argv[1:3]
    if not (shutil.which("nsd") or os.path.exists("/usr/sbin/nsd")) or not shutil.which("dnsperf"):
        print("skipped: there is no nsd, or no dnsperf")
        return 0
    rounds = int(sys.argv[2]) if len(sys.argv) > 2 else 5
    seconds = int(sys.argv[3]) if len(sys.argv) > 3 else 3
    server = free_port()
    with tempfile.TemporaryDirectory() as place:
        os.chmod(place, 0o755)
        nsd = serve(place, server, "  minimal-responses: yes\n")
        try:
            if workers:
                measure_workers(os.path.abspath(sys.argv[1]), Path(place), server, workers, rounds, seconds)
                return 0
            taken = measure(os.path.abspath(sys.argv[1]), Path(place), {}, server, rounds, seconds)
        finally:
            nsd.terminate()
            nsd.wait()
    for kind in ["hit", "miss"]:
        own = statistics.median(taken[(kind, "ours")])
        for name in FORWARDERS:
            if (kind, name) in taken:
                median = statistics.median(taken[(kind, name)])
                print("a %s: %s %.2f us (%.2f to %.2f), ours by it %.2f" % (kind, name, median, min(taken[(kind, name)]), max(taken[(kind, name)]), own / median))
    return 0


if __name__ == "__main__":
    sys.exit(main())
