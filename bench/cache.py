"""Times the cache of a client, as it fills and beside the caches of two servers, and tells what memory it takes.

usage: python3 bench/cache.py PROGRAM [--large]

PROGRAM is what `bench/build --proved bench_hits` makes. A client keeps the answers of 1, 10, 1,000, 100,000 and 1,000,000 names and is then asked for
them, any one at random. Each measure is taken with a million of such requests and with none, and the difference of the
processor times counts, of the least of five runs each. It is what `Client::step` takes for a request that is answered at
once, with the making of that request, in one process and without any socket. More than three times as long with 1,000,000
names as with 10 ends with status 1.

The same is measured with 1,000 names where expired answers may serve for a day: more than a tenth longer than where they
may not ends with status 1.

100,000 names that were picked to lie in a 256th of the places of a table without a seed are asked for, in such a table and in
one with a seed, beside as many others. With a seed more than a fifth longer than the others ends with status 1. An answer
of 120 addresses (1,958 octets) may take 50 ns an octet. With `--large` the memory of 100,000 such answers is told too.

The settings let all of these clients keep 1,000,000,000 answers. The memory that one took at most while it kept 10 is
told, and more than 16 MB end with status 1; also what each answer takes where there are 1,000,000.

Then Unbound and dnsmasq serve on loopback, on one thread each, and dnsperf asks them for ten seconds for 1,000 names that
they keep: a server of this script gave them the answers before, and none after that. Told are the requests that were
answered in a second, and the processor time of the server for each, with the part of it outside of the kernel. All that a
server does is in there: the request is received and read, and its answer is sent. A tool that is missing is named, and
what needs it is not measured.
"""

import os
import random
import re
import shutil
import socket
import subprocess
import sys
import tempfile
import threading
import time
from pathlib import Path

sys.path.insert(0, str(Path(__file__).resolve().parent.parent / "tests"))
from ask_servers import free_port  # noqa: E402

RUNS = 5
REQUESTS = 1_000_000
BESIDE = 1_000
NAMES = (1, BESIDE, 100_000)
FEW, MANY = 10, 1_000_000
MOST = 3
DAY = 86_400
MOST_STALE = 1.1
MOST_MEMORY = 16_000_000
COLLIDING = 100_000
MOST_SEEDED = 1.2
MANY_REQUESTS = 5_000_000
FEW_RUNS = 3
MOST_OCTET = 50e-9
MANY_LARGE = 100_000
SECONDS = 10
ADDRESS = bytes.fromhex("c00c0001000100015180" + "0004c0000201")
UNBOUND = """
server:
  interface: 127.0.0.1
  port: %d
  num-threads: 1
  do-daemonize: no
  username: ""
  chroot: ""
  directory: "%s"
  pidfile: ""
  use-syslog: no
  module-config: "iterator"
  do-not-query-localhost: no
remote-control:
  control-enable: no
forward-zone:
  name: "."
  forward-addr: 127.0.0.1@%d
"""


def run(program, names, requests, stale=0, way="plain"):
    """The processor seconds of a run, and the most memory in octets that was seen to be in use."""
    command = [program, str(names), str(requests), str(stale), way]
    memory = 0
    with tempfile.TemporaryFile() as told:
        process = subprocess.Popen(command, stdout=told)
        while True:
            memory = max(memory, memory_of(process.pid))
            ended, status, used = os.wait4(process.pid, os.WNOHANG)
            if ended:
                break
            time.sleep(0.01)
        process.returncode = os.waitstatus_to_exitcode(status)
        told.seek(0)
        if process.returncode != 0 or told.read() != b"%d\n" % requests:
            sys.exit("not every request was answered at once")
    return used.ru_utime + used.ru_stime, memory


def memory_of(pid):
    """The most memory that a process had in use so far, in octets; 0 where it has ended."""
    try:
        found = re.search(r"VmHWM:\s+(\d+) kB", Path("/proc/%d/status" % pid).read_text())
    except OSError:
        return 0
    return 1024 * int(found.group(1)) if found else 0


def time_hits(program):
    """The seconds of one hit, and the most memory, by how many names are kept. All run in turn."""
    sizes = sorted({*NAMES, FEW, MANY})
    took = {}
    memory = dict.fromkeys(sizes, 0)
    for _ in range(RUNS):
        for size in sizes:
            for requests in (0, REQUESTS):
                seconds, octets = run(program, size, requests)
                took.setdefault((size, requests), []).append(seconds)
                memory[size] = max(memory[size], octets)
    least = {key: min(times) for key, times in took.items()}
    return {size: (least[size, REQUESTS] - least[size, 0]) / REQUESTS for size in sizes}, memory


def tell_hits(each, memory):
    """Whether the times and the memory are as they should be."""
    for size in NAMES:
        print("%d names kept: %.0f hits a second, %.2f us each" % (size, 1 / each[size], each[size] * 1e6))
    ratio = each[MANY] / each[FEW]
    print("%d names: %.2f us each; %d names: %.2f us each, %.2f times as long"
          % (FEW, each[FEW] * 1e6, MANY, each[MANY] * 1e6, ratio))
    print("memory with %d names: %.1f MB; with %d: %.0f MB, %.0f octets each"
          % (FEW, memory[FEW] / 1e6, MANY, memory[MANY] / 1e6, memory[MANY] / MANY))
    return ratio <= MOST and memory[FEW] <= MOST_MEMORY


def time_ways(program, names, ways):
    """The seconds of one hit, and the most memory, by what is kept and how many requests are measured. All run in turn."""
    took = {}
    memory = dict.fromkeys(ways, 0)
    for _ in range(FEW_RUNS):
        for way, requests in ways.items():
            for count in (0, requests):
                seconds, octets = run(program, names, count, way=way)
                took.setdefault((way, count), []).append(seconds)
                memory[way] = max(memory[way], octets)
    least = {key: min(times) for key, times in took.items()}
    return {way: (least[way, requests] - least[way, 0]) / requests for way, requests in ways.items()}, memory


def tell_colliding(program):
    """Whether names that were picked to collide take no longer than others in a table with a seed."""
    ways = {"plain": MANY_REQUESTS, "seeded": MANY_REQUESTS, "colliding": REQUESTS}
    each, _ = time_ways(program, COLLIDING, ways)
    ratio = each["seeded"] / each["plain"]
    print("%d names that collide without a seed: %.2f us each, %.2f us with a seed; other names: %.2f us, %.2f times as long"
          % (COLLIDING, each["colliding"] * 1e6, each["seeded"] * 1e6, each["plain"] * 1e6, ratio))
    return ratio <= MOST_SEEDED


def tell_large(program):
    """Whether a hit of an answer of 120 addresses takes no more than its octets may, and what a hit adds to its entry."""
    each, _ = time_ways(program, FEW, {"large": REQUESTS})
    octets = 38 + 16 * 120
    print("an answer of %d octets and 120 records: %.1f us each, %.2f ns an octet"
          % (octets, each["large"] * 1e6, each["large"] * 1e9 / octets))
    return each["large"] <= MOST_OCTET * octets


def tell_many_large(program):
    """The memory of many answers of 120 addresses, of which some are asked for."""
    for requests in (0, MANY_LARGE):
        seconds, memory = run(program, MANY_LARGE, requests, way="large")
        print("%d answers of 120 addresses and %d hits: %.0f MB, %.0f octets each, %.0f s of a processor"
              % (MANY_LARGE, requests, memory / 1e6, memory / MANY_LARGE, seconds))


def tell_stale(program):
    """Whether a hit takes no longer where expired answers may serve. Both run in turn."""
    took = {}
    for _ in range(RUNS):
        for stale in (0, DAY):
            for requests in (0, REQUESTS):
                took.setdefault((stale, requests), []).append(run(program, BESIDE, requests, stale)[0])
    least = {key: min(times) for key, times in took.items()}
    each = {stale: (least[stale, REQUESTS] - least[stale, 0]) / REQUESTS for stale in (0, DAY)}
    ratio = each[DAY] / each[0]
    print("%d names, where expired answers may serve: %.2f us each, and where they may not: %.2f us, %.2f times as long"
          % (BESIDE, each[DAY] * 1e6, each[0] * 1e6, ratio))
    return ratio <= MOST_STALE


class Source:
    """A server that gives each name one address, for a day, and counts what it is asked."""

    def __init__(self):
        self.socket = socket.socket(socket.AF_INET, socket.SOCK_DGRAM)
        self.socket.bind(("127.0.0.1", 0))
        self.port = self.socket.getsockname()[1]
        self.asked = 0
        threading.Thread(target=self.serve, daemon=True).start()

    def serve(self):
        while True:
            query, asker = self.socket.recvfrom(4096)
            self.asked += 1
            question = query[12:query.index(0, 12) + 5]
            self.socket.sendto(query[:2] + bytes.fromhex("81800001000100000000") + question + ADDRESS, asker)


def unbound(folder, port, source):
    conf = folder / "unbound.conf"
    conf.write_text(UNBOUND % (port, folder, source))
    return ["unbound", "-d", "-c", str(conf)]


def dnsmasq(folder, port, source):
    conf = folder / "dnsmasq.conf"
    conf.write_text("")
    return ["dnsmasq", "--keep-in-foreground", "--conf-file=%s" % conf, "--port=%d" % port, "--listen-address=127.0.0.1",
            "--bind-interfaces", "--no-resolv", "--no-hosts", "--server=127.0.0.1#%d" % source, "--cache-size=10000",
            "--user=", "--pid-file=", "--dns-forward-max=1000"]


PEERS = {"unbound": unbound, "dnsmasq": dnsmasq}


def await_answer(port):
    """A server that was just started is asked until it answers."""
    query = bytes.fromhex("000001000001000000000000" + "0477616974076578616d706c6503636f6d00" + "00010001")
    with socket.socket(socket.AF_INET, socket.SOCK_DGRAM) as asker:
        asker.settimeout(0.2)
        for _ in range(50):
            asker.sendto(query, ("127.0.0.1", port))
            try:
                return asker.recv(4096)
            except OSError:
                time.sleep(0.1)
    sys.exit("a server does not answer")


def dnsperf(port, path, *limit):
    """How many requests were answered, and how many of these a second."""
    command = ["dnsperf", "-s", "127.0.0.1", "-p", str(port), "-d", str(path), "-c", "1", "-T", "1", *limit]
    told = subprocess.run(command, stdout=subprocess.PIPE, stderr=subprocess.DEVNULL, text=True, check=True).stdout
    answered = re.search(r"Response codes: +NOERROR (\d+) \(100.00%\)", told)
    if not answered:
        sys.exit("not every request was answered:\n" + told)
    return int(answered.group(1)), float(re.search(r"Queries per second: +([\d.]+)", told).group(1))


def processor_seconds(pid):
    """What a process has used so far: outside of the kernel, and in it."""
    fields = Path("/proc/%d/stat" % pid).read_text().rpartition(")")[2].split()
    return [int(fields[at]) / os.sysconf("SC_CLK_TCK") for at in (11, 12)]


def measure_peer(name, folder, source, path):
    """The requests that a server answered in a second, and its processor seconds for each, outside of the kernel and in it."""
    port = free_port()
    server = subprocess.Popen(PEERS[name](folder, port, source.port), stderr=subprocess.DEVNULL)
    try:
        await_answer(port)
        dnsperf(port, path, "-n", "1")
        asked, before = source.asked, processor_seconds(server.pid)
        answered, rate = dnsperf(port, path, "-l", str(SECONDS))
        after = processor_seconds(server.pid)
        if source.asked != asked:
            sys.exit("%s did not keep every answer" % name)
    finally:
        server.terminate()
        server.wait()
    return rate, [(late - early) / answered for early, late in zip(before, after)]


def tell_peer(name, measured, ours):
    rate, (outside, inside) = measured
    print("%s, %d names kept, a whole server over sockets on loopback: %.0f hits a second; %.2f us of its processor each, "
          "%.2f us of it outside of the kernel" % (name, BESIDE, rate, (outside + inside) * 1e6, outside * 1e6))
    print("ours, without sockets: %.2f times as many hits a second, %.2f times as long as it takes outside of the kernel"
          % (1 / ours / rate, ours / outside))


def name(number):
    """A name as bench_hits asks for it."""
    return "".join(chr(ord("a") + (number >> 4 * digit) % 16) for digit in reversed(range(8))) + ".example.com"


def beside_peers(ours):
    if not shutil.which("dnsperf"):
        print("no server is measured: dnsperf is missing")
        return
    with tempfile.TemporaryDirectory() as made:
        folder = Path(made)
        lines = ["%s A\n" % name(number) for number in range(BESIDE)]
        random.Random(1).shuffle(lines)
        (folder / "names").write_text("".join(lines))
        for peer in PEERS:
            if shutil.which(peer):
                tell_peer(peer, measure_peer(peer, folder, Source(), folder / "names"), ours)
            else:
                print("%s is not measured: it is missing" % peer)


def main():
    large = "--large" in sys.argv
    words = [word for word in sys.argv[1:] if word != "--large"]
    if len(words) != 1:
        sys.exit(__doc__)
    program = os.path.abspath(words[0])
    each, memory = time_hits(program)
    is_well = tell_hits(each, memory) & tell_stale(program) & tell_colliding(program) & tell_large(program)
    if large:
        tell_many_large(program)
    beside_peers(each[BESIDE])
    sys.exit(0 if is_well else 1)


if __name__ == "__main__":
    main()
