#!/usr/bin/env python3
"""Times `dnsq query` beside kdig and dig, and how busy it is while nobody answers.

    sudo python3 bench/query.py PROGRAM [RUNS]

PROGRAM is the built dnsq. An NSD serves on loopback, as for tests/ask_servers.py, and a configuration that names it is
mounted over /etc/resolv.conf in a mount namespace of this script's own. Each program asks for the same address, one after
another in turn, RUNS times (100), and the least and the middle of its times are told, and the ratios to those of dnsq. Then
a port that stays silent is asked, and the processor time of that query is told, and how often it slept: more than 0.1 s, or than
50 times, ends with status 1. Where a tool is missing that is said, and nothing is measured.
"""

import os
import resource
import shutil
import socket
import subprocess
import sys
import tempfile
import time
from pathlib import Path

sys.path.insert(0, str(Path(__file__).resolve().parent.parent / "tests"))
import ask_servers  # noqa: E402

INSIDE = "BENCH_QUERY_INSIDE"
MOST_BUSY = 0.1
MOST_SLEEPS = 50


def timed(words):
    began = time.monotonic()
    ran = subprocess.run(words, capture_output=True, text=True, stdin=subprocess.DEVNULL)
    took = time.monotonic() - began
    return took, ran.stdout


def compare(program, port, runs):
    asked = {
        "dnsq": [program, "query", "www.example", "A", "--port", str(port)],
        "kdig": ["kdig", "@127.0.0.1", "-p", str(port), "www.example", "A"],
        "dig": ["dig", "@127.0.0.1", "-p", str(port), "www.example", "A"],
    }
    times = {name: [] for name in asked}
    for _ in range(runs):
        for name, words in asked.items():
            took, out = timed(words)
            if not ("reply 0 ok " in out or "192.0.2.1" in out):
                sys.exit("%s was not answered: %s" % (name, out[:200]))
            times[name].append(took)
    for name, taken in times.items():
        taken.sort()
        print("%s: least %.2f ms, middle %.2f ms" % (name, 1000 * taken[0], 1000 * taken[runs // 2]))
    for name in ("kdig", "dig"):
        least = times["dnsq"][0] / times[name][0]
        middle = times["dnsq"][runs // 2] / times[name][runs // 2]
        print("dnsq takes %.2f times as long as %s by the least, %.2f by the middle" % (least, name, middle))


def silence(program):
    with socket.socket(socket.AF_INET, socket.SOCK_DGRAM) as silent:
        silent.bind(("127.0.0.1", 0))
        before = resource.getrusage(resource.RUSAGE_CHILDREN)
        took, out = timed([program, "query", "www.example", "A", "--port", str(silent.getsockname()[1])])
        after = resource.getrusage(resource.RUSAGE_CHILDREN)
    busy = after.ru_utime + after.ru_stime - before.ru_utime - before.ru_stime
    sleeps = after.ru_nvcsw - before.ru_nvcsw
    print("without an answer: %s after %.2f s, %.3f s on a processor, slept %d times" % (out.strip(), took, busy, sleeps))
    return busy <= MOST_BUSY and sleeps <= MOST_SLEEPS


def inside(program, runs):
    with tempfile.TemporaryDirectory() as made:
        folder = Path(made)
        (folder / "resolv.conf").write_text("nameserver 127.0.0.1\n")
        if subprocess.run(["mount", "--bind", str(folder / "resolv.conf"), "/etc/resolv.conf"]).returncode:
            ask_servers.skipped("nothing can be mounted over /etc/resolv.conf")
        port = ask_servers.free_port()
        server = ask_servers.serve("nsd", folder, port)
        try:
            compare(program, port, runs)
        finally:
            server.terminate()
            server.wait()
        is_quiet = silence(program)
        subprocess.run(["umount", "/etc/resolv.conf"])
    sys.exit(0 if is_quiet else 1)


def main():
    if len(sys.argv) < 2:
        sys.exit(__doc__)
    program = os.path.abspath(sys.argv[1])
    if os.environ.get(INSIDE):
        return inside(program, int(sys.argv[2]) if len(sys.argv) > 2 else 100)
    for tool in ("nsd", "kdig", "dig", "unshare"):
        if not shutil.which(tool):
            ask_servers.skipped(tool + " is missing")
    os.environ[INSIDE] = "1"
    os.execvp("unshare", ["unshare", "--mount", "--propagation", "private", sys.executable, *sys.argv])


if __name__ == "__main__":
    main()
