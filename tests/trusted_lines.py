#!/usr/bin/env python3
"""Counts the lines of code in which the system is trusted, and finds each crate that reaches it.

usage: python3 tests/trusted_lines.py [-v]

A function is trusted where no clause says all that it does with the system: these are listed here, file by file, with what README.md
believes of each. Its lines are those of its signature and its body, without clauses, comments and blank lines. Each other function of such
a file is listed as proved: its contract says what it gives. -v tells the lines of each. Status 1 where a function is listed nowhere, or
listed and not there; where the trusted lines are more than MOST; or where a shipped crate names the network, files, the environment, the
clock, a process or the C library in a file that is not listed, or README.md's trust section doesn't name the crate.
"""

import pathlib
import re
import sys

TOP = pathlib.Path(__file__).resolve().parent.parent
MOST = {"sockets": 120, "listeners": 70, "workers": 285, "the clock, files and words": 115, "programs": 870}
ALL = "all"
TRUSTED = {
    "client_edge": {
        "address.rt": [],
        "command_line.rt": ["command_words"],
        "conf_file.rt": ["read"],
        "fault.rt": ["is_for_later"],
        "file_opener.rt": ["read", "open_file"],
        "network.rt": ["open", "ready"],
        "real_clock.rt": ["micros", "now"],
        "socket_edge.rt": [],
        "tcp.rt": ["descriptor", "opened", "put", "take", "begin", "connect"],
        "udp.rt": ["descriptor", "opened", "put", "take", "recv", "send", "open", "connect"],
        "unconnected.rt": ["unconnected"],
    },
    "front_edge": {
        "address.rt": [],
        "dgrams.rt": ["descriptor", "receive", "send"],
        "front.rt": [],
        "listeners.rt": ["bound", "listening", "open_dgrams", "open_streams"],
        "streams.rt": ["next", "descriptor", "accept"],
    },
    "worker_edge": {name: ALL for name in ["common.rt", "door.rt", "front.rt", "listeners.rt", "post.rt", "wakes.rt"]},
    "record_file": {"file.rt": ["make"]},
    "dns_values": {"std_edge.rt": []},
    "trace_audit": {"named_file.rt": ["read"], "main.rt": ALL},
    "dns_forward": {"alone.rt": ALL, "shared.rt": ALL, "main.rt": ALL},
    "dns_lookup": {name: ALL for name in ["main.rt", "named_servers.rt", "root_walk.rt", "walked_world.rt"]},
    "dnsq": {"main.rt": ALL},
    "zone_fetch": {"beside.rt": ["make", "rename", "remove"], "main.rt": ALL, "system.rt": ALL},
}
PROVED = {
    "client_edge": {
        "address.rt": ["system_address"],
        "answer.rt": ["count_of", "octets_of"],
        "conf_file.rt": ["new"],
        "fault.rt": ["fault_of", "count_fault"],
        "file_opener.rt": ["new"],
        "network.rt": ["milliseconds", "asked_of", "new", "is_found"],
        "rand_words.rt": ["draw", "new", "next"],
        "real_clock.rt": ["new"],
        "socket_edge.rt": ["over", "new", "learn_server", "act", "poll", "wait"],
        "tcp.rt": ["new"],
        "udp.rt": ["new"],
    },
    "front_edge": {
        "address.rt": ["address_of"],
        "dgrams.rt": ["new"],
        "front.rt": ["told_as", "deaf_at", "listen_by", "listen_at", "listen_all", "over", "new", "listen", "learn_server", "act", "poll", "wait"],
        "listeners.rt": ["new"],
        "streams.rt": ["new"],
    },
    "record_file": {"file.rt": ["new", "count_fault", "write", "flush"]},
    "dns_values": {"std_edge.rt": ["read_again", "write_again", "flush_again", "new", "read", "write", "flush"]},
    "trace_audit": {"named_file.rt": ["new"]},
    "zone_fetch": {"beside.rt": ["new", "count_fault", "write", "flush", "begin", "place", "abandon"]},
}
GROUPS = {"front_edge": "listeners", "worker_edge": "workers", "record_file": "the clock, files and words", "dns_values": "the clock, files and words"}
CLOCKS = ["command_line.rt", "conf_file.rt", "file_opener.rt", "real_clock.rt", "named_file.rt", "beside.rt"]
FUNCTION = re.compile(r"^( *)(?:pub(?:\([a-z]+\))? )?fn (\w+)")
# What reaches the system. Addresses and errors of std are values, and so are readers and writers.
VALUES = r"std::net(::(Ipv4Addr|Ipv6Addr|\{Ipv4Addr, Ipv6Addr\}))?;"
REACHES = re.compile(r"^\s*(?:pub )?use (std::(?:net|fs|os|env|process|rt|time)\b|libc\b).*$", re.M)
UNSHIPPED = re.compile(r"^(test|tool|bench|example)_")


def functions(lines):
    """Each function's name and how many lines of code it has."""
    at = 0
    while at < len(lines):
        found = FUNCTION.match(lines[at])
        if not found:
            at += 1
            continue
        end = found.group(1) + "}"
        count = 0
        # What a trait asks for has no body.
        if lines[at].rstrip().endswith(";"):
            at += 1
            continue
        while True:
            line = lines[at].strip()
            if line and not line.startswith(("//", "ensures", "requires", "ghost")):
                count += 1
            closed = lines[at].rstrip() == end
            at += 1
            if closed:
                break
        yield found.group(2), count


def group_of(crate, name):
    if crate in GROUPS:
        return GROUPS[crate]
    if name in CLOCKS:
        return "the clock, files and words"
    return "sockets" if crate == "client_edge" else "programs"


def counted(crate, path, totals):
    """What is wrong with the lists of a file, whose trusted lines are added up."""
    trusted, proved = TRUSTED[crate].get(path.name, []), PROVED.get(crate, {}).get(path.name, [])
    there = list(functions(path.read_text(encoding="utf-8").splitlines()))
    for name, count in there:
        if trusted == ALL or name in trusted:
            totals[group_of(crate, path.name)] += count
            if "-v" in sys.argv:
                print(f"{crate}, {path.name}: {name}: {count}")
        elif name not in proved:
            yield f"{crate}, {path.name}: `{name}` is listed neither as trusted nor as proved"
    for name in sorted(set(proved + (trusted if trusted != ALL else [])) - {name for name, _ in there}):
        yield f"{crate}, {path.name}: there is no `{name}`"


def reaching():
    """Each shipped file that reaches the system and stands in no list, and each such crate that README doesn't name."""
    readme = (TOP / "README.md").read_text(encoding="utf-8")
    trust = readme.split("Trusted:", 1)[1].split("Left out:", 1)[0]
    crates = set()
    for path in sorted((TOP / "crates").glob("*/src/**/*.rt")):
        crate = path.relative_to(TOP / "crates").parts[0]
        uses = [it for it in REACHES.finditer(path.read_text(encoding="utf-8")) if not re.search(VALUES, it.group(0)) and it.group(0).strip() != "use std::net;"]
        if UNSHIPPED.match(crate) or not uses:
            continue
        crates.add(crate)
        if path.name not in TRUSTED.get(crate, {}):
            yield f"{crate}, {path.name}: `{uses[0].group(0).strip()}` reaches the system, and the file stands in no list"
    for crate in sorted(crates | set(TRUSTED)):
        if f"`{crate}`" not in trust:
            yield f"README.md: what is trusted doesn't name `{crate}`, which reaches the system"


def main():
    totals, faults = dict.fromkeys(MOST, 0), []
    for crate in TRUSTED:
        for path in sorted((TOP / "crates" / crate / "src").glob("*.rt")):
            # Of a crate that reaches the system in all of its files each file is looked at; of the others those that are listed.
            if path.name in TRUSTED[crate] or path.name in PROVED.get(crate, {}) or crate in ("client_edge", "front_edge"):
                faults += counted(crate, path, totals)
    faults += reaching()
    for group, total in totals.items():
        if "-v" in sys.argv:
            print(f"{total} trusted lines for {group}")
        if total > MOST[group]:
            faults.append(f"{total} lines are trusted for {group}, which is more than {MOST[group]}")
    print(*faults, sep="\n", end="\n" if faults else "")
    return 1 if faults else 0


if __name__ == "__main__":
    sys.exit(main())
