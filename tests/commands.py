#!/usr/bin/env python3
"""Runs the commands of README.md and docs/OPERATING.md as they stand, and compares what they print with what is shown.

usage: python3 tests/commands.py [--built | --read]

Commands are the blocks of ```sh, and what a block prints is the block of ```text right behind it; each must end with status 0. One shell runs those of
a document one behind another, in a folder of links to the repository and with a home of its own, so that nothing is left there but what was
built. A line that .ci/run has is not run: it is the gate. The commands of README.md's table of tools are run too, of which the end alone
is looked at; that the forwarder's has none is right.

All runs in a network namespace that has no network, where a server of this script's own answers at 192.0.2.53. Where none can be made (`unshare`, `ip`),
blocks that name this address are left out, with all behind them, and that is said.

In what is shown <N> stands for a number, <HOME> for the home, and `..` for hexadecimal digits; a line of nothing else is refused. What `run` and
`tools/install` tell of building is passed by. Programs that are not built are built first, before any proof, some minutes on four processors; with
--built nothing is run then, and with --read never. Status 77 where something was left out, 1 where something is wrong.
"""

import concurrent.futures
import os
import pathlib
import re
import shutil
import signal
import socket
import struct
import subprocess
import sys
import tempfile
import threading

from ask_servers import name_at, spelled, text_labels

TOP = pathlib.Path(__file__).resolve().parent.parent
DOCUMENTS = ("README.md", "docs/OPERATING.md")
INSIDE = "COMMANDS_INSIDE"
SERVER = "192.0.2.53"
BLOCK = re.compile(r"(?ms)^```(sh|text)\n(.*?)^```$")
SHOWN_IN_TABLE = re.compile(r"(?m)\| `((?:\./run|echo) [^`]*)` \|$")
PASSED_BY = re.compile(r"(?:run|install): |.*\bTerminated\b")
STAND_INS = re.compile(r"(<N>|<HOME>|\.\.)")
MARK = "@ the end of a block, with status"
SECONDS = 120


def name_of(text):
    return spelled(text_labels(text))


SOA = name_of("ns.example.com") + name_of("hostmaster.example.com") + struct.pack(">IIIII", 7, 3600, 900, 86400, 300)
# The zone that is served: owners, types and data.
ZONE = [
    ("example.com", 6, SOA), ("example.com", 2, name_of("ns.example.com")), ("example.com", 1, bytes([192, 0, 2, 1])),
    ("example.com", 15, b"\0\n" + name_of("mail.example.com")), ("www.example.com", 1, bytes([192, 0, 2, 1])),
    ("mail.example.com", 1, bytes([192, 0, 2, 25])), ("ns.example.com", 1, bytes([192, 0, 2, 53])),
]


class Wrong(Exception):
    """What is wrong, as a sentence."""


def record(owner, rtype, data):
    return name_of(owner) + struct.pack(">HHIH", rtype, 1, 300, len(data)) + data


def answer_to(query):
    """What the server answers: what its zone has of the name and type, or all of it."""
    labels, at = name_at(query, 12)
    rtype = int.from_bytes(query[at:at + 2], "big")
    found = [it for it in ZONE if tuple(text_labels(it[0])) == labels and it[1] == rtype]
    is_there = any(tuple(text_labels(it[0])) == labels for it in ZONE)
    if rtype == 252:
        found, is_there = [*ZONE, ZONE[0]], True
    rules = [] if found else [ZONE[0]]
    has_opt = query[10:12] != b"\0\0"
    flags = 0x8480 | int.from_bytes(query[2:4], "big") & 0x0100 | (0 if is_there else 3)
    head = query[:2] + struct.pack(">HHHHH", flags, 1, len(found), len(rules), has_opt)
    opt = b"\0" + struct.pack(">HHIH", 41, 1232, 0, 0) if has_opt else b""
    return head + query[12:at + 4] + b"".join(record(*it) for it in found + rules) + opt


def serve_datagrams(listener):
    while True:
        query, peer = listener.recvfrom(65535)
        listener.sendto(answer_to(query), peer)


def serve_streams(listener):
    while True:
        stream, _ = listener.accept()
        with stream, stream.makefile("rb") as octets:
            while head := octets.read(2):
                reply = answer_to(octets.read(int.from_bytes(head, "big")))
                stream.sendall(struct.pack(">H", len(reply)) + reply)


def serve():
    """Begins to serve the zone by datagrams and streams."""
    for words in (["link", "set", "lo", "up"], ["addr", "add", f"{SERVER}/32", "dev", "lo"]):
        subprocess.run(["ip", *words], check=True)
    datagrams = socket.socket(socket.AF_INET, socket.SOCK_DGRAM)
    datagrams.bind((SERVER, 53))
    streams = socket.create_server((SERVER, 53))
    for work, listener in ((serve_datagrams, datagrams), (serve_streams, streams)):
        threading.Thread(target=work, args=(listener,), daemon=True).start()


def enter():
    """Runs this script again in a network namespace of its own, where one can be made."""
    for user in ([], ["--user", "--map-root-user"]):
        words = ["unshare", *user, "--net"]
        if shutil.which("unshare") and shutil.which("ip") and not subprocess.run([*words, "true"], stderr=subprocess.DEVNULL, check=False).returncode:
            os.environ[INSIDE] = "yes"
            os.execvp(words[0], [*words, sys.executable, *sys.argv])


def steps_of(document):
    """The blocks of commands of a document, each with what it is shown to print, if it is shown."""
    text, steps, end = (TOP / document).read_text(encoding="utf-8"), [], 0
    gate = (TOP / ".ci/run").read_text(encoding="utf-8").splitlines()
    for block in BLOCK.finditer(text):
        if block[1] == "sh":
            steps.append([block[2].rstrip() if block[2].rstrip() not in gate else "", None])
        elif not steps or steps[-1][1] is not None or text[end:block.start()].strip():
            raise Wrong(f"{document}: what is shown stands behind no command: {block[2]}")
        else:
            steps[-1][1] = block[2].splitlines()
        end = block.end()
    if document == DOCUMENTS[0] and all(step[0] for step in steps):
        raise Wrong(f"{document}: no block is what .ci/run runs")
    for line in (line for step in steps for line in step[1] or []):
        pattern_of(line, "")
    return [step for step in steps if step[0]]


def pattern_of(line, home):
    """What a line that is shown may be."""
    if not re.search(r"\w", STAND_INS.sub("", line)):
        raise Wrong(f"a line that anything is like: {line}")
    stands_for = {"<N>": "[0-9]+", "<HOME>": re.escape(home), "..": "[0-9a-f]+"}
    return "".join(stands_for.get(part) or re.escape(part) for part in STAND_INS.split(line))


def compare(document, step, status, printed, home):
    commands, shown = step
    printed = [line for line in printed if not PASSED_BY.match(line)]
    if status != "0":
        raise Wrong("\n".join([f"{document}: this ended with status {status}:" if status else f"{document}: no end of this:", commands, *printed]))
    patterns = [pattern_of(line, home) for line in shown or []]
    if shown is not None and (len(patterns) != len(printed) or not all(map(re.fullmatch, patterns, printed))):
        raise Wrong("\n".join([f"{document}: this prints something else than is shown:", commands, "printed:", *printed]))


def ran(commands, room, seconds):
    """What a shell prints that runs these, and its status; none where it was still running."""
    home = room / "home"
    with open(room / "printed", "w+", encoding="utf-8") as printed:
        how = {"cwd": room / "top", "env": {**os.environ, "HOME": str(home)}, "stdin": subprocess.DEVNULL, "stdout": printed, "stderr": subprocess.STDOUT}
        shell = subprocess.Popen(["sh", "-c", commands], start_new_session=True, **how)
        try:
            status = shell.wait(seconds)
        except subprocess.TimeoutExpired:
            status = None
        finally:
            # What it left running goes with it.
            try:
                os.killpg(shell.pid, signal.SIGKILL)
            except ProcessLookupError:
                pass
            shell.wait()
        printed.seek(0)
        return printed.read(), status


def run_document(document, steps, room, is_served):
    """Runs a document's blocks. How many were left out."""
    cut = next((at for at, step in enumerate(steps) if SERVER in step[0]), len(steps))
    kept = steps if is_served else steps[:cut]
    told, _ = ran("\n".join(f"{commands}\nprintf '\\n{MARK} %s\\n' $?" for commands, _ in kept), room, SECONDS)
    ends = re.split(rf"(?m)^{MARK} (\d+)\n", told)
    for step, printed, status in zip(kept, ends[::2], [*ends[1::2], None]):
        # The mark begins a line of its own behind what was printed.
        compare(document, step, status, printed.removesuffix("\n").splitlines(), str(room / "home"))
    return len(steps) - len(kept)


def run_table(room):
    """Runs the commands of the table of tools."""
    for shown in SHOWN_IN_TABLE.findall((TOP / "README.md").read_text(encoding="utf-8")):
        commands = shown.replace("\\|", "|")
        printed, status = ran(commands, room, 10)
        if status != (None if "dns_forward" in commands else 0):
            raise Wrong(f"README.md: status {status} of {commands}\n{printed}")


def build(is_asked):
    """Builds the programs, as many at once as there are processors, unless it is only asked whether they are built. Whether they are."""
    programs = re.search(r'(?m)^programs="([^"]+)"', (TOP / "tools/install").read_text(encoding="utf-8"))[1].split()
    if not subprocess.run([TOP / "run", "--try", "--where", *programs], capture_output=True, check=False).returncode:
        return True
    if is_asked:
        return False
    with concurrent.futures.ThreadPoolExecutor(os.cpu_count()) as pool:
        ends = pool.map(lambda it: subprocess.run([TOP / "run", "--try", "--build", it], stdout=subprocess.DEVNULL, check=False), programs)
    if any(it.returncode for it in ends):
        raise Wrong("a program was not built")
    return True


def run_all(documents, is_served):
    """Runs all commands. How many blocks were left out."""
    with tempfile.TemporaryDirectory() as name:
        room = pathlib.Path(name)
        for folder in ("home", "top"):
            (room / folder).mkdir()
        for path in TOP.iterdir():
            (room / "top" / path.name).symlink_to(path)
        left = sum(run_document(name, steps, room, is_served) for name, steps in documents.items())
        if is_served:
            run_table(room)
        return left


def main():
    if sys.argv[1:] not in ([], ["--built"], ["--read"]):
        print(__doc__, file=sys.stderr)
        return 2
    try:
        documents = {name: steps_of(name) for name in DOCUMENTS}
        if sys.argv[1:] == ["--read"]:
            return 0
        if INSIDE in os.environ:
            serve()
        elif not build(sys.argv[1:] == ["--built"]):
            return 77
        else:
            enter()
        left = run_all(documents, INSIDE in os.environ)
    except Wrong as why:
        print(why)
        return 1
    if left:
        print(f"{left} blocks were left out, since no network namespace can be made")
    return 77 if left else 0


if __name__ == "__main__":
    sys.exit(main())
