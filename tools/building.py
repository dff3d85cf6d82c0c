"""What `run`, `bench/build` and scripts of this folder share: the crates that a program stands on, copies of just these, and how a program is
built there, with its proofs or before any."""

import ctypes
import hashlib
import os
import re
import select
import shutil
import signal
import subprocess
import sys
import tempfile
import time

TOP = os.path.dirname(os.path.dirname(os.path.realpath(__file__)))
# What a crate is made of.
PARTS = ("src", "specs", "proofs")
# `rt try` checks names beside what it builds, for a hint alone, which costs as much again. The other words let its run end soon.
TRY = """
import sys
sys.dont_write_bytecode = True
sys.path.insert(0, sys.argv[1])
import rtlib
rtlib.RATTLE = "true"
sys.exit(rtlib.main("try", "--steps", "1", "--seconds", "600"))
"""


PR_SET_PDEATHSIG = 1
# The groups that a crate's name tells; the others are programs and libraries.
GROUPS = ("trace", "proof", "test", "tool", "example", "bench")
# The head of docs/COST.md's rows.
MINUTES = "| Crate | Good minutes |"


class NotBuilt(Exception):
    """Why something was not built, as a sentence."""


def lines_of(top):
    """The line of each crate in crates.txt, by name; libraries stand before what uses them."""
    with open(f"{top}/crates.txt", encoding="utf-8") as it:
        lines = [line for line in (line.partition("#")[0].strip() for line in it) if line]
    for line in lines:
        if not re.match(r"\w+(?: [^:]*)?:", line):
            raise NotBuilt(f"crates.txt has a line that names no crate: {line}")
    return {re.match(r"\w+", line)[0]: line for line in lines}


def uses_of(line):
    """The libraries that a crate's line names."""
    return line.partition(":")[2].split()


def below(lines, names):
    """These crates and all that they stand on, in the order of the lines."""
    found, left = set(), list(names)
    while left:
        name = left.pop()
        if name in lines and name not in found:
            found.add(name)
            left += uses_of(lines[name])
    return [name for name in lines if name in found]


def group_of(name):
    """What a crate is by its name, or by whether it has a `main`."""
    kind = name.partition("_")[0]
    if kind in GROUPS:
        return f"`{kind}_`"
    return "programs" if os.path.isfile(f"{TOP}/crates/{name}/src/main.rt") else "other libraries"


def minutes_in(text):
    """The minutes of each crate that a document of the gate's cost has a row of."""
    rows = text.partition(f"{MINUTES}\n")[2].partition("\n\n")[0]
    return {name: float(each) for name, each in re.findall(r"(?m)^\| `?([^`|]+?)`? \| ([0-9.]+) \|$", rows)}


def files_of(folder):
    """The files that a crate is made of."""
    for part in PARTS:
        for at, folders, names in os.walk(f"{folder}/{part}"):
            folders.sort()
            yield from (f"{at}/{name}" for name in sorted(names))


def kit():
    """The folder of `rt`."""
    found = shutil.which("rt")
    if not found:
        raise NotBuilt("there is no rt on the PATH: it comes with the Rattle kit")
    return os.path.dirname(os.path.realpath(found))


def sum_of(top, names):
    """A sum of the kit, and of the lines and files of these crates."""
    kit()
    found = hashlib.sha256(subprocess.run(["rt", "version"], stdout=subprocess.PIPE, check=True).stdout)
    lines = lines_of(top)
    for name in names:
        found.update(lines[name].encode() + b"\n")
        for path in files_of(f"{top}/crates/{name}"):
            with open(path, "rb") as it:
                text = it.read()
            found.update(f"{os.path.relpath(path, top)} {len(text)}\n".encode() + text)
    return found.hexdigest()


def file_sum(path):
    with open(path, "rb") as it:
        return hashlib.sha256(it.read()).hexdigest()


def copy_crates(top, names, to, left=("out", "must-fail")):
    """Copies these crates of a repository, with their lines, but without wrong bodies and what was made of them."""
    lines = lines_of(top)
    shutil.copy(f"{top}/HANDLES", f"{to}/HANDLES")
    for name in names:
        folder = f"{top}/crates/{name}"
        left_out = lambda at, _, folder=folder: left if at == folder else ()
        shutil.copytree(folder, f"{to}/crates/{name}", ignore=left_out)
    with open(f"{to}/crates.txt", "w", encoding="utf-8") as it:
        it.writelines(lines[name] + "\n" for name in names)


def room_for(name):
    """A new folder for a copy. It lies in no checkout, since `rt ci` takes none below another one."""
    large = "/var/tmp" if os.access("/var/tmp", os.W_OK) else None
    return tempfile.mkdtemp(prefix=f"{name}-", dir=os.environ.get("TMPDIR") or large)


def keep_program(room, kept):
    """Keeps the program that lies in the room now, if any, and returns whether one does."""
    found = False
    for at, _, names in os.walk(room):
        for path in (f"{at}/{name}" for name in names if name.startswith("program")):
            try:
                seen = os.stat(path)
                if not seen.st_mode & 0o100 or not seen.st_size:
                    continue
                found = True
                if not os.path.exists(kept) or os.stat(kept).st_ino != seen.st_ino:
                    os.link(path, f"{kept}.new")
                    os.replace(f"{kept}.new", kept)
            except FileNotFoundError:
                continue
    return found


def build_unproved(top, name, out):
    """Builds a program before any proof. `rt try` makes it in a folder of its own, runs it there without input and removes it: it is kept
    while it stands there."""
    words = [sys.executable, "-c", TRY, kit()] if os.path.isfile(f"{kit()}/rtlib.py") else ["rt", "try", "--steps", "1", "--seconds", "600"]
    os.makedirs(os.path.dirname(out), exist_ok=True)
    with tempfile.TemporaryDirectory(prefix="try-", dir=os.path.dirname(out)) as room:
        how = {"cwd": f"{top}/crates/{name}", "env": {**os.environ, "TMPDIR": room}, "stdin": subprocess.DEVNULL}
        with open(f"{room}/said", "wb") as said:
            tried = subprocess.Popen(words, stdout=subprocess.DEVNULL, stderr=said, preexec_fn=end_with_caller, **how)
        try:
            while tried.poll() is None:
                keep_program(room, f"{room}/kept")
                time.sleep(0.01)
        finally:
            tried.terminate()
            tried.wait()
        if not os.path.exists(f"{room}/kept"):
            with open(f"{room}/said", encoding="utf-8", errors="replace") as said:
                raise NotBuilt(f"{said.read().strip()[-3000:]}\n{name} was not built")
        os.chmod(f"{room}/kept", 0o755)
        os.replace(f"{room}/kept", out)


def end_with_caller():
    """Lets a process that is started end when its caller is killed."""
    ctypes.CDLL(None).prctl(PR_SET_PDEATHSIG, signal.SIGTERM)


class Progress:
    """One line on standard error that moves: how many crates are proved of how many, and what is left at the pace so far."""

    def __init__(self, top, names):
        # Crates take their time by their code, and some for what they load.
        self.left = {name: 100 + sum(map(code_lines, files_of(f"{top}/crates/{name}"))) for name in names}
        self.count, self.work = len(self.left), sum(self.left.values())
        self.begun, self.shown = time.time(), None
        self.moves = sys.stderr.isatty()

    def done(self, name):
        self.left.pop(name, None)

    def show(self):
        passed = time.time() - self.begun
        text = f"{self.count - len(self.left)} of {self.count} crates proved in {passed / 60:.0f} min"
        done = self.work - sum(self.left.values())
        if done and self.left:
            text += f", some {passed * (self.work - done) / done / 60 + 0.5:.0f} min left"
        if self.moves:
            print(f"\r\033[K{text}", end="", file=sys.stderr, flush=True)
        elif self.shown != len(self.left):
            print(text, file=sys.stderr, flush=True)
        self.shown = len(self.left)

    def end(self):
        if self.moves:
            print(file=sys.stderr)


def code_lines(path):
    if not path.endswith(".rt"):
        return 0
    with open(path, "rb") as it:
        return it.read().count(b"\n")


def prove(top, names, log, watch=None):
    """Proves all crates of a copy by `rt ci`, side by side, and runs its programs as they are stored. It ends at the first that fails. What
    watches is called with the process again and again."""
    kit()
    shown, rest, failed = Progress(top, names), b"", False
    how = {"cwd": top, "stdin": subprocess.DEVNULL, "stdout": subprocess.PIPE, "stderr": subprocess.STDOUT}
    proving = subprocess.Popen(["rt", "ci"], preexec_fn=end_with_caller, **how)
    try:
        with open(log, "wb") as kept:
            while True:
                shown.show()
                if watch:
                    watch(proving.pid)
                if not select.select([proving.stdout], [], [], 0.2 if watch else 1)[0]:
                    continue
                more = os.read(proving.stdout.fileno(), 1 << 16)
                if not more:
                    break
                kept.write(more)
                kept.flush()
                *lines, rest = (rest + more).split(b"\n")
                for line in lines:
                    told = re.fullmatch(rb"rt: (\w+) (NOT )?proved", line, re.I)
                    if told and not told[2]:
                        shown.done(told[1].decode())
                    elif told and not failed:
                        failed = True
                        proving.terminate()
    finally:
        proving.terminate()
        status = proving.wait()
        shown.end()
    with open(log, encoding="utf-8", errors="replace") as kept:
        said = kept.read().rstrip().split("\n")
    if status or not said[-1].endswith(" 0 failed"):
        tail = "\n".join(said[-20:])
        raise NotBuilt(f"{tail}\nthe whole log is {log}")
