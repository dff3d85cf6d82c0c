#!/usr/bin/env python3
"""Plants a lie in a copy of the repository's text, and asks the check that is to find it. It proves nothing.

usage: python3 tests/planted_lies.py

Each row: the check with its words, the file, what is put in place of what, and a part of the sentence that must be said. Status 1 where a check finds
something before the lie stands, or doesn't find it.
"""

import os
import pathlib
import re
import shutil
import subprocess
import sys
import tempfile

TOP = pathlib.Path(__file__).resolve().parent.parent
FIRST = "#![tactic(auto)]\n"
# A function of another crate, as it stands there.
TWIN = re.search(r"(?ms)^fn open_next<.*?^}\n", (TOP / "crates/client_dgram/src/steps.rt").read_text(encoding="utf-8"))[0]
LIES = [
    ("trusted_lines.py", "crates/dns_names/src/lib.rt", "#![tactic(auto)]\n", "#![tactic(auto)]\n\nuse std::fs;\n", "reaches the system"),
    ("trusted_lines.py", "crates/dns_values/src/octets.rt", "use std::marker::Model;\n", "use std::marker::Model;\nuse libc::net::poll;\n", "stands in no list"),
    ("trusted_lines.py", "README.md", "`worker_edge`, all of it", "all of it", "doesn't name `worker_edge`"),
    ("bodies.py", "tests/wrong_bodies/dns_base/ignores_ixfr.edit", "# an incremental transfer", "# a transfer", "is not what the edits say"),
    ("bodies.py", "tests/wrong_bodies/dns_base/ignores_ixfr.edit", "# refused: ", "# ", "do not say what it does"),
    ("bodies.py", "tests/wrong_bodies/dns_base/ignores_ixfr.edit", "old: ", "old: no such ", "stands 0 times"),
    ("bodies.py", "docs/WRONG_BODIES.md", "| `trace_judge` | `always_right` |", "| `trace_judge` | `never_right` |", "not in the gate"),
    ("tools/crates --check", "docs/CRATES.md", "**`dns_names`**", "**`dns_name`**", "is not what the crates say"),
    ("tools/crates --check", "crates/dns_names/src/lib.rt", "//! Domain names", "//! Names", "is not what the crates say"),
    ("tools/crates --check", "crates.txt", "dns_names: dns_values", "dns_names:", "is not what the crates say"),
    ("documented.py", "README.md", "| 135 ns |", "| 1885 ns |", "the figure 1885"),
    ("documented.py", "README.md", "    for address in find(", "    for address in found(", "the example has no line"),
    ("documented.py", "docs/SCRIPTS.md", "| `opened", "| `openned", "openned"),
    ("commands.py --read", "README.md", "```sh\nrt ci\n", "```sh\nrt all check\n", "no block is what .ci/run runs"),
    ("commands.py --read", "docs/OPERATING.md", "> reply 0 ok ..\n", "..\n", "a line that anything is like"),
    ("house.py lines", "README.md", "## License\n", "## License\n\n" + "word " * 40 + "\n", "lines (prose) over 160"),
    ("house.py lines", "docs/WRONG_BODIES.md", "| each trace is right |", f"| {'each trace is right ' * 10}|", "lines (rows) over 160"),
    ("house.py names", "README.md", "`client_core`", "`client_kore`", "`client_kore` stands in no source"),
    ("house.py names", "docs/DEFINITIONS.md", "`ResolvConf::parse_line`", "`ResolvConf::check_stream`", "no file has both sides of `ResolvConf::check_stream`"),
    ("house.py files", "docs/MAP.md", "| `dns_names` | `Name` |", "| `dns_names` | `Framer` |", "there is no `Framer`"),
    ("house.py files", "docs/DEFINITIONS.md", "`dns_names/Name.antt`", "`dns_names/Frames.antt`", "there is no `dns_names/Frames.antt`"),
    ("house.py questions", "docs/MAP.md", "**Run one test.**", "**A test.**", "has no `Run one test`"),
    ("house.py parameters", "crates/dns_names/src/lib.rt", FIRST, f"{FIRST}\nfn lie({', '.join(f'{it}: u8' for it in 'abcdefgh')}) {{}}\n", "has 8 parameters"),
    ("house.py parameters", "tests/house.txt", "parameters client_dgram::send 8", "parameters client_dgram::send 9", "is more than there is"),
    ("house.py types", "crates/dns_names/src/lib.rt", FIRST, f"{FIRST}\nstruct Answer;\n", "`Answer` is the name of"),
    ("house.py comments", "crates/dns_names/src/lib.rt", FIRST, f"{FIRST}\n/// The same.\nfn lie() {{}}\n", "say \"The same.\" alone"),
    ("house.py twins", "crates/dns_names/src/lib.rt", FIRST, f"{FIRST}\n{TWIN}", "pairs of files of two shipped crates share"),
    ("house.py twins", "tests/house.txt", "\npairs ", "\npairs 9", "is more than there is"),
    ("house.py cost", "docs/COST.md", "| `dns_names` | ", "| `dns_names` | 9", "is not what its rows say"),
    ("tools/measured", "docs/MEASURED.md", "| 135 ns |", "| 136 ns |", "is not what bench/measured.txt says"),
    ("tools/measured", "bench/measured.txt", "| 135 ns |", "| 136 ns |", "is not what bench/measured.txt says"),
    ("tools/measured", "bench/measured.txt", "bench/cache.py |", "bench/cash.py |", "no such script: bench/cash.py"),
]


def asked(top, check):
    name, *words = check.split()
    path = top / name if "/" in name else top / "tests" / name
    ran = subprocess.run([sys.executable, str(path), *words], capture_output=True, text=True, check=False)
    return ran.returncode, ran.stdout


def copied(top):
    """A copy of the repository: what runs is copied, and all else are links."""
    for part in ("tests", "tools", "docs", "crates", "bench", "examples", ".ci"):
        copy = shutil.copy if part in ("tests", "tools") else os.symlink
        shutil.copytree(TOP / part, top / part, copy_function=copy, ignore=shutil.ignore_patterns("out", "__pycache__"))
    for name in ("README.md", "crates.txt", "run", "HANDLES"):
        os.symlink(TOP / name, top / name)


def put(path, text):
    path.unlink()
    path.write_text(text, encoding="utf-8")


def main():
    faults = []
    with tempfile.TemporaryDirectory() as room:
        top = pathlib.Path(room) / "copy"
        copied(top)
        for check in sorted({lie[0] for lie in LIES}):
            if asked(top, check)[0]:
                faults.append(f"{check} finds something before any lie stands")
        for check, name, old, new, said in LIES:
            path = top / name
            text = path.read_text(encoding="utf-8")
            if old not in text:
                faults.append(f"{name} has no `{old.strip()}` to put a lie in place of")
                continue
            put(path, text.replace(old, new, 1))
            status, output = asked(top, check)
            put(path, text)
            if not status or said not in output:
                faults.append(f"{check} does not find `{new.strip()}` in {name}")
    print(*faults, sep="\n", end="\n" if faults else "")
    return 1 if faults else 0


if __name__ == "__main__":
    sys.exit(main())
