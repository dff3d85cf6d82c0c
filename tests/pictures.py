"""Compares the pictures of the shipped traces with the stored ones, and what is no trace with its refusal.

usage: python3 tests/pictures.py
"""

import pathlib
import subprocess
import sys

TOP = pathlib.Path(__file__).resolve().parent.parent
TOOL = TOP / "tools/trace_picture"
REFUSED = {"": 1, "trace 1\n": 2, "trace 1\nat 0 tick\n> close\nend\n": 3, "trace 1\nat x tick\nend\n": 2, "trace 1\nend\nend\n": 3}


def drawn(text, *words):
    return subprocess.run([sys.executable, TOOL, *words], input=text, capture_output=True, text=True)


def main():
    faults = []
    traces = sorted(TOP.glob("examples/*.trace"))
    for trace in traces:
        ran = drawn(trace.read_text())
        if ran.returncode or ran.stdout != trace.with_suffix(".svg").read_text():
            faults.append(f"another picture: {trace.name}")
    for text, line in REFUSED.items():
        ran = drawn(text)
        if ran.returncode != 1 or ran.stderr != f"line {line} refused\n" or ran.stdout:
            faults.append(f"not refused at line {line}: {text!r}")
    if drawn("", "--rows").returncode != 2 or not traces:
        faults.append("wrong words are not refused")
    print(*faults, sep="\n", end="\n" if faults else "")
    return 1 if faults else 0


if __name__ == "__main__":
    sys.exit(main())
