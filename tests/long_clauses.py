"""Says which clauses of the crates' code are too long to be read as one fact.

usage: python3 tests/long_clauses.py [MOST]

A clause is the text between the braces of a `requires` or an `ensures`; MOST is 200 characters. Status 1 where one is longer, but for
those of MANY: what a forwarder's program tells at its end is said of its source, its front and two sinks, each before and after, and what
one that fetches zones tells, of two edges, two sinks and the file that it replaces. What names each of the three kinds of settings has a
few more, too.
"""

import pathlib
import re
import sys

BEGIN = re.compile(r"\b(?:requires|ensures)\*?(?:[ \t]+\w+)?[ \t]*\{")
MANY = {"forward_run": 400, "forward_record": 410, "forward_workers": 440, "zone_fetch_run": 330,
        "dns_record": 245, "proof_right": 205, "trace_points": 210, "trace_judge": 225}


def clauses(text):
    """The line and the text of each clause."""
    for found in BEGIN.finditer(text):
        depth, at = 1, found.end()
        while depth and at < len(text):
            depth += {"{": 1, "}": -1}.get(text[at], 0)
            at += 1
        yield text.count("\n", 0, found.start()) + 1, text[found.end():at - 1].strip()


def main():
    most = int(sys.argv[1]) if len(sys.argv) > 1 else 200
    top = pathlib.Path(__file__).resolve().parent.parent
    long = 0
    for path in sorted(top.glob("crates/*/src/**/*.rt")):
        for line, clause in clauses(path.read_text(encoding="utf-8")):
            if len(clause) > max(most, MANY.get(path.relative_to(top).parts[1], 0)):
                long += 1
                print(f"{path.relative_to(top)}:{line}: a clause of {len(clause)} characters")
    return 1 if long else 0


if __name__ == "__main__":
    sys.exit(main())
