#!/usr/bin/env python3
"""Says which of the tests that became rows has lost its rows. It proves nothing.

usage: python3 tests/rows_of_tests.py [--write]

tests/rows.txt names for each of 319 tests what shows it, as `CRATE TEST PLACE ROWS`: a tool, in whose stored run so many lines stand under
the line `# CRATE TEST: ..`, or a crate of tests that has it still (`test`). Status 1 where a line of it is false, or where there are fewer
than 319. --write counts anew, for those that it names.
"""

import pathlib
import re
import sys

TOP = pathlib.Path(__file__).resolve().parent.parent
COUNT = 319
ROW = re.compile(r"^(\w+) (\w+) (\w+) (\d+|test)$", re.M)
HEAD = re.compile(r"^# (\w+) (\w+): ")


def rows_by_test(tool):
    """How many lines of a tool's stored run stand under each test."""
    found, key = {}, None
    path = TOP / "crates" / tool / "stdin"
    for line in path.read_text(encoding="utf-8").splitlines() if path.is_file() else []:
        head = HEAD.match(line)
        if line.startswith("#"):
            if head:
                key = head.groups()
                found.setdefault(key, 0)
            elif not key or found[key]:
                key = None
        elif key and line:
            found[key] += 1
    return found


def tests_of(crate):
    """The tests that a crate has."""
    text = "\n".join(it.read_text(encoding="utf-8") for it in (TOP / "crates" / crate / "src").glob("**/*.rt"))
    return set(re.findall(r"#\[test\]\s*(?:#\[[^\]]*\]\s*)*fn (\w+)", text))


def main():
    path = TOP / "tests/rows.txt"
    text = path.read_text(encoding="utf-8")
    known, faults = {}, []

    def shown(crate, test, place):
        if place not in known:
            is_tool = place.startswith("tool_")
            known[place] = rows_by_test(place) if is_tool else tests_of(place)
        if place.startswith("tool_"):
            return str(known[place].get((crate, test), 0))
        return "test" if test in known[place] else "0"

    def again(row):
        crate, test, place, _ = row.groups()
        return f"{crate} {test} {place} {shown(crate, test, place)}"

    if "--write" in sys.argv:
        text = ROW.sub(again, text)
        path.write_text(text, encoding="utf-8")
    rows = ROW.findall(text)
    for crate, test, place, count in rows:
        there = shown(crate, test, place)
        if there != count or there == "0":
            faults.append(f"tests/rows.txt: `{test}` of {crate} is shown by {count} rows of {place}, and there are {there}")
    if len({row[:2] for row in rows}) < COUNT:
        faults.append(f"tests/rows.txt: {COUNT - len({row[:2] for row in rows})} tests are not named")
    print(*faults, sep="\n", end="\n" if faults else "")
    return 1 if faults else 0


if __name__ == "__main__":
    sys.exit(main())
