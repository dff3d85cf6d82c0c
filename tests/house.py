#!/usr/bin/env python3
"""Holds documents and code to the rules of the house. It proves nothing.

usage: python3 tests/house.py [--lower] [RULE..]      all rules, where none is named

lines        No line of a document is longer than 160 characters; tools/wrap_documents wraps paragraphs and lists.
names        A name in backticks in a document stands in a source or in a file's name, and both sides of a `::` in one file.
files        What the rules of docs/MAP.md name lies in the crate that the row names, in one that the section names, or in the one before the
             slash, and what docs/DEFINITIONS.md names so in that one's specs.
questions    Where docs/TESTED.md says that a question is answered, the document has what stands between the quotes.
parameters   A function has at most 7 parameters, `self` among them.
types        A name is that of two types of the repository at most.
comments     No comment is "The same." alone.
twins        At most 60 pairs of files of two shipped crates share six lines to the letter. A comment, an import, an attribute and signs alone are
             no line, and what stands in more than eight places counts for nothing.
cost         docs/COST.md tells what its rows say of the crates of now.

tests/house.txt has what breaks them today, a line for each, and how many twins there are. Each number may only sink: --lower takes from it what is
gone, and one more is refused. What it doesn't have is added by hand, where a reader sees it. Status 1 where a rule is broken.
"""

import itertools
import os
import pathlib
import re
import subprocess
import sys

TOP = pathlib.Path(__file__).resolve().parent.parent
PASSED_OVER = TOP / "tests/house.txt"
LONGEST, PARAMETERS, TYPES, TWINS = 160, 7, 2, 60
# How many lines two places share that are twins, and in how many places they stand at most.
SHARED, PLACES = 6, 8
SOURCES = ["crates", "tests", "tools", "bench", "examples", ".ci", "run", "crates.txt"]
WORD = re.compile(r"[A-Za-z_][A-Za-z0-9_]*")
FUNCTION = re.compile(r"^[ \t]*(?:pub(?:\([a-z ]+\))? )?(?:const |unsafe )*fn (\w+)", re.M)
TYPE = re.compile(r"^(?:pub(?:\([a-z ]+\))? )?(?:unsafe )?(?:struct|enum|trait|union|type) (\w+)", re.M)
SAME = re.compile(r"(?:^[ \t]*//.*\n)*", re.M)
# A line that says nothing by itself.
EMPTY = re.compile(r"\s*(?://|(?:ghost |pub )*use |(?:pub )?mod |#|\W*$)")
RULES = "| You look for | Rule in | Crate | Definition | Code | Proof |"
# What is no source of names: what is passed over, and the lies that are planted.
APART = [PASSED_OVER, TOP / "tests/planted_lies.py"]


def read(path):
    return path.read_text(encoding="utf-8")


def documents():
    """Each document's name with its text."""
    for path in [TOP / "README.md", *sorted((TOP / "docs").glob("*.md"))]:
        yield str(path.relative_to(TOP)), read(path)


def code():
    """Each file of code with its crate and its text, without comments."""
    for path in sorted((TOP / "crates").glob("*/src/**/*.rt")):
        yield path, path.relative_to(TOP / "crates").parts[0], re.sub(r"//.*", "", read(path))


def long_lines():
    """How many rows of tables, lines of code and other lines of each document are too long."""
    for name, text in documents():
        fenced, found = False, {}
        for number, line in enumerate(text.splitlines(), 1):
            fenced ^= line.lstrip().startswith("```")
            if len(line) > LONGEST:
                kind = "code" if fenced or line.startswith("    ") else "rows" if line.lstrip().startswith("|") else "prose"
                found.setdefault(kind, []).append(number)
        for kind, numbers in found.items():
            yield f"{kind} {name}", len(numbers), f"{name}: {len(numbers)} lines ({kind}) over {LONGEST} characters, as line {numbers[-1]}"


def sources():
    """Each file whose words are names; what was built from them is passed by."""
    for part in SOURCES:
        if (TOP / part).is_file():
            yield TOP / part
        for folder, folders, names in os.walk(TOP / part):
            folders[:] = [it for it in folders if it not in ("out", "__pycache__")]
            for path in (pathlib.Path(folder) / name for name in names):
                if path.suffix not in (".svg", ".md") and path not in APART:
                    yield path


def known_words():
    """Each word of the sources and of files' names, with the files that have it."""
    found = {}
    for path in sources():
        name = str(path.relative_to(TOP))
        try:
            text = name if path.suffix == ".edit" else f"{name}\n{read(path)}"
        except UnicodeDecodeError:
            text = name
        for word in set(WORD.findall(text)):
            found.setdefault(word, set()).add(name)
    return found


def unknown_names():
    """Each word in backticks that is nowhere, and each pair with `::` that is in no one file."""
    known = known_words()
    for name, text in documents():
        for span in re.findall(r"`([^`]+)`", re.sub(r"(?ms)^```.*?^```", "", text)):
            for word in WORD.findall(span):
                if word not in known:
                    yield f"name {word}", 1, f"{name}: `{word}` stands in no source and in no file's name"
            for first, second in re.findall(r"(?=\b(\w+)::(\w+))", span):
                if not known.get(first, set()) & known.get(second, set()) and {first, second} <= set(known):
                    yield f"name {first}::{second}", 1, f"{name}: no file has both sides of `{first}::{second}`"


def lies_there(name, crates, part, suffix):
    """Whether a part of one of these crates, or of the crate before the slash, has the file."""
    crate, _, below = name.partition("/")
    paths = [f"{it}/{part}/{name}" for it in crates] + [f"{crate}/{part}/{below}"]
    return any((TOP / f"crates/{it}.{suffix}").is_file() for it in paths)


def files_of(cell):
    """The files that a cell names: those before a colon, behind which stand names in them. "refused" has laws alone."""
    for piece in cell.split(";"):
        if not piece.strip().startswith("refused"):
            yield from re.findall(r"`([\w/]+)`", piece.partition(":")[0])


def lost_files():
    """Each file that the rules of docs/MAP.md name, or docs/DEFINITIONS.md behind a crate, and that is not there."""
    sections = [it.partition(RULES) for it in read(TOP / "docs/MAP.md").split("\n### ")]
    if not any(rows for _, rows, _ in sections):
        yield "", 1, f"docs/MAP.md: there is no table `{RULES}`"
    for head, _, rest in sections:
        for row in rest.partition("\n\n")[0].splitlines()[2:]:
            cells = [it.strip() for it in re.split(r"(?<!\\)\|", row)[1:-1]]
            crates = re.findall(r"`(\w+)`", cells[2] + head)
            for cell, part, suffix in zip(cells[3:], ("specs", "src", "proofs"), ("antt", "rt", "antt")):
                for name in files_of(cell):
                    if not lies_there(name, crates, part, suffix):
                        yield f"file {name}", 1, f"docs/MAP.md: {cells[0]}: there is no `{name}`"
    for name in re.findall(r"`(?!crates/)(\w+/[\w/]+)\.antt`", read(TOP / "docs/DEFINITIONS.md")):
        if not lies_there(name, [], "specs", "antt"):
            yield f"file {name}", 1, f"docs/DEFINITIONS.md: there is no `{name}.antt`"


def lost_answers():
    """Each place of an answer that is not there."""
    rows = read(TOP / "docs/TESTED.md").partition("| Question | Where |\n")[2].partition("\n\n")[0].splitlines()[1:]
    if not rows:
        yield "", 1, "docs/TESTED.md: there is no table of questions"
    for row in rows:
        for place in row.rpartition(" | ")[2].split(";"):
            document = re.search(r"[\w/]+\.md", place)
            text = read(TOP / document[0]) if document else ""
            for part in re.findall(r'"([^"]+)"', place):
                if part not in text:
                    yield "", 1, f"docs/TESTED.md: {document[0] if document else place.strip()} has no `{part}`"


def parts_of(text, at):
    """The parameters of a signature, whose generic ones or parentheses begin there."""
    depth, parts, inside = 0, [""], text[at] == "("
    for place in range(at, len(text)):
        sign = text[place]
        if sign in "([{<":
            depth += 1
        elif sign in ")]}" or sign == ">" and text[place - 1] != "-":
            depth -= 1
        if not depth and inside:
            break
        if not depth:
            inside = True
            parts = [""]
        elif sign == "," and depth == 1:
            parts.append("")
        else:
            parts[-1] += sign
    return [it for it in parts if it.strip(" \n\t(")]


def long_signatures():
    for path, crate, text in code():
        for found in FUNCTION.finditer(text):
            count = len(parts_of(text, found.end()))
            if count > PARAMETERS:
                yield f"parameters {crate}::{found[1]}", count, f"{path.relative_to(TOP)}: `{found[1]}` has {count} parameters"


def shared_names():
    found = {}
    for path, _, text in code():
        for name in TYPE.findall(text):
            found.setdefault(name, []).append(str(path.relative_to(TOP)))
    for name, paths in found.items():
        if len(paths) > TYPES:
            yield f"type {name}", len(paths), f"`{name}` is the name of {len(paths)} types, as in {paths[0]} and {paths[-1]}"


def empty_comments():
    for path in sorted((TOP / "crates").glob("*/src/**/*.rt")):
        comments = ["\n".join(it.split("//", 1)[1].strip("/! ") for it in found.splitlines()) for found in SAME.findall(read(path)) if found]
        count = sum(bool(re.fullmatch(r"(The|So is the|It is the) same( once more)?\.", it)) for it in comments)
        if count:
            yield f"same {path.relative_to(TOP)}", count, f"{path.relative_to(TOP)}: {count} comments say \"The same.\" alone"


def like_places():
    """The pairs of files of two shipped crates that have like places."""
    found = {}
    for path in sorted((TOP / "crates").glob("*/src/**/*.rt")):
        crate = path.relative_to(TOP / "crates").parts[0]
        if crate.startswith(("test_", "tool_", "example_")):
            continue
        lines = [" ".join(it.partition("//")[0].split()) for it in read(path).splitlines() if not EMPTY.match(it)]
        for at in range(len(lines) - SHARED + 1):
            found.setdefault(tuple(lines[at : at + SHARED]), []).append((crate, str(path.relative_to(TOP))))
    pairs = set()
    for places in found.values():
        if len(places) <= PLACES:
            pairs |= {tuple(sorted((one[1], other[1]))) for one, other in itertools.combinations(places, 2) if one[0] != other[0]}
    return sorted(pairs)


def twins():
    """How many there are, where tests/house.txt has a number or they are too many, and which is the first."""
    pairs = like_places()
    if pairs and (len(pairs) > TWINS or passed_over(["pairs"])):
        yield "pairs", len(pairs), f"{len(pairs)} pairs of files of two shipped crates share {SHARED} lines, as {' and '.join(pairs[0])}"


def old_cost():
    """Whether docs/COST.md tells its own rows otherwise than tools/good_minutes does."""
    if "Made by `tools/good_minutes`" in read(TOP / "docs/COST.md"):
        words = [sys.executable, str(TOP / "tools/good_minutes"), "--again", str(TOP / "docs/COST.md")]
        ran = subprocess.run(words, capture_output=True, text=True, check=False)
        if ran.returncode or ran.stdout != read(TOP / "docs/COST.md"):
            yield "", 1, "docs/COST.md is not what its rows say: `tools/good_minutes --again docs/COST.md` tells them"


HELD = {
    "lines": (long_lines, ("prose", "rows", "code")),
    "names": (unknown_names, ("name",)),
    "files": (lost_files, ("file",)),
    "questions": (lost_answers, ()),
    "parameters": (long_signatures, ("parameters",)),
    "types": (shared_names, ("type",)),
    "comments": (empty_comments, ("same",)),
    "twins": (twins, ("pairs",)),
    "cost": (old_cost, ()),
}


def passed_over(kinds):
    """The lines of tests/house.txt of these kinds: what is passed over, and how much of it."""
    found = {}
    for line in read(PASSED_OVER).splitlines():
        what, _, count = line.rpartition(" ")
        if line.partition(" ")[0] in kinds:
            found[what] = int(count)
    return found


def lowered(over, sums):
    """The file with each of these numbers as low as it is now."""
    told = []
    for line in read(PASSED_OVER).splitlines():
        what = line.rpartition(" ")[0]
        if what not in over:
            told.append(line)
        elif sums.get(what):
            told.append(f"{what} {min(over[what], sums[what])}")
    return "\n".join(told) + "\n"


def main():
    words = [it for it in sys.argv[1:] if it != "--lower"]
    if not set(words) <= set(HELD):
        print(__doc__, file=sys.stderr)
        return 2
    rules = [HELD[it] for it in words or HELD]
    sums, said = {}, {}
    for rule, _ in rules:
        for what, count, sentence in rule():
            # A name is looked at once, and of functions of one name that of the most parameters.
            if count > sums.get(what, 0):
                sums[what], said[what] = count, sentence
    over = passed_over([kind for _, kinds in rules for kind in kinds])
    faults = [said[what] for what, count in sums.items() if count > over.get(what, 0)]
    if "--lower" in sys.argv[1:]:
        PASSED_OVER.write_text(lowered(over, sums), encoding="utf-8")
    else:
        faults += [f"tests/house.txt: `{what} {count}` is more than there is: `python3 tests/house.py --lower`" for what, count in over.items() if sums.get(what, 0) < count]
    print(*faults, sep="\n", end="\n" if faults else "")
    return 1 if faults else 0


if __name__ == "__main__":
    sys.exit(main())
