"""Says where crates.txt and the crates' own files do not agree on what a crate uses. It proves nothing.

usage: python3 tests/cited_crates.py [--write]

A crate's line names the libraries that its own files cite, and no other: what those stand on in turn is theirs to name. A
library is cited by a path in code (`NAME::`, `use NAME`) or in a definition or proof (`Rattle.NAME.`). The lines stand
lowest first. A program of bench/ has its line in its file `crates`, and files of code and proofs that end in `.txt` besides. Status 1
where a name is missing, is cited by nothing, or stands too early; with --write the lines are written anew.
"""

import pathlib
import re
import sys

TOP = pathlib.Path(__file__).resolve().parent.parent
ALWAYS = {"std", "core", "crate", "self", "super"}
LISTED = re.compile(r"^(\w+)((?: [^:#]*)?):([^#]*)$")


def kind(path):
    """How a file's name ends, but for the `.txt` of one in bench/."""
    return pathlib.Path(path.name.removesuffix(".txt")).suffix


def bare(path):
    """The text of a file without its comments and the texts in it."""
    text = path.read_text(encoding="utf-8")
    if kind(path) == ".antt":
        return re.sub(r"--.*", "", text)
    return re.sub(r'//.*|"(?:[^"\\\n]|\\.)*"', "", text)


def heads_in(tree):
    """The first names of what the braces of a `use {..}` hold."""
    depth, parts = 0, [""]
    for sign in tree:
        depth += {"{": 1, "}": -1}.get(sign, 0)
        if sign == "," and not depth:
            parts.append("")
        else:
            parts[-1] += sign
    return [re.match(r"\s*(\w*)", part).group(1) for part in parts]


def local_names(text):
    """Names that code brings into scope itself: a path that begins with one is no library's."""
    return set(re.findall(r"\bmod (\w+)", text)) | set(re.findall(r"\bas (\w+)", text))


def names_in_code(text):
    """Names that may be a library's."""
    names = re.findall(r"(?<![\w:.])(\w+)\s*::", text) + re.findall(r"\buse (\w+)\s*(?:;| as)", text)
    for tree in re.findall(r"\buse \{([^;]*)\};", text):
        names += heads_in(tree)
    return set(names) - local_names(text)


def cited(folder, libraries):
    """The libraries that a crate's own files cite."""
    names = set()
    for path in sorted(folder.glob("*/**/*")):
        if path.relative_to(folder).parts[0] not in ("src", "specs", "proofs") or kind(path) not in (".rt", ".antt"):
            continue
        text = bare(path)
        names.update(re.findall(r"\bRattle\.(\w+)", text))
        if kind(path) == ".rt":
            names.update(names_in_code(text))
    return {name for name in names & libraries if name != folder.name} - ALWAYS


def read_lines(path):
    """The lines of a file as crates.txt: each a remark, or a crate with its options and libraries."""
    for line in path.read_text(encoding="utf-8").splitlines():
        found = LISTED.match(line)
        yield line, found and (found.group(1), found.group(2), found.group(3).split())


def in_order(crate, names, places):
    """A line for these libraries: the repository's, highest first, and then the kit's."""
    own = sorted(names & set(places), key=lambda name: -places[name])
    return " ".join([crate + ":"] + own + sorted(names - set(places)))


def held(lines, folder, places, libraries):
    """What is wrong with lines, and the lines as they should be; their crates lie in the folder."""
    faults, written = [], []
    for line, row in lines:
        if not row:
            written.append(line)
            continue
        crate, options, names = row
        found = cited(folder / crate, libraries)
        written.append(in_order(crate + options, found, places))
        faults += [f"{crate}: cites {name}, which its line does not name" for name in sorted(found - set(names))]
        faults += [f"{crate}: its line names {name}, which is no library or which nothing in it cites" for name in sorted(set(names) - found)]
        last = places.get(crate, len(places))
        faults += [f"{crate}: stands before {name}" for name in sorted(found & set(places)) if places[name] > last]
    return faults, written


def main():
    files = [TOP / "crates.txt", *sorted(TOP.glob("bench/*/crates"))]
    lines = {path: list(read_lines(path)) for path in files}
    rows = {row[0]: row for _, row in lines[files[0]] if row}
    places = {name: place for place, name in enumerate(rows)}
    libraries = set(rows) | {name for row in rows.values() for name in row[2]}
    faults = []
    for path in files:
        found, written = held(lines[path], TOP / "crates" if path == files[0] else path.parent.parent, places, libraries)
        faults += found
        if "--write" in sys.argv[1:]:
            path.write_text("\n".join(written) + "\n", encoding="utf-8")
    if "--write" in sys.argv[1:]:
        return 0
    there = {path.name for path in (TOP / "crates").iterdir() if (path / "src").is_dir()}
    faults += [f"{name}: a folder, and no line" for name in sorted(there - set(rows))]
    faults += [f"{name}: a line, and no folder" for name in sorted(set(rows) - there)]
    print(*faults, sep="\n", end="\n" if faults else "")
    return 1 if faults else 0


if __name__ == "__main__":
    sys.exit(main())
