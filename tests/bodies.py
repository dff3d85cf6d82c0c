"""Says which wrong bodies do not fit the code or their list, tests/wrong_bodies/LIST.md. It proves nothing.

usage: python3 tests/bodies.py [--write]

An edit begins with two lines, `# what it does` and `# refused: where`, which no reader of edits but this one takes. Each `old:` text of it
stands once in its file, as the earlier pairs left it. The list is made of these lines; --write writes it anew. An edit in a crate's
`must-fail`, which the gate tries, has its two lines in the table of docs/WRONG_BODIES.md in place of them; a crate has five such at most.
"""

import pathlib
import re
import sys

TOP = pathlib.Path(__file__).resolve().parent.parent
LIST = TOP / "tests/wrong_bodies/LIST.md"
MOST = 5
ROW = re.compile(r"^\| `(\w+)` \| `(\w+)` \| (.*) \| (.*) \|$", re.M)
HEAD = """# Wrong bodies, each with what refuses it

Made by `python3 tests/bodies.py --write` from the heads of the edits. The gate tries those in bold. docs/WRONG_BODIES.md says how they are tried.
"""


def faults_of(edit, crate):
    """What keeps an edit from being applied."""
    path, texts, old = None, {}, None
    for line in edit.read_text(encoding="utf-8").splitlines():
        word, _, rest = line.partition(": ")
        if word == "file":
            path = TOP / "crates" / crate / rest
            if path not in texts and not path.is_file():
                return [f"no file {rest}"]
            texts.setdefault(path, path.read_text(encoding="utf-8"))
        elif word == "old":
            old = rest
        elif word == "new":
            if texts[path].count(old) != 1:
                return [f"stands {texts[path].count(old)} times: {old.strip()}"]
            texts[path] = texts[path].replace(old, rest)
    return []


def head_of(edit):
    """What an edit does and where it is refused, or nothing where its first two lines do not say so."""
    lines = edit.read_text(encoding="utf-8").splitlines()
    found = re.fullmatch(r"# (?!refused: )(\S.*)\n# refused: (\S.*)", "\n".join(lines[:2]))
    return found.groups() if found and not any(line.startswith("#") for line in lines[2:]) else None


def listed(heads):
    """The list of these, by crate and name; each has what it does, where it is refused, and whether the gate tries it."""
    told, last = [HEAD.rstrip()], None
    for (crate, name), (what, where, in_gate) in sorted(heads.items()):
        if crate != last:
            told += ["", f"### {crate}", "", "| Name | The wrong body | Refused by |", "|---|---|---|"]
        last = crate
        told.append(f"| **`{name}`** | {what} | {where} |" if in_gate else f"| `{name}` | {what} | {where} |")
    return "\n".join(told) + "\n"


def main():
    heads, faults = {}, []
    for edit in sorted(TOP.glob("tests/wrong_bodies/*/*.edit")):
        crate, head = edit.parts[-2], head_of(edit)
        faults += [f"{crate} {edit.stem}: {fault}" for fault in faults_of(edit, crate)]
        if head:
            heads[crate, edit.stem] = (*head, False)
        else:
            faults.append(f"{crate} {edit.stem}: its first two lines do not say what it does and where it is refused")
    rows = {(crate, name): (what, where) for crate, name, what, where in ROW.findall((TOP / "docs/WRONG_BODIES.md").read_text(encoding="utf-8"))}
    for edit in sorted(TOP.glob("crates/*/must-fail/*.edit")):
        crate = edit.parts[-3]
        faults += [f"{crate} {edit.stem}: {fault}" for fault in faults_of(edit, crate)]
        if (crate, edit.stem) in heads:
            faults.append(f"{crate} {edit.stem}: beside the gate and in it")
        if (crate, edit.stem) in rows:
            heads[crate, edit.stem] = (*rows.pop((crate, edit.stem)), True)
        else:
            faults.append(f"{crate} {edit.stem}: in the gate, and not in the table of docs/WRONG_BODIES.md")
    faults += [f"{crate} {name}: a row of docs/WRONG_BODIES.md, and not in the gate" for crate, name in sorted(rows)]
    gate = [crate for (crate, _), (_, _, in_gate) in heads.items() if in_gate]
    faults += [f"{crate}: more than {MOST} in the gate" for crate in sorted(set(gate)) if gate.count(crate) > MOST]
    if "--write" in sys.argv[1:]:
        LIST.write_text(listed(heads), encoding="utf-8")
    elif not LIST.is_file() or LIST.read_text(encoding="utf-8") != listed(heads):
        faults.append(f"{LIST.relative_to(TOP)} is not what the edits say: `python3 tests/bodies.py --write` makes it")
    print(*faults, sep="\n", end="\n" if faults else "")
    return 1 if faults else 0


if __name__ == "__main__":
    sys.exit(main())
