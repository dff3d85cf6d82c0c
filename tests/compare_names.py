"""Compares how texts of names and addresses are read and printed with another client.

    python3 tests/compare_names.py REFERENCE_FOLDER PROGRAM [COUNT [SEED]]

REFERENCE_FOLDER has the package `plain` with the module `wire`; without it nothing is compared, and that is
said. PROGRAM is the built `tool_texts`, and COUNT the number of texts, 20000 if it is left out.
"""

import random
import subprocess
import sys

from reference import wire_of

ALPHABET = "abcXYZ019.\\ -_*~!\t\x7f\u00e9"
ADDRESS = "0123456789abcdefABF:.%g"


def name_text(rng):
    """A text of a name, legal or nearly so."""
    labels = []
    for _ in range(rng.choice((0, 1, 1, 2, 2, 3, 4, 130))):
        size = rng.choice((0, 1, 1, 2, 3, 5, 62, 63, 64))
        parts = []
        for _ in range(size):
            kind = rng.random()
            if kind < 0.85:
                parts.append(rng.choice("abcXYZ019-_*"))
            elif kind < 0.95:
                parts.append("\\%03d" % rng.choice((0, 32, 46, 92, 127, 200, 255, 256)))
            else:
                parts.append("\\" + rng.choice(".\\a~0"))
        labels.append("".join(parts))
    return mangled(rng, ".".join(labels) + rng.choice(("", "", ".", "..")), ALPHABET)


def address_text(rng):
    """A text of an address, legal or nearly so."""
    v4 = ".".join(str(rng.choice((0, 1, 9, 99, 255, 256))) for _ in range(rng.choice((3, 4, 4, 4, 5))))
    if rng.random() < 0.3:
        return mangled(rng, v4, ADDRESS)
    groups = ["%x" % rng.choice((0, 0, 0, 1, 0xAB, 0xFFFF, 0x12345)) for _ in range(rng.randrange(10))]
    text = ":".join(groups)
    if rng.random() < 0.2:
        text = "0:0:0:0:0:ffff:%s" % v4
    elif rng.random() < 0.2:
        text = text + ":" + v4
    if rng.random() < 0.5:
        at = rng.randrange(len(text) + 1)
        text = text[:at] + "::" + text[at:]
    if rng.random() < 0.3:
        text = text.replace(":::", "::")
    return mangled(rng, text, ADDRESS)


def mangled(rng, text, letters):
    """The text, one time in three with a letter put in, changed or left out."""
    if rng.random() > 0.33 or not text:
        return text
    at = rng.randrange(len(text))
    letter = rng.choice(letters)
    return text[:at] + rng.choice((letter, letter + text[at], "")) + text[at + 1:]


def expected(wire, kind, text):
    """What the other client makes of a line."""
    try:
        if kind == "address":
            return wire.ip_text(wire.ip_from_text(text))
        if kind == "name":
            return wire.name_text(wire.name_from_text(text))
        labels = wire.relative_from_text(text)
        return wire.name_text(labels) if labels else ""
    except wire.NameFault as fault:
        return fault.kind.lower()
    except wire.ParseError:
        return "parse"


def main():
    if not 3 <= len(sys.argv) <= 5:
        sys.exit(__doc__)
    reference, program = sys.argv[1:3]
    wire = wire_of(reference)
    count = int(sys.argv[3]) if len(sys.argv) > 3 else 20000
    rng = random.Random(int(sys.argv[4]) if len(sys.argv) > 4 else 1035)
    rows = []
    for _ in range(count):
        kind = rng.choice(("name", "relative", "address"))
        rows.append((kind, address_text(rng) if kind == "address" else name_text(rng)))
    lines = "".join("%s %s\n" % row for row in rows)
    done = subprocess.run([program], input=lines.encode(), stdout=subprocess.PIPE, check=True)
    answers = done.stdout.decode().split("\n")[:-1]
    assert len(answers) == len(rows), (len(answers), len(rows))
    kinds = {}
    for (kind, text), answer in zip(rows, answers):
        wanted = expected(wire, kind, text)
        if answer != wanted:
            sys.exit("%s %r: %r, and the other client has %r" % (kind, text, answer, wanted))
        seen = wanted if wanted in ("parse", "long") else "read"
        kinds[kind, seen] = kinds.get((kind, seen), 0) + 1
    for key in sorted(kinds):
        print("%s %s: %d" % (*key, kinds[key]))


if __name__ == "__main__":
    main()
