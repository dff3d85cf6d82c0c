"""Compares which texts of traces and scripts are read, and which line is refused, with another client.

    python3 tests/compare_texts.py FOLDER PROGRAM TRACE.. [-- COUNT]

FOLDER has the other client, as a Python package `plain` with a module `script`. PROGRAM is the built
`tool_texts`, and each TRACE a file with the text of a trace. Each front of each trace is compared, and
COUNT texts (20000 if it is left out) with one octet changed, left out or put in; the events of each
trace are compared as a script.
"""

import os
import random
import subprocess
import sys

OCTETS = b"0123456789abcdefABF -\n\r#>+x\x00\x80\xc3\xff"


def line_of(text, script):
    """The line that asks whether a text is read."""
    octets = "".join(chr(o) if 32 <= o < 127 and o != 92 else "\\x%02x" % o for o in text)
    return "%s %s\n" % ("script" if script else "trace", octets)


def answers(program, cases):
    lines = "".join(line_of(text, script) for text, script in cases)
    return subprocess.run([program], input=lines, stdout=subprocess.PIPE, check=True, text=True).stdout.splitlines()


def expected(module, text, script):
    try:
        if script:
            module.read_script(text)
        else:
            module.read_trace(text)
        return "ok"
    except module.ScriptFault as fault:
        return "line %d" % fault.line


def changed(rng, text):
    at = rng.randrange(len(text) + 1)
    octet = bytes([rng.choice(OCTETS)])
    kind = rng.randrange(3)
    if kind == 0:
        return text[:at] + octet + text[at:]
    return text[:at] + (octet if kind == 1 else b"") + text[at + 1:]


def script_of(text):
    """The events of a trace as a script, with a server before them."""
    lines = [line for line in text.split(b"\n") if line.startswith(b"at ")]
    return b"# events\nconf nameserver 192.0.2.1\nconf options use-vc\nwords 1 2\n" + b"\n".join(lines) + b"\n"


def main():
    words = sys.argv[1:]
    count = 20000
    if "--" in words:
        count = int(words[words.index("--") + 1])
        words = words[:words.index("--")]
    if len(words) < 3:
        sys.exit(__doc__)
    folder, program, names = words[0], words[1], words[2:]
    if not os.path.isdir(os.path.join(folder, "plain")):
        print("skipped: there is no reference client")
        return
    sys.path.insert(0, folder)
    from plain import script as module
    texts = []
    for name in names:
        with open(name, "rb") as file:
            texts.append(file.read())
    rng = random.Random(1)
    cases = []
    for text in texts:
        cases += [(text[:end], False) for end in range(len(text) + 1)]
        cases += [(script_of(text), True)]
    for number in range(count):
        text = rng.choice(texts)
        if number % 2:
            cases.append((changed(rng, text), False))
        else:
            cases.append((changed(rng, script_of(text)), True))
    wrong = 0
    found = answers(program, cases)
    if len(found) != len(cases):
        sys.exit("%d of %d texts were answered" % (len(found), len(cases)))
    for (text, script), got in zip(cases, found):
        want = expected(module, text, script)
        if want != got:
            wrong += 1
            if wrong < 10:
                print("expected %s, got %s: script %s, %r" % (want, got, script, text))
    print("%d texts, %d differ" % (len(cases), wrong))
    sys.exit(1 if wrong else 0)


main()
