"""Says where docs/SCRIPTS.md and docs/TOOLS.md name what the code does not have, or leave out what it has, and which figure of README.md
stands in no measurement. It proves nothing.

usage: python3 tests/documented.py

The names of events, outs, faults, errors and settings stand in definitions as `codes "NAME"`, the exit statuses in
crates/command_parts/src/statuses.rt; each must stand in the tables of the documents, and no other. A figure is a number with its unit, or
one of thousands, in the table of README.md's "How fast"; it must stand in docs/MEASURED.md in the same digits. A line of README.md's
example of the library must stand in that example.
"""

import pathlib
import re
import sys

TOP = pathlib.Path(__file__).resolve().parent.parent
SPECS = TOP / "crates/dns_script/specs"


def names(path, table):
    """The names of a table of definitions, and of the table that it goes on with."""
    text = path.read_text(encoding="utf-8")
    body = re.search(rf"^{table} =\n?(.*?)∷ (\[\]|\w+_names)", text, re.M | re.S)
    if not body:
        return set()
    rest = set() if body.group(2) == "[]" else names(path, body.group(2))
    return set(re.findall(r'codes "([^"]+)"', body.group(1))) | rest


def rows(text, heading):
    """The first words of the rows of the table under a heading."""
    part = re.split(r"\n##+ ", text.split(heading, 1)[1], maxsplit=1)[0]
    part = part.split("|---", 1)[1].split("\n\n", 1)[0]
    return {m.split(" ")[0] for m in re.findall(r"^\| `(?:> )?([^`]+)`", part, re.M)}


def compared(what, documented, real):
    faults = [f"docs/SCRIPTS.md: {what} {it} is in no definition" for it in sorted(documented - real)]
    return faults + [f"docs/SCRIPTS.md: {what} {it} is not documented" for it in sorted(real - documented)]


def figures(text):
    """The numbers of a text that have a unit, and those of thousands."""
    return set(re.findall(r"(?<![\d.,])(\d[\d.,]*\d|\d)(?= (?:ns|µs|ms|s|MB|KiB)\b)", text)) | set(re.findall(r"(?<![\d.,])\d{1,3}(?:,\d{3})+(?![\d,])", text))


def unmeasured(readme, measured):
    """What is wrong with the figures of a README."""
    table = [line for line in readme.split("## How fast", 1)[1].split("\n## ", 1)[0].splitlines() if line.startswith("|")]
    there = set(re.findall(r"\d[\d.,]*\d|\d", measured))
    return [f"README.md: the figure {it} stands in no row of docs/MEASURED.md" for it in sorted(figures("\n".join(table)) - there)]


def unquoted(readme):
    """The lines of README's example that do not stand in the example."""
    there = (TOP / "crates/example_lookup/src/main.rt").read_text(encoding="utf-8").splitlines()
    told = re.search(r"(?ms)^```rust\n(.*?)^```$", readme)[1].splitlines()
    return [f"README.md: the example has no line `{line.strip()}`" for line in told if line not in there]


def main():
    scripts = (TOP / "docs/SCRIPTS.md").read_text(encoding="utf-8")
    lines = names(SPECS / "Names.antt", "script_names")
    # A line of this one word has no parts, so it is read apart from the others.
    lines |= set(re.findall(r'line ≡ codes "(lane)"', (SPECS / "ScriptReading.antt").read_text(encoding="utf-8")))
    faults = compared("line", rows(scripts, "## A script"), lines)
    faults += compared("event", rows(scripts, "### Events"), names(SPECS / "Names.antt", "event_names"))
    faults += compared("fault", rows(scripts, "| Fault |"), names(SPECS / "Names.antt", "fault_names"))
    faults += compared("setting", rows(scripts, "### Settings"), names(SPECS / "Settings.antt", "setting_names"))
    faults += compared("out", rows(scripts, "## A trace"), names(SPECS / "Names.antt", "out_names"))
    told = scripts.split("The errors are", 1)[1].split(".", 1)[0]
    errors = {it.split(" ")[0] for it in re.findall(r"`([^`]+)`", told)} - {"KIND", "Connect", "Send", "Timeout", "Receive"}
    real = names(SPECS / "Names.antt", "error_names") | {"Dgram", "StreamReadError", "StreamWriteError"}
    faults += compared("error", errors, real)
    told_of_dnsq = (TOP / "docs/TOOLS.md").read_text(encoding="utf-8").split("\n## dnsq\n", 1)[1].split("\n## ", 1)[0]
    told = set(re.findall(r"^\| (\d) \|", told_of_dnsq, re.M))
    code = (TOP / "crates/command_parts/src/statuses.rt").read_text(encoding="utf-8")
    have = set(re.findall(r"Status\((\d)\)", code)) | {"0"}
    faults += [f"docs/TOOLS.md: the status {it} is not in both the document and the code" for it in sorted(told ^ have)]
    commands = set(re.findall(r"^\| `(\w+)[^`]*` \|", told_of_dnsq, re.M))
    usage = (TOP / "crates/dnsq_run/src/usage.rt").read_text(encoding="utf-8")
    faults += [f"docs/TOOLS.md: no command {it}" for it in sorted(commands) if f'"{it}"' not in usage and it not in usage]
    readme = (TOP / "README.md").read_text(encoding="utf-8")
    faults += unmeasured(readme, (TOP / "docs/MEASURED.md").read_text(encoding="utf-8")) + unquoted(readme)
    print(*faults, sep="\n", end="\n" if faults else "")
    return 1 if faults else 0


if __name__ == "__main__":
    sys.exit(main())
