#!/usr/bin/env bash
# Quick checks that prove nothing. Where `rt ci` or `./run` left the built program, each shipped example must give its trace, and where there
# is an `rt` a program that only measures is built before any proof and held to its stored run; else that is skipped.
set -u
cd "$(dirname "$0")/.." || exit 2
passed=0
failed=0
skipped=0
check() { # NAME COMMAND..     (status 77: skipped)
    local name=$1 status
    shift
    "$@"
    status=$?
    case $status in
        0) passed=$((passed + 1)) ;;
        77) skipped=$((skipped + 1)) && echo "skipped $name" ;;
        *) failed=$((failed + 1)) && echo "FAILED $name" ;;
    esac
}
built() { # whether the program is there, and no older than what it is made of
    [ -x crates/dnsq/out/dnsq ] &&
        [ -z "$(find crates crates.txt \( -name '*.rt' -o -name crates.txt \) -newer crates/dnsq/out/dnsq | head -1)" ]
}
examples() {
    local bad=0 script
    built || return 77
    for script in examples/*.script; do
        crates/dnsq/out/dnsq replay < "$script" | cmp -s - "${script%script}trace" || { echo "another trace: $script"; bad=1; }
    done
    script=examples/lanes/stale.script # one lane, so that none comes before another
    crates/dnsq/out/dnsq many < "$script" | cmp -s - "${script%script}trace" || { echo "another text: $script"; bad=1; }
    return $bad
}
stored() { cmp -s examples/first.script crates/dnsq/stdin && cmp -s examples/first.trace crates/dnsq/stdout; }
handles() { [ "$(cat HANDLES)" = "Handles allowed: Threads, Wait, Net." ]; }
documents() {
    local missing=0 path
    for path in $(grep -ohE '(crates|tests|examples|docs|bench)/[A-Za-z0-9_./-]+' README.md docs/*.md | sed 's/[.]$//' | sort -u); do
        [ -e "$path" ] || { echo "no such file: $path"; missing=1; }
    done
    return $missing
}
commands() { # what a document gives as a command, and each script, can be read
    local bad=0 line script
    while IFS= read -r line; do
        bash -nc "$line" || { echo "no command: $line"; bad=1; }
    done < <(sed -nE -e '/^```sh$/,/^```$/{/^```/!p;d}' -e 's/^    ((\.\/run|rt|bash|python3) .*)/\1/p' README.md docs/*.md)
    for script in .ci/run tools/install tests/*.sh; do
        bash -n "$script" || bad=1
    done
    python3 - $(grep -d skip -lI '^#!.*python3' tools/* bench/* run) tests/*.py bench/*.py tools/*.py <<'PYTHON' || bad=1
import ast, sys
for path in sys.argv[1:]:
    with open(path, encoding="utf-8") as it:
        ast.parse(it.read(), path)
PYTHON
    return $bad
}
measures() {
    local room bad=0
    command -v rt >/dev/null || return 77
    room=$(mktemp -d) || return 1
    bench/build bench_hits "$room/bench_hits" >/dev/null &&
        xargs "$room/bench_hits" < bench/bench_hits/args | cmp - bench/bench_hits/stdout || bad=1
    rm -rf "$room"
    return $bad
}
pages() { # a text that a man page is made of gives one without a warning
    local bad=0 text said
    command -v groff >/dev/null || return 77
    for text in tools/pages/*; do
        said=$(set -o pipefail; tools/man_page "${text##*/}" "$text" | groff -man -ww -Tutf8 -z 2>&1) && [ -z "$said" ] || { echo "$text: $said"; bad=1; }
    done
    return $bad
}
units() { # how exposed a service is, of 100
    local bad=0 unit
    command -v systemd-analyze >/dev/null || return 77
    for unit in tools/units/dns_forward.service tools/units/dns_forward@.service; do
        systemd-analyze security --offline=yes --threshold=30 --no-pager "$unit" >/dev/null 2>&1 || { echo "exposed: $unit"; bad=1; }
    done
    return $bad
}
check "the examples' traces" examples
check "the stored run is the example" stored
check "the handles" handles
check "paths in documents" documents
check "commands in documents, and scripts" commands
check "the length of clauses" python3 tests/long_clauses.py
check "the list of wrong bodies" python3 tests/bodies.py
check "names and statuses in documents" python3 tests/documented.py
check "the pictures of traces" python3 tests/pictures.py
check "the trusted lines" python3 tests/trusted_lines.py
check "the crates that are cited" python3 tests/cited_crates.py
check "the list of crates" tools/crates --check
check "the tables of what was measured" tools/measured
check "the rows that were tests" python3 tests/rows_of_tests.py
check "the rules of the house" python3 tests/house.py
check "lies that are planted" python3 tests/planted_lies.py
check "man pages" pages
check "units for systemd" units
check "a program that measures" measures
check "what README's and OPERATING's commands print" python3 tests/commands.py --built
echo "$passed passed, $failed failed, $skipped skipped"
[ "$failed" -eq 0 ]
