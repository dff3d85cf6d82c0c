#!/usr/bin/env bash
# Tries the wrong bodies that the gate leaves out, on a copy: the prover must refuse each.
#
#     bash tests/wrong_bodies.sh [CRATE..]      all crates, where none is named
#
# They lie in tests/wrong_bodies/CRATE/NAME.edit, in the form of those in crates/CRATE/must-fail but for their heads, which rt is
# not given. Each has a line, and the last line counts them. Status 1 where one is not refused, cannot be applied, or could not be
# tried. An edit takes half a minute or more, and the first one of a crate as long as the crate itself, where no check of it was kept.
set -u
cd "$(dirname "$0")/.." || exit 2
bodies=$PWD/tests/wrong_bodies
[ $# -gt 0 ] || set -- $(cd "$bodies" && ls -d */ | tr -d /)
for crate in "$@"; do
    ls "$bodies/$crate"/*.edit >/dev/null 2>&1 || { echo "wrong_bodies: no edits for a crate $crate" >&2; exit 2; }
done
work=$(mktemp -d)
trap 'rm -rf "$work"' EXIT
mkdir "$work/crates"
cp crates.txt HANDLES "$work/"
for crate in crates/*/; do
    mkdir "$work/$crate"
    for part in src specs proofs; do
        [ ! -d "$crate$part" ] || cp -r "$crate$part" "$work/$crate"
    done
done
wanted=0
for crate in "$@"; do
    mkdir "$work/crates/$crate/must-fail"
    for edit in "$bodies/$crate"/*.edit; do
        sed '/^# /d' "$edit" > "$work/crates/$crate/must-fail/${edit##*/}"
        wanted=$((wanted + 1))
    done
done
refused=0
for crate in "$@"; do
    (cd "$work" && rt must-fail "$crate" 2>&1) > "$work/said"
    grep '^rt: must-fail \|^must-fail ' "$work/said" || cat "$work/said"
    refused=$((refused + $(grep -c ': refused, as it must be' "$work/said")))
done
echo "$refused of $wanted refused"
[ "$refused" -eq "$wanted" ]
