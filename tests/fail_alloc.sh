#!/usr/bin/env bash
# Lets one allocation fail, once for each number given, and says what came out.
#
#     bash tests/fail_alloc.sh example|flood|fallback|use_vc|back_off|dgram|shared N..      N is a number or a range, as 1-50
#
# All but `dgram` and `shared` are runs of `dnsq replay`: on the script crates/dnsq/stdin; on one that asks 101 times where 100 may be at
# work and then opens one place in vain; and on examples/NAME.script, where a truncated datagram goes on by a stream, where
# two requests share a stream, and where streams fail and others are opened. Status 6 and no output are wanted, and status 0
# and the trace of that example past the last allocation. `dgram` is the test of test_sockets that runs three requests over
# two slots: it passes where the want of memory was told and each later call answers `Failed`. `shared` is the test of test_threads
# in which two callers share a client: it passes where one of them was told of the want, and each later call of either answers
# `Failed` where the call was lost, and what it should where it was not. That other tests of these crates then fail is of no
# account.
# Each number builds anew, in half a minute or more. JOBS of them (2) run at a time.
set -u
cd "$(dirname "$0")/../crates" || exit 2
what=${1-}
work=$(mktemp -d)
trap 'rm -rf "$work"' EXIT
flood() {
    echo "conf nameserver 192.0.2.53"
    for _ in $(seq 101); do
        echo "at 0 ask 000001000001000000000000076578616d706c6503636f6d0000010001 00000100 -"
    done
    echo "at 1 open-failed 3 refused"
}
numbers() { # one a line, from lines that have a number or a range
    while IFS=- read -r first last; do seq "$first" "${last:-$first}"; done
}
replay() { # NUMBER
    local status
    rt try --fail-alloc "$1" -- replay < "$work/script" > "$work/out.$1" 2> "$work/said.$1"
    status=$?
    grep -q '^run=ended ' "$work/said.$1" || status="no end"
    [ "$status" = 6 ] && [ -s "$work/out.$1" ] && status="6, but something was written"
    [ "$status" = 0 ] && [ -e "$work/trace" ] && ! cmp -s "$work/trace" "$work/out.$1" && status="0, but another trace was written"
    echo "$status"
}
tested() { # NUMBER TEST
    rt try --test --fail-alloc "$1" > "$work/said.$1" 2>&1
    sed -n "s/^test .*::$2 \.\.\. //p" "$work/said.$1"
}
dgram() { tested "$1" a_connection_that_found_no_memory_answers_failed; }
shared() { tested "$1" a_call_behind_a_loss_fails; }
one() { # NUMBER
    local came
    came=$("$run" "$1")
    echo "$1: ${came:-no end}" | tee -a "$work/all"
}
case $what in
    example) run=replay && cp dnsq/stdin "$work/script" && cd dnsq ;;
    flood) run=replay && flood > "$work/script" && cd dnsq ;;
    fallback | use_vc | back_off)
        run=replay && cp "../examples/$what.script" "$work/script" && cp "../examples/$what.trace" "$work/trace" && cd dnsq ;;
    dgram) run=dgram && cd test_sockets ;;
    shared) run=shared && cd test_threads ;;
    *) false ;;
esac && [ $# -gt 1 ] || { echo "usage: bash tests/fail_alloc.sh example|flood|fallback|use_vc|back_off|dgram|shared N.." >&2; exit 2; }
shift
export run work
export -f one replay tested dgram shared
printf '%s\n' "$@" | numbers > "$work/numbers"
xargs -P "${JOBS:-2}" -I N bash -c 'one N' < "$work/numbers"
tried=$(wc -l < "$work/numbers")
clean=$(grep -cE ': (6|ok)$' "$work/all")
past=$(grep -c ': 0$' "$work/all")
last=$(sed -n 's/: 6$//p' "$work/all" | sort -n | tail -1)
first=$(sed -n 's/: 0$//p' "$work/all" | sort -n | head -1)
echo "$tried numbers: $clean with status 6 or a passed test${last:+ (6 up to $last)}," \
    "$past with status 0${first:+ (from $first on)}"
[ "$tried" -eq $((clean + past)) ] && [ "${last:-0}" -lt "${first:-$((${last:-0} + 1))}" ]
