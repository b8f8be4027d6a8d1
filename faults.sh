#!/usr/bin/env bash
# Refuses memory to calls of the library: ./faults.sh --help tells all.
set -euo pipefail

usage() {
    cat <<'TEXT'
usage: ./faults.sh [NAME..]     of these scenarios (all, where none is named) each call is made again and again:
                                with its Nth request for memory refused, and with each from the Nth on, for each N
       ./faults.sh --help       shows this

It starts the program crates/examples/out/examples, which `rt ci` leaves, or which FAULTS names. A line for each
scenario says how many requests its call makes where none is refused, how many runs were refused for want of
memory with everything left as it was, how many did all that they do with ample memory, and how many were
faults, each of which has a line of its own before. The last line is `N passed, M failed`, of scenarios; the
status is 0 where none failed, 1 where one did, and 127 where something is lacking.
TEXT
}

# Something is lacking without which nothing can be run.
lack() {
    echo "faults.sh: $1" >&2
    exit 127
}

top=$(cd "$(dirname "$0")" && pwd)
program=${FAULTS:-$top/crates/examples/out/examples}

case ${1-} in
--help | -h)
    usage
    exit 0
    ;;
-*)
    echo "faults.sh: there is no option $1 (see ./faults.sh --help)" >&2
    exit 64
    ;;
esac

[ -x "$program" ] || lack "there is no program $program: rt ci makes it, or rt run in crates/examples"
command -v gcc >/dev/null || lack "gcc is lacking (Debian: gcc)"
room=$(mktemp -d)
trap 'rm -rf "$room"' EXIT
gcc -O2 -shared -fPIC -o "$room/refuse.so" "$top/tools/refuse_memory.c" ||
    lack "tools/refuse_memory.c is not compiled (Debian: libc6-dev)"

# Makes the call of a scenario once, with one request refused (REFUSE_NTH) or several (REFUSE_FROM), and reads what came of it
# into `line`, and the numbers of requests and of those that were refused.
call() {
    local status=0
    timeout 60 env "$2=$3" LD_PRELOAD="$room/refuse.so" "$program" "$1" >"$room/out" 2>"$room/err" </dev/null || status=$?
    line=$(tail -n 1 "$room/out")
    read -r _ _ requests _ refused < <(grep '^faults: requests ' "$room/err" || echo "- - 0 - 0")
    case $line in
    "$1 done "* | "$1 refused "*) [ "$status" -eq 0 ] || line="$1 FAULT ended with status $status" ;;
    "$1 FAULT "*) ;;
    *) line="$1 FAULT ended with status $status and without a verdict" ;;
    esac
}

# Counts the runs of a scenario in which memory is refused by a rule, until none is refused any more.
sweep() {
    local at
    for ((at = 1; at <= 100000; at++)); do
        call "$1" "$2" "$at"
        case $line in
        "$1 FAULT "*)
            faults=$((faults + 1))
            echo "$line ($2=$at)"
            ;;
        esac
        [ "$refused" -gt 0 ] || return 0
        case $line in
        "$1 refused "*) wanting=$((wanting + 1)) ;;
        "$1 done "*) done=$((done + 1)) ;;
        esac
    done
}

names=("$@")
if [ ${#names[@]} -eq 0 ]; then
    mapfile -t names < <("$program" --list)
    [ ${#names[@]} -gt 0 ] || lack "$program lists no scenario"
fi

passed=0 failed=0
printf '%-14s %9s %9s %9s %7s\n' scenario requests refused done faults
for name in "${names[@]}"; do
    wanting=0 done=0 faults=0
    call "$name" REFUSE_NTH 0
    asked=$requests
    sweep "$name" REFUSE_NTH
    sweep "$name" REFUSE_FROM
    # A call that asks for no memory shows nothing, so its scenario is a mistake.
    [ "$asked" -gt 0 ] || faults=$((faults + 1))
    printf '%-14s %9s %9s %9s %7s\n' "$name" "$asked" "$wanting" "$done" "$faults"
    if [ "$faults" -eq 0 ]; then passed=$((passed + 1)); else failed=$((failed + 1)); fi
done
echo "$passed passed, $failed failed"
[ "$failed" -eq 0 ]
