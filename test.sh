#!/usr/bin/env bash
# Tests everything: ./test.sh --help tells all.
set -euo pipefail

usage() {
    cat <<'TEXT'
usage: ./test.sh            proves everything and tests everything
       ./test.sh --built    leaves the proofs out, and tests the programs that an earlier run has left
       ./test.sh --help     shows this

It runs, one after the other,
  rt ci                 every proof, the edits that have to be refused, the tests, and each program
  tools/growing_calls   whether each public call that may want memory is called by a test or by a program
  ./faults.sh           calls whose requests for memory are refused, each in turn
  tools/rows            each script of examples/ with 1 and 4 workers, and hostile scripts, words and devices
  tools/views           what the viewer shows and draws of each script of examples/
over the programs that rt ci has built. The last line is `N passed, M failed`, of all together; the status is 0
where none failed. From nothing it takes as long as rt ci, about an hour; what comes behind takes a minute.
TEXT
}

# Something is lacking without which nothing can be tested.
lack() {
    echo "test.sh: $1 is lacking (Debian: $2)" >&2
    exit 127
}

prove=1
case ${1-} in
'') ;;
--built) prove=0 ;;
--help | -h)
    usage
    exit 0
    ;;
*)
    echo "test.sh: there is no option $1 (see ./test.sh --help)" >&2
    exit 64
    ;;
esac

cd "$(dirname "$0")"
command -v python3 >/dev/null || lack python3 python3
command -v gcc >/dev/null || lack gcc "gcc and libc6-dev"
[ "$prove" -eq 0 ] || command -v rt >/dev/null || {
    echo "test.sh: the command rt of the Rattle kit is not on the path" >&2
    exit 127
}

room=$(mktemp -d)
trap 'rm -rf "$room"' EXIT
touch "$room/begun"
passed=0 failed=0

# Runs a part, shows what it says but its last line, and adds that to the sum. A part that ends without such a line has failed.
run() {
    local status=0 last
    echo "test.sh: $*"
    "$@" </dev/null 2>&1 | tee "$room/said" | sed -u -E '$!b; /^[0-9]+ passed, [0-9]+ failed/d' || status=$?
    last=$(tail -n 1 "$room/said")
    if [[ $last =~ ^([0-9]+)\ passed,\ ([0-9]+)\ failed ]]; then
        echo "test.sh: $1: $last"
        passed=$((passed + BASH_REMATCH[1]))
        failed=$((failed + BASH_REMATCH[2]))
        [ "$status" -eq 0 ] || [ "${BASH_REMATCH[2]}" -gt 0 ] || failed=$((failed + 1))
    else
        echo "test.sh: $1 ended with status $status and no sum"
        failed=$((failed + 1))
    fi
}

# Whether this run has built a program, or with --built whether it is there.
is_built() {
    local program=crates/$1/out/$1
    [ -x "$program" ] && { [ "$prove" -eq 0 ] || [ "$program" -nt "$room/begun" ]; }
}

# Each check on one processor, as many side by side as there are, if each has 5 GB: a check that is shared out among
# several took a quarter more of their time together, where it was tried.
lanes() {
    local most
    most=$(awk '/^MemAvailable/ {print int($2 / 5000000)}' /proc/meminfo)
    echo $(($(nproc) < most ? $(nproc) : most > 1 ? most : 1))
}

if [ "$prove" -eq 1 ]; then
    RT_JOBS=${RT_JOBS:-$(lanes)}
    export RT_JOBS
    run rt ci
fi
run tools/growing_calls
for part in examples:./faults.sh flecsrun:tools/rows flecsview:tools/views; do
    if is_built "${part%%:*}"; then
        run "${part#*:}"
    else
        echo "test.sh: ${part#*:} was not run, as crates/${part%%:*} was not built"
        failed=$((failed + 1))
    fi
done
echo "$passed passed, $failed failed"
[ "$failed" -eq 0 ]
