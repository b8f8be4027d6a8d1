#!/bin/sh
# Runs the program on a script, and checks and shows scripts: ./run.sh --help tells all.
set -eu

usage() {
    cat <<'TEXT'
usage: ./run.sh SCRIPT [--workers N]     runs a script, and shows its lines
       ./run.sh --check SCRIPT           says whether it is a script, and if not, all that is wrong with it
       ./run.sh --view SCRIPT [WORD..]   shows each step beside its lines, and draws pictures (docs/VIEWER.md):
                                         --names, --tables FILE, --graph FILE, --batches FILE
       ./run.sh --build                  proves and builds the programs that run, check and show scripts
       ./run.sh --help                   shows this

A program that --build made is started if it is newer than the sources, specs and proofs of all that it stands on. Else
a trial build is: it proves nothing, and is made once, in some three minutes, and again after a change of the sources.
It is kept as crates/NAME/out/NAME-unproved, so that the next run starts at once. --build proves all crates that the
programs stand on, which takes one to two hours of processor time once, and after a change as long as what has changed.

The status is that of the program (docs/FORMATS.md, docs/CHECKER.md, docs/VIEWER.md): 0 where the script was run, 1 where it was
stopped, 2 where it is not read (its faults are shown then), 64 for bad arguments. N is 1 to 64. It is 127 where a
program has to be built and the kit's command rt is not on the path.
TEXT
}

say() {
    echo "run.sh: $1" >&2
}

# Ends with the status of bad arguments.
refuse() {
    say "$1 (see ./run.sh --help)"
    exit 64
}

# The kit's command, without which nothing can be built.
need_rt() {
    command -v rt >/dev/null || {
        say "the command rt of the Rattle kit is not on the path"
        exit 127
    }
}

top=$(cd "$(dirname "$0")" && pwd)

# The crates of this repository that some crates stand on, and these, lowest first.
crates_below() {
    awk -v goals="$*" '
        { sub(/#.*/, "") }
        /:/ { name = $1; sub(/:.*/, "", name); sub(/^[^:]*:/, ""); uses[name] = $0 }
        END {
            last = split(goals, todo)
            for (i = 1; i <= last; i++) seen[todo[i]]
            for (i = 1; i <= last; i++) {
                print todo[i], todo[i]
                count = split(uses[todo[i]], below)
                for (j = 1; j <= count; j++) if (below[j] in uses) {
                    print below[j], todo[i]
                    if (!(below[j] in seen)) { seen[below[j]]; todo[++last] = below[j] }
                }
            }
        }' "$top/crates.txt" | tsort
}

# Whether the program $2 of the crate $1 is built, and newer than these folders of all crates that it stands on.
# A line of crates.txt that comes or goes changes no program by itself, so that its time counts for nothing.
is_fresh() (
    crate=$1 program=$2
    shift 2
    [ -x "$program" ] || exit 1
    cd "$top/crates"
    kinds=$*
    set --
    for name in $(crates_below "$crate"); do
        for kind in $kinds; do
            [ ! -d "$name/$kind" ] || set -- "$@" "$name/$kind"
        done
    done
    [ -z "$(find "$@" -newer "$program" -print | head -n 1)" ]
)

# A script of some seconds. While a trial build runs it, the program that the build made can be kept.
long_script() {
    awk 'BEGIN {
        printf "[1, 64, [[\"list\"]"
        for (i = 0; i < 8000; i++) printf ", [\"has\", \"ChildOf\", \"Exclusive\"]"
        print "]]"
    }'
}

# Ends what a trial build started, and removes what it left.
child='' room=''
clean() {
    [ -z "$child" ] || kill "$child" 2>/dev/null || :
    [ -z "$room" ] || rm -rf "$room"
    child='' room=''
}
clean_at_end() {
    trap clean EXIT
    trap 'exit 129' HUP
    trap 'exit 130' INT
    trap 'exit 143' TERM
}
clean_at_end

# Makes a trial build of the crate $1, and keeps its program as $2. rt removes the program as soon as its run ends, so
# it is linked under another name while it runs.
build_trial() {
    mkdir -p "${2%/*}"
    room=$(mktemp -d "${2%/*}/trial-XXXXXX")
    long_script >"$room/script"
    (
        cd "$top/crates/$1"
        TMPDIR=$room
        export TMPDIR
        exec rt try <"$room/script" >"$room/lines" 2>"$room/log"
    ) &
    child=$!
    start=$(date +%s)
    told=0
    while kill -0 "$child" 2>/dev/null; do
        [ -e "$room/kept" ] || find "$room" -name program -type f -exec ln {} "$room/kept" \; 2>/dev/null || :
        seconds=$(($(date +%s) - start))
        if [ "$seconds" -ge $((told + 15)) ]; then
            told=$seconds
            say "$1: trial build, $seconds seconds so far"
        fi
        sleep 0.1
    done
    status=0
    wait "$child" || status=$?
    child=''
    if [ "$status" -eq 0 ] && [ -x "$room/kept" ]; then
        mv "$room/kept" "$2"
    elif [ "$status" -ne 0 ]; then
        say "$1: the trial build failed:"
        tail -n 20 "$room/log" >&2
        exit 1
    fi
    clean
}

# Sets `program` to the program of the crate $1, proved or not, and to nothing where no trial build of it could be kept.
find_program() {
    program=$top/crates/$1/out/$1
    if is_fresh "$1" "$program" src specs proofs; then
        return
    fi
    program=$program-unproved
    if ! is_fresh "$1" "$program" src; then
        say "$1 is not built, or older than its sources: a trial build, some three minutes, which proves nothing"
        need_rt
        build_trial "$1" "$program"
    fi
    if [ -x "$program" ]; then
        say "$1 is a trial build, which proves nothing (./run.sh --build makes a proved one)"
    else
        say "$1: the trial build could not be kept, and is made again for this run"
        program=''
    fi
}

# Runs the program of the crate $1 with the words behind, on the script.
run_program() {
    crate=$1
    shift
    find_program "$crate"
    if [ -n "$program" ]; then
        "$program" "$@" <"$script"
    else
        (cd "$top/crates/$crate" && rt try -- "$@") <"$script"
    fi
}

# The same, and where the script is not read tells its faults. Ends with the status of the program.
run_or_tell() {
    status=0
    run_program "$@" || status=$?
    if [ "$status" -eq 2 ]; then
        say "the script is not read; its faults:"
        (
            clean_at_end
            run_program flecscheck >&2
        ) || :
    fi
    exit "$status"
}

# Proves and builds the programs, and tells how far it is.
build() {
    need_rt
    names=$(crates_below flecsrun flecscheck flecsview)
    count=$(echo "$names" | wc -l)
    done=0
    begin=$(date +%s)
    log=$top/crates/flecsrun/out/build.log
    mkdir -p "${log%/*}"
    for name in $names; do
        done=$((done + 1))
        start=$(date +%s)
        printf 'run.sh: %d of %d: %s ..' "$done" "$count" "$name" >&2
        cd "$top/crates/$name"
        case $name in
        flecsrun | flecscheck | flecsview) set -- run ;;
        *) set -- lib ;;
        esac
        if [ "$1" = run ] && is_fresh "$name" "$PWD/out/$name" src specs proofs; then
            status=0
        else
            status=0
            rt "$@" <"$top/examples/first.json" >"$log" 2>&1 || status=$?
        fi
        if [ "$status" -ne 0 ]; then
            echo ' failed' >&2
            tail -n 30 "$log" >&2
            exit 1
        fi
        [ "$1" = lib ] || touch "out/$name"
        echo " $(($(date +%s) - start)) seconds" >&2
    done
    say "proved and built in $((($(date +%s) - begin + 59) / 60)) minutes"
}

# Whether a word is a number of workers.
is_workers() {
    case $1 in
    [1-9] | [1-5][0-9] | 6[0-4]) return 0 ;;
    *) return 1 ;;
    esac
}

# The script, a file that can be read.
take_script() {
    script=$1
    if [ ! -f "$script" ] || [ ! -r "$script" ]; then
        refuse "there is no file $script that can be read"
    fi
}

# The words behind the script that is shown: those that the viewer knows, each with its file.
check_view() {
    while [ $# -gt 0 ]; do
        case $1 in
        --names) shift ;;
        --tables | --graph | --batches)
            [ $# -ge 2 ] || refuse "$1 takes a file"
            shift 2
            ;;
        *) refuse "behind the script of --view stand --names, --tables FILE, --graph FILE, --batches FILE, and not $1" ;;
        esac
    done
}

case ${1-} in
--help | -h)
    usage
    exit 0
    ;;
--build)
    [ $# -eq 1 ] || refuse "--build stands alone"
    build
    exit 0
    ;;
--check)
    [ $# -eq 2 ] || refuse "--check takes one script"
    take_script "$2"
    run_program flecscheck
    exit 0
    ;;
--view)
    [ $# -ge 2 ] || refuse "--view takes a script"
    take_script "$2"
    shift 2
    check_view "$@"
    run_or_tell flecsview "$@"
    ;;
'') refuse "no script is named" ;;
--workers*) refuse "the script comes first, then --workers" ;;
-*) refuse "there is no option $1" ;;
esac

take_script "$1"
shift
case $#-${1-} in
0-) ;;
1---workers=*) is_workers "${1#--workers=}" || refuse "--workers takes a number from 1 to 64" ;;
2---workers) is_workers "$2" || refuse "--workers takes a number from 1 to 64" ;;
1---workers) refuse "--workers takes a number from 1 to 64" ;;
*) refuse "behind the script stands --workers N, and nothing else" ;;
esac
run_or_tell flecsrun "$@"
