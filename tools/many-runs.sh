#!/bin/sh
# many-runs.sh [RUNS]: runs each example, and eight of them side by side, again and again (200 times where no number is given), by
# 1 to 16 workers and with quanta of 1, 7 and 10000 instructions, and compares each run with the first. The last line says how many
# were compared; at the first difference, or a run that fails, the script ends with status 1. Before that it sees that there are as
# many worker threads as --workers says, that all of them work, and that --quantum says how long a loan is. It needs Linux's /proc.
#
# Eight programs side by side fix what each terminal shows, how many processes there are and how each ends, but not which
# number a process gets: so the numbers are left out there.
set -eu
here=$(CDPATH='' cd "$(dirname "$0")/.." && pwd)
bench=${BENCH:-$here/bench}
runs=${1:-200}
work=$(mktemp -d)
trap 'rm -rf "$work"' EXIT

names=
for source in "$here"/examples/*.s; do
    name=$(basename "$source" .s)
    # What these print depends on the order of their calls.
    case $name in letters | race | lost-update | no-wait | philosophers | in-order) continue ;; esac
    "$bench" asm "$source" "$work/$name" >"$work/said"
    names="$names $name"
done
cp "$here/examples/c/hello.image" "$work/hello"
names="$names hello"
cd "$work"

# Runs the program with these words; what it prints and says is kept. A run that fails ends the script.
ran() {
    "$bench" run "$@" >printed 2>said || {
        echo "run $* failed:" >&2
        cat said >&2
        exit 1
    }
}

# What one program prints, and what is said of its processes.
alone() {
    ran --workers "$1" --quantum "$2" "$3"
}

# What the terminal $3 of eight programs shows, and how their processes end.
together() {
    ran --workers "$1" --quantum "$2" --term "$3" primes sum primes hello primes first primes stars
    cut -d ' ' -f 3- said | sort >sorted
    mv sorted said
}

# The first run of a name is kept; each further one is compared with it.
compare() {
    for what in printed said; do
        if [ ! -e "$1.$what" ]; then
            cp "$what" "$1.$what"
        elif ! cmp -s "$what" "$1.$what"; then
            echo "$1 $what otherwise:" >&2
            diff "$1.$what" "$what" >&2 || true
            exit 1
        fi
    done
}

# How many threads the program has while it runs an endless program by so many workers.
threads() {
    "$bench" run --workers "$1" endless >printed 2>said &
    running=$!
    before=0
    now=1
    while [ "$now" -eq 1 ] || [ "$now" -ne "$before" ]; do
        sleep 1
        before=$now
        now=$(ls "/proc/$running/task" | wc -l)
    done
    echo "$now"
    kill "$running"
    wait "$running" 2>killed || true
}

# A pool has a thread for each worker.
echo '_start: jal zero,_start' >endless.s
"$bench" asm endless.s endless >said
one=$(threads 1)
for workers in 2 5 16; do
    more=$(($(threads "$workers") - one))
    if [ "$more" -ne $((workers - 1)) ]; then
        echo "by $workers workers there are $more threads more than by one" >&2
        exit 1
    fi
done

# How many threads of the program have worked, in a run of as many endless programs as these words are: two seconds after as many
# have as there are workers, or after a minute, since a thread may wait long for a processor that others have.
at_work() {
    workers=$1
    shift
    "$bench" run --workers "$workers" "$@" >printed 2>said &
    running=$!
    left=60
    since=0
    while [ "$left" -gt 0 ] && [ "$since" -lt 3 ]; do
        sleep 1
        left=$((left - 1))
        now=$(awk '{ sub(/^.*[)] /, ""); if ($12 >= 10) n++ } END { print n + 0 }' /proc/"$running"/task/*/stat)
        [ "$now" -lt "$workers" ] || since=$((since + 1))
    done
    echo "$now"
    kill "$running"
    wait "$running" 2>killed || true
}

# As many of them work as there are workers, where there are as many programs: each has had a tenth of a second at least.
if [ "$(at_work 1 endless endless endless)" -ne 1 ] || [ "$(at_work 3 endless endless endless)" -ne 3 ]; then
    echo "not as many threads work as --workers says" >&2
    exit 1
fi

# By one worker a time slice's length shows in what is written first: the parent, which counts, goes on within its slice.
"$bench" asm "$here/crates/test_runner/data/forked.s" forked >said
for row in 1000000:PC 10:CP; do
    ran --workers 1 --quantum "${row%:*}" forked
    if [ "$(tr -d "\n" <printed)" != "${row#*:}" ]; then
        echo "by quantum ${row%:*} forked printed $(cat printed)" >&2
        exit 1
    fi
done

# Each terminal has sixteen runs in a row, so that it meets each number of workers.
run=0
while [ "$run" -lt "$runs" ]; do
    workers=$((run % 16 + 1))
    case $((run % 3)) in
    0) quantum=10000 ;;
    1) quantum=7 ;;
    *) quantum=1 ;;
    esac
    for name in $names; do
        alone "$workers" "$quantum" "$name"
        compare "$name"
    done
    terminal=$((run / 16 % 8))
    together "$workers" "$quantum" "$terminal"
    compare "terminal $terminal"
    run=$((run + 1))
done
echo "$runs runs of each, all as the first"
