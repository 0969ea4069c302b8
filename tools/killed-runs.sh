#!/bin/sh
# killed-runs.sh [RUNS]: kills runs that keep their disk, later and later in the run (200 runs where no number is given), and looks at
# the disk's file after each: it has to be whole, with the files before the run or those after it. The last line says how often it was
# which; at a file that is neither the script ends with status 1. `killed-durable-runs.py` kills durable runs.
set -eu
here=$(CDPATH='' cd "$(dirname "$0")/.." && pwd)
bench=${BENCH:-$here/bench}
runs=${1:-200}
work=$(mktemp -d)
trap 'rm -rf "$work"' EXIT
cd "$work"

# The one program makes a file f, the other a file g.
"$bench" asm "$here/examples/first.s" first >said
sed 's/0x66/0x67/' "$here/examples/first.s" >second.s
"$bench" asm second.s second >said
"$bench" run --disk before first >printed 2>said
cp before disk
begin=$(date +%s%N)
"$bench" run --disk disk second >printed 2>said
length=$((($(date +%s%N) - begin) / 1000))
"$bench" disk before >files.before
"$bench" disk disk >files.after

before=0
after=0
run=0
while [ "$run" -lt "$runs" ]; do
    cp before disk
    "$bench" run --disk disk second >printed 2>said &
    pid=$!
    # In microseconds: from nothing to half as long again as a whole run.
    sleep "$(printf '0.%06d' $((length * 3 / 2 * run / runs)))"
    kill -9 "$pid" 2>said || true
    wait "$pid" 2>said || true
    "$bench" disk disk >files
    if cmp -s files files.before; then
        before=$((before + 1))
    elif cmp -s files files.after; then
        after=$((after + 1))
    else
        echo "run $run, killed after $((length * 3 / 2 * run / runs)) microseconds; on the disk is:" >&2
        cat files >&2
        exit 1
    fi
    run=$((run + 1))
done
echo "$runs runs: $before times the files before, $after times the files after"
