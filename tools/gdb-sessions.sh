#!/bin/sh
# Runs the three sessions of docs/GDB.md in gdb, over `bench gdb`, and compares all that gdb prints with what stands in
# tools/gdb_sessions. With --streams it sends damaged packets besides: gdb-streams.py says what has to come of them.
# It needs the packages gdb-multiarch and gcc-riscv64-unknown-elf, and for streams time.
set -eu
usage() {
    cat >&2 <<'END'
usage: tools/gdb-sessions.sh [--bench PROGRAM] [--streams N] [--seed S] [--write]
  --bench PROGRAM  the program, crates/bench/out/bench if it is not given
  --streams N      sends N streams of damaged packets to the program, none if it is not given
  --seed S         which ones, 1 if it is not given
  --write          writes what gdb prints in place of comparing it

example: tools/gdb-sessions.sh --streams 10000
END
    exit 2
}

here=$(CDPATH='' cd "$(dirname "$0")" && pwd)
examples=$here/../crates/test_runner/data/examples
bench=$here/../crates/bench/out/bench
streams=0 seed=1 write=no
while [ $# -gt 0 ]; do
    case $1 in
        --bench) [ $# -ge 2 ] || usage; bench=$(readlink -f "$2"); shift ;;
        --streams) [ $# -ge 2 ] || usage; streams=$2; shift ;;
        --seed) [ $# -ge 2 ] || usage; seed=$2; shift ;;
        --write) write=yes ;;
        *) usage ;;
    esac
    shift
done
GDB=${GDB:-gdb-multiarch}
CC=${CC:-riscv64-unknown-elf-gcc}
work=$(mktemp -d)
trap 'rm -rf "$work"' EXIT
cd "$work"

# The sources, the files of symbols and the images. A source in C is linked by the linker's own script.
cp "$examples/stars.s" "$examples/letters.s" "$here/gdb_sessions/line.c" .
cp "$examples"/c/*.h "$examples/c/start.s" "$examples/c/library.c" .
echo a >tape
ln -s "$bench" bench
for name in stars letters; do
    ./bench symbols "$name.s" "$name.elf" >said
    ./bench asm "$name.s" "$name.image" >said
done
$CC -g -O0 -march=rv32im -mabi=ilp32 -mstrict-align -ffreestanding -static -nostdlib -Wl,-z,noexecstack -Wl,--defsym=__tls_base=0 \
    start.s line.c library.c -lgcc -o line.elf
./bench image line.elf line.image >said

# What gdb prints for the lines of a session, each after its prompt. A line that gdb refuses does not end it.
session() {
    set -- -nx -q -batch -ex 'set pagination off' -ex 'set confirm off' -ex 'set width 0' -ex 'set sysroot'
    while IFS= read -r line; do
        line=$(printf '%s\n' "$line" | sed 's|\$BENCH|./bench|')
        set -- "$@" -ex "echo (gdb) $line\\n" -ex "$line"
    done
    timeout 60 "$GDB" "$@" 2>&1 </dev/null
}

failed=0
for name in stars line letters; do
    session <"$here/gdb_sessions/$name.gdb" | sed "s|$work/||" >"$name.out" || true
    if [ $write = yes ]; then
        cp "$name.out" "$here/gdb_sessions/$name.out"
    elif cmp -s "$name.out" "$here/gdb_sessions/$name.out"; then
        echo "$name: as it has to be"
    else
        echo "$name: gdb prints something else" >&2
        diff "$here/gdb_sessions/$name.out" "$name.out" >&2 || true
        failed=1
    fi
done
if [ "$streams" -gt 0 ]; then
    python3 "$here/gdb-streams.py" --bench ./bench --streams "$streams" --seed "$seed" || failed=1
fi
exit $failed
