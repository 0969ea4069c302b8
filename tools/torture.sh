#!/bin/sh
# Runs GCC's execution tests on bench, and says how many end as under qemu-riscv32: the same output and the same status. The tests are
# those of Debian's gcc-12-source, of which nothing stands here. Each is built three times, with examples/c and Debian's picolibc:
#   - by build.sh, whose image `bench run` runs;
#   - by the linker's own script, whose executable `bench image` makes an image of, and `bench run` runs;
#   - the same with the numbers of Linux's calls, which qemu-riscv32 runs.
# A line names each that ends otherwise, or is not built, by `build.sh` or by `image`. A table at the end has the numbers. TESTS may
# name a folder that has the tests already. It needs the packages gcc-12-source, gcc-riscv64-unknown-elf, picolibc-riscv64-unknown-elf
# and qemu-user.
set -eu
usage() {
    cat >&2 <<'END'
usage: tools/torture.sh [--bench PROGRAM] [--sample N] [--seed S] [--levels WORDS] [--jobs J] [--keep FOLDER] [--build] [TEST..]
  --bench PROGRAM  the program, crates/bench/out/bench if it is not given
  --sample N       so many tests, picked by the seed; all if it is not given
  --seed S         which ones, 1 if it is not given
  --levels WORDS   the compiler's levels, '-O0 -O2' if they are not given
  --jobs J         how many run at a time, 2 if it is not given
  --keep FOLDER    what is built, and what qemu-riscv32 gave, stands in FOLDER; what is there already is not built again
  --build          only builds, into the FOLDER of --keep; needs no program
  TEST             only these tests, by name, as 20000112-1 or ieee/pr30704

example: tools/torture.sh --sample 300 --seed 7
END
    exit 2
}

# Why a test may end otherwise on bench by this verdict: a limit of bench's, and no fault.
reason_for() {
    case "$1: $2" in
        # Each has a frame of 16,544 to 524,560 bytes, as -fstack-usage says, most at -O0 alone.
        20040805-1:*': trap, '* | 920410-1:*': trap, '* | 921113-1:*': trap, '* | 921208-2:*': trap, '* | \
            pr20621-1:*': trap, '* | pr23135:*': trap, '* | pr28982b:*': trap, '*)
            echo 'a frame of over 16,384 bytes, which is the whole stack'
            ;;
        pr60822:*pages*) echo 'over 60 pages of data' ;;
        return-addr:*) echo 'it prints an address of its stack' ;;
        *': trap, '*) grep -q 'trampolines' "$tests/$1.c" && echo 'code on the stack, for a nested function' ;;
        *) return 1 ;;
    esac
}

here=$(CDPATH='' cd "$(dirname "$0")" && pwd)
examples=$here/../examples/c
CC=${CC:-riscv64-unknown-elf-gcc}
pico=${PICOLIBC:-/usr/lib/picolibc/riscv64-unknown-elf}

# Compiles with flags, into the current folder.
compile() {
    $CC -march=rv32im -mabi=ilp32 -mstrict-align -ftls-model=local-exec -isystem "$pico/include" -I "$examples" -w \
        -ffunction-sections -fdata-sections -c "$@"
}

# Links objects by the linker's own script.
link_stock() {
    linked=$1
    shift
    $CC -march=rv32im -mabi=ilp32 -static -nostdlib -Wl,--gc-sections -Wl,--defsym=__tls_base=room_of_thread "$@" \
        -L"$pico/lib/rv32im/ilp32" -Wl,--start-group -lm -lc -lgcc -Wl,--end-group -o "$linked"
}

# Runs an image, and leaves its output and, as a line, its status.
run_image() {
    status=0
    timeout 300 "$bench" run "$1" >"$2" 2>"$2.said" || status=$?
    if [ $status -eq 124 ]; then
        echo 'no end in 300 seconds' >>"$2"
    elif [ $status -ne 0 ]; then
        cat "$2.said" >>"$2"
    else
        # A status above 255 is a trap. Under qemu-riscv32 those from 250 on are taken for one too.
        sed -n 's/^process 1 ended 2[5-9][0-9]$/trap/p; s/^process 1 //p' "$2.said" >>"$2"
    fi
}

# Builds a test with a level in a folder: by build.sh as `script`, by the linker's own script as `stock`. What it printed under
# qemu-riscv32, and its status, is `wanted`; where a build fails its name with `.why` says why.
# The folder has its name once it is whole, so that a build may be interrupted, or be made twice at a time.
build() {
    new=$1.$$ test=$2 level=$3
    source=$tests/$test.c sources=$source flags=''
    mkdir -p "$new"
    case $test in
        # Each has its main function, and the functions that it replaces, in files of their own.
        builtins/*)
            sources="$source $tests/$test-lib.c $tests/builtins/lib/main.c"
            flags='-fno-tree-dse -fno-tree-loop-distribute-patterns -fno-tracer -fno-ipa-ra -fno-inline-functions'
            flags="$flags -Wl,--allow-multiple-definition"
            ;;
    esac
    flags="$flags $(sed -n 's/.*{ *dg-options *{\{0,1\} *"\([^"]*\)" *}.*/\1/p; s/.*{ *dg-additional-options *"\([^"]*\)" *}.*/\1/p' \
        "$source" | tr '\n' ' ')"
    [ ! -f "$tests/$test.x" ] ||
        flags="$flags $(sed -n '/additional_flags "\{0,1\}-f/{s/.*additional_flags//; s/"//g; p}' "$tests/$test.x")"
    # Some tests take less where they are told how large the stack is.
    ! grep -q 'dg-add-options *stack_size' "$source" || flags="$flags -DSTACK_SIZE=16384"
    # shellcheck disable=SC2086
    if (cd "$new" && compile $level $flags $sources &&
        link_stock linux $flags -Wl,-z,execstack ./*.o "$room/linux$level"/*.o) 2>"$new/linux.why"; then
        status=0
        (cd "$new" && timeout 120 qemu-riscv32 ./linux >wanted 2>/dev/null) || status=$?
        # A signal is a trap; 124 is the end of patience.
        if [ $status -ge 128 ] && [ $status -ne 134 ]; then
            echo trap >>"$new/wanted"
        else
            echo "ended $status" >>"$new/wanted"
        fi
        CC=$CC "$examples/build.sh" --picolibc -w $level $flags $sources -lm "$new/script" >"$new/script.why" 2>&1 || rm -f "$new/script"
        link_stock "$new/stock" $flags -Wl,-z,noexecstack "$new"/*.o "$room/stock$level"/*.o >"$new/stock.why" 2>&1 || rm -f "$new/stock"
    fi
    rm -f "$new/linux" "$new"/*.o
    mv -T "$new" "$1" 2>/dev/null || rm -rf "$new"
}

# Why a build failed.
why_not() {
    # The first such line, without the path before the name of a file.
    sed -n '/error\|undefined\|pages/ { s|^[^ ]*/||; p; q }' "$1" | grep . || head -n1 "$1"
}

# Runs what was built by a way, and prints why that is otherwise than under qemu-riscv32.
judge() {
    way=$1 image=$at/script
    if [ "$way" = stock ]; then
        image=$room_of_run/image
        if ! "$bench" image "$at/stock" "$image" >"$room_of_run/why" 2>&1; then
            echo "refused: $(head -n1 "$room_of_run/why")"
            return
        fi
    fi
    came=$room_of_run/came
    run_image "$image" "$came"
    cmp -s "$came" "$at/wanted" || echo "differs: $(tail -n1 "$came" | cut -c1-60), wanted $(tail -n1 "$at/wanted" | cut -c1-60)"
}

# What a test with a level comes to, as a line for each way: its verdict, the level, the way, its name.
one() {
    test=$1 level=$2
    at=$keep/$test$level
    [ -d "$at" ] || build "$at" "$test" "$level"
    room_of_run=$(mktemp -d "$room/run.XXXXXX")
    for way in script stock; do
        if [ ! -f "$at/wanted" ]; then
            word=unbuilt verdict="not built for qemu either: $(why_not "$at/linux.why")"
        elif [ ! -f "$at/$way" ]; then
            word=unbuilt verdict="not built: $(why_not "$at/$way.why")"
        elif [ -z "$bench" ]; then
            word=built verdict=
        else
            word=OTHERWISE verdict=$(judge $way)
            [ -n "$verdict" ] || word=same
        fi
        if [ -n "$verdict" ] && [ -f "$at/wanted" ] && why=$(reason_for "$test" "$verdict"); then
            word=excepted verdict="$verdict ($why)"
        fi
        [ $way = script ] && by=build.sh || by=image
        echo "$word $level $by $test${verdict:+: $verdict}"
    done
    rm -rf "$room_of_run"
    [ "$keep" != "$room/built" ] || rm -rf "$at"
}

if [ "${1-}" = --one ]; then
    tests=$2 room=$3 bench=$4 keep=$5
    one "$6" "$7"
    exit
fi

bench=$here/../crates/bench/out/bench sample=0 seed=1 levels='-O0 -O2' jobs=2 keep='' names=''
while [ $# -gt 0 ]; do
    case $1 in
        --bench) bench=${2:?} && shift 2 ;;
        --sample) sample=${2:?} && shift 2 ;;
        --seed) seed=${2:?} && shift 2 ;;
        --levels) levels=${2:?} && shift 2 ;;
        --jobs) jobs=${2:?} && shift 2 ;;
        --keep) keep=${2:?} && shift 2 ;;
        --build) bench='' && shift ;;
        -*) usage ;;
        *) names="$names $1" && shift ;;
    esac
done
if [ -n "$bench" ]; then
    bench=$(readlink -f "$bench")
    [ -x "$bench" ] || { echo "torture.sh: no program at $bench: build it by ./bench, or give --bench" >&2; exit 1; }
elif [ -z "$keep" ]; then
    usage
fi
room=$(mktemp -d)
trap 'rm -rf "$room"' EXIT
keep=${keep:-$room/built}
mkdir -p "$keep"
keep=$(readlink -f "$keep")
tests=${TESTS:-}
if [ -z "$tests" ]; then
    archive=$(ls /usr/src/gcc-12/gcc-12*.tar.xz 2>/dev/null | head -n 1)
    [ -n "$archive" ] || { echo 'torture.sh: the package gcc-12-source is not there' >&2; exit 1; }
    tar -xf "$archive" -C "$room" --wildcards '*/gcc.c-torture/execute/*.[chx]'
    tests=$(echo "$room"/*/gcc/testsuite/gcc.c-torture/execute)
fi
tests=$(readlink -f "$tests")
# Room for the data of the one thread, which the linker's own script does not give.
echo 'char room_of_thread[1024] __attribute__((aligned(16)));' >"$room/thread.c"
# Files by the calls of Linux, for qemu-riscv32.
cat >"$room/linux.c" <<'END'
#include <errno.h>
#include <fcntl.h>
#include <unistd.h>
#define WEAK __attribute__((weak))
static int ask(int number, int first, int second, int third, int fourth, int fifth)
{
    register int a0 __asm__("a0") = first, a1 __asm__("a1") = second, a2 __asm__("a2") = third;
    register int a3 __asm__("a3") = fourth, a4 __asm__("a4") = fifth, a7 __asm__("a7") = number;
    __asm__ volatile("ecall" : "+r"(a0) : "r"(a1), "r"(a2), "r"(a3), "r"(a4), "r"(a7) : "memory");
    return a0 < 0 ? (errno = -a0, -1) : a0;
}
/* picolibc.c takes 1 from each descriptor above 1. */
WEAK int open(const char *name, int flags, ...)
{
    int reply = ask(56, -100, (int)name, flags, 0600, 0);
    return reply + (reply > 1);
}
WEAK int close(int descriptor) { return ask(57, descriptor - 1, 0, 0, 0, 0); }
WEAK int unlink(const char *name) { return ask(35, -100, (int)name, 0, 0, 0); }
WEAK off_t lseek(int descriptor, off_t offset, int whence)
{
    long long place;
    return ask(62, descriptor - 1, offset >> 31, offset, (int)&place, whence) < 0 ? -1 : place;
}
END
for level in $levels; do
    mkdir "$room/stock$level" "$room/linux$level"
    (cd "$room/stock$level" && compile "$level" "$examples/start.s" "$examples/picolibc.c" "$room/thread.c")
    (cd "$room/linux$level" && compile "$level" -DCALL_EXIT=93 -DCALL_WRITE=64 -DCALL_READ=63 \
        "$examples/start.s" "$examples/picolibc.c" "$room/thread.c" "$room/linux.c")
done
if [ -n "$names" ]; then
    # shellcheck disable=SC2086
    printf '%s\n' $names
else
    # Of all tests in an order that the seed gives the first ones.
    (cd "$tests" && ls -- *.c ieee/*.c builtins/*.c) | sed '/^builtins\/.*-lib\.c$/d; s/\.c$//' |
        awk -v seed="$seed" 'BEGIN { srand(seed) } { print rand() "\t" $0 }' | sort -g | cut -f 2
fi | if [ "$sample" -gt 0 ]; then head -n "$sample"; else cat; fi >"$room/names"
while read -r name; do
    for level in $levels; do
        printf '%s\n%s\n' "$name" "$level"
    done
done <"$room/names" >"$room/pairs"
xargs -d '\n' -n 2 -P "$jobs" "$here/torture.sh" --one "$tests" "$room" "$bench" "$keep" <"$room/pairs" |
    tee "$room/lines" | grep -v -E '^(same|built) ' || true
# Of each pair two ways, and so a line for each line there.
[ "$(wc -l <"$room/lines")" -eq "$(wc -l <"$room/pairs")" ] || { echo 'torture.sh: some tests came to no verdict' >&2; exit 1; }
awk -v levels="$levels" -v first="$([ -n "$bench" ] && echo same || echo built)" '{ n[$2 " " $3 " " $1]++ } END {
    printf "%-5s %-8s %6s %8s %9s %9s\n", "level", "by", first, "excepted", "otherwise", "not built"
    of = split(levels, level, " ")
    split("build.sh image", by, " ")
    for (i = 1; i <= of; i++)
        for (j = 1; j <= 2; j++) {
            key = level[i] " " by[j] " "
            printf "%-5s %-8s %6d %8d %9d %9d\n", level[i], by[j], n[key first], n[key "excepted"], n[key "OTHERWISE"],
                n[key "unbuilt"]
            otherwise += n[key "OTHERWISE"]
        }
    exit otherwise > 0
}' "$room/lines"
