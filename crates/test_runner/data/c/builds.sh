#!/bin/sh
# Builds programs by examples/c/build.sh, with each compiler that it names, and says which came out otherwise than they have to.
#
#     builds.sh [BUILD]
#
# BUILD is the script, that of this repository if it is not given. Images run under qemu-riscv32, by Linux's numbers of calls. posix.c runs
# by bench, which BENCH names, and natively: its calls have other numbers and modes there. It needs the packages gcc,
# gcc-riscv64-unknown-elf, picolibc-riscv64-unknown-elf, clang, lld, llvm, qemu-user and gdb-multiarch.
set -u
here=$(CDPATH='' cd "$(dirname "$0")" && pwd)
build=$(readlink -f "${1:-$here/../examples/c/build.sh}")
bench=$(readlink -f "${BENCH:-$here/../../../bench/out/bench}")
room=$(mktemp -d)
trap 'rm -rf "$room"' EXIT
cd "$room" || exit 1
failed=0
# Compares what is there with what has to be, of a case.
same() {
    [ "$2" = "$3" ] || {
        printf '%s\nwanted: %s\ncame:   %s\n' "$1" "$2" "$3"
        failed=1
    }
}
# What the program prints, and its status.
ran() {
    [ ! -e image.elf ] || chmod +x image.elf
    qemu-riscv32 image.elf 2>&1
    echo $?
    rm -f image.elf
}
linux='-DCALL_EXIT=93 -DCALL_WRITE=64 -DCALL_READ=63'

cat >main.cc <<'END'
#include "calls.h"
static int made() { return 7; }
static int seven = made();
int main() { sys_write(1, "hi\n", 3); return seven; }
END
cat >argued.cc <<'END'
#include "calls.h"
int main(int count, char **) { return count; }
END
cat >sections.c <<'END'
#include "calls.h"
__attribute__((section("text_env"), noinline)) int next(int x) { return x + 1; }
__attribute__((section("own"))) int table[2] = {3, 4};
__attribute__((section("own_constants"))) const int constants[2] = {5, 6};
__attribute__((section(".mine"))) int counts[2];
int zeros[5000], common[3];
int main(void)
{
    table[0] += next(counts[1]) + constants[1] + zeros[7] + common[2];
    counts[1] = table[0] + table[1];
    return counts[1];
}
END
cat >large.c <<'END'
volatile char table[200000], other[60000];
int main(void) { return table[7] + other[8]; }
END
cat >missing.c <<'END'
int socket(int, int, int);
int main(void) { return socket(0, 0, 0); }
END
cc -w "$here/posix.c" -o native
mkdir linux
printf '#include "calls.h"\nint main(void)\n{\n    sys_write(1, "hi\\n", 3);\n    return 3;\n}\n' >hello.c

for compiler in riscv64-unknown-elf- 'clang --target=riscv32'; do
    case $compiler in
        clang*) cc=$compiler cxx='clang++ --target=riscv32' ;;
        *) cc=${compiler}gcc cxx=${compiler}g++ ;;
    esac
    for library in '' --picolibc; do
        for source in main argued; do
            # shellcheck disable=SC2086
            CC=$cxx "$build" $library $linux -g $source.cc image 2>said
            same "$cxx $library $source.cc" "$([ $source = main ] && printf 'hi\n7' || echo 0)" "$(ran)"
        done
    done
    # shellcheck disable=SC2086
    CC=$cc "$build" $linux -fcommon -g sections.c image 2>said
    same "$cc sections.c" 14 "$(ran)"
    same "$cc sections.c: pages of the image" 3 "$(($(wc -c <image) / 4096 + 1))"
    rm -f image
    CC=$cc "$build" large.c image 2>said
    same "$cc large.c: status" 1 $?
    same "$cc large.c" '65 pages table' "$(sed -n 's/.* \([0-9]* pages\).* needed.*/\1/p; s/^ *200000 *//p' said | paste -sd ' ')"
    same "$cc large.c: its image" no "$([ -e image ] && echo yes || echo no)"
    # shellcheck disable=SC2086
    CC=$cc "$build" $linux -g hello.c image
    same "$cc -g: qemu-riscv32" "$(printf 'hi\n 3')" "$(qemu-riscv32 image.elf; echo " $?")"
    same "$cc -g: gdb" 'Line 4' "$(gdb-multiarch -nx -batch -ex 'info line hello.c:4' image.elf 2>&1 | cut -c 1-6)"
    rm -f image image.elf
    CC=$cc "$build" --posix -Wall -Wextra -Wno-unused-result "$here/posix.c" image 2>said
    same "$cc posix.c: what the compiler says" '' "$(cat said)"
    same "$cc posix.c" "$(cd linux && ../native && rm -f ./*)" "$("$bench" exec image 2>&1)"
    CC=$cc "$build" --posix missing.c image 2>said
    same "$cc missing.c" 'build.sh: socket cannot be had: there is no network' "$(grep '^build.sh' said)"
    rm -f image
done
exit $failed
