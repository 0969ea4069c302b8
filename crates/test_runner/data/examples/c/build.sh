#!/bin/sh
# Builds an image of C and assembly. `build.sh` without words says how.
set -eu
usage() {
    cat >&2 <<'END'
usage: build.sh [--picolibc | --posix] [FLAGS] SOURCE.. IMAGE
Builds an image of sources in C (.c) and assembly (.s, .S), of objects (.o) and of archives (.a).

  --picolibc  with Debian's picolibc: printf, malloc, files and the rest of a C library
  --posix     the same, with what POSIX adds: fsync, pread, dup, mmap
  FLAGS       what the compiler is given besides, each as one word: -O3 -DN=5 -Ifolder -lm; with -g the linker's file, an
              executable with lines and symbols, is kept beside the image, as IMAGE.elf
  IMAGE       the image, which is written anew; never over a source

CC is the compiler, riscv64-unknown-elf-gcc if it is not set; CC='clang --target=riscv32' links with LLVM's lld.

example: build.sh -O3 hello.c more.c /tmp/hello.image
END
    exit 2
}
refuse() {
    echo "build.sh: $1" >&2
    exit 2
}

here=$(dirname "$0")
[ $# -ge 2 ] || usage
for image; do :; done
sources=0 libc=no posix=no debug=no
for word; do
    case $word in
        -g0) debug=no ;;
        -g*) debug=yes ;;
        --help | -h) usage ;;
        --picolibc) libc=yes ;;
        --posix) libc=yes posix=yes ;;
        -o) refuse "-o is not taken: the last word is the image" ;;
        -c | -S | -E) refuse "$word is not taken: it makes no program" ;;
    esac
done
case $image in
    -* | '') refuse "the last word names no image" ;;
    *.c | *.s | *.S | *.h | *.o | *.a | *.ld | *.sh) refuse "$image has the name of a source: the last word is the image" ;;
esac
[ ! -d "$image" ] || refuse "$image is a folder"
[ -d "$(dirname "$image")" ] || refuse "the folder of $image is not there"
count=$#
for word; do
    count=$((count - 1))
    [ $count -gt 0 ] || break
    case $word in
        -*) ;;
        *)
            [ ! -d "$word" ] || refuse "$word is a folder"
            [ -f "$word" ] || refuse "$word is not there"
            [ ! "$word" -ef "$image" ] || refuse "$image is a source"
            sources=$((sources + 1))
            ;;
    esac
done
[ $sources -gt 0 ] || usage

CC=${CC:-riscv64-unknown-elf-gcc}
case $CC in
    *clang*) OBJCOPY=${OBJCOPY:-llvm-objcopy} linker=-fuse-ld=lld ;;
    *) OBJCOPY=${OBJCOPY:-riscv64-unknown-elf-objcopy} linker=-Wl,--no-warn-rwx-segments ;;
esac
for program in "${CC%% *}" "${OBJCOPY%% *}"; do
    command -v "$program" >/dev/null || refuse "$program is not there: Debian has gcc-riscv64-unknown-elf, clang, lld and llvm"
done
# Helpers of the compiler, as a division of 64 bits: GCC's, also for clang.
helpers=$(riscv64-unknown-elf-gcc -march=rv32im -mabi=ilp32 -print-libgcc-file-name 2>/dev/null || true)
pico=${PICOLIBC:-/usr/lib/picolibc/riscv64-unknown-elf}
if [ $libc = yes ]; then
    [ -d "$pico" ] || refuse "Debian's picolibc-riscv64-unknown-elf is not there"
    before="-isystem $pico/include -Wl,--wrap=fdopen"
    after="-L$pico/lib/rv32im/ilp32 -Wl,--start-group -lc $helpers -Wl,--end-group"
else
    before=-ffreestanding after=$helpers
    # clang++ would give main another name there, as to a function of the program's own.
    case $CC in *clang++*) before=-fno-builtin ;; esac
fi

linked=$(mktemp) said=$(mktemp)
trap 'rm -f "$linked" "$said"' EXIT
# Why a function of POSIX is not there; docs/ABI.md has the same table.
reason_for() {
    case $1 in
        sigaction | sigprocmask | pthread_sigmask | sigwait | alarm | pause | setitimer) echo "no signals are sent" ;;
        pthread_* | sem_* | thrd_* | mtx_* | cnd_*) echo "a process has one thread" ;;
        mkdir | rmdir | chdir | getcwd | opendir | readdir | closedir) echo "there is one directory, which no call lists" ;;
        link | symlink | readlink) echo "a file has one name" ;;
        flock | lockf) echo "there are no locks of files" ;;
        chown | fchown | utime | utimes | futimens) echo "a file has no owner and no times" ;;
        sleep | usleep | nanosleep | clock_gettime) echo "there is no clock to wait for" ;;
        select | poll | ioctl) echo "no call looks whether it would wait" ;;
        waitpid) echo "wait collects any child" ;;
        execv | execve | execvp | execl | execlp) echo "a program has no arguments; sys_exec of calls.h goes on in another one" ;;
        mprotect | mremap | madvise | mlock) echo "the pages of a process stay as they are" ;;
        socket | connect | bind | listen | accept | send | recv | getaddrinfo) echo "there is no network" ;;
        *) return 1 ;;
    esac
}
# Of all words but the last the sources and the flags, after the flags that each program needs.
rest=$#
while [ $rest -gt 0 ]; do
    word=$1
    shift
    rest=$((rest - 1))
    case $word in --picolibc | --posix) continue ;; esac
    [ $rest -eq 0 ] || set -- "$@" "$word"
done
[ $posix = no ] || set -- -I "$here/posix" "$@"
if [ $libc = yes ]; then
    # g++ forgets -x after one file.
    set -- "$@" -x c "$here/picolibc.c" -x c "$here/posix.c"
else
    set -- "$@" -x c "$here/library.c"
fi
$CC -march=rv32im -mabi=ilp32 -mstrict-align -O2 -ftls-model=local-exec -ffunction-sections -fdata-sections -fno-pic $before \
    -static -nostdlib $linker -Wl,--gc-sections -Wl,--orphan-handling=error -T "$here/image.ld" -I "$here" \
    "$here/start.s" "$@" -x none $after -o "$linked" 2>"$said" || {
    cat "$said" >&2
    sed -n "s/.*undefined reference to .\(.*\)'$/\1/p; s/.*undefined symbol: //p" "$said" | sort -u | while read -r name; do
        ! why=$(reason_for "$name") || echo "build.sh: $name cannot be had: $why" >&2
    done
    if [ $libc = no ]; then
        # What only a C library has: a header, but those that each compiler brings, or -lm.
        case " $* " in *' -l'*) wants=yes ;; *) wants=no ;; esac
        ! grep -hs -e '^ *# *include *<' -- "$@" | grep -qv -e '<std\(int\|def\|arg\|bool\)\.h>' -e '<limits\.h>' || wants=yes
        [ $wants = no ] || echo "build.sh: a C library, as stdio.h and -lm have it, comes by --picolibc" >&2
    fi
    exit 1
}
cat "$said" >&2
# The compiler's tool of this name, which is beside objcopy.
tool_of() {
    echo "${OBJCOPY%% *}" | sed "s/objcopy/$1/"
}
sizes=$($(tool_of size) -A "$linked")
sections=$(echo "$sizes" | awk '$3 + 0 >= 65536 && $2 > 0')
pages=$(echo "$sections" | awk '$2 + $3 > end { end = $2 + $3 } END { print int((end - 65536 + 4095) / 4096) }')
[ "$pages" -le 60 ] || {
    echo "build.sh: $pages pages of 4,096 bytes are needed, and 60 fit. Bytes of each section, and of the largest objects:"
    echo "$sections" | awk '{ printf "%9d %s\n", $2, $1 }'
    $(tool_of nm) -S --size-sort "$linked" | grep ' [BbDd] ' | tail -n 3 | while read -r _ size _ name; do
        printf '%9d   %s\n' "0x$size" "$name"
    done
    exit 1
} >&2
$OBJCOPY -O binary "$linked" "$image"
[ $debug = no ] || {
    # The page of the headers is no page of the program: its program header, the first, gets no kind, and its section, the first too,
    # no flags.
    for at in 52 $(($(od -An -tu4 -j32 -N4 "$linked") + 48)); do
        printf '\000' | dd of="$linked" bs=1 seek="$at" conv=notrunc 2>/dev/null
    done
    cp "$linked" "$image.elf"
    chmod +x "$image.elf"
}
