#!/bin/sh
# Builds each image of this folder anew, in FOLDER, and says which came out otherwise. It needs the packages gcc-riscv64-unknown-elf,
# picolibc-riscv64-unknown-elf, clang, lld and llvm of Debian 12; other versions of the compilers build other images.
#
#     images.sh FOLDER
set -eu
[ $# -eq 1 ] || {
    sed -n '2,5s/^# \{0,1\}//p' "$0" >&2
    exit 2
}
mkdir -p "$1"
folder=$(readlink -f "$1")
here=$(CDPATH='' cd "$(dirname "$0")" && pwd)
# What was built is built from a copy, since programs.s takes upper.image and reverse.image from the folder where it is.
cp -R "$here"/*.c "$here"/*.h "$here"/*.s "$here"/image.ld "$here"/build.sh "$here"/posix "$folder"
cd "$folder"
failed=0
while read -r image compiler flags; do
    CC=riscv64-unknown-elf-gcc
    [ "$compiler" = gcc ] || CC='clang --target=riscv32'
    # shellcheck disable=SC2086
    CC=$CC ./build.sh $flags "$image"
    cmp "$image" "$here/$image" || failed=1
done <<'END'
hello.image gcc hello.c
words.image gcc -Os --picolibc words.c
files.image gcc -Os --picolibc files.c
upper.image gcc -Os upper.c
reverse.image gcc -Os reverse.c
shell.image gcc -Os shell.c programs.s
store.image clang store.c
steps.image clang steps.c
wal.image clang wal.c
wal-early.image gcc -DEARLY wal.c
wal-no-log.image gcc -DNO_LOG wal.c
rename.image clang rename.c
rename-no-sync.image clang -DNO_SYNC_BEFORE -DNO_SYNC_AFTER rename.c
rename-no-sync-before.image gcc -DNO_SYNC_BEFORE rename.c
rename-no-sync-after.image gcc -DNO_SYNC_AFTER rename.c
checks.image clang checks.c
checks-no-length.image clang -DNO_LENGTH checks.c
checks-no-sum.image gcc -DNO_SUM checks.c
END
exit $failed
