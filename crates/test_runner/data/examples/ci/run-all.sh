#!/bin/sh
# Builds each program in C of a folder for bench, and runs it: it has to end with status 0.
#
#     run-all.sh FOLDER [FLAGS..]
#
# The flags are the compiler's. BENCH and BUILD name the program and the script that builds; by themselves they are those of the package.
set -u
bench=${BENCH:-bench} build=${BUILD:-/usr/share/bench/build.sh}
[ $# -ge 1 ] && [ -d "$1" ] || {
    sed -n '2,6s/^# \{0,1\}//p' "$0" >&2
    exit 2
}
folder=$1
shift
room=$(mktemp -d)
trap 'rm -rf "$room"' EXIT
passed=0 failed=0
for source in "$folder"/*.c; do
    if timeout 60 "$build" --picolibc "$@" -g "$source" -lm "$room/image" >"$room/log" 2>&1 &&
        timeout 60 "$bench" exec "$room/image.elf" >>"$room/log" 2>&1 </dev/null; then
        passed=$((passed + 1))
    else
        failed=$((failed + 1))
        echo "FAIL: $(basename "$source" .c)"
        tail -n 5 "$room/log"
    fi
done
echo "$passed passed, $failed failed"
[ $failed -eq 0 ]
