#!/bin/sh
# Installs bench's package in a fresh root of Debian, without the toolchain, and runs there what a visitor would.
#
#     try-package.sh FOLDER
#
# FOLDER has what tools/package.sh made. It wants to be root, and Debian's package debootstrap. In the root it runs the lessons of
# docs/TEACHING.md to the letter, and the recipes of README.md; then those lessons again by the tarball, from a folder.
set -eu
here=$(CDPATH='' cd "$(dirname "$0")/.." && pwd)
folder=$(CDPATH='' cd "$1" && pwd)
root=$(mktemp -d)
trap 'rm -rf "$root"' EXIT
chmod 755 "$root"
debootstrap --variant=minbase --include=man-db bookworm "$root" >"$root.log" || {
    tail -n 5 "$root.log" >&2
    exit 1
}
rm -f "$root.log"
cp "$folder"/bench_*_amd64.deb "$root/tmp/bench.deb"
chroot "$root" dpkg -i /tmp/bench.deb >/dev/null
chroot "$root" bench --version
chroot "$root" sh -c 'man bench | grep -q "^SYNOPSIS" && test -f /usr/share/bash-completion/completions/bench'

echo "the lessons, by the installed program:"
python3 "$here/tools/try-sessions.py" --within "$root" bench "$here/crates/test_runner/data/teaching.sessions"

echo "the recipes of README.md:"
chroot "$root" sh -eu -c '
    cp -R /usr/share/bench/examples /tmp/examples
    cd /tmp
    bench exec examples/sum.s
    bench exec --limit 1000000 examples/c/hello.image
    bench asm examples/in-place.s saves.image
    status=0
    bench crashes --expect examples/saves.files examples/saves.script || status=$?
    test $status -eq 7
    bench asm examples/lost-update.s /tmp/lost-update.image
    bench explore /tmp/lost-update.image'

echo "the lessons, by the tarball:"
mkdir "$root/tmp/tree"
tar -xzf "$folder"/bench-*-linux-amd64.tar.gz -C "$root/tmp/tree" --strip-components=1
chroot "$root" dpkg -r bench >/dev/null
python3 "$here/tools/try-sessions.py" --within "$root" /tmp/tree/bench "$here/crates/test_runner/data/teaching.sessions"
