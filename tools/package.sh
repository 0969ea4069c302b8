#!/bin/sh
# Makes packages of the proved program: bench_VERSION_amd64.deb, bench-VERSION-linux-amd64.tar.gz and SHA256SUMS, in a folder.
#
#     package.sh [FOLDER]
#
# FOLDER is out/package if it is not given. The program is the whole one, which ./bench --build proves and builds first if it is not there
# yet. PROGRAM names another file in its place, which then is not said to be proved. Two runs at one commit give the same bytes.
# It needs Debian's dpkg, binutils, gzip and tar. Both packages have one tree: bin/bench, a script that runs lib/bench/bench from
# wherever the tree stands; in share/bench examples and what builds programs in C; in share/doc/bench the pages and what was proved; a man
# page, and completions for bash and zsh.
set -eu
export LC_ALL=C
umask 022
top=$(CDPATH='' cd "$(dirname "$0")/.." && pwd)
folder=${1:-$top/out/package}
fail() {
    echo "package.sh: $1" >&2
    exit 1
}
for tool in dpkg-deb objdump gzip tar sha256sum; do
    command -v "$tool" >/dev/null || fail "$tool is not there: Debian has it in dpkg, binutils, gzip, tar and coreutils"
done

version=$(cat "$top/VERSION")
commit=$(git -C "$top" describe --always --dirty --abbrev=12) || fail "this is no clone: there is no commit to name"
SOURCE_DATE_EPOCH=$(git -C "$top" log -1 --format=%ct)
export SOURCE_DATE_EPOCH
if [ -n "${PROGRAM-}" ]; then
    program=$PROGRAM proved="Not said to be proved: $(basename "$PROGRAM") was given in place of the program of ./bench."
else
    case $commit in
        *-dirty) fail "commit first: a package names its commit" ;;
    esac
    "$top/bench" --build || fail "./bench --build builds no program"
    program=$top/crates/bench/out/bench
    proved="Proved and built by $(rt version | head -n 1), at this commit."
fi
[ -x "$program" ] || fail "$program is not there"
libc=$(objdump -T "$program" | sed -n 's/.*GLIBC_\([0-9.]*\).*/\1/p' | sort -V | tail -n 1)

room=$(mktemp -d)
trap 'rm -rf "$room"' EXIT
tree=$room/tree
share=$tree/share/bench
doc=$tree/share/doc/bench
mkdir -p "$tree/bin" "$tree/lib/bench" "$share" "$doc/docs" "$tree/share/man/man1" \
    "$tree/share/bash-completion/completions" "$tree/share/zsh/vendor-completions"

install -m 755 "$program" "$tree/lib/bench/bench"
cat >"$tree/bin/bench" <<'END'
#!/bin/sh
# Runs bench from wherever this tree stands.
here=$(dirname "$(readlink -f "$0")")/..
[ "$#:$*" = 1:--version ] && exec cat "$here/lib/bench/version"
exec "$here/lib/bench/bench" "$@"
END
chmod 755 "$tree/bin/bench"
{
    echo "bench $version, commit $commit"
    echo "$proved"
} >"$tree/lib/bench/version"

git -C "$top" archive HEAD crates/test_runner/data/examples | tar -x -C "$room"
cp -R "$room/crates/test_runner/data/examples" "$share/examples"
# The parts that build programs in C, also where one looks for them; and the program under the name that the pages give.
for part in build.sh calls.h image.ld start.s library.c picolibc.c posix.c posix; do
    ln -s "examples/c/$part" "$share/$part"
done
ln -s ../../bin/bench "$share/bench"

cp "$top/README.md" "$top/CHANGES.md" "$doc/"
cp "$top"/docs/*.md "$top"/docs/*.svg "$doc/docs/"
ln -s ../../bench/examples "$doc/examples"
{
    cat "$tree/lib/bench/version"
    echo
    echo "The kits of Rattle with which bench is proved:"
    sed -n 's/^[^#]/    &/p' "$top/KIT"
    echo
    echo "SHA-256 of lib/bench/bench: $(sha256sum <"$program" | cut -d ' ' -f 1)"
    echo "It needs Linux on x86-64 and the C library of GNU, version $libc or later."
    echo "What is proved, what is only tested and what is trusted stands in README.md and docs/PROOFS.md."
} >"$doc/PROVED"
python3 "$top/tools/command-pages.py" man | gzip -9n >"$tree/share/man/man1/bench.1.gz"
python3 "$top/tools/command-pages.py" bash >"$tree/share/bash-completion/completions/bench"
python3 "$top/tools/command-pages.py" zsh >"$tree/share/zsh/vendor-completions/_bench"
find "$tree" -type f ! -perm /111 -exec chmod 644 {} +
find "$tree" -type f -perm /111 -exec chmod 755 {} +

mkdir -p "$folder"
name=bench-$version-linux-amd64
deb=bench_${version}_amd64.deb

# The tarball: the tree, and at its top the names that the pages give.
mkdir "$room/$name"
cp -R "$tree/." "$room/$name"
ln -s bin/bench "$room/$name/bench"
ln -s share/bench/examples "$room/$name/examples"
ln -s share/doc/bench/docs "$room/$name/docs"
ln -s share/doc/bench/README.md "$room/$name/README.md"
tar --sort=name --owner=0 --group=0 --numeric-owner --mtime="@$SOURCE_DATE_EPOCH" --format=gnu -C "$room" -cf - "$name" |
    gzip -9n >"$folder/$name.tar.gz"

mkdir -p "$room/deb/usr" "$room/deb/DEBIAN"
cp -R "$tree/." "$room/deb/usr"
cat >"$room/deb/DEBIAN/control" <<END
Package: bench
Version: $version
Architecture: amd64
Maintainer: the authors of bench <bench@localhost>
Installed-Size: $(du -sk --apparent-size "$tree" | cut -f 1)
Depends: libc6 (>= $libc)
Suggests: gcc-riscv64-unknown-elf, picolibc-riscv64-unknown-elf, gdb-multiarch
Section: otherosfs
Priority: optional
Description: RISC-V programs on a kernel whose output waits for the disk
 bench runs programs for RISC-V on a kernel of its own with a simulated disk.
 What a program writes to a terminal is held back until every change of a file
 on which it depends is on the disk. Instructions, kernel and log are proved.
END
(cd "$room/deb" && find usr -type f | sort | xargs md5sum) >"$room/deb/DEBIAN/md5sums"
find "$room/deb" -exec touch -hd "@$SOURCE_DATE_EPOCH" {} +
dpkg-deb --root-owner-group -Zgzip --build "$room/deb" "$folder/$deb" >/dev/null

(cd "$folder" && sha256sum "$deb" "$name.tar.gz") >"$folder/SHA256SUMS"
echo "$folder: $deb, $name.tar.gz, SHA256SUMS"
cat "$tree/lib/bench/version"
