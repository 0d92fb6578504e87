#!/usr/bin/env bash
# Packs and installs the libraries into a temporary folder, and builds and runs an example against what is there, with pkg-config where it is installed.
# It takes the archive as it is, and starts no proof.
set -euo pipefail
cd "$(dirname "${BASH_SOURCE[0]}")/.."
out=$(mktemp -d)
trap 'rm -rf "$out"' EXIT
fail() {
    echo "FAILED: $*"
    exit 1
}
export EGRIVUNDO_ARCHIVE=${EGRIVUNDO_ARCHIVE:-$PWD/target/staticlib/libcapi.a}
[[ -f $EGRIVUNDO_ARCHIVE ]] || fail "there is no archive: run host/archive.sh"
version=$(sed -n 's/^#define EGRIVUNDO_VERSION "\(.*\)"/\1/p' host/include/egrivundo.h)
name=egrivundo-$version
tarball=$name-x86_64-linux.tar.gz

# Packed twice, it is the same bytes, with its checksum.
make --no-print-directory BUILD="$out/one" dist >"$out/said" 2>&1 || { cat "$out/said"; fail "make dist"; }
make --no-print-directory BUILD="$out/two" dist >/dev/null 2>&1
cmp "$out/one/$tarball" "$out/two/$tarball" || fail "packed twice, it differs"
(cd "$out/one" && sha256sum --quiet --check "$tarball.sha256")

# It has what it must, its checksums are right and complete, and it tells the kit.
tar -C "$out" -xzf "$out/one/$tarball"
tree=$out/$name
for file in include/egrivundo.h lib/libegrivundo.a "lib/libegrivundo.so.$version" lib/libegrivundo.so lib/pkgconfig/egrivundo.pc examples/c/serve.c examples/c/restore.c examples/c/knob.c examples/room.py examples/table \
    docs/RULES.md docs/GLOSSARY.md README.md BUILD-INFO SHA256SUMS; do
    [[ -s $tree/$file ]] || fail "the package has no $file"
done
(cd "$tree" && sha256sum --quiet --check SHA256SUMS)
[[ $(find "$tree" -type f ! -name SHA256SUMS | wc -l) == $(wc -l <"$tree/SHA256SUMS") ]] || fail "a file has no checksum"
[[ -n $(rt version) ]] && grep -qxF "kit: $(rt version)" "$tree/BUILD-INFO" || fail "BUILD-INFO does not tell the kit"
if grep -rlF -e "$PWD" -e "$out" "$tree"; then fail "these name a folder of this machine"; fi

# Without the kit there is no package, and one line says why.
if ! (PATH=/usr/bin:/bin && command -v rt >/dev/null); then
    ! PATH=/usr/bin:/bin make --no-print-directory BUILD="$out/one" dist >"$out/said" 2>&1 || fail "packed without the kit"
    grep -qx 'rt is not installed; BUILD-INFO tells the kit by it' "$out/said" || fail "without the kit it says: $(cat "$out/said")"
fi

# Installed under a folder of its own, and away again.
make --no-print-directory BUILD="$out/one" install DESTDIR="$out/root" PREFIX=/opt/box LIBDIR=/opt/box/lib64 >/dev/null
[[ $(cd "$out/root" && find . ! -type d | LC_ALL=C sort | tr '\n' ' ') == "./opt/box/include/egrivundo.h ./opt/box/lib64/libegrivundo.a ./opt/box/lib64/libegrivundo.so ./opt/box/lib64/libegrivundo.so.${version%.*} \
./opt/box/lib64/libegrivundo.so.$version ./opt/box/lib64/pkgconfig/egrivundo.pc " ]] || fail "other files are installed: $(find "$out/root" ! -type d)"
grep -qx 'libdir=/opt/box/lib64' "$out/root/opt/box/lib64/pkgconfig/egrivundo.pc" || fail "egrivundo.pc names another folder"
make --no-print-directory BUILD="$out/one" uninstall DESTDIR="$out/root" PREFIX=/opt/box LIBDIR=/opt/box/lib64 >/dev/null
[[ -z $(find "$out/root" ! -type d) ]] || fail "uninstall leaves files"

# The package works where it stands: what pkg-config tells, else the folders by hand; with the shared library, and with the static one.
if command -v pkg-config >/dev/null; then
    export PKG_CONFIG_PATH=$tree/lib/pkgconfig
    flags=$(pkg-config --cflags egrivundo) libraries=$(pkg-config --libs egrivundo) how=pkg-config
    [[ $(pkg-config --modversion egrivundo) == "$version" ]] || fail "egrivundo.pc has another version"
else
    flags=-I$tree/include libraries="-L$tree/lib -legrivundo" how="no pkg-config"
fi
# shellcheck disable=SC2086
"${CC:-cc}" -std=c99 $flags "$tree/examples/c/serve.c" $libraries -o "$out/shared"
# shellcheck disable=SC2086
"${CC:-cc}" -std=c99 $flags "$tree/examples/c/serve.c" "$tree/lib/libegrivundo.a" -o "$out/static"
"$tree/examples/room.py" pack "$tree/examples/viewing-room.room" "$out/table" "$out/values"
for program in shared static; do
    got=$(printf 'GA"Commentary">1\r' | LD_LIBRARY_PATH=$tree/lib "$out/$program" "$out/table" "$out/values")
    [[ $got == $'GA"Commentary">1=-6.5\r' ]] || fail "with the $program library serve writes: $got"
done
! "$out/shared" 2>/dev/null || fail "the shared library is not needed"
echo "packed: $tarball, the same twice; installed; used by $how, shared and static"
