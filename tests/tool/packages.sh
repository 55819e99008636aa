#!/usr/bin/env bash
# What 'make install', 'make dist' and 'make deb' leave, used as a stranger would: a C program by pkg-config, and the Rust crate away from
# this repository. The archive is that of the folder $1, the tool is $2. The last line says that it went well, as does exit status 0.
set -eu
cd "$(dirname "$0")/../.."
root=$PWD
archive=$(readlink -f "$1")/libhondivole.a
tool=$(readlink -f "$2")
work=$(mktemp -d)
trap 'rm -rf "$work"' EXIT
unset HONDIVOLE_LIB_DIR
said() { "$@" > "$work/said" 2>&1 || { cat "$work/said"; echo "tests/tool/packages.sh: failed: $*"; exit 1; }; }

said make -s install PREFIX="$work/prefix" ARCHIVE="$archive" TOOL="$tool"
for file in bin/hondivole include/hondivole.h lib/libhondivole.a lib/pkgconfig/hondivole.pc share/man/man1/hondivole.1 share/man/man3/hondivole.3; do
  [ -f "$work/prefix/$file" ] || { echo "make install left no $file"; exit 1; }
done
# works PROGRAM: a tool that was installed or packed takes a flow, and closes a year.
works() {
  rm -f "$work/table" "$work/table.log" "$work/table.lock"
  said "$1" open "$work/table" --abi 01234 000471:4 471:4
  said "$1" flow "$work/table" "$root/examples/run.xml"
  said "$1" close "$work/table" 471 2021
  said "$1" check "$work/table"
}
works "$work/prefix/bin/hondivole"

# uses FOLDER: the C example and the Rust crate, by what pkg-config says in FOLDER.
uses() {
  export PKG_CONFIG_PATH=$1
  # shellcheck disable=SC2046
  said cc -std=c11 -Wall -Wextra -Werror "$root/examples/c/desk.c" $(pkg-config --cflags --libs hondivole) -o "$work/desk"
  "$work/desk" > "$work/desk.out"
  cmp "$work/desk.out" "$root/examples/c/desk.out"
}
uses "$work/prefix/lib/pkgconfig"
[ "$(pkg-config --variable=kit hondivole)" = "$(cat KIT)" ]
mkdir -p "$work/away/bindings"
cp -r bindings/rust "$work/away/bindings/"
(cd "$work/away/bindings/rust" && CARGO_TARGET_DIR=$work/cargo cargo --offline run --quiet --release --example message 2> "$work/err") > "$work/message.xml" || {
  cat "$work/err"
  exit 1
}
cmp "$work/message.xml" examples/messages/run.xml

said make -s dist ARCHIVE="$archive"
tar -xzf target/dist/hondivole-*-x86_64.tar.gz -C "$work"
dist=$(echo "$work"/hondivole-*-x86_64)
(cd "$dist" && said sha256sum --check --strict SHA256SUMS)
(cd target/dist && said sha256sum --check --strict ./*.sha256)
cmp "$dist/KIT" KIT
cmp "$dist/lib/libhondivole.a" "$archive"
uses "$dist/lib/pkgconfig"
# The tool is packed for x86-64 alone.
if [ "$(uname -m)" = x86_64 ]; then
  works "$dist/bin/hondivole"
fi
first=$(sha256sum < "target/dist/${dist##*/}.tar.gz")
said make -s dist ARCHIVE="$archive"
[ "$first" = "$(sha256sum < "target/dist/${dist##*/}.tar.gz")" ] || { echo "make dist packs another file the second time"; exit 1; }
if command -v dpkg-deb > /dev/null 2>&1; then
  said make -s deb ARCHIVE="$archive"
  dpkg-deb --contents target/dist/hondivole_*_amd64.deb | grep usr/lib/libhondivole.a > "$work/said"
  if [ "$(uname -m)" = x86_64 ]; then
    dpkg-deb --extract target/dist/hondivole_*_amd64.deb "$work/deb"
    works "$work/deb/usr/bin/hondivole"
  fi
fi
echo "installed, packed, linked by pkg-config from C and Rust"
