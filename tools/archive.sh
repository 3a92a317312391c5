#!/usr/bin/env bash
# Proves the exports and writes their archive, target/staticlib/libexports.a, of the static library crates/exports_c.
#
#   tools/archive.sh exports     exit status 3 where no archive can be made on this machine
#
# rt writes archives for x86-64.
set -eu
cd "$(dirname "$0")/.."
if [ $# -ne 1 ] || [ ! -d "crates/$1_c" ]; then
    echo 'usage: tools/archive.sh exports' >&2
    exit 2
fi
name=$1
out=target/staticlib/lib$name.a
if ! command -v rt >/dev/null; then
    echo 'archive: rt is not on the path' >&2
    exit 3
fi
if [ "$(uname -m)" != x86_64 ]; then
    echo "archive: rt writes archives for x86-64, this machine is $(uname -m)" >&2
    exit 3
fi
mkdir -p target/staticlib
(cd "crates/${name}_c" && rt lib)
cp "crates/${name}_c/out/lib${name}_c.a" "$out"
