#!/usr/bin/env bash
# Builds the hosts in C and Rust over the archive of the proved library, and runs them: the header as C11 and C++17
# with every warning an error, tools/header.c as both, the sample on a capture, the lists of the exports, the tests of
# host/, and the programs that README.md shows, which must print what it says. Any failure fails it. Where the machine
# has no archive or lacks a tool, it says so and does the rest.
#
#   tools/hosts.sh            CC, CXX and CARGO_TARGET_DIR are heeded
set -eu
cd "$(dirname "$0")/.."
cc=${CC:-cc}
cxx=${CXX:-c++}
warn='-O2 -Wall -Wextra -pedantic -Werror -Iinclude'
work=$(mktemp -d)
trap 'rm -rf "$work"' EXIT
passed=0 failed=0 left=0

# runs a part, and says what it printed where it failed
part() {
    local what=$1
    shift
    if "$@" >"$work/said" 2>&1; then
        echo "hosts: $what: passed"
        passed=$((passed + 1))
    else
        tail -n 40 "$work/said"
        echo "hosts: $what: FAILED"
        failed=$((failed + 1))
    fi
}

without() {
    echo "hosts: $1: left out, $2"
    left=$((left + 1))
}

has() { command -v "$1" >/dev/null; }

# ---- the archives: each crate that exports anything to C
archives=
for name in $(sed -n 's/^\([a-z_]*\)_c staticlib:.*/\1/p' crates.txt); do
    status=0
    tools/archive.sh "$name" >"$work/said" 2>&1 || status=$?
    if [ "$status" = 3 ]; then
        without "archive $name" "$(tail -n 1 "$work/said")"
        archives=
    elif [ "$status" != 0 ]; then
        tail -n 40 "$work/said"
        echo "hosts: archive $name: FAILED"
        failed=$((failed + 1))
        archives=
    else
        echo "hosts: archive $name: passed"
        passed=$((passed + 1))
        archives=yes
    fi
done

# ---- the lists of the exports
if has python3; then
    part 'exports, header and Rust agree' python3 tools/interface.py
else
    without 'exports, header and Rust agree' 'no python3'
fi

# the first code under a heading of README.md
shown() { awk -v head="$1" '$0 == head { there = 1 } there && /^```/ { if (code) exit; code = 1; next } code' README.md; }

# a program prints one line, and README.md has it
prints() {
    local line
    line=$("$@") && grep -qF "\`$line\`" README.md && echo "$line"
}

# ---- C and C++
c_header() { $cc -std=c11 $warn -c -o "$work/header.c.o" tools/header.c; }
cxx_header() { $cxx -x c++ -std=c++17 $warn -c -o "$work/header.cxx.o" tools/header.c; }
c_holds() { $cc "$work/header.c.o" target/staticlib/libexports.a -o "$work/header.c.run" && "$work/header.c.run"; }
cxx_holds() { $cxx "$work/header.cxx.o" target/staticlib/libexports.a -o "$work/header.cxx.run" && "$work/header.cxx.run"; }
sample() { $cc -std=c11 $warn -c -o "$work/host.o" samples/host.c; }
linked() { $cc "$work/host.o" target/staticlib/libexports.a -o "$work/host"; }
replays() { "$work/host" samples/night.capture >"$work/told" && diff "$work/told" crates/capture/stdout; }
quotes() {
    cat crates/capture/stdout samples/night.best >"$work/due"
    "$work/host" samples/night.capture JNGSB NONE >"$work/told" && diff "$work/told" "$work/due"
}

readme_c() {
    shown '## From C' >"$work/readme.c"
    $cc -std=c11 $warn "$work/readme.c" target/staticlib/libexports.a -o "$work/readme" && prints "$work/readme"
}

if has ${cc%% *}; then
    part 'header as C11' c_header
    part 'sample as C11' sample
else
    without 'header and sample as C11' "no $cc"
fi
if has ${cxx%% *}; then
    part 'header as C++17' cxx_header
else
    without 'header as C++17' "no $cxx"
fi
if [ -n "$archives" ]; then
    if [ -f "$work/header.c.o" ]; then part 'header over the archive, C' c_holds; fi
    if [ -f "$work/header.cxx.o" ]; then part 'header over the archive, C++' cxx_holds; fi
    if [ -f "$work/host.o" ]; then
        part 'sample linked' linked
        part 'sample prints what capture prints' replays
        part 'sample asks for best prices' quotes
        part 'README, from C' readme_c
    fi
fi

# ---- Rust
if [ -z "$archives" ]; then
    without 'what is linked with the archive' 'there is none'
elif has cargo; then
    in_host() { (cd host && cargo test --release --offline); }
    readme_rust() {
        mkdir -p "$work/readme-rust/src"
        shown '## From Rust' >"$work/readme-rust/src/main.rs"
        cat >"$work/readme-rust/Cargo.toml" <<EOF
[package]
name = "readme"
version = "0.1.0"
edition = "2021"

[dependencies]
jangsebit = { path = "$PWD/host/jangsebit" }

[workspace]
EOF
        prints cargo run --quiet --release --offline --manifest-path "$work/readme-rust/Cargo.toml" --target-dir "$work/readme-target"
    }
    part 'cargo test in host/' in_host
    part 'README, from Rust' readme_rust
else
    without 'cargo test in host/, README from Rust' 'no cargo'
fi

echo "hosts: $passed passed, $failed failed, $left left out"
[ "$failed" = 0 ]
