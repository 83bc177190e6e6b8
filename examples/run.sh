#!/bin/sh
# Builds the static library of `gii_c` as target/libgii.a, links the C and the Rust programs with it, runs them, and
# compares what they print with `expected` and `expected_binary`. It needs rt, cc and rustc on the path, on x86-64
# Linux. With --quiet it prints nothing if all is well: so the gate runs it.
set -eu
cd "$(dirname "$0")/.."
for tool in rt cc rustc; do
    command -v "$tool" > /dev/null || { echo "examples/run.sh: $tool is not on the path" >&2; exit 2; }
done
built=target/examples
mkdir -p "$built"
(cd crates/gii_c && rt lib) > "$built/staticlib.log" 2>&1 || { cat "$built/staticlib.log"; exit 1; }
cp crates/gii_c/out/libgii_c.a target/libgii.a
for name in main binary; do
    cc -std=c99 -Wall -Wextra -Werror -O2 -I include "examples/c/$name.c" target/libgii.a -o "$built/c_$name"
    rustc --edition 2021 -D warnings -O "examples/rust/$name.rs" -L native=target -l static=gii -o "$built/rust_$name"
done
for program in c_main rust_main c_binary rust_binary; do
    expected=examples/expected
    case $program in *_binary) expected=examples/expected_binary ;; esac
    "$built/$program" > "$built/$program.out" || { echo "examples: $program ended with status $?"; exit 1; }
    diff "$expected" "$built/$program.out" || { echo "examples: $program printed something else"; exit 1; }
    [ "${1:-}" = --quiet ] || echo "examples: $program: ok"
done
