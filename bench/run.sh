#!/usr/bin/env bash
# The benchmark: builds the codec as a static library, and runs it beside libfec in one program, and beside the BCH
# decoder of IT++ in another; then products by one value in three ways. It needs rt, cc, c++, libfec's header (Debian's
# libfec-dev) and those of IT++ (libitpp-dev). Where a header is missing, it installs the package, or says that it is
# needed.
set -eu
cd "$(dirname "$0")/.."
for tool in rt cc c++; do
    command -v "$tool" > /dev/null || { echo "bench/run.sh: $tool is not on the path" >&2; exit 2; }
done

has() { echo "#include <$1>" | c++ -x c++ -E - > /dev/null 2>&1; }

# needs PACKAGE HEADER
needs() {
    lacks() { echo "bench/run.sh: the header $2 is missing, and $3; Debian has it in $1" >&2; exit 2; }
    has "$2" && return
    command -v apt-get > /dev/null || lacks "$1" "$2" "there is no apt-get"
    [ "$(id -u)" = 0 ] || lacks "$1" "$2" "only root may install it"
    { apt-get update && apt-get install -y "$1"; } > /dev/null || lacks "$1" "$2" "apt-get did not install it"
    has "$2" || lacks "$1" "$2" "apt-get did not bring it"
}

needs libfec-dev fec.h
needs libitpp-dev itpp/comm/bch.h
mkdir -p target
(cd crates/gii_c && rt lib) > /dev/null
cp crates/gii_c/out/libgii_c.a target/libgii.a
cc -O2 -Wall -Iinclude bench/bench.c target/libgii.a -lfec -o target/bench
c++ -O2 -Wall -Iinclude bench/binary.cc target/libgii.a -litpp -o target/binary
(cd crates/bench_products_c && rt lib) > /dev/null
cp crates/bench_products_c/out/libbench_products_c.a target/libbench_products.a
cc -O2 -Wall bench/products.c target/libbench_products.a -o target/products
target/bench
echo
target/binary
echo
target/products
