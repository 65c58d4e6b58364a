#!/usr/bin/env bash
# Builds the library and the benchmark, and runs it. Wants gcc (or a compiler named by CC), and
# python3-kafka of Debian for the comparison with kafka-python. The C side is optimised as the
# library is: -O3, for x86-64-v2. CPPFLAGS goes to the compiler (bench/pages.c has a use for it).
set -euo pipefail
cd "$(dirname "$0")"
(cd ../crates/kx_bench && rt lib > /dev/null)
work=$(mktemp -d)
trap 'rm -rf "$work"' EXIT
"${CC:-gcc}" ${CPPFLAGS-} -O3 -march=x86-64-v2 -Wall -Wextra -o "$work/bench" bench.c common.c \
    batch.c crc.c heap.c kafka.c logs.c pages.c parse.c reads.c serve.c served.c txns.c \
    ../crates/kx_bench/out/libkx_bench.a
"$work/bench" "$work/batches"
