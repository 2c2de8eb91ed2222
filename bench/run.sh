#!/bin/sh
# Builds the proved functions as a static library and the benchmark with rustc, and runs it.
set -e
cd "$(dirname "$0")/.."
mkdir -p target
(cd crates/speed && rt lib) >target/speed.log 2>&1 || { cat target/speed.log; exit 1; }
kit=$(dirname "$(rt doc)")/c
rustc --edition 2024 -C opt-level=3 bench/main.rs -o target/bench \
    -L crates/speed/out -l static=speed -L "$kit" -l static=os_c -l static=libc_c
exec target/bench
