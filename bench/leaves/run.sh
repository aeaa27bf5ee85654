#!/usr/bin/env bash
# Times the conversions and the UTF-8 test beside Rust's own: bash bench/leaves/run.sh (needs rt and rustc).
. "$(dirname "$0")/../library.sh"
make_library leaves_c "$root/bench/leaves/exports.txt" base number utf8 text rounding scalar bits
rustc -O "$root/bench/leaves/bench.rs" -L "$work/crates/leaves_c/out" -l static=leaves_c -o "$work/bench"
"$work/bench"
