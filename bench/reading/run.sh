#!/usr/bin/env bash
# Times the readers of frames: bash bench/reading/run.sh (needs rt and rustc).
. "$(dirname "$0")/../library.sh"
make_library reading_c "$root/bench/reading/exports.txt" base number utf8 text rounding scalar frame value_parts value schema_parts schema_default schema
rustc --edition 2021 -O "$root/bench/reading/bench.rs" -L "$work/crates/reading_c/out" -l static=reading_c -o "$work/bench"
"$work/bench" < "$root/bench/reading/finish.txt"
