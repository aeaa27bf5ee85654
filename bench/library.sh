# Sourced by leaves/run.sh and reading/run.sh: a static library of exported functions, for timing. They are a crate of their own,
# made in a temporary folder, so that the repository has no crate for timing.
set -e
root="$(cd "$(dirname "${BASH_SOURCE[0]}")/.." && pwd)"
work="$(mktemp -d)"
trap 'rm -rf "$work"' EXIT

# make_library NAME EXPORTS CRATE...: proves the crates and the exports, and writes $work/crates/NAME/out/libNAME.a.
make_library() {
    name=$1
    exports=$2
    shift 2
    mkdir -p "$work/crates/$name/src"
    for c in "$@"; do
        # with what `rt` kept in the crate's folder out
        cp -a "$root/crates/$c" "$work/crates/$c"
        grep "^$c:" "$root/crates.txt" >> "$work/crates.txt"
    done
    cp "$exports" "$work/crates/$name/src/lib.rt"
    echo "$name staticlib: $*" >> "$work/crates.txt"
    (cd "$work/crates/$name" && rt lib > "$work/log" 2>&1) || { tail -5 "$work/log"; exit 1; }
}
