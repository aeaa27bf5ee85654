# What the commands of this folder share: where things are, and how both sides are built.
set -eu
here=$(cd "$(dirname "$0")" && pwd)
root=$(dirname "$here")
out=$here/out
packages="librust-bigdecimal-dev librust-digest-dev librust-log-dev librust-num-bigint-dev
  librust-num-traits-dev librust-serde-dev librust-serde-json-dev librust-strum-macros-dev
  librust-uuid-dev patch"

stop() {
  echo "$(basename "$0"): $*" >&2
  exit 2
}

# need_packages NAME...: stops where a Debian package is missing, and says how to get it.
need_packages() {
  missing=
  for p in "$@"; do
    dpkg-query -W -f '${Status}' "$p" 2>/dev/null | grep -q 'ok installed' || missing="$missing $p"
  done
  [ -z "$missing" ] || stop "packages are missing; run: apt-get install --no-install-recommends$missing"
}

# set_source FOLDER: the crate's source, named src--src--types.rs.txt or src/types.rs.
set_source() {
  [ -e "$1/src--src--types.rs.txt" ] || [ -e "$1/src/types.rs" ] || stop "no source of the crate in $1"
  AVRO_SOURCE=$(cd "$1" && pwd)
  export AVRO_SOURCE
}

# build_crate CARGO-WORDS...: the crate and the programs of this folder, from Debian's packages.
build_crate() {
  command -v cargo >/dev/null || stop "cargo is not on the path (1.88 or newer)"
  # shellcheck disable=SC2086
  need_packages $packages
  registry=$(dpkg -L librust-uuid-dev | sed -n 's,/uuid-[0-9.]*/Cargo.toml$,,p' | head -1)
  (cd "$here" && cargo --offline --config 'source.crates-io.replace-with="debian"' \
    --config "source.debian.directory=\"$registry\"" build --quiet --release "$@")
}

# build_program, build_archive: Hulmbax's side. Where RESOLVE or HULMBAX_ARCHIVE names a built file,
# that one is taken.
build_program() {
  [ -n "${RESOLVE:-}" ] || run_script tests/program resolve
  RESOLVE=$(realpath "${RESOLVE:-$root/target/bin/resolve}")
  [ -x "$RESOLVE" ] || stop "no program $RESOLVE"
}

build_archive() {
  [ -n "${HULMBAX_ARCHIVE:-}" ] || run_script c/archive
  HULMBAX_ARCHIVE=$(realpath "${HULMBAX_ARCHIVE:-$root/target/staticlib/libhulmbax.a}")
  export HULMBAX_ARCHIVE
  [ -e "$HULMBAX_ARCHIVE" ] || stop "no archive $HULMBAX_ARCHIVE"
  # the linker finds it by this name in its folder
  [ "$(basename "$HULMBAX_ARCHIVE")" = libhulmbax.a ] || stop "$HULMBAX_ARCHIVE must be called libhulmbax.a"
}

# rename_before: where HULMBAX_BEFORE names an older archive, one whose entry is called before_resolve, so
# that a program can have both.
rename_before() {
  [ -n "${HULMBAX_BEFORE:-}" ] || return 0
  need_packages binutils
  mkdir -p "$out/before"
  objcopy --redefine-sym hulmbax_resolve=before_resolve "$HULMBAX_BEFORE" "$out/before/libbefore.a"
  HULMBAX_BEFORE=$out/before/libbefore.a
  export HULMBAX_BEFORE
}

# run_script SCRIPT WORDS...: a script of the repository that has rt build something.
run_script() {
  command -v rt >/dev/null || stop "rt is not on the path"
  mkdir -p "$out"
  (cd "$root" && "$@") >"$out/rt.log" 2>&1 || { tail -5 "$out/rt.log" >&2; stop "$* failed: $out/rt.log"; }
}
