# Sourced by the oracle's commands: finds the Rust source, builds the program and names it.
set -euo pipefail

oracle=$(cd "$(dirname "${BASH_SOURCE[0]}")" && pwd)
program="$oracle/target/release/oracle"
source "$oracle/source.sh"
export CARGO_NET_OFFLINE=true

# What crates/replay/stdin was made of.
sample_seeds=110,1126,583,2028,2312,2371,3335,3069,4560 sample_calls=300

# $1: "pass over" where a run without the source is passed over, unless it is the gate's.
find_source() {
  if source_found; then
    return
  fi
  if [ "${CI:-}" = true ] || [ "$1" != "pass over" ]; then
    echo "oracle: $no_source" >&2
    exit 1
  fi
  echo "oracle: $no_source; the comparison was passed over"
  exit 0
}

# Builds the program; the words go to cargo.
build() {
  if ! command -v cargo >/dev/null; then
    echo "oracle: cargo is missing; Rust 1.95 builds the oracle" >&2
    exit 1
  fi
  cargo build --release --offline --locked --quiet --manifest-path "$oracle/Cargo.toml" --target-dir "$oracle/target" "$@"
}

# Proves and builds the library, unless no file of a crate is newer than it. One that GOOSETABLE_LIB names is taken as it is.
build_library() {
  local library="$repository/target/staticlib/libgoosetable.a"
  if [ -n "${GOOSETABLE_LIB:-}" ]; then
    echo "oracle: the library is $GOOSETABLE_LIB/libgoosetable.a" >&2
  elif [ ! -f "$library" ] || [ -n "$(find "$repository/crates" "$repository/crates.txt" -name out -prune -o -type f -newer "$library" -print -quit)" ]; then
    "$repository/tools/build" goosetable
  fi
}

no_library() {
  echo "oracle: tools/build goosetable failed; target/build/goosetable.log has what rt said" >&2
  exit 1
}

build_with_library() {
  build_library || no_library
  build --features library
}
