# Sourced by the scripts that need the Rust source, before they leave their caller's folder: a relative CAIRN_SRC is the caller's, and becomes the
# absolute path that all which they call gets. Where it is not set, the source is looked for in ../shared/docs/src beside the repository.
repository=$(cd "$(dirname "${BASH_SOURCE[0]}")/.." && pwd -P)
CAIRN_SRC=${CAIRN_SRC:-$repository/../shared/docs/src}
case "$CAIRN_SRC" in
  /*) ;;
  *) CAIRN_SRC=$PWD/$CAIRN_SRC ;;
esac
if [ -d "$CAIRN_SRC" ]; then
  CAIRN_SRC=$(cd "$CAIRN_SRC" && pwd -P)
fi
export CAIRN_SRC
no_source="no Rust source at $CAIRN_SRC; it is repository trancee/cairn, commit 045324b408: check it out and name its folder in CAIRN_SRC"

source_found() {
  [ -d "$CAIRN_SRC/core/cairn-proto/src" ]
}
