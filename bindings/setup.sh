# Sourced by the commands that use the proved library: it is in FINDER_LIB_DIR, and is built first where that is not set.

if [ -z "${FINDER_LIB_DIR:-}" ]; then
    root=$(realpath "$(dirname "${BASH_SOURCE[0]}")/..")
    "$root/tools/build" cabinet
    FINDER_LIB_DIR=$root/target/staticlib
fi
FINDER_LIB_DIR=$(realpath "$FINDER_LIB_DIR")
export FINDER_LIB_DIR
