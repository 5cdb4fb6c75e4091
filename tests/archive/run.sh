#!/usr/bin/env bash
# tests/archive/run.sh [CALLS]: holds the static archive of include/tray_store.h to the second implementation.
# First the comparison itself, on stores with a slip each; then the archive. ARCHIVE names another one.
set -euo pipefail
root=$(cd "$(dirname "$0")/../.." && pwd)
ARCHIVE=$(realpath -e "${ARCHIVE:-$root/target/staticlib/libembed.a}")
export ARCHIVE

cd "$root/tests/archive"
cargo test --offline --release --quiet
cargo build --offline --release --features linked
target/release/damage --calls "${1:-400000}"
