#!/usr/bin/env bash
# tests/compare.sh [PROGRAM [SHEETS]]: holds a sheet program to the second implementation; if none is named, the one that `rt ci` or
# `rt run` left in crates/sheet/out.
# Random sheets whole, other ones in pieces, the edges of a run, every example. Fails at the first difference.
set -euo pipefail
root=$(cd "$(dirname "$0")/.." && pwd)
program=$(realpath -e "${1:-$root/crates/sheet/out/sheet}")
sheets=${2:-3000}

cd "$root/tests"
cargo build --offline --release
built=$root/tests/target/release
told=$(mktemp -d)
trap 'kill $(jobs -p) 2>/dev/null || true; rm -rf "$told"' EXIT

# Each half of the sheets on a core of its own. Those in pieces have other seeds and are fewer: a pause behind each piece takes its time.
half=$((sheets / 2))
"$built/compare" "$program" --sheets "$half" >"$told/first" 2>&1 &
"$built/compare" "$program" --sheets "$((sheets - half))" --from "$half" >"$told/second" 2>&1 &
"$built/compare" "$program" --sheets "$((sheets / 4))" --from "$sheets" --pieces >"$told/pieces" 2>&1 &
failed=0
for job in $(jobs -p); do wait "$job" || failed=1; done
cat "$told/first" "$told/second" "$told/pieces"
[ "$failed" = 0 ]

SHEET=$program cargo test --offline --release --quiet --test edges -- --nocapture --test-threads 1

for example in "$root"/examples/*.txt; do
    "$built/sheet-text" write "$example" | "$program" | cmp - "${example%.txt}.out"
    echo "same: examples/${example##*/}"
done
