#!/usr/bin/env bash
# examples/line/run.sh [ARCHIVE]: builds the grading line against the archive (target/staticlib/libembed.a if none is named),
# runs it and compares what it prints with line.out. Exit status 0 where they are the same.
set -euo pipefail
here=$(cd "$(dirname "$0")" && pwd)
root=$(cd "$here/../.." && pwd)
archive=${1:-$root/target/staticlib/libembed.a}
if [ ! -f "$archive" ]; then
    echo "no archive at $archive: build it with tools/archive" >&2
    exit 1
fi
work=$(mktemp -d)
trap 'rm -rf "$work"' EXIT
"${CC:-cc}" -std=c11 -Wall -Wextra -Werror -O2 -I "$root/include" "$here/line.c" "$archive" -o "$work/line"
"$work/line" > "$work/line.out"
diff "$here/line.out" "$work/line.out"
echo "line: as in line.out"
