#!/usr/bin/env bash
# tests/bench/run.sh            times every workload in interleaved rounds and prints a table of ratios to C
# tests/bench/run.sh --count    counts instructions (valgrind) a call of the interface, and how the cost grows with spans and stores
# TRAY_ARCHIVE names the folder of libembed.a, target/staticlib if unset; CC the compiler of the C.
set -euo pipefail
cd "$(dirname "$0")"
cargo build --offline --release --quiet
bench=$PWD/target/release/tray-bench
names=(archive C Rust)
declare -A prefix=([archive]=tray [C]=c_tray [Rust]=rust_tray)
calls=2000
span=32

# run CALLS NAME WORKLOAD KEYS VERSIONS: sets `instructions` spent in CALLS, and `made`, `steps` and `shown` of the workload.
# The fill before it is not counted.
run() {
    local out=target/callgrind.out call function printed counted=()
    for call in $1; do
        function=${prefix[$2]}_$call
        if [[ $2 == Rust && $call == start_* ]]; then function=rust_tray_start; fi
        counted+=(--toggle-collect="$function")
    done
    printed=$(valgrind --tool=callgrind --callgrind-out-file="$out" "${counted[@]}" \
        --zero-before=tray_bench_counted "$bench" count "$2" "$3" "$4" "$5" "$calls" "$span" 2>target/callgrind.log)
    read -r made steps shown <<<"$printed"
    instructions=$(sed -n 's/^totals: //p' "$out")
}

ratio() { awk -v a="$1" -v b="$2" 'BEGIN { printf a < 1000 * b ? "%.1f" : "%.0f", a / b }'; }

# row LABEL CALL WORKLOAD DIVISOR KEYS VERSIONS: instructions of each implementation, divided by `made` or `steps`.
row() {
    local line="| $1 |" name
    for name in "${names[@]}"; do
        run "$2" "$name" "$3" "$5" "$6"
        line+=" $(ratio "$instructions" "${!4}") |"
    done
    echo "$line"
}

count_calls() {
    printf '\nInstructions a call of the interface, 1,023 trays and 4,095 readings:\n\n'
    printf '| call | archive | C | Rust |\n|---|--:|--:|--:|\n'
    row "step of a get" step get steps 1023 4095
    row "step of a put" step put steps 1023 4095
    row "step of a get, eight stations" step get-eight steps 1023 4095
    row "step of a put, eight stations" step put-eight steps 1023 4095
    row "step of a fill" step fill steps 1023 4095
    row "step of a sweep, $span trays" step sweep steps 1023 4095
    row "step of a sweep, $span trays, eight stations" step sweep-eight steps 1023 4095
    calls=20 span=1023 row "step of a sweep, all trays" step sweep steps 1023 4095
    row "start of a get" start_get get made 1023 4095
    row "start of a put" start_put put made 1023 4095
    row "start of a sweep" start_sweep sweep made 1023 4095
    calls=20 row inspection inspect inspect made 1023 4095
}

# sweeps SPAN: a tray by sweeps of so many trays, then by gets of the same trays: steps and instructions, archive then C.
sweeps() {
    local span=$1 line="| $1 |" name
    for name in archive C; do
        calls=$((2000 / $1 + 20)) run "start_sweep step" "$name" sweep 1023 4095
        if [[ $name == archive ]]; then line+=" $(ratio "$steps" "$made") | $(ratio "$steps" "$shown") |"; fi
        line+=" $(ratio "$instructions" "$shown") |"
    done
    for name in archive C; do
        run "start_get step" "$name" span-get 1023 4095
        if [[ $name == archive ]]; then line+=" $(ratio "$steps" "$made") |"; fi
        line+=" $(ratio "$instructions" "$made") |"
    done
    echo "$line"
}

count_sweeps() {
    printf '\nSweeps and gets of the same trays, the starts included, 1,023 trays and 4,095 readings:\n\n'
    printf '| trays of a span | steps a sweep | steps a tray | archive a tray | C |'
    printf ' steps a get | archive a get | C |\n|--:|--:|--:|--:|--:|--:|--:|--:|\n'
    local trays
    for trays in 1 4 16 64 256 1023; do sweeps "$trays"; done
}

# growth KEYS VERSIONS: steps a call and instructions a step, archive then C; instructions an inspection.
growth() {
    local line="| $1 | $2 |" workload name
    for workload in get put; do
        run step archive "$workload" "$1" "$2"
        line+=" $(ratio "$steps" "$made") | $(ratio "$instructions" "$steps") |"
        run step C "$workload" "$1" "$2"
        line+=" $(ratio "$instructions" "$steps") |"
    done
    for name in archive C; do
        calls=20 run inspect "$name" inspect "$1" "$2"
        line+=" $(ratio "$instructions" "$made") |"
    done
    echo "$line"
}

count_growth() {
    printf '\nGrowth with trays (four readings each, then one), then with the readings of one tray:\n\n'
    printf '| trays | readings | steps a get | archive a step | C | steps a put | archive a step | C |'
    printf ' archive an inspection | C |\n|--:|--:|--:|--:|--:|--:|--:|--:|--:|--:|\n'
    local trays readings
    for trays in 1 3 15 63 255 1023; do growth "$trays" $((trays == 1023 ? 4095 : 4 * trays)); done
    growth 1023 1023
    for readings in 1 15 255 4095; do growth 1 "$readings"; done
}

case ${1-} in
--count)
    count_calls
    count_sweeps
    count_growth
    ;;
"")
    if command -v javac >/dev/null && command -v java >/dev/null; then
        javac -d target/java java/Bench.java
        export TRAY_JAVA=$PWD/target/java
    fi
    "$bench"
    ;;
*)
    echo "usage: tests/bench/run.sh [--count]" >&2
    exit 2
    ;;
esac
