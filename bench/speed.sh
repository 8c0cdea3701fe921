#!/usr/bin/env bash
# Times the built program on the stored guests, each of which runs for ever: so many quanta of 4,096 instructions, loading
# and the trace included, in seconds of the processor (user and system), which other work on the machine lengthens least.
# Of RUNS runs the fastest one counts. Beside it a plain interpreter in stock Rust (plain_interpreter.rs, built by rustc) runs as
# many instructions in the same way, without trace and kernel.
# Usage: speed.sh [QUANTA [RUNS [GUEST..]]], after `cd crates/dmtcp && rt run -- --version` has built crates/dmtcp/out/dmtcp, or with
# another program of the same words in DMTCP.
set -eu
quanta=${1:-20000}
runs=${2:-3}
if [ $# -gt 2 ]; then guests=("${@:3}"); else guests=(loop sweep calls); fi
here=$(cd "$(dirname "$0")" && pwd)
program=${DMTCP:-$here/../crates/dmtcp/out/dmtcp}
folder=$(mktemp -d)
trap 'rm -rf "$folder"' EXIT
rustc --edition 2021 -C opt-level=3 -o "$folder/plain" "$here/plain_interpreter.rs"

# runs the program on a guest, which has to end as it is told to
run_guest() {
    (cd "$folder" && "$program" launch --records "$quanta" "0:$1.elf" 2>log) || echo "$?" >"$folder/status"
}

run_plain() {
    "$folder/plain" "$folder/$1.elf" $((quanta * 4096)) >/dev/null
}

# best CALL GUEST: the least seconds of the processor of so many runs
best() {
    local TIMEFORMAT='%U %S'
    for _ in $(seq "$runs"); do
        { time "$1" "$2"; } 2>&1
    done | awk '{ t = $1 + $2 } NR == 1 || t < least { least = t } END { print least }'
}

# tell NAME SECONDS
tell() {
    awk -v g="$1" -v n=$((quanta * 4096)) -v t="$2" \
        'BEGIN { printf "%s: %d instructions in %.2f s: %.1f million a second\n", g, n, t, n / t / 1e6 }'
}

for guest in "${guests[@]}"; do
    cp "$here/$guest.elf" "$folder/"
    rm -f "$folder/status"
    spent=$(best run_guest "$guest")
    status=$(cat "$folder/status" 2>/dev/null || echo 0)
    if [ "$status" -ne 18 ]; then
        echo "$guest: status $status: $(cat "$folder/log")" >&2
        exit 1
    fi
    tell "$guest" "$spent"
    tell "$guest, plain" "$(best run_plain "$guest")"
done
