#!/usr/bin/env bash
# Times the checkpoints of 1, 16 and 128 processes that compute, and of 16 whose 15 channels are full both ways: a launch with
# checkpoints beside the same launch without, and both beside a plain write and fsync of the files of as many sets. Then it times a
# restart from the last set up to its first record, beside a launch up to its first. Seconds of the clock and of the processor (user
# and system), each the least of RUNS runs.
# Usage: checkpoints.sh [RUNS], after `cd crates/dmtcp && rt run -- --version` has built crates/dmtcp/out/dmtcp, or with another program
# of the same words in DMTCP.
set -eu
runs=${1:-3}
here=$(cd "$(dirname "$0")" && pwd)
program=$(realpath "${DMTCP:-$here/../crates/dmtcp/out/dmtcp}")
folder=$(mktemp -d)
trap 'rm -rf "$folder"' EXIT
cp "$here/loop.elf" "$here/many.elf" "$folder/"
cd "$folder"

# spent WORD..: the program ends as its records are spent
spent() {
    local status=0
    "$program" "$@" >console 2>log || status=$?
    [ "$status" -eq 18 ] || { echo "$*: status $status: $(tail -n 1 log)" >&2; exit 1; }
}

# plain TIMES: the files of a set, each written and synced so often
plain() {
    local i file
    for ((i = 0; i < $1; i++)); do
        for file in dmtcp_set/s0_*; do
            dd if="$file" of="plain_${file##*/}" bs=16M conv=fsync,notrunc status=none
        done
    done
}

# least WORD..: the fewest milliseconds of the clock, and of the processor
least() {
    local TIMEFORMAT='%R %U %S'
    for _ in $(seq "$runs"); do
        { time "$@"; } 2>&1
    done | awk '{ clock = $1 * 1000; own = ($2 + $3) * 1000 }
        NR == 1 || clock < a { a = clock }
        NR == 1 || own < b { b = own }
        END { printf "%.0f %.0f\n", a, b }'
}

# job NAME EVERY RECORDS PROGRAM..
job() {
    local name=$1 every=$2 records=$3 sets bytes without with files start again
    shift 3
    rm -rf dmtcp_set
    without=$(least spent launch --records "$records" "$@")
    with=$(least spent launch --every "$every" --records "$records" "$@")
    sets=$(grep -c ' complete: ' log)
    bytes=$(cat dmtcp_set/s0_* | wc -c)
    files=$(least plain "$sets")
    start=$(least spent launch --records 1 "$@")
    again=$(least spent restart --records 1)
    # shellcheck disable=SC2086
    echo "$sets" "$bytes" $without $with $files $start $again | awk -v name="$name" '{
        printf "%s: %d sets of %.2f MB: %.2f ms each, %.2f ms of the processor; plain files %.2f ms, %.2f ms; ",
            name, $1, $2 / 1e6, ($5 - $3) / $1, ($6 - $4) / $1, $7 / $1, $8 / $1
        printf "the launch %d ms with them, %d ms without; a restart %d ms, %d ms of the processor; a launch %d ms, %d ms\n",
            $5, $3, $11, $12, $9, $10 }'
}

for processes in 1 16 128; do
    programs=()
    for ((i = 0; i < processes; i++)); do programs+=("$((i % 16)):loop.elf"); done
    job "$processes processes" $((64 * processes)) $((64 * processes * 10)) "${programs[@]}"
done
job "16 processes, 15 full channels" 300 4000 0:many.elf,full,1000000000
