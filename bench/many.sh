#!/usr/bin/env bash
# Times what calls of several processes cost the built program: calls, pipes, streams and forks, beside the same program
# (many.c) built for the host, where the same calls are Linux's; and a checkpoint of 16 processes whose channels are full,
# beside a plain write and fsync of files of as many bytes; and rounds over 128 processes that wait at 254 channels, empty and
# full, beside as many calls of one process alone. Seconds of the processor (user and system), the least of RUNS runs.
# Usage: many.sh [RUNS], after `cd crates/dmtcp && rt run -- --version` has built crates/dmtcp/out/dmtcp, or with another program of
# the same words in DMTCP.
set -eu
runs=${1:-3}
here=$(cd "$(dirname "$0")" && pwd)
program=${DMTCP:-$here/../crates/dmtcp/out/dmtcp}
folder=$(mktemp -d)
trap 'rm -rf "$folder"' EXIT
gcc -O2 -DNATIVE -o "$folder/native" "$here/many.c"
cp "$here/many.elf" "$folder/"
cd "$folder"

guest() {
    "$program" launch --records 4000000 "0:many.elf,$1,$2" 2>log || [ "$(cat log)" = stuck ] || { cat log >&2; exit 1; }
}

native() {
    ./native "$1" "$2"
}

# best WAY TASK COUNT: the least seconds of the processor of so many runs
best() {
    local TIMEFORMAT='%U %S'
    for _ in $(seq "$runs"); do
        { time "$@" >/dev/null; } 2>&1
    done | awk '{ t = $1 + $2 } NR == 1 || t < least { least = t } END { print least }'
}

# tell TASK COUNT SCALE UNIT: how many a second by the program, and on the host itself
tell() {
    awk -v task="$1" -v n="$2" -v scale="$3" -v unit="$4" -v g="$(best guest "$1" "$2")" -v h="$(best native "$1" "$2")" \
        'BEGIN { printf "%s: %.4g %s a second, on the host itself %.4g\n", task, n * scale / g, unit, n * scale / (h + 0.001) }'
}

tell calls 1000000 1 "calls"
tell pipe 2000 0.065536 "MB"
tell stream 2000 0.065536 "MB"
tell forks64 500 1 "forks"
tell forks8 100 1 "forks"

# one checkpoint of 16 processes with 15 channels that are full both ways, by the times of its log lines
"$program" launch --every 300 --records 4000 0:many.elf,full,1000000000 2>log || true
sets=$(grep -c complete log)
bytes=$(du -cb dmtcp_set/s0_* | tail -n 1 | cut -f 1)
time_of() {
    local TIMEFORMAT='%R'
    { time "$@" >/dev/null 2>&1; } 2>&1
}
with=$(time_of "$program" launch --every 300 --records 4000 0:many.elf,full,1000000000 || true)
without=$(time_of "$program" launch --records 4000 0:many.elf,full,1000000000 || true)
plain=$(time_of sh -c 'for f in dmtcp_set/s0_*; do dd if="$f" of="plain_${f##*/}" bs=16M conv=fsync; done')
awk -v s="$sets" -v b="$bytes" -v w="$with" -v o="$without" -v p="$plain" \
    'BEGIN { printf "full: %d sets of %.1f MB, %.1f ms each; plain files with fsync %.1f ms\n", s, b / 1e6, (w - o) * 1000 / s, p * 1000 }'

# time_of_rounds TASK COUNT: microseconds of a round, without what comes before the rounds
time_of_rounds() {
    awk -v n="$2" -v all="$(best guest "$1" "$2")" -v none="$(best guest "$1" 0)" \
        'BEGIN { printf "%.2f", (all - none) * 1e6 / n }'
}
rounds=50000
printf 'rounds over 128 processes that wait: %s us each with empty channels, %s us with full ones; a call of one alone %s us\n' \
    "$(time_of_rounds rounds $rounds)" "$(time_of_rounds rounds-full $rounds)" "$(time_of_rounds calls $rounds)"
