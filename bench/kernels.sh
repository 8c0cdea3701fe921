#!/usr/bin/env bash
# Times calls of the kernel over real numbers beside the same calls of the plain kernel part, and checkpoints by stages beside five
# plain copies of the bytes in the channels: the processor's time, of the least of five runs each, taken in turns, without that of
# what comes before. The program is bench/kernel_speed.rs, proved and built by LLVM in a copy of the crates that it stands on; or
# another of the same words in KERNEL_SPEED.
# Usage: kernels.sh [TASK..], of calls and cuts
set -eu -o pipefail
. "$(dirname "$0")/programs.sh"
program=${KERNEL_SPEED:-}
[ -n "$program" ] || build kernel_speed anyhow bench_kernels call_table sys_abi wrap_calls

# taken SAID KERNEL TASK TIMES PROCESSES PAIRS: milliseconds of so many times
taken() {
    local base
    base=$(least "$7" "$2" "$3" 0 "$5" "$6")
    echo $(($(least "$1" "$2" "$3" "$4" "$5" "$6") - base))
}

# calls TASK TIMES EACH PROCESSES PAIRS: what a call takes of either kernel, EACH calls a time
calls() {
    local task=$1 times=$2 each=$3 processes=$4 pairs=$5 plain real
    plain=$(taken "$times" plain "$task" "$times" "$processes" "$pairs" 0)
    real=$(taken "$times" real "$task" "$times" "$processes" "$pairs" 0)
    awk -v t="$task" -v n=$((times * each)) -v p="$plain" -v r="$real" -v s="$processes" -v c=$((processes * pairs)) 'BEGIN {
        printf "%s: %d processes, %d channels: real %.1f ns a call, plain %.1f ns: %.2f of the plain speed\n",
            t, s, c, r * 1e6 / n, p * 1e6 / n, p / (r + 0.001) }'
}

# cuts TIMES PAIRS: what a checkpoint of 16 processes takes, of which each has so many pairs, empty or full both ways
cuts() {
    local times=$1 pairs=$2 ends=$((32 * $2)) empty votes bytes images copies
    empty=$(taken 0 empty bytes "$times" 16 "$pairs" 0)
    votes=$(taken "$ends" full votes "$times" 16 "$pairs" "$ends")
    bytes=$(taken "$ends" full bytes "$times" 16 "$pairs" "$ends")
    images=$(taken "$ends" full images "$times" 16 "$pairs" "$ends")
    copies=$(taken "$ends" copy five "$times" 16 "$pairs" "$ends")
    awk -v n="$times" -v c=$((16 * pairs)) -v e="$empty" -v v="$votes" -v b="$bytes" -v i="$images" -v p="$copies" 'BEGIN {
        printf "%d channels, %.1f MB: suspended with its votes %.2f ms, drained and filled again %.2f ms, with the kernel part for the images %.2f ms; ",
            c, c * 2 * 65536 / 1e6, v / n, b / n, i / n
        printf "the channels empty %.2f ms; five plain copies %.2f ms: %.1f times as long\n", e / n, p / n, i / (p + 0.001) }'
}

for task in "${@:-calls cuts}"; do
    case $task in
    *calls*)
        for crowd in "1 0" "16 15"; do
            for task_times in "looks 4000000 1" "flags 4000000 1" "pipe1 1000000 2" "pipe4096 500000 2" "stream4096 500000 2" \
                "stream65536 50000 2" "forks 20000 3"; do
                # shellcheck disable=SC2086
                calls $task_times $crowd
            done
        done
        ;;&
    *cuts*)
        cuts 160 1
        cuts 40 4
        cuts 10 16
        ;;
    esac
done
