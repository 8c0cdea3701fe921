#!/usr/bin/env bash
# Times how a trace of 4,000,000 records is written as the bytes of its file and read back, beside a plain copy of those 64 MB: the
# processor's time, of the least of five runs. The program is bench/trace_speed.rs, proved and built by LLVM in a copy of the crates that
# it stands on.
set -eu -o pipefail
. "$(dirname "$0")/programs.sh"
build trace_speed sys_abi trace_log

base=$(least 0 nothing)
for task in write copy read; do
    if [ "$task" = read ]; then said=4000000; else said=64000000; fi
    ms=$(least "$said" "$task")
    awk -v t="$task" -v ms=$((ms - base)) 'BEGIN { printf "%s: %.1f ms, %.1f ns a record\n", t, ms / 10, ms / 40 }'
done
