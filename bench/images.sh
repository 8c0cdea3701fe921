#!/usr/bin/env bash
# Times how the image of a process of 2,048 pages is written and read back, beside a plain copy of those 8.4 MB: the processor's
# time, of the least of five runs. Once each task is given memory anew by the system, as a checkpoint or a restart is, and once it
# gets what the one before gave back. The program is bench/image_speed.rs, proved and built by LLVM in a copy of the crates that
# it stands on.
set -eu -o pipefail
. "$(dirname "$0")/programs.sh"
build image_speed views sys_abi plain_machine image_format shared_items image_process image_codec

bytes=8399396
times=50
# the C library gives memory back to the system from this size on
for limit in 131072 1000000000; do
    export MALLOC_MMAP_THRESHOLD_=$limit MALLOC_TRIM_THRESHOLD_=$limit
    if [ "$limit" -lt "$bytes" ]; then memory='new memory'; else memory='memory used again'; fi
    base=$(least 0 nothing)
    for task in write copy read; do
        if [ "$task" = read ]; then said=2048; else said=$bytes; fi
        ms=$(least "$said" "$task")
        awk -v m="$memory" -v t="$task" -v ms=$((ms - base)) -v n="$times" -v b="$bytes" \
            'BEGIN { printf "%s: %s: %.1f ms, %.0f MB/s\n", m, t, ms / n, b * n / ms / 1000 }'
    done
done
