#!/usr/bin/env bash
# Times how the shared image of 128 processes is written and read back, with 256 descriptors each, 256 channels that are full both
# ways, and 64 MiB of files, beside a plain copy of its bytes: the processor's time, of the least of five runs. Once each task is
# given memory anew by the system, as a checkpoint or a restart is, and once it gets what the one before gave back. The program is
# bench/set_speed.rs, proved and built by LLVM in a copy of the crates that it stands on.
set -eu -o pipefail
. "$(dirname "$0")/programs.sh"
build set_speed views image_format shared_items shared_reader image_codec

times=10
bytes=$("$program" write)
# the C library gives memory back to the system from this size on
for limit in 131072 1000000000; do
    export MALLOC_MMAP_THRESHOLD_=$limit MALLOC_TRIM_THRESHOLD_=$limit
    if [ "$limit" -lt "$bytes" ]; then memory='new memory'; else memory='memory used again'; fi
    base=$(least 0 nothing)
    for task in write copy read; do
        if [ "$task" = read ]; then said=32768; else said=$bytes; fi
        ms=$(least "$said" "$task")
        awk -v m="$memory" -v t="$task" -v ms=$((ms - base)) -v n="$times" -v b="$bytes" \
            'BEGIN { printf "%s: %s: %.1f ms, %.0f MB/s\n", m, t, ms / n, b * n / ms / 1000 }'
    done
done
