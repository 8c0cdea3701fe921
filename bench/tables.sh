#!/usr/bin/env bash
# Times the calls of the kernel's tables as these grow, and a file that is written and read in pieces of 65,536 bytes beside plain
# copies: the processor's time, of the least of five runs, without that of making the table. The program is
# bench/table_speed.rs, proved and built by LLVM in a copy of the crates that it stands on.
set -eu -o pipefail
. "$(dirname "$0")/programs.sh"
build table_speed sys_abi virt_ids fd_book conn_table vfs_files proc_book anyhow

# calls TASK CALLS SIZE..: what a call takes on tables of these sizes
calls() {
    local task=$1 calls=$2 size base ms
    shift 2
    for size in "$@"; do
        base=$(least 0 "$task" "$size" 0)
        ms=$(least "$calls" "$task" "$size" "$calls")
        awk -v t="$task" -v n="$calls" -v s="$size" -v ms=$((ms - base)) \
            'BEGIN { printf "%s: %d entries: %.1f ns a call\n", t, s, ms * 1000000 / n }'
    done
}

# moved TASK TIMES SIZE..: what it takes to move files of so many pieces
moved() {
    local task=$1 times=$2 size base ms said
    shift 2
    for size in "$@"; do
        case $task in read | copy_pieces) said=65536 ;; *) said=$((size * 65536)) ;; esac
        base=$(least 0 "$task" "$size" 0)
        ms=$(least "$said" "$task" "$size" "$times")
        awk -v t="$task" -v n="$times" -v s="$size" -v ms=$((ms - base)) \
            'BEGIN { printf "%s: %d MiB: %.1f ms, %.2f ms a MiB\n", t, s / 16, ms / n, ms / n / s * 16 }'
    done
}

for task in get desc; do calls "$task" 4000000 1 256 4096 32768; done
for task in fork end; do calls "$task" 4000 1 64 128 256; done
calls pending 4000000 1 16 128
calls thread 4000000 1 8 64
for task in next_process wait; do calls "$task" 1000000 2 16 128; done
for task in real_pid virt_pid; do calls "$task" 4000000 100 10000 1000000; done
calls conn 4000000 256 16384 1048576
for task in next_conn port_used; do calls "$task" 200000 16 256 4096; done
# each new file and each copy of one gets memory anew from the system
export MALLOC_MMAP_THRESHOLD_=131072 MALLOC_TRIM_THRESHOLD_=131072
for task in write copy read copy_pieces; do moved "$task" 10 128 512 1024; done
