#!/usr/bin/env bash
# Counts the host's instructions for each of the guest's, by valgrind's callgrind: of the loop of a run alone, without trace and
# kernel (guest_speed.rs, proved and built by LLVM in a copy of the crates that it stands on), and of the plain interpreter
# beside it. Of two runs the difference counts, so that loading doesn't. It wants valgrind and rustc.
# Usage: instructions.sh [GUEST..]
set -eu -o pipefail
. "$(dirname "$0")/programs.sh"
if [ $# -gt 0 ]; then guests=("$@"); else guests=(loop sweep calls); fi
build guest_speed elf32 guest_proc sys_abi
rustc --edition 2021 -C opt-level=3 -o "$folder/plain" "$top/bench/plain_interpreter.rs"

# counted PROGRAM WORD..: how many instructions of the host it ran
counted() {
    valgrind --tool=callgrind --callgrind-out-file=/dev/null "$@" 2>&1 >/dev/null | awk '/Collected/ { print $4 }'
}

# each NAME FIRST SECOND: what 500 quanta more took, for each of their instructions
each() {
    awk -v name="$1" -v a="$2" -v b="$3" 'BEGIN { printf "%s: %.1f\n", name, (b - a) / (500 * 4096) }'
}

for guest in "${guests[@]}"; do
    file=$top/bench/$guest.elf
    each "$guest" "$(counted "$program" "$file" 100)" "$(counted "$program" "$file" 600)"
    each "$guest, plain" "$(counted "$folder/plain" "$file" 409600)" "$(counted "$folder/plain" "$file" 2457600)"
done
