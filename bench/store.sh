#!/usr/bin/env bash
# Counts what the sets of a run cost the disk: the bytes that each set is written and synced with, and the calls of the system
# that do it, beside the bytes of the set's files. The built program runs the stored guests, each of which runs for ever, with
# a checkpoint after each record of work, under strace, which tells of each call; a set's calls end with its line in the log.
# It fails where a set is told complete before all that was written is synced.
# Usage: store.sh [RECORDS [GUEST..]], after `cd crates/dmtcp && rt run -- --version` has built crates/dmtcp/out/dmtcp, or
# with another program of the same words in DMTCP.
set -eu
records=${1:-100}
if [ $# -gt 1 ]; then guests=("${@:2}"); else guests=(loop sweep); fi
here=$(cd "$(dirname "$0")" && pwd)
program=$(realpath "${DMTCP:-$here/../crates/dmtcp/out/dmtcp}")
folder=$(mktemp -d)
trap 'rm -rf "$folder"' EXIT
cd "$folder"

# a line for each stretch of sets for which the same was done
count_calls() {
    awk '
        function fail(why) { print why > "/dev/stderr"; failed = 1; exit 1 }
        function tell() {
            if (last) printf "    %s: %s\n", first == last ? "set " first : "sets " first " to " last, done
        }
        /unfinished|resumed/ { fail("two calls at once") }
        { path = ""; if (match($0, /dmtcp_set(\/s[01]_[0-9]+[.]img)?>/)) path = substr($0, RSTART, RLENGTH - 1) }
        / p?write(64)?\(/ && path { writes += 1; written += $NF; unsynced[path] += $NF }
        / ftruncate\(/ && path { cuts += 1 }
        / f(data)?sync\(/ { calls += 1; synced += unsynced[path]; unsynced[path] = 0 }
        / f(data)?sync\(/ && path == "dmtcp_set" { names += 1 }
        / write\(2</ && /"checkpoint [0-9]+ complete/ {
            for (file in unsynced) if (unsynced[file] > 0) fail("set " last + 1 " is complete, and not synced: " file)
            now = sprintf("%d bytes in %d writes, %d cuts; %d bytes synced by %d calls of fsync, %d of them of the folder",
                written, writes, cuts, synced, calls, names)
            if (now != done) { tell(); first = last + 1 }
            done = now
            last += 1
            written = writes = cuts = synced = names = calls = 0
        }
        END { if (!failed) tell() }
    ' calls
}

for guest in "${guests[@]}"; do
    rm -rf dmtcp_set
    cp "$here/$guest.elf" .
    status=0
    strace -f -y -s 32 -e signal=none -e trace=write,pwrite64,ftruncate,fsync,fdatasync -o calls \
        "$program" launch --every 1 --records "$records" "0:$guest.elf" >console 2>log || status=$?
    if [ "$status" -ne 18 ]; then
        echo "$guest: status $status: $(tail -n 1 log)" >&2
        exit 1
    fi
    for slot in 0 1; do
        stat -c %s dmtcp_set/s${slot}_*.img | awk -v g="$guest" -v s="$slot" \
            '{ bytes += $1 } END { printf "%s: the set in slot %d has %d bytes in %d files\n", g, s, bytes, NR }'
    done
    count_calls
done
