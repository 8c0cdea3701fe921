#!/usr/bin/env bash
# Runs the built program once or more for each status that it can end with but 20, and compares its console and its log's
# last line.
#
# Usage: tools/each_status.sh [DMTCP]
#
# DMTCP is a built program, else crates/dmtcp/out/dmtcp, which `cd crates/dmtcp && rt run -- --version` proves and builds.
# Status 20 is tried by tools/refuse_memory.py. It wants /dev/full.
set -u
# shellcheck source=tools/common.sh
. "$(dirname "$0")/common.sh"
find_program "${1:-}"
enter_folder hello.elf

runs=0
failures=0

# judge RUN STATUS CONSOLE LAST: whether the run that ended with `status` was as it should be. LAST is a pattern of the shell.
judge() {
    runs=$((runs + 1))
    local last
    last=$(tail -n 1 log)
    # shellcheck disable=SC2254
    case $last in
        $4) ;;
        *) status="$status, last line '$last'" ;;
    esac
    [ "$(cat console)" = "$3" ] || status="$status, console '$(cat console)'"
    if [ "$status" != "$2" ]; then
        echo "FAILED: $1: status $status in place of $2" >&2
        failures=$((failures + 1))
    fi
}

# ends STATUS CONSOLE LAST WORD..: runs the program with these words.
ends() {
    local wanted=$1 console=$2 last=$3
    shift 3
    "$dmtcp" "$@" > console 2> log
    status=$?
    judge "$*" "$wanted" "$console" "$last"
}

usage='dmtcp launch [options] host:name[,argument]...
dmtcp restart [options]
dmtcp ring N [options]
dmtcp help'
ends 0 "$usage" '' --help
ends 0 'dmtcp 0.1.0' '' --version
ends 0 hello 'done' launch 0:hello.elf
ends 0 "$usage" 'done' help
ends 0 $'hello\nhello' 'done' launch --nodes 16 --file hello.elf 0:hello.elf 15:hello.elf,argument

ends 10 '' usage
ends 10 '' usage --help --version
ends 10 '' usage launch --every 0 0:hello.elf
ends 10 '' usage launch $'0:\xff'
ends 10 '' usage launch 16:hello.elf
ends 10 '' usage launch --nodes 1 1:hello.elf
ends 10 '' usage restart --port-base 57345
ends 10 '' usage launch --file hello.elf --file hello.elf 0:hello.elf

mkdir folder
ends 11 '' 'input fault: folder' launch 0:folder
ends 11 '' 'input fault: folder' launch --file folder 0:none.elf

ends 12 '' 'missing: none.elf' launch 0:none.elf
ends 12 '' 'missing: none.elf' launch --file hello.elf 0:hello.elf 1:none.elf

printf 'no program' > text.elf
ends 13 '' 'bad program: text.elf: * at *' launch 0:text.elf

"$dmtcp" launch 0:hello.elf > /dev/full 2> log
status=$?
: > console
judge 'launch 0:hello.elf > /dev/full' 14 '' ''
"$dmtcp" launch 0:hello.elf > console 2> /dev/full
status=$?
: > log
judge 'launch 0:hello.elf 2> /dev/full' 14 hello ''

: > dmtcp_set
ends 15 '' 'disk fault' restart
rm dmtcp_set

ends 16 '' 'no set' restart
ends 16 '' 'no set' restart --nodes 1 --shift 15 --pid-base 1000000000 --port-base 57344

ends 0 hello 'done' launch --every 2 0:hello.elf
for image in dmtcp_set/*_1.img; do
    printf 'no image' > "$image"
done
ends 17 '' 'damaged: slot * file * at *' restart
rm -r dmtcp_set

ends 0 'ring 2: value 300, restart value 300' 'done' ring 2
rm -r dmtcp_set

ends 18 hello 'budget spent: 3 records' launch --records 3 0:hello.elf

# hello.elf with other instructions: it waits on the first word of its file, which is as expected, and nobody wakes it.
cp hello.elf wait.elf
{
    printf '\x37\x05\x01\x00' # lui a0, 0x10
    printf '\x93\x05\x00\x00' # addi a1, x0, 0: FUTEX_WAIT
    printf '\x03\x26\x05\x00' # lw a2, 0(a0)
    printf '\x93\x06\x00\x00' # addi a3, x0, 0
    printf '\x93\x08\x20\x06' # addi a7, x0, 98: futex
    printf '\x73\x00\x00\x00' # ecall
} | dd of=wait.elf bs=1 seek=84 conv=notrunc status=none
ends 19 '' stuck launch 0:wait.elf

truncate -s 33554433 half other
ends 21 '' 'files too large' launch --file half --file other 0:hello.elf
ends 13 '' 'bad program: text.elf: * at *' launch --file half --file other 0:hello.elf 0:text.elf

echo "$runs runs, each status from 0 to 21 that there is but 20, $failures failures"
[ "$failures" -eq 0 ]
