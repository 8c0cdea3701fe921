# For the scripts beside it, which read this file: builds a program of this folder, and takes the processor's time of its runs.
top=$(cd "$(dirname "${BASH_SOURCE[0]}")/.." && pwd)
folder=$(mktemp -d)
trap 'rm -rf "$folder"' EXIT

# copies a crate and those that it stands on; a library of the kit is in no line of crates.txt
copy_crate() {
    local line below
    line=$(grep "^$1[ :]" "$top/crates.txt") || return 0
    if [ -e "$folder/crates/$1" ]; then return 0; fi
    cp -a "$top/crates/$1" "$folder/crates/$1"
    echo "$line" >>"$folder/crates.txt"
    for below in ${line#*:}; do copy_crate "$below"; done
}

# build NAME CRATE..: proves NAME.rs, which uses these crates, and builds it by LLVM, in a copy of them
build() {
    local name=$1 crate
    shift
    mkdir -p "$folder/crates/$name/src"
    for crate in "$@"; do copy_crate "$crate"; done
    echo "$name: $*" >>"$folder/crates.txt"
    cp "$top/bench/$name.rs" "$folder/crates/$name/src/main.rt"
    (cd "$folder/crates/$name" && rt run) >"$folder/log" 2>&1 || { cat "$folder/log"; exit 1; }
    program=$folder/crates/$name/out/$name
}

# least SAID WORD..: the fewest milliseconds of the processor, of five runs of the program with these words, which has to say SAID
least() {
    local said=$1 TIMEFORMAT='%U %S'
    shift
    for _ in 1 2 3 4 5; do
        { time "$program" "$@" >"$folder/said"; } 2>&1
        if [ "$(cat "$folder/said")" != "$said" ]; then
            echo "$*: said $(cat "$folder/said") in place of $said" >&2
            exit 1
        fi
    done | awk '{ ms = ($1 + $2) * 1000 } NR == 1 || ms < best { best = ms } END { printf "%.0f\n", best }'
}
