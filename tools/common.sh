# shellcheck shell=bash
# What the scripts here share. To be read by a shell, from a script that stands in this folder.

# shellcheck disable=SC2034
here=$(cd "$(dirname "${BASH_SOURCE[0]}")/.." && pwd)

# find_program [DMTCP]: `dmtcp` is the full path of this program, else of crates/dmtcp/out/dmtcp.
find_program() {
    dmtcp=${1:-$here/crates/dmtcp/out/dmtcp}
    if [ ! -x "$dmtcp" ]; then
        echo "no program at $dmtcp: build it by 'cd crates/dmtcp && rt run -- --version', or give the path of one" >&2
        exit 2
    fi
    dmtcp=$(cd "$(dirname "$dmtcp")" && pwd)/$(basename "$dmtcp")
}

# enter_folder GUEST: goes to a new folder with a guest of examples/, which the script's end removes.
enter_folder() {
    folder=$(mktemp -d) || exit 2
    trap 'rm -rf "$folder"' EXIT
    cp "$here/examples/$1" "$folder/" && cd "$folder" || exit 2
}
