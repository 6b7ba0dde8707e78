# For the other scripts of this folder, which source it: sets `top`, `work` (a folder that is removed at the end) and `program`
# (vg_bench, which is proved and built first where it is missing or not current). The kit's command rt is needed to build it.
top=$(CDPATH='' cd -- "$(dirname -- "$0")/.." && pwd) || exit 1
program=$top/crates/vg_bench/out/vg_bench
work=$(mktemp -d) || exit 1
trap 'rm -rf "$work"' EXIT
trap 'exit 1' HUP INT TERM

is_current() {
    [ -x "$program" ] || return 1
    newer=$(find "$top/crates.txt" "$top"/crates/*/src "$top"/crates/*/specs -newer "$program" | head -n 1)
    [ -z "$newer" ]
}

if ! is_current; then
    echo "${0##*/}: proving and building vg_bench first" >&2
    rm -f "$program"
    (cd "$top/crates/vg_bench" && rt run -- containers lookups 0) >/dev/null 2>&1
    if ! [ -x "$program" ]; then
        echo "${0##*/}: vg_bench could not be built; 'rt run' in crates/vg_bench says why" >&2
        exit 1
    fi
fi
