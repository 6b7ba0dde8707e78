#!/bin/sh
# Times 1,000,000 look-ups in a full map of 65,536 keys of 13 bytes, beside the same look-ups in the HashMap of Rust's
# standard library with its default hasher, where rustc is installed; and 1,000,000 packets of an address translator.
# Each program runs seventy times with COUNT at 1,000,000 and at 0. The least user time of each counts, and their difference
# is printed. The goal is a ratio below 3. The kit's command rt is needed where the program is missing or not current.
. "$(dirname -- "$0")/vg_bench.sh"

# The least user time of a run of the command, in milliseconds, by seven measurements of ten runs each.
least() {
    for _ in 1 2 3 4 5 6 7; do
        (
            for _ in 1 2 3 4 5 6 7 8 9 10; do
                "$@" >/dev/null || exit 1
            done
            times
        ) | awk 'NR == 2 { split($1, part, /[ms]/); print (60 * part[1] + part[2]) * 1000 / 10 }'
    done | sort -n | head -n 1
}

# The milliseconds that COUNT at 1,000,000 takes more than COUNT at 0.
difference() {
    many=$(least "$@" 1000000)
    none=$(least "$@" 0)
    awk -v many="$many" -v none="$none" 'BEGIN { printf "%.1f", many - none }'
}

lookups=$(difference "$program" containers lookups)
echo "lookups: $lookups ms"
echo "mix: $(difference "$program" containers mix) ms"
if ! command -v rustc >/dev/null; then
    echo "std's HashMap: not timed, since there is no rustc"
    exit 0
fi
rustc -O -o "$work/hashmap" "$top/bench/containers.rs" || exit 1
hashmap=$(difference "$work/hashmap")
echo "std's HashMap: $hashmap ms"
awk -v a="$lookups" -v b="$hashmap" 'BEGIN { if (b > 0) printf "ratio: %.2f\n", a / b }'
