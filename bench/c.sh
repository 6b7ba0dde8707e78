#!/bin/sh
# What running and typing C costs. Prints the machine's time a frame on six loops as a ratio to the same text by gcc -O0 (goal: below 150 each); the time
# of a frame of a text with 3,000 functions that it doesn't call as a ratio to one without (goal: 1.2); and the time of typing a text of 11,000 functions
# and 44,000 names, of nearly 1 MiB, as a ratio to gcc -fsyntax-only (goal: 3). Each time is the least user time of three runs, less that of a run on no frame or no text.
# It needs gcc and python3, and the kit's command rt where vg_bench isn't built.
. "$(dirname -- "$0")/vg_bench.sh"
make=$top/bench/c.py

# The least user time of a command, in milliseconds.
least() {
    for _ in 1 2 3; do
        ("$@" >/dev/null || exit 1; times) | awk 'NR == 2 { split($1, part, /[ms]/); print (60 * part[1] + part[2]) * 1000 }'
    done | sort -n | head -n 1
}

ratio() {
    awk -v name="$1" -v a="$2" -v none="$3" -v b="$4" -v goal="$5" 'BEGIN {
        if (b <= 0) { printf "%s: too short to tell\n", name; exit }
        r = (a - none) / b
        printf "%s: %.2f ms to %.3f ms, ratio %.1f, goal %s\n", name, a - none, b, r, goal
    }'
}

cd "$work" || exit 1
python3 "$make" capture none 0 || exit 1
python3 "$make" capture few 20 || exit 1
python3 "$make" capture many 400000 || exit 1
names=$(python3 "$make" loops "$work") || exit 1
for name in $names; do
    gcc -O0 -w -DFUNCTION="\"$work/$name.c\"" -o peer "$top/bench/c_peer.c" || exit 1
    "$program" run "$name.c" few | grep -q '^frames 20 steps ' || exit 1
    ratio "$name, 20 frames" "$(least "$program" run "$name.c" few)" "$(least "$program" run "$name.c" none)" \
        "$(awk -v t="$(least ./peer 2000)" 'BEGIN { print t / 100 }')" 150
done

python3 "$make" unused without.c 0 || exit 1
python3 "$make" unused with.c 3000 || exit 1
without=$(awk -v a="$(least "$program" run without.c many)" -v b="$(least "$program" run without.c none)" 'BEGIN { print a - b }')
ratio "400,000 empty runs after 3,000 functions to as many without" "$(least "$program" run with.c many)" "$(least "$program" run with.c none)" "$without" 1.2

python3 "$make" names names.c 11000 || exit 1
(echo '#include <stdint.h>' && cat names.c) >peer.c
"$program" type names.c | grep -q '^typed ' || { echo "names.c is refused" >&2; exit 1; }
ratio "typing $(wc -c <names.c) bytes" "$(least "$program" type names.c)" 0 "$(least gcc -std=c11 -w -fsyntax-only peer.c)" 3
