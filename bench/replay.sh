#!/bin/sh
# Replays two captures of 500,000 frames each, of 60 to 1,500 bytes, through the swap of two ports, and beside it merges the
# same two files with mergecap (Debian's wireshark-common), where that is installed. Prints of each the wall and the user
# time, the calls of write and read, and the most memory held; then the frames per second and the ratio of wall times, each
# the least of three runs in turn. The goal is a ratio below 3. It needs python3 for the captures and the measurement, and
# 4 GB of room in the folder for temporary files.
top=$(CDPATH='' cd -- "$(dirname -- "$0")/.." && pwd) || exit 1
work=$(mktemp -d) || exit 1
trap 'rm -rf "$work"' EXIT
trap 'exit 1' HUP INT TERM
cp "$top/examples/swap/swap.c" "$top/examples/swap/swap.spec" "$work" || exit 1
measure=$top/bench/replay.py
cd "$work" || exit 1
python3 "$measure" make in0 in1 || exit 1

# Proves and builds the program, where it isn't current.
"$top/bin/vigor" run swap.c swap.spec - log - - out0 out1 >/dev/null || exit 1

least() {
    sort -n | head -n 1
}

for _ in 1 2 3; do
    python3 "$measure" run "$top/crates/vigor/out/vigor" run swap.c swap.spec - log in0 in1 out0 out1 >>printed || exit 1
    if command -v mergecap >/dev/null; then
        python3 "$measure" run mergecap -F nsecpcap -w merged in0 in1 >>merges || exit 1
    fi
done
grep -v '[a-z]' printed >vigors
set -- $(least <vigors)
echo "vigor: $1 s, user $2 s, $3 writes, $4 reads, $5 KiB"
vigor=$1
awk -v t="$vigor" 'BEGIN { printf "frames per second: %.0f\n", 1000000 / t }'
if ! [ -s merges ]; then
    echo "mergecap: not installed"
    exit 0
fi
set -- $(least <merges)
echo "mergecap: $1 s, user $2 s, $3 writes, $4 reads, $5 KiB"
awk -v a="$vigor" -v b="$1" 'BEGIN { if (b > 0) printf "ratio: %.2f\n", a / b }'
