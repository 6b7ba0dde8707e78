#!/bin/sh
# Times reading C texts of 64 KiB to 1 MiB to their trees: the same function again and again, under other names, between
# structs and defined names. Each text is read five times, and the least user time counts, less that of a text of one line.
# Printed are the size, the milliseconds and the microseconds for each KiB, which are to stay about the same as texts grow.
# The kit's command rt is needed where the program is missing or not current.
. "$(dirname -- "$0")/vg_bench.sh"

# A text of as many whole pieces as fit into so many bytes.
text() {
    awk -v size="$1" 'BEGIN {
        for (n = 0; ; n++) {
            piece = sprintf("#define LIMIT_%d %d\n", n, n)
            piece = piece sprintf("struct flow_%d { uint32_t src; uint8_t mac[6]; } __attribute__((packed));\n", n)
            piece = piece sprintf("static int step_%d(int port, struct flow_%d *p) {\n", n, n)
            piece = piece sprintf("    if (port == 0 && p->src >> 3 != LIMIT_%d) return -1; /* a comment */\n", n)
            piece = piece "    for (int i = 0; i < 6; i++) p->mac[i] = (uint8_t)(port + i * 2 - 1);\n"
            piece = piece "    return port > 1 ? 0 : 1;\n}\n"
            sum += length(piece)
            if (sum > size) exit
            printf "%s", piece
        }
    }'
}

# The least user time of reading a file, in milliseconds, by five measurements of five runs each.
least() {
    for _ in 1 2 3 4 5; do
        (
            for _ in 1 2 3 4 5; do
                "$program" read "$1" >/dev/null || exit 1
            done
            times
        ) | awk 'NR == 2 { split($1, part, /[ms]/); print (60 * part[1] + part[2]) * 1000 / 5 }'
    done | sort -n | head -n 1
}

echo "int f(void) { return 0; }" >"$work/small.c"
none=$(least "$work/small.c")
for size in 64 128 256 512 1024; do
    text $((size * 1024)) >"$work/$size.c"
    "$program" read "$work/$size.c" | grep -q '^tokens ' || exit 1
    ms=$(least "$work/$size.c")
    awk -v size="$size" -v ms="$ms" -v none="$none" 'BEGIN { printf "%d KiB: %.1f ms, %.1f us per KiB\n", size, ms - none, (ms - none) * 1000 / size }'
done
