"""Texts and captures for bench/c.sh.

c.py loops FOLDER          writes six texts of C, each a loop of its own kind, and for each the number of its steps a frame
c.py capture FILE COUNT    writes a capture of COUNT frames of 64 bytes
c.py unused FILE COUNT     writes a text whose nf_process does nothing, after COUNT functions that it doesn't call
c.py names FILE COUNT      writes a text of COUNT functions, each with three names of its own, that calls the last one
"""

import os
import struct
import sys

HEAD = "int nf_process(uint16_t port, uint64_t now) {\n"

# Each turns 1,000 times in each of 60 turns.
LOOPS = {
    "counting": "uint32_t n = 0; for (int j = 0; j < 60; j++) for (int i = 0; i < 1000; i++) n++; return n == 60000;",
    "arithmetic": "uint32_t n = 1; for (int j = 0; j < 60; j++) for (int i = 0; i < 1000; i++) "
    "n = (n * 1664525 + 1013904223) ^ (n >> 7); return n != 0;",
    "arrays": "uint32_t a[64]; for (int i = 0; i < 64; i++) a[i] = 0; "
    "for (int j = 0; j < 60; j++) for (int i = 0; i < 1000; i++) a[i & 63] += i; return a[5] != 0;",
    "frame": "uint8_t *p = packet_borrow(64); uint32_t n = 0; "
    "for (int j = 0; j < 60; j++) for (int i = 0; i < 1000; i++) n += p[i & 63]; packet_return(p); return n != 0;",
    "members": "struct two s; s.a = 1; s.b = 2; "
    "for (int j = 0; j < 60; j++) for (int i = 0; i < 1000; i++) s.a = s.a + s.b; return s.a != 0;",
    "calls": "uint32_t n = 0; for (int j = 0; j < 60; j++) for (int i = 0; i < 1000; i++) n = next(n); return n != 0;",
}

BEFORE = {
    "members": "struct two { uint32_t a; uint32_t b; };\n",
    "calls": "static uint32_t next(uint32_t x) { return x + 3; }\n",
}


def write(name, text):
    with open(name, "w") as out:
        out.write(text)


def loops(folder):
    for name, body in LOOPS.items():
        write(os.path.join(folder, name + ".c"), BEFORE.get(name, "") + HEAD + body + "\n}\n")
        print(name)


def capture(name, count):
    with open(name, "wb") as out:
        out.write(struct.pack("<IHHiIII", 0xA1B23C4D, 2, 4, 0, 0, 262144, 1))
        for number in range(count):
            out.write(struct.pack("<IIII", 1, number % 10**9, 64, 64))
            out.write(bytes(range(64)))


def unused(name, count):
    functions = "".join(f"static int f{i}(int a) {{ return a + {i}; }}\n" for i in range(count))
    write(name, functions + HEAD + "return 0;\n}\n")


def names(name, count):
    text = ["static int f0(int a) { return a; }\n"]
    for i in range(1, count):
        text.append(f"static int f{i}(int a{i}) {{ int8_t b{i} = a{i}; int8_t c{i} = b{i}; return c{i}; }}\n")
    write(name, "".join(text) + HEAD + f"return f{count - 1}(port);\n}}\n")


if __name__ == "__main__":
    match sys.argv[1:]:
        case ["loops", folder]:
            loops(folder)
        case ["capture", name, count]:
            capture(name, int(count))
        case ["unused", name, count]:
            unused(name, int(count))
        case ["names", name, count]:
            names(name, int(count))
        case _:
            sys.exit(__doc__)
