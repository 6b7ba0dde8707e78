"""Makes two captures of 500,000 frames each, and measures a program's run over them.

replay.py make FILE0 FILE1     writes the captures: classic pcap, little-endian, nanoseconds, frames of 60 to 1,500 bytes
replay.py run WORD..           runs the words, and prints the seconds of wall and of user time, the writes and reads that it
                               asked the system for, and the most memory that it held, in KiB
"""

import os
import struct
import sys
import time

FRAMES = 500_000


def make(name, port):
    # A sequence of its own (the numbers of Numerical Recipes), so that every run makes the same bytes.
    state = port + 1
    clock = port
    body = bytes(range(256)) * 6
    with open(name, "wb", buffering=1 << 20) as out:
        out.write(struct.pack("<IHHiIII", 0xA1B23C4D, 2, 4, 0, 0, 262144, 1))
        for _ in range(FRAMES):
            state = (1664525 * state + 1013904223) % 2**32
            size = 60 + state % 1441
            clock += 100 + state % 4096
            out.write(struct.pack("<IIII", clock // 10**9, clock % 10**9, size, size))
            out.write(body[:size])


def fields(child, name):
    """The fields of a file about a process, by their names."""
    try:
        with open(f"/proc/{child}/{name}") as lines:
            return dict(line.rstrip().split(":", 1) for line in lines)
    except OSError:
        return {}


def run(words):
    start = time.monotonic()
    child = os.posix_spawnp(words[0], words, os.environ)
    # The most memory that it held is asked for while it runs. When it has ended, its other counts are still there.
    most = "-"
    while os.waitid(os.P_PID, child, os.WEXITED | os.WNOWAIT | os.WNOHANG) is None:
        most = fields(child, "status").get("VmHWM", most)
        time.sleep(0.02)
    wall = time.monotonic() - start
    counts = fields(child, "io")
    _, status, usage = os.wait4(child, 0)
    calls = [counts.get(name, "-").strip() for name in ("syscw", "syscr")]
    print(f"{wall:.2f} {usage.ru_utime:.2f}", *calls, most.split()[0])
    return os.waitstatus_to_exitcode(status)


if __name__ == "__main__":
    if sys.argv[1] == "make":
        make(sys.argv[2], 0)
        make(sys.argv[3], 1)
    else:
        sys.exit(run(sys.argv[2:]))
