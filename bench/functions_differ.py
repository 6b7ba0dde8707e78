"""Holds each function in examples/functions against its specification, on made frames: gcc's code over bench/peer.c against the reading
of the language in bench/specification.py. Neither is part of the program. It prints a line for each function and configuration, and ends
with status 1 at the first difference: of a verdict, a frame, a chosen index, a table at the end, or a checksum that was right and is wrong.

    functions_differ.py [SEED [COUNT]]
"""

import os
import random
import re
import subprocess
import sys
import tempfile

import peer
import specification as language

HERE = os.path.dirname(os.path.abspath(__file__))
FUNCTIONS = os.path.join(HERE, "..", "examples", "functions")

# Beside its own configuration each function runs with a small one, in which tables fill up and entries expire.
SMALL = {
    "nat": "external_ip 192.0.2.1\nstart_port 1024\ncapacity 5\nspan 400000\n",
    "firewall": "capacity 5\nspan 400000\n",
    "bridge": "capacity 5\nspan 400000\n",
    "policer": "shift 4\nburst 900\ncapacity 5\nspan 400000\n",
    "balancer": "mask 1\ncapacity 5\nspan 400000\n",
    "router": "route routes 10.0.0.0/8 1\nroute routes 10.0.0.1/32 2\nroute routes 10.0.0.0/8 0\nroute routes 10.0.0.0/31 3\n",
}


def ones_sum(data):
    data = data + b"\0" * (len(data) % 2)
    total = sum(int.from_bytes(data[i:i + 2], "big") for i in range(0, len(data), 2))
    while total >> 16:
        total = (total & 0xffff) + (total >> 16)
    return total


def l4_bytes(frame):
    """The pseudo header and all that UDP or TCP cover."""
    end = 14 + int.from_bytes(frame[16:18], "big")
    body = frame[34:end]
    return frame[26:34] + bytes([0, frame[23]]) + len(body).to_bytes(2, "big") + body


def checksum_at(frame):
    return {17: 40, 6: 50}[frame[23]]


def sealed(frame, without=False):
    """With right checksums in IP and in UDP or TCP; `without`: a UDP checksum of 0."""
    frame = bytearray(frame)
    frame[24:26] = bytes(2)
    frame[24:26] = (0xffff - ones_sum(frame[14:34])).to_bytes(2, "big")
    at = checksum_at(frame)
    frame[at:at + 2] = bytes(2)
    if not (without and frame[23] == 17):
        value = 0xffff - ones_sum(l4_bytes(bytes(frame)))
        frame[at:at + 2] = (value or (0xffff if frame[23] == 17 else 0)).to_bytes(2, "big")
    return bytes(frame)


def is_sealed(frame):
    if ones_sum(frame[14:34]) != 0xffff:
        return False
    at = checksum_at(frame)
    return frame[23] == 17 and frame[at:at + 2] == bytes(2) or ones_sum(l4_bytes(frame)) == 0xffff


def made_frame(chance, external):
    """Mostly a flow frame between few hosts; some are cut, of another protocol, fragments, with options, or not IPv4."""
    few = chance.random() < 0.7
    host = lambda: bytes([10, 0, 0, chance.randrange(2 if few else 4)])
    address = lambda: external if chance.random() < 0.3 else host()
    port = lambda: chance.choice([53, 1024, 1025] if few else [53, 80, 1024, 1026, 1027, 1028, 1029, 1030, 64512]).to_bytes(2, "big")
    protocol = chance.choice([17] * 8 + [6, 1] if few else [6, 6, 17, 17, 17, 1])
    body = bytes(chance.randrange(256) for _ in range(chance.choice([0, 1, 6, 18])))
    tcp = lambda: port() + port() + bytes(8) + b"\x50\x10\x20\0" + bytes(4)
    udp = lambda: port() + port() + (8 + len(body)).to_bytes(2, "big") + bytes(2)
    l4 = {6: tcp, 17: udp}.get(protocol, lambda: bytes(8))()
    first = chance.choice([0x45] * 12 + [0x46, 0x65])
    fragment = chance.choice([0] * 8 + [0x4000, 0x8000, 0x2000, 0x0001, 0x1fff]).to_bytes(2, "big")
    ip = bytes([first, 0]) + (20 + len(l4) + len(body)).to_bytes(2, "big") + bytes(2) + fragment + bytes([64, protocol]) + bytes(2) + address() + address()
    mac = lambda: bytes([2, 0, 0, 0, 0, chance.randrange(6)])
    frame = mac() + mac() + chance.choice([b"\x08\0"] * 12 + [b"\x86\xdd", b"\x81\0"]) + ip + l4 + body
    if protocol in (6, 17):
        if chance.random() < 0.9:
            frame = sealed(frame, chance.random() < 0.2)
        else:
            at = checksum_at(frame)
            frame = frame[:24] + bytes(chance.choice([0, 1, 254, 255]) for _ in range(2)) + frame[26:]
            frame = frame[:at] + bytes(chance.choice([0, 1, 254, 255]) for _ in range(2)) + frame[at + 2:]
    if chance.random() < 0.1:
        frame = frame[:chance.choice([0, 13, 14, 33, 34, 41, 42, 53, 54])]
    return frame


def write_captures(folder, ports, arrivals):
    names = []
    for port in range(ports):
        names.append(os.path.join(folder, f"in{port}"))
        with open(names[-1], "wb") as file:
            number = lambda n: n.to_bytes(4, "little")
            file.write(number(0xa1b23c4d) + b"\2\0\4\0" + bytes(8) + number(262144) + number(1))
            for at, time, frame in arrivals:
                if at == port:
                    file.write(number(time // 10**9) + number(time % 10**9) + number(len(frame)) * 2 + frame)
    return names


def built(folder, name, spec, config):
    objects = os.path.join(folder, "objects.c")
    with open(objects, "w") as file:
        file.write(peer.objects_text(spec, config))
    program = os.path.join(folder, "peer")
    subprocess.run(["gcc", "-std=c11", "-O2", "-D_POSIX_C_SOURCE=199309L", "-I", HERE, "-I", FUNCTIONS, os.path.join(FUNCTIONS, name, name + ".c"), objects,
                    os.path.join(HERE, "peer.c"), "-o", program], check=True)
    return program


def made_arrivals(chance, ports, count):
    time = 1000
    found = []
    for _ in range(count):
        time += chance.choice([0, 1, 999, 5000, 20000])
        found.append((chance.randrange(ports), time, made_frame(chance, bytes([192, 0, 2, 1]))))
    # As the replay orders them: by time, then by port, then as they stand in their capture.
    return sorted(found, key=lambda arrival: (arrival[1], arrival[0]))


def compared(name, config_text, seed, count):
    """The number of frames by verdict; ends the program at the first difference."""
    with open(os.path.join(FUNCTIONS, name, name + ".spec")) as file:
        spec = language.parse(file.read())
    config = language.configuration(spec, config_text)
    arrivals = made_arrivals(random.Random(f"{name} {seed}"), spec["ports"], count)
    with tempfile.TemporaryDirectory() as folder:
        program = built(folder, name, spec, config)
        captures = write_captures(folder, spec["ports"], arrivals)
        lines = subprocess.run([program, "print"] + captures, check=True, capture_output=True, text=True).stdout.splitlines()
    state = language.State(spec, config)
    counts = {"sent": 0, "dropped": 0, "flooded": 0, "new": 0}
    for k, (port, time, frame) in enumerate(arrivals):
        words = lines[k].split()
        choices = {}
        for word in words[4:-1]:
            chain, index = word.split(":")
            choices.setdefault(chain, []).append(int(index))
            counts["new"] += 1
        try:
            verdict, after = state.step(port, time, frame, choices)
        except language.Refused as refused:
            sys.exit(f"{name}, frame {k + 1}: {refused}, came in as {port} {time} {frame.hex()}")
        told = (int(words[3]), b"" if words[-1] == "-" else bytes.fromhex(words[-1]))
        if told != (verdict, after):
            sys.exit(f"{name}, frame {k + 1}: C {told}, specification {(verdict, after)}, came in as {port} {time} {frame.hex()}")
        if verdict >= 0 and after != frame and is_sealed(frame) and not is_sealed(after):
            sys.exit(f"{name}, frame {k + 1}: a checksum is wrong: {after.hex()}")
        counts["sent" if verdict >= 0 else "flooded" if verdict == -2 else "dropped"] += 1
    tables_agree(name, state, lines[count:])
    return counts


def tables_agree(name, state, lines):
    times = {}
    cells = {}
    for line in lines:
        kind, of, index, value = line.split()
        if kind == "index":
            times[of, int(index)] = int(value)
        else:
            cells[of, int(index)] = bytes.fromhex(value)
    due = {(link.chain, index): time for link in state.links.values() for index, time in link.times.items()}
    if times != due:
        sys.exit(f"{name}: the times at the end differ")
    if cells != {at: cell for at, cell in state.cells.items() if any(cell)}:
        sys.exit(f"{name}: the cells at the end differ")


def worked_rows(state_of):
    """Two frames of the translator that were worked by hand: its first flow, without a UDP checksum and with one."""
    for checksum, due in (("0000", "0000"), ("1234", "69bf")):
        header = "020000000001" "020000000002" "0800" "4500002e00000000401160ab0a00000508080808"
        frame = bytes.fromhex(header + "13880035001a" + checksum) + bytes(18)
        verdict, after = state_of().step(0, 1000, frame, {"ages": [0]})
        if verdict != 1 or after[24:30].hex() != "a8ae" "c0000201" or after[34:36].hex() != "0400" or after[40:42].hex() != due:
            sys.exit(f"nat: the worked row with {checksum} came out as {verdict} {after.hex()}")


def main():
    seed = sys.argv[1] if len(sys.argv) > 1 else "1"
    count = int(sys.argv[2]) if len(sys.argv) > 2 else 10000
    with open(os.path.join(FUNCTIONS, "nat", "nat.spec")) as spec_file, open(os.path.join(FUNCTIONS, "nat", "nat.conf")) as conf_file:
        spec, conf = language.parse(spec_file.read()), conf_file.read()
    worked_rows(lambda: language.State(spec, language.configuration(spec, conf)))
    for name, small in SMALL.items():
        with open(os.path.join(FUNCTIONS, name, name + ".conf")) as file:
            own = file.read()
        for which, text in (("its own configuration", own), ("a small one", small)):
            counts = compared(name, text, seed, count)
            print(f"{name} with {which}: {count} frames, no difference; " + ", ".join(f"{n} {what}" for what, n in counts.items()))


if __name__ == "__main__":
    main()
