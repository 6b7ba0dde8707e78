"""Writes the objects of a function over bench/peer.c: peer.py SPEC CONF > objects.c"""

import sys

import specification as language

TYPES = {"u8": "uint8_t", "u16": "uint16_t", "u32": "uint32_t", "u64": "uint64_t"}


def objects_text(spec, config):
    size = lambda s: s if isinstance(s, int) else config["numbers"][s]
    lines = ['#include "peer.h"', f"const uint16_t peer_ports = {spec['ports']};"]
    made = []
    for name, (of, _, _) in spec["configs"].items():
        lines.append(f"extern const {TYPES[of]} {name};\nconst {TYPES[of]} {name} = {config['numbers'][name]}u{'ll' if of == 'u64' else ''};")
    for (map_name, chain, vector), of, n in spec["links"].values():
        lines.append(f"map_t {map_name};\nchain_t {chain};\nvector_t {vector};")
        length = language.length_of(spec["structs"][of])
        made += [f"{map_name} = peer_map({size(n)}, {length});", f'{chain} = peer_chain("{chain}", {size(n)});']
        made.append(f'{vector} = peer_vector("{vector}", {size(n)}, {length});')
    for name, (of, n) in spec["vectors"].items():
        lines.append(f"vector_t {name};")
        made.append(f'{name} = peer_vector("{name}", {size(n)}, {language.length_of(spec["structs"][of])});')
    for name in spec["prefixes"]:
        lines.append(f"prefix_t {name};")
        made.append(f"{name} = peer_prefix();")
    for table, address, length, value in config["routes"]:
        made.append(f"peer_route({table}, {address}u, {length}, {value});")
    for vector, index, values in config["cells"]:
        data = language.packed(spec["structs"][spec["vectors"][vector][0]], values)
        made.append(f"peer_fill({vector}, {index}, (const uint8_t[]){{{', '.join(str(byte) for byte in data)}}});")
    return "\n".join(lines + ["void peer_set_up(void) {"] + ["    " + line for line in made] + ["}", ""])


if __name__ == "__main__":
    with open(sys.argv[1]) as spec_file, open(sys.argv[2]) as conf_file:
        parsed = language.parse(spec_file.read())
        print(objects_text(parsed, language.configuration(parsed, conf_file.read())), end="")
