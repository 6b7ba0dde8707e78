"""A plain reader and interpreter of vigor's specification language (docs of the language: docs/LIBRARY.md for the tables).

It shares nothing with the program in Rattle: it is written from the language's description alone, with Python's dictionaries for the
tables, so that a function in C, its specification and, later, the program's own step can be held against a third reading.

    text = open("nat.spec").read()
    spec = parse(text)
    state = State(spec, configuration(spec, open("nat.conf").read()))
    verdict, frame = state.step(port, now, frame, {"ages": [0]})
"""

import re

MASK = (1 << 64) - 1
WORDS = ("ports config premise struct link vector prefix rule define step let drop flood send if else frame expire before find as add touch remove "
         "lookup cell length port now has").split()
TOKEN = re.compile(r"\s+|/\*.*?\*/|//[^\n]*|(0x[0-9a-fA-F]+|\d+)|([A-Za-z_]\w*)|(\.\.|<<|>>|<=|>=|==|!=|&&|\|\||[-+*/%&|^!<>=?:;,.(){}\[\]])", re.S)
LEVELS = [["||"], ["&&"], ["|"], ["^"], ["&"], ["==", "!="], ["<", ">", "<=", ">="], ["<<", ">>"], ["+", "-"], ["*", "/", "%"]]
WIDTHS = {"u8": 1, "be16": 2, "be32": 4, "be48": 6, "be64": 8}


class Refused(Exception):
    pass


def tokens(text):
    at = 0
    found = []
    while at < len(text):
        match = TOKEN.match(text, at)
        if not match:
            raise Refused(f"nothing begins at byte {at}")
        at = match.end()
        number, name, sign = match.groups()
        if number is not None:
            found.append(("number", int(number, 0)))
        elif name is not None:
            found.append(("word" if name in WORDS else "name", name))
        elif sign is not None:
            found.append(("sign", sign))
    return found + [("end", None)]


class Parser:
    def __init__(self, text):
        self.tokens = tokens(text)
        self.at = 0

    def peek(self):
        return self.tokens[self.at][1] if self.tokens[self.at][0] in ("word", "sign") else None

    def take(self, kind):
        found, value = self.tokens[self.at]
        if found != kind:
            raise Refused(f"token {self.at}: {kind} was due, not {value}")
        self.at += 1
        return value

    def sign(self, *signs):
        for sign in signs:
            if self.peek() != sign:
                raise Refused(f"token {self.at}: {sign} was due, not {self.tokens[self.at][1]}")
            self.at += 1

    def has(self, sign):
        if self.peek() == sign:
            self.at += 1
            return True
        return False

    def list(self, item, close):
        items = [item()]
        while self.has(","):
            items.append(item())
        self.sign(close)
        return items

    # expr: level 1 is ?:, then LEVELS from the loosest, then ! and primaries
    def expr(self):
        condition = self.level(0)
        if not self.has("?"):
            return condition
        yes = self.expr()
        self.sign(":")
        return ("choice", condition, yes, self.expr())

    def level(self, n):
        if n == len(LEVELS):
            return self.unary()
        left = self.level(n + 1)
        while self.peek() in LEVELS[n]:
            operator = self.take("sign")
            left = ("op", operator, left, self.level(n + 1))
        return left

    def unary(self):
        if self.has("!"):
            return ("op", "==", self.unary(), ("number", 0))
        return self.primary()

    def primary(self):
        kind, value = self.tokens[self.at]
        self.at += 1
        if kind == "number":
            return ("number", value)
        if kind == "name":
            if self.has("("):
                return ("call", value, [] if self.has(")") else self.list(self.expr, ")"))
            if self.has("["):
                index = self.expr()
                self.sign("]", ".")
                return ("cell", value, index, self.take("name"))
            return ("name", value)
        if value == "frame":
            self.sign(".")
            width = self.take("name")
            self.sign("[")
            at = self.take("number")
            self.sign("]")
            return ("frame", width, at)
        if value == "cell":
            self.sign(".")
            return ("this", self.take("name"))
        if value == "has":
            self.sign("(")
            link = self.take("name")
            self.sign(",")
            index = self.expr()
            self.sign(")")
            return ("has", link, index)
        if value in ("length", "port", "now"):
            return (value,)
        if value == "(":
            inner = self.expr()
            self.sign(")")
            return inner
        raise Refused(f"token {self.at - 1}: no expression begins with {value}")

    def block(self):
        self.sign("{")
        found = []
        while not self.has("}"):
            found.append(self.statement())
        return found

    def other(self):
        return self.block() if self.has("else") else []

    def statement(self):
        kind, value = self.tokens[self.at]
        self.at += 1
        if kind == "name":
            self.sign("[")
            index = self.expr()
            self.sign("]", ".")
            field = self.take("name")
            return self.ended(("put", value, index, field, self.assigned()))
        if value == "let":
            return self.ended(("let", self.take("name"), self.assigned()))
        if value in ("drop", "flood"):
            return self.ended((value,))
        if value == "send":
            return self.ended(("send", self.expr()))
        if value == "if":
            return ("if", self.expr(), self.block(), self.other())
        if value == "frame":
            self.sign(".")
            width = self.take("name")
            self.sign("[")
            at = self.take("number")
            self.sign("]")
            return self.ended(("write", width, at, self.assigned()))
        if value == "expire":
            link = self.take("name")
            self.sign("before")
            return self.ended(("expire", link, self.expr()))
        if value in ("find", "add"):
            link = self.take("name")
            self.sign("{")
            key = self.list(self.expr, "}")
            self.sign("as")
            return (value, link, key, self.take("name"), self.block(), self.other())
        if value in ("touch", "remove"):
            return self.ended((value, self.take("name"), self.expr()))
        if value == "lookup":
            table = self.take("name")
            address = self.expr()
            self.sign("as")
            return (value, table, address, self.take("name"), self.block(), self.other())
        raise Refused(f"token {self.at - 1}: no statement begins with {value}")

    def assigned(self):
        self.sign("=")
        return self.expr()

    def ended(self, statement):
        self.sign(";")
        return statement

    def size(self):
        kind, value = self.tokens[self.at]
        self.at += 1
        return value

    def spec(self):
        found = {"ports": None, "configs": {}, "premises": [], "structs": {}, "objects": [], "links": {}, "vectors": {}, "prefixes": {},
                 "rules": [], "defines": {}}
        while not self.has("step"):
            self.declaration(found, self.take("word"))
        found["step"] = self.block()
        self.take("end")
        return found

    def declaration(self, found, word):
        if word == "ports":
            found["ports"] = self.take("number")
        elif word == "config":
            name = self.take("name")
            self.sign(":")
            of = self.take("name")
            low = self.take("number")
            self.sign("..")
            found["configs"][name] = (of, low, self.take("number"))
        elif word == "premise":
            found["premises"].append(self.expr())
        elif word == "struct":
            return self.struct(found)
        elif word == "link":
            names = [self.take("name")]
            for _ in range(2):
                self.sign(",")
                names.append(self.take("name"))
            self.sign(":")
            of = self.take("name")
            self.sign(",")
            found["links"][names[0]] = (names, of, self.size())
            found["objects"] += names
        elif word == "vector":
            name = self.take("name")
            self.sign(":")
            of = self.take("name")
            self.sign(",")
            found["vectors"][name] = (of, self.size())
            found["objects"].append(name)
        elif word == "prefix":
            name = self.take("name")
            self.sign(":")
            low = self.take("number")
            self.sign("..")
            found["prefixes"][name] = (low, self.take("number"))
            found["objects"].append(name)
        elif word == "rule":
            name = self.take("name")
            self.sign(":")
            found["rules"].append((name, self.expr()))
        elif word == "define":
            name = self.take("name")
            self.sign("(")
            parameters = [] if self.has(")") else self.list(lambda: self.take("name"), ")")
            self.sign("=")
            found["defines"][name] = (parameters, self.expr())
        else:
            raise Refused(f"token {self.at - 1}: no declaration begins with {word}")
        self.sign(";")

    def struct(self, found):
        name = self.take("name")
        self.sign("{")
        fields = []
        while not self.has("}"):
            field = self.take("name")
            self.sign(":")
            fields.append((field, self.take("name")))
            self.sign(";")
        found["structs"][name] = fields


def parse(text):
    return Parser(text).spec()


def length_of(fields):
    return sum(int(of[1:]) // (8 if of[0] == "u" else 1) for _, of in fields)


def field_bytes(of, value):
    if of[0] == "u":
        size = int(of[1:]) // 8
        return (value % (1 << 8 * size)).to_bytes(size, "little")
    size = int(of[1:])
    return (value % (1 << 8 * size)).to_bytes(size, "big")


def packed(fields, values):
    return b"".join(field_bytes(of, value) for (_, of), value in zip(fields, values))


def unpacked(fields, data):
    found = {}
    at = 0
    for name, of in fields:
        size = length_of([(name, of)])
        found[name] = int.from_bytes(data[at:at + size], "little" if of[0] == "u" else "big")
        at += size
    return found


def dotted(text):
    return int.from_bytes(bytes(int(part) for part in text.split(".")), "big") if "." in text else int(text, 0)


def configuration(spec, text):
    """Numbers by name, and routes and cells in order; each line is a number, a route or a cell."""
    found = {"numbers": {}, "routes": [], "cells": []}
    for line in text.splitlines():
        words = line.split("#")[0].split()
        if not words:
            continue
        if words[0] == "route":
            address, length = words[2].split("/")
            found["routes"].append((words[1], dotted(address), int(length), int(words[3], 0)))
        elif words[0] == "cell":
            found["cells"].append((words[1], int(words[2], 0), [dotted(word) for word in words[3:]]))
        else:
            found["numbers"][words[0]] = dotted(words[1])
    return found


class End(Exception):
    def __init__(self, verdict):
        super().__init__()
        self.verdict = verdict


def arithmetic(operator, a, b):
    if operator == "+":
        return (a + b) & MASK
    if operator == "-":
        return a - b if a >= b else 0
    if operator == "*":
        return (a * b) & MASK
    if operator == "/":
        return a // b if b else MASK
    if operator == "%":
        return a % b if b else a
    if operator == "<<":
        return (a << b) & MASK if b < 64 else 0
    if operator == ">>":
        return a >> b if b < 64 else 0
    if operator == "&":
        return a & b
    if operator == "|":
        return a | b
    if operator == "^":
        return a ^ b
    return int({"==": a == b, "!=": a != b, "<": a < b, ">": a > b, "<=": a <= b, ">=": a >= b, "&&": bool(a and b), "||": bool(a or b)}[operator])


class Link:
    def __init__(self, spec, names, of, capacity):
        self.chain = names[1]
        self.vector = names[2]
        self.fields = spec["structs"][of]
        self.capacity = capacity
        self.keys = {}
        self.times = {}
        self.highest = 0


class State:
    """The tables of a specification; `step` is one step, and asks the next of the given choices for each entry that it adds."""

    def __init__(self, spec, config):
        self.spec = spec
        self.numbers = config["numbers"]
        size = lambda s: s if isinstance(s, int) else self.numbers[s]
        self.links = {name: Link(spec, names, of, size(n)) for name, (names, of, n) in spec["links"].items()}
        self.cells = {}
        self.vectors = {}
        for link in self.links.values():
            self.vectors[link.vector] = (link.fields, link.capacity)
        for name, (of, n) in spec["vectors"].items():
            self.vectors[name] = (spec["structs"][of], size(n))
        self.routes = {name: {} for name in spec["prefixes"]}
        for table, address, length, value in config["routes"]:
            self.routes[table][(length, address >> (32 - length))] = value
        for vector, index, values in config["cells"]:
            self.cells[vector, index] = packed(self.vectors[vector][0], values)

    # ---- values

    def read(self, vector, index):
        fields, length = self.vectors[vector]
        if index >= length:
            return {name: 0 for name, _ in fields}
        return unpacked(fields, self.cells.get((vector, index), bytes(length_of(fields))))

    def value(self, e, scope):
        kind = e[0]
        if kind == "number":
            return e[1]
        if kind == "op":
            return arithmetic(e[1], self.value(e[2], scope), self.value(e[3], scope))
        if kind == "choice":
            condition, yes, no = (self.value(part, scope) for part in e[1:])
            return yes if condition else no
        if kind == "name":
            return scope[e[1]] if e[1] in scope else self.numbers[e[1]]
        if kind == "call":
            parameters, body = self.spec["defines"][e[1]]
            return self.value(body, dict(zip(parameters, [self.value(part, scope) for part in e[2]])))
        if kind == "cell":
            return self.read(e[1], self.value(e[2], scope))[e[3]]
        if kind == "frame":
            return int.from_bytes((bytes(self.frame) + bytes(8 + e[2]))[e[2]:e[2] + WIDTHS[e[1]]], "big")
        if kind == "has":
            return int(self.value(e[2], scope) in self.links[e[1]].times)
        if kind == "this":
            return scope["cell"][e[1]]
        return {"length": len(self.frame), "port": self.port, "now": self.now}[kind]

    # ---- statements

    def run(self, block, scope):
        scope = dict(scope)
        for statement in block:
            getattr(self, "do_" + statement[0])(scope, *statement[1:])

    def do_let(self, scope, name, e):
        scope[name] = self.value(e, scope)

    def do_drop(self, scope):
        raise End(-1)

    def do_flood(self, scope):
        raise End(-2)

    def do_send(self, scope, e):
        port = self.value(e, scope)
        raise End(port if port < self.spec["ports"] else -1)

    def do_if(self, scope, condition, yes, no):
        self.run(yes if self.value(condition, scope) else no, scope)

    def do_write(self, scope, width, at, e):
        data = (self.value(e, scope) % (1 << 8 * WIDTHS[width])).to_bytes(WIDTHS[width], "big")
        for i, byte in enumerate(data):
            if at + i < len(self.frame):
                self.frame[at + i] = byte

    def do_put(self, scope, vector, at, field, e):
        index = self.value(at, scope)
        value = self.value(e, scope)
        fields, length = self.vectors[vector]
        if index < length:
            found = self.read(vector, index)
            found[field] = value
            self.cells[vector, index] = packed(fields, [found[name] for name, _ in fields])

    def do_expire(self, scope, name, e):
        before = self.value(e, scope)
        link = self.links[name]
        for index in [i for i, time in link.times.items() if time < before]:
            self.freed(link, index)

    def freed(self, link, index):
        del link.keys[self.cells.get((link.vector, index), bytes(length_of(link.fields)))]
        del link.times[index]

    def do_find(self, scope, name, key, bound, yes, no):
        link = self.links[name]
        data = packed(link.fields, [self.value(part, scope) for part in key])
        if data in link.keys:
            self.run(yes, {**scope, bound: link.keys[data]})
        else:
            self.run(no, scope)

    def do_add(self, scope, name, key, bound, yes, no):
        link = self.links[name]
        data = packed(link.fields, [self.value(part, scope) for part in key])
        if data in link.keys or len(link.times) == link.capacity:
            return self.run(no, scope)
        if not self.choices.get(link.chain):
            raise Refused(f"no choice of {link.chain} is left")
        index = self.choices[link.chain].pop(0)
        if index in link.times or index >= link.capacity:
            raise Refused(f"choice {index} of {link.chain} isn't free")
        link.times[index] = self.now
        link.highest = self.now
        link.keys[data] = index
        self.cells[link.vector, index] = data
        return self.run(yes, {**scope, bound: index})

    def do_touch(self, scope, name, e):
        index = self.value(e, scope)
        link = self.links[name]
        if index in link.times:
            link.times[index] = self.now
            link.highest = self.now

    def do_remove(self, scope, name, e):
        index = self.value(e, scope)
        if index in self.links[name].times:
            self.freed(self.links[name], index)

    def do_lookup(self, scope, table, e, bound, yes, no):
        address = self.value(e, scope) & 0xffffffff
        for length in range(32, -1, -1):
            found = self.routes[table].get((length, address >> (32 - length)))
            if found is not None:
                return self.run(yes, {**scope, bound: found})
        return self.run(no, scope)

    def step(self, port, now, frame, choices):
        """Answers the verdict (a port, -1 to drop, -2 to flood) and the frame after it. Choices left over are refused."""
        self.port, self.now, self.frame, self.choices = port, now, bytearray(frame), choices
        verdict = -1
        try:
            self.run(self.spec["step"], {})
        except End as end:
            verdict = end.verdict
        if any(choices.values()):
            raise Refused(f"choices left over: {choices}")
        return verdict, bytes(self.frame)
