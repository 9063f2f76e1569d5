"""The check of the output beside node's validator, over random bodies of which about half are valid.

A body is made with the types of its operands at hand, so that most instructions find what they take; now and then one doesn't."""

import random
import re

from objects import *
from program import NODE, holds, node, row, run, skipped

TYPES = (I32, I64, F32, F64)
CONSTANTS = {I32: b"\x41\x05", I64: b"\x42\x05", F32: b"\x43" + bytes(4), F64: b"\x44" + bytes(8)}
VOID = 0x40


def ranged(first, last, takes, gives):
    return [(bytes([code]), takes, gives) for code in range(first, last + 1)]


def memory_access(code, kind, most, stores):
    takes, gives = ((I32, kind), ()) if stores else ((I32,), (kind,))
    return [(bytes([code, align, 0]), takes, gives) for align in range(most + 2)]


def numeric():
    table = ranged(0x45, 0x45, (I32,), (I32,)) + ranged(0x46, 0x4F, (I32, I32), (I32,)) + ranged(0x50, 0x50, (I64,), (I32,))
    table += ranged(0x51, 0x5A, (I64, I64), (I32,)) + ranged(0x5B, 0x60, (F32, F32), (I32,)) + ranged(0x61, 0x66, (F64, F64), (I32,))
    for first, kind, ones, twos in ((0x67, I32, 3, 15), (0x79, I64, 3, 15), (0x8B, F32, 7, 7), (0x99, F64, 7, 7)):
        table += ranged(first, first + ones - 1, (kind,), (kind,)) + ranged(first + ones, first + ones + twos - 1, (kind, kind), (kind,))
    turns = [(I64, I32), (F32, I32), (F32, I32), (F64, I32), (F64, I32), (I32, I64), (I32, I64), (F32, I64), (F32, I64), (F64, I64), (F64, I64)]
    turns += [(I32, F32), (I32, F32), (I64, F32), (I64, F32), (F64, F32), (I32, F64), (I32, F64), (I64, F64), (I64, F64), (F32, F64)]
    turns += [(F32, I32), (F64, I64), (I32, F32), (I64, F64), (I32, I32), (I32, I32), (I64, I64), (I64, I64), (I64, I64)]
    table += [(bytes([0xA7 + place]), (old,), (new,)) for place, (old, new) in enumerate(turns)]
    cut = [(F32, I32), (F32, I32), (F64, I32), (F64, I32), (F32, I64), (F32, I64), (F64, I64), (F64, I64)]
    return table + [(bytes([0xFC, place]), (old,), (new,)) for place, (old, new) in enumerate(cut)]


def memory():
    table = [(b"\x3F\x00", (), (I32,)), (b"\x40\x00", (I32,), (I32,)), (b"\xFC\x0A\x00\x00", (I32,) * 3, ()), (b"\xFC\x0B\x00", (I32,) * 3, ())]
    loads = [(I32, 2), (I64, 3), (F32, 2), (F64, 3), (I32, 0), (I32, 0), (I32, 1), (I32, 1), (I64, 0), (I64, 0), (I64, 1), (I64, 1), (I64, 2), (I64, 2)]
    stores = [(I32, 2), (I64, 3), (F32, 2), (F64, 3), (I32, 0), (I32, 1), (I64, 0), (I64, 1), (I64, 2)]
    for code, (kind, most) in enumerate(loads, 0x28):
        table += memory_access(code, kind, most, False)
    for code, (kind, most) in enumerate(stores, 0x36):
        table += memory_access(code, kind, most, True)
    return table


# What the object of a body has: functions that are called, globals of which the last two are constant, and types.
CALLED = {"none": NOTHING, "gives": INT, "takes": ((I64, F32), ()), "turns": ((I32, I32), (F64,))}
GLOBALS = {"a": (I32, True), "b": (I64, True), "c": (I32, False), "d": (I64, False)}


def named():
    table = [(call(title), *kind) for title, kind in CALLED.items()]
    table += [(call_indirect(number), (*kind[0], I32), kind[1]) for number, kind in enumerate(CALLED.values())]
    for title, (kind, _) in GLOBALS.items():
        table += [(global_get(title), (), (kind,)), (global_set(title), (kind,), ())]
    return table


ALL = numeric() + memory() + named() * 8


class Body:
    """A random body for a function of this type with these locals."""

    def __init__(self, seed, kind, locals):
        self.random = random.Random(seed)
        self.kinds = [*kind[0], *locals]
        self.results = kind[1]
        self.labels = [kind[1]]
        self.parts = self.block(kind[1], 14)

    def slips(self):
        return self.random.random() < 0.02

    def fit(self, stack, takes):
        """Gives the operands that are wanted, mostly."""
        have = tuple(stack[len(stack) - len(takes):]) if takes else ()
        if self.slips() or have == tuple(takes):
            return []
        stack.extend(takes)
        return [CONSTANTS[kind] for kind in takes]

    def left(self, stack, gives):
        """Leaves these operands and no others, mostly."""
        if self.slips():
            return []
        dropped = [DROP] * len(stack)
        stack.clear()
        return dropped + self.fit(stack, gives)

    def plain(self, stack):
        parts, takes, gives = self.random.choice(ALL)
        before = self.fit(stack, takes)
        if takes:
            del stack[len(stack) - min(len(takes), len(stack)):]
        stack.extend(gives)
        return [before, parts]

    def local(self, stack):
        place = self.random.randrange(len(self.kinds) + self.slips()) if self.kinds else 0
        kind = self.kinds[place] if place < len(self.kinds) else I32
        code = self.random.choice((0x20, 0x21, 0x22))
        before = [] if code == 0x20 else self.fit(stack, (kind,))
        if code == 0x20:
            stack.append(kind)
        elif code == 0x21 and stack:
            stack.pop()
        return [before, bytes([code]) + leb(place)]

    def choice(self, stack):
        kind = self.random.choice(TYPES)
        before = self.fit(stack, (kind, kind, I32))
        del stack[-2:]
        code = b"\x1B" if self.random.random() < 0.5 else b"\x1C\x01" + bytes([kind])
        return [before, code]

    def nested(self, stack, room):
        gives = () if self.random.random() < 0.5 else (self.random.choice(TYPES),)
        code = self.random.choice((0x02, 0x03, 0x04))
        before = self.fit(stack, (I32,)) if code == 0x04 else []
        if code == 0x04 and stack:
            stack.pop()
        self.labels.insert(0, () if code == 0x03 else gives)
        inner = self.block(gives, room)
        if code == 0x04 and (gives or self.random.random() < 0.5) and not self.slips():
            inner = [inner, b"\x05", self.block(gives, room)]
        self.labels.pop(0)
        stack.extend(gives)
        return [before, bytes([code, gives[0] if gives else VOID]), inner, b"\x0B"]

    def branch(self, stack):
        label = self.random.randrange(len(self.labels) + self.slips())
        takes = self.labels[min(label, len(self.labels) - 1)]
        code = self.random.choice((0x0C, 0x0D, 0x0E, 0x0F, 0x00))
        if code == 0x00:
            parts = [b"\x00"]
        elif code == 0x0F:
            parts = [self.fit(stack, self.results), b"\x0F"]
        elif code == 0x0D:
            parts = [self.fit(stack, (*takes, I32)), b"\x0D" + leb(label)]
            if stack:
                stack.pop()
            return parts
        else:
            alike = [place for place, kinds in enumerate(self.labels) if kinds == takes] or [0]
            more = [self.random.choice(alike) if not self.slips() else self.random.randrange(len(self.labels)) for _ in range(2)]
            table = code == 0x0E
            parts = [self.fit(stack, (*takes, I32) if table else takes), b"\x0E" + vector([leb(one) for one in more]) + leb(label) if table else b"\x0C" + leb(label)]
        stack.clear()
        return parts

    def block(self, gives, room):
        stack, parts = [], []
        for _ in range(self.random.randrange(room + 1)):
            draw = self.random.random()
            if draw < 0.55:
                parts.append(self.plain(stack))
            elif draw < 0.7:
                parts.append(self.local(stack))
            elif draw < 0.76:
                parts.append(self.choice(stack))
            elif draw < 0.86 and room > 2:
                parts.append(self.nested(stack, room // 3))
            elif draw < 0.9:
                parts.append(self.branch(stack))
            elif draw < 0.96 and stack:
                stack.pop()
                parts.append(DROP)
            else:
                parts.append(b"\x01")
        return [parts, self.left(stack, gives)]


def object_of(seed):
    """An object with a random function `f`."""
    chance = random.Random(seed)
    kind = tuple(chance.choice(TYPES) for _ in range(chance.randrange(3))), tuple(chance.choice(TYPES) for _ in range(chance.randrange(2)))
    locals = [chance.choice(TYPES) for _ in range(chance.randrange(3))]
    object = Object().needs_table()
    for title, one in CALLED.items():
        object.type(one)
        object.needs(title, one)
    for title, (one, var) in GLOBALS.items():
        object.own_global(title, kind=one, var=var)
    body = Body(seed, kind, locals)
    return object.function("f", body.parts, kind, locals=vector([b"\x01" + bytes([one]) for one in locals]))


def judged(seed):
    """Whether the output with this body passes the check and node's validator."""
    files = {"a.o": object_of(seed).bytes()}
    words = ["a.o", "--no-entry", "--export=f", "--allow-undefined", "--threads=1"]
    linked = run([*words, "-o", "out"], files)
    holds(linked.status == 0, "seed %d: the link without the check: %s" % (seed, linked.printed))
    checked = run([*words, "--validate", "-o", "checked"], files)
    if checked.status == 0:
        holds(checked.files["checked"] == linked.files["out"], "seed %d: the bytes are those without the check" % seed)
    else:
        holds(re.fullmatch("wasmld: invalid output: body \\d\n", checked.printed), "seed %d: the line %r" % (seed, checked.printed))
    return checked.status == 0, node({"module": linked.files["out"]})["valid"]


@row("the check agrees with node's validator over random bodies")
def agreement():
    if not NODE:
        skipped.add("node isn't there, so no output is compared with its validator")
        return
    valid = 0
    for seed in range(400):
        ours, theirs = judged(seed)
        holds(ours == theirs, "seed %d: the check says %s, node %s" % (seed, ours, theirs))
        valid += ours
    holds(100 <= valid <= 300, "about half of the bodies are valid: %d of 400" % valid)
