#!/usr/bin/env python3
"""Document 01 once more, in another style, for expected values: a function of assignments is one integer, its truth table.

Bit m of a function's integer says whether it is true under assignment m, and bit l of m is level l's value. A diagram is
found by halving the table at level 0, then 1, and so on. Nothing here was read off the Rattle definitions or code.

    oracle.py          prints each case's name, its limit, its slots and what solve gives
"""
import sys

TERM, FORM, VAR = "term", "form", "var"
KINDS = {  # kind: (own sort, body length, operand sorts)
    1: (TERM, 0, []), 2: (TERM, 4, []), 3: (TERM, 2, [TERM]), 4: (TERM, 2, [TERM]),
    **{k: (TERM, 4, [TERM, TERM]) for k in (5, 6, 7, 8, 9, 12)},
    **{k: (TERM, 3, [TERM]) for k in (10, 11)}, 13: (TERM, 4, [TERM]),
    **{k: (TERM, 2, [TERM]) for k in (14, 15)}, 16: (TERM, 6, [FORM, TERM, TERM]),
    32: (FORM, 0, []), 33: (FORM, 0, []), **{k: (FORM, 4, [TERM, TERM]) for k in (34, 35, 36)},
    40: (FORM, 2, [FORM]), 41: (FORM, 4, [FORM, FORM]), 42: (FORM, 4, [FORM, FORM]),
    48: (FORM, 4, [VAR, FORM]), 49: (FORM, 4, [VAR, FORM]),
}


def two(data, at):
    return data[at] + 256 * data[at + 1]


class Entry:
    def __init__(self, kind, width, body):
        self.kind, self.width, self.body = kind, width, body
        self.sort, _, self.wants = KINDS[kind]
        self.ops = [two(body, 2 * k) for k in range(len(self.wants))]


def check(data):
    """The first refusal among 1 to 8 with no entries, or 0 with the entries."""
    if len(data) < 2:
        return 1, None
    n = two(data, 0)
    if not 1 <= n <= 256 or len(data) < 2 + 4 * n:
        return 1, None
    heads = [(data[2 + 4 * i], data[3 + 4 * i], two(data, 4 + 4 * i)) for i in range(n)]
    for kind, width, _ in heads:
        if kind not in KINDS or (KINDS[kind][0] == TERM and not 1 <= width <= 32) or (KINDS[kind][0] == FORM and width):
            return 2, None
    at, es = 2 + 4 * n, []
    for kind, width, place in heads:
        if place != at:
            return 3, None
        at += KINDS[kind][1]
    if at != len(data):
        return 3, None
    for kind, width, place in heads:
        es.append(Entry(kind, width, data[place:place + KINDS[kind][1]]))
    for i, e in enumerate(es):
        for want, o in zip(e.wants, e.ops):
            if o >= i or (es[o].kind != 1 if want == VAR else es[o].sort != want):
                return 4, None
        w = [es[o].width for want, o in zip(e.wants, e.ops) if want == TERM]
        if e.kind in (3, 4, 5, 6, 7, 8, 9, 10, 11, 16) and any(x != e.width for x in w):
            return 5, None
        if e.kind == 12 and sum(w) != e.width or e.kind in (14, 15) and w[0] > e.width:
            return 5, None
        if e.kind in (34, 35, 36) and w[0] != w[1]:
            return 5, None
        if e.kind == 13 and (e.body[2] < e.body[3] or e.body[2] - e.body[3] + 1 != e.width):
            return 5, None
        if e.kind == 2 and int.from_bytes(bytes(e.body), "little") >= 2 ** e.width:
            return 6, None
        if e.kind == 13 and e.body[2] >= w[0]:
            return 6, None
    if sum(e.width for e in es if e.kind == 1) > 128:
        return 7, None
    return (8, None) if es[-1].sort == TERM else (0, es)


class Solver:
    def __init__(self, es, limit):
        self.es, self.limit = es, limit
        self.order = [(i, b) for b in range(32) for i, e in enumerate(es) if e.kind == 1 and b < e.width]
        self.n = len(self.order)
        self.all = (1 << (1 << self.n)) - 1
        self.table = []

    def level(self, i, b):
        return self.order.index((i, b))

    def lit(self, level):
        return sum(1 << m for m in range(1 << self.n) if m >> level & 1)

    def cof(self, f, level, bit):
        """f with the level's value fixed, still a function of all levels."""
        keep = self.lit(level)
        if bit:
            part = f & keep
            return part | part >> (1 << level)
        part = f & (self.all ^ keep)
        return part | part << (1 << level)

    def node(self, f, table, level=0):
        if f in (0, self.all):
            return int(f == self.all)
        low, high = self.cof(f, level, 0), self.cof(f, level, 1)
        if low == high:
            return self.node(f, table, level + 1)
        triple = (level, self.node(low, table, level + 1), self.node(high, table, level + 1))
        if triple not in table:
            table.append(triple)
        return table.index(triple) + 2

    def step(self, f):
        f &= self.all
        self.node(f, self.table)
        return f

    def inv(self, f):
        return self.all ^ f

    def nodes(self, fs):
        t = []
        for f in fs:
            self.node(f, t)
        return len(t)

    def gate(self, op, a, b):
        if a is not None and b is not None:
            return self.step(a & b if op == "and" else a | b if op == "or" else a ^ b)
        one = {"and": 0, "or": self.all}.get(op)
        return one if one is not None and one in (a, b) else None

    def add(self, a, b):
        carry, out = 0, []
        for i in range(len(a)):
            if a[i] is None or b[i] is None:
                break
            x = self.step(a[i] ^ b[i])
            s = self.step(x ^ carry)
            if self.nodes(out + [s]) > self.limit:
                break
            out.append(s)
            if i < len(a) - 1:
                g = self.step(a[i] & b[i])
                p = self.step(x & carry)
                carry = self.step(g | p)
        return out + [None] * (len(a) - len(out))

    def const(self, width, value):
        return [self.all if value >> b & 1 else 0 for b in range(width)]

    def chain(self, a, b, signed, must):
        r = self.all
        for i in range(len(a)):
            top = signed and i == len(a) - 1
            one = must != top          # how an unknown bit of a is read
            x = a[i] if a[i] is not None else self.all * one
            y = b[i] if b[i] is not None else self.all * (not one)
            agree = self.inv(x ^ y)
            r = self.step((x & self.inv(y) if top else self.inv(x) & y) | agree & r)
        return r

    def work(self, i, e, val):
        k, w, op = e.kind, e.width, [val[o] for o in e.ops]
        if k == 1:
            return [self.step(self.lit(self.level(i, b))) for b in range(w)]
        if k == 2:
            return self.const(w, int.from_bytes(bytes(e.body), "little"))
        if k == 3:
            return [None if x is None else self.step(self.inv(x)) for x in op[0]]
        if k == 4:
            flipped = [None if x is None else self.step(self.inv(x)) for x in op[0]]
            return self.add(flipped, self.const(w, 1))
        if k in (5, 6, 7):
            return [self.gate({5: "and", 6: "or", 7: "xor"}[k], x, y) for x, y in zip(*op)]
        if k == 8:
            return self.add(*op)
        if k == 9:
            acc = self.const(w, 0)
            for j in range(w):
                acc = self.add(acc, [0] * j + [self.gate("and", op[0][q - j], op[1][j]) for q in range(j, w)])
            return acc
        if k in (10, 11):
            s = e.body[2] % w
            return [0] * s + op[0][:w - s] if k == 10 else op[0][s:] + [0] * s
        if k == 12:
            return op[1] + op[0]
        if k == 13:
            return op[0][e.body[3]:e.body[2] + 1]
        if k in (14, 15):
            return op[0] + [0 if k == 14 else op[0][-1]] * (w - len(op[0]))
        if k == 16:
            (must, may), out = op[0], []
            for x, y in zip(op[1], op[2]):
                if x is not None and x == y:
                    out.append(x)
                elif must != may:
                    out.append(None)
                elif must == self.all:
                    out.append(x)
                elif must == 0:
                    out.append(y)
                else:
                    out.append(None if x is None or y is None else self.step(must & x | self.inv(must) & y))
            return out
        if k in (32, 33):
            return (self.all * (k == 32),) * 2
        if k == 34:
            r = self.all
            for x, y in zip(*op):
                if x is not None and y is not None:
                    agree = self.step(self.inv(x ^ y))
                    r = self.step(r & agree)
            return (0 if None in op[0] + op[1] else r), r
        if k in (35, 36):
            must = self.chain(op[0], op[1], k == 36, True)
            return must, self.chain(op[0], op[1], k == 36, False)
        if k == 40:
            must = self.step(self.inv(op[0][1]))
            return must, self.step(self.inv(op[0][0]))
        if k in (41, 42):
            f = (lambda x, y: x & y) if k == 41 else (lambda x, y: x | y)
            must = self.step(f(op[0][0], op[1][0]))
            return must, self.step(f(op[0][1], op[1][1]))
        pair = []
        for t in op[1]:
            for b in reversed(range(self.es[e.ops[0]].width)):
                low, high = (self.cof(t, self.level(e.ops[0], b), v) for v in (0, 1))
                t = self.step(low | high if k == 48 else low & high)
            pair.append(t)
        return tuple(pair)


def solve(data, limit, table, work=8192):
    """number, verdict, must, may, slots used, the used cells of the table."""
    r, es = check(data)
    if r:
        return [r, 0, 0, 0, 0]
    if table % 3 or table > 3145728:
        return [9, 0, 0, 0, 0]
    if work < 8192:
        return [10, 0, 0, 0, 0]
    s, val = Solver(es, limit), []
    for i, e in enumerate(es):
        val.append(s.work(i, e, val))
    if len(s.table) > table // 3:
        return [11, 0, 0, 0, 0]
    used = list(s.table)
    must, may = (s.node(f, s.table) for f in val[-1])
    assert used == s.table
    return [0, 1 if must else 3 if may else 2, must, may, len(used)] + [c for t in used for c in t]


def sheet(parts):
    """Parts (kind, width, body) as the bytes of a sheet."""
    at, heads, bodies = 2 + 4 * len(parts), [], []
    for kind, width, body in parts:
        heads += [kind, width, at % 256, at // 256]
        bodies += body
        at += len(body)
    return [len(parts) % 256, len(parts) // 256] + heads + bodies


def ops(*numbers):
    return [b for n in numbers for b in (n % 256, n // 256)]


def var(w):
    return (1, w, [])


def con(w, x):
    return (2, w, list(x.to_bytes(4, "little")))


def ent(kind, width, *operands, extra=()):
    return (kind, width, ops(*operands) + list(extra))


A = [var(1), var(1), ent(8, 1, 0, 1), con(1, 0), ent(34, 0, 2, 3)]
CASES = [
    ("sheet A", A, [(3, 2048), (2, 2048), (3, 5), (3, 4), (2, 4), (2, 3)]),
    ("case 3: (x shifted left by 1) times y is 1, width 3",
     [var(3), var(3), ent(10, 3, 0, extra=[1]), ent(9, 3, 2, 1), con(3, 1), ent(34, 0, 3, 4)], [(0, 2048)]),
    ("case 4: x times y is itself, width 2",
     [var(2), var(2), ent(9, 2, 0, 1), ent(34, 0, 2, 2)], [(0, 2048), (2048, 2048)]),
    ("case 5: x at most 1, 5 at most x, x times y is 0, width 3",
     [var(3), var(3), con(3, 1), con(3, 5), con(3, 0), ent(9, 3, 0, 1), ent(35, 0, 0, 2), ent(35, 0, 3, 0),
      ent(34, 0, 5, 4), ent(41, 0, 6, 7), ent(41, 0, 9, 8)], [(0, 2048)]),
    ("case 6: forall x exists y, x plus y is 0, width 2",
     [var(2), var(2), ent(8, 2, 0, 1), con(2, 0), ent(34, 0, 2, 3), ent(48, 0, 1, 4), ent(49, 0, 0, 5)],
     [(0, 2048), (2048, 2048)]),
    ("case 7: signed 1 at most 0, width 1", [con(1, 1), con(1, 0), ent(36, 0, 0, 1)], [(0, 2048)]),
    ("case 7: signed 0 at most 1, width 1", [con(1, 0), con(1, 1), ent(36, 0, 0, 1)], [(0, 2048)]),
    ("case 7: unsigned 1 at most 0, width 1", [con(1, 1), con(1, 0), ent(35, 0, 0, 1)], [(0, 2048)]),
    ("case 7: unsigned 0 at most 1, width 1", [con(1, 0), con(1, 1), ent(35, 0, 0, 1)], [(0, 2048)]),
    ("case 8: constant 7 at width 3", [con(3, 7), ent(32, 0)], [(0, 2048)]),
    ("case 8: constant 8 at width 3", [con(3, 8), ent(32, 0)], [(0, 2048)]),
    ("case 9: an operand equal to its own entry", [var(1), ent(3, 1, 1), ent(32, 0)], [(0, 2048)]),
    ("unknown bits: not below, shared sum bits, width 3",
     [var(3), var(3), ent(8, 3, 0, 1), con(3, 2), ent(35, 0, 2, 3), ent(40, 0, 4)],
     [(0, 2048), (3, 2048), (9, 2048), (10, 2048)]),
    ("unknown bits: both chains, signed, width 2",
     [var(2), var(2), ent(8, 2, 0, 1), ent(36, 0, 2, 0)], [(3, 2048), (2048, 2048)]),
    ("unknown bits: exists over must and may, width 2",
     [var(2), var(2), ent(8, 2, 0, 1), ent(35, 0, 2, 0), ent(48, 0, 0, 3)], [(3, 2048), (2048, 2048)]),
    ("unknown bits: if-then-else, width 2",
     [var(2), var(2), ent(8, 2, 0, 1), ent(34, 0, 2, 0), ent(16, 2, 3, 0, 1), ent(35, 0, 4, 2)],
     [(3, 2048), (2048, 2048)]),
    ("unknown bits: masked by and, or, then negated, width 2",
     [var(2), ent(4, 2, 0), con(2, 1), ent(5, 2, 1, 2), ent(6, 2, 3, 1), ent(7, 2, 4, 0), ent(15, 4, 5), ent(14, 4, 5),
      ent(34, 0, 6, 7)], [(0, 2048), (2048, 2048)]),
    ("shared nodes count once: x sign-extended to 3, plus 0, is 0",
     [var(1), ent(15, 3, 0), con(3, 0), ent(8, 3, 1, 2), ent(34, 0, 3, 2)], [(1, 2048), (0, 2048)]),
    ("no known bit above an unknown carry: (x over x + y) plus 0 is 0",
     [var(1), var(1), ent(8, 1, 0, 1), ent(12, 2, 0, 2), con(2, 0), ent(8, 2, 3, 4), ent(34, 0, 5, 4)], [(0, 2048)]),
    ("must is not may: not (x + y is 0), limit 2", [*A, ent(40, 0, 4)], [(2, 2048), (3, 2048)]),
    ("moved bits: shift right, concat, extract, or, false, forall",
     [var(3), ent(11, 3, 0, extra=[4]), var(1), ent(12, 4, 2, 1), ent(13, 2, 3, extra=[3, 2]), con(2, 2), ent(34, 0, 4, 5),
      ent(33, 0), ent(42, 0, 6, 7), ent(49, 0, 0, 8)], [(0, 2048)]),
    ("a variable bound twice, the innermost counts: exists x (x is 1 and forall x, x at most 1), width 1",
     [var(1), con(1, 1), ent(34, 0, 0, 1), ent(35, 0, 0, 1), ent(49, 0, 0, 3), ent(41, 0, 2, 4), ent(48, 0, 0, 5)],
     [(0, 2048)]),
    ("an entry that the last one doesn't need is worked too", [var(2), ent(4, 2, 0), ent(32, 0)],
     [(2048, 2048), (2048, 4), (2048, 3)]),
    ("levels: x of width 2 before y of width 1 is x0, y0, x1", [var(2), var(1), ent(15, 2, 1), ent(34, 0, 0, 2)], [(0, 2048)]),
]

if __name__ == "__main__":
    for name, parts, runs in CASES:
        for limit, slots in runs:
            print(name, "limit", limit, "slots", slots, "->", *solve(sheet(parts), limit, 3 * slots))
