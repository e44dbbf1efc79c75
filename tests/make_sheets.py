#!/usr/bin/env python3
"""Writes the sheets of sheets/ and, the same, of crates/cases/data: bytes, readable text and expected listing of each.

Each sheet is described once, below. NAME.sheet has its bytes, NAME.txt the same in words, NAME.expected what the
program prints for it. The expected listing comes from tests/comparison, an implementation of its own, and where a
sheet has few variable bits it has to agree with tests/oracle.py; the proved code is never asked.

    make_sheets.py           writes the files, and the programs' stdin and stdout
    make_sheets.py --check   writes nothing, and says which files differ from what would be written
"""
import os
import subprocess
import sys

sys.dont_write_bytecode = True
import oracle  # noqa: E402

ROOT = os.path.dirname(os.path.dirname(os.path.abspath(__file__)))
SLOTS, LIMIT = 2048, 1000
ORACLE_BITS = 12  # the truth tables of oracle.py double with every bit

# kind: its name, and how its operands are shown
KINDS = {
    1: ("variable", None), 2: ("constant", None), 3: ("bitwise not", "not {}"), 4: ("negation", "-{}"),
    5: ("bitwise and", "{} and {}"), 6: ("bitwise or", "{} or {}"), 7: ("bitwise xor", "{} xor {}"),
    8: ("add", "{} + {}"), 9: ("multiply", "{} * {}"), 10: ("shift left", "{} shifted left by {}"),
    11: ("shift right", "{} shifted right by {}"), 12: ("concat", "{} above {}"),
    13: ("extract", "{}, bits {} down to {}"),
    14: ("zero extend", "{} with zeros above"), 15: ("sign extend", "{} with its sign above"),
    16: ("if-then-else", "{}: {}, else {}"), 32: ("true", "true"), 33: ("false", "false"), 34: ("equal", "{} = {}"),
    35: ("unsigned at most", "{} <= {}"), 36: ("signed at most", "{} <= {} signed"), 40: ("not", "not {}"),
    41: ("and", "{} and {}"), 42: ("or", "{} or {}"),
    48: ("exists", "for some {}: {}"), 49: ("forall", "for every {}: {}"),
}


class Sheet:
    """Entries in order; each method gives the new entry's number."""

    def __init__(self, name, asked, *notes):
        self.name, self.asked, self.notes = name, asked, notes
        self.parts, self.names, self.says = [], [], []
        SHEETS.append(self)

    def entry(self, kind, width, operands=(), extra=(), name=None):
        shown = [self.names[o] if o < len(self.names) else f"#{o}" for o in operands] + list(extra)
        self.says.append(KINDS[kind][1].format(*shown) if KINDS[kind][1] else "")
        self.parts.append((kind, width, oracle.ops(*operands) + list(extra)))
        self.names.append(name or f"#{len(self.parts) - 1}")
        return len(self.parts) - 1

    def var(self, width, name):
        return self.entry(1, width, name=name)

    def const(self, width, value):
        self.says.append("")
        self.parts.append((2, width, list(value.to_bytes(4, "little"))))
        self.names.append(str(value))
        return len(self.parts) - 1

    def width(self, o):
        return self.parts[o][1]

    # terms; the width is the first operand's
    def term(self, kind, *operands, extra=(), name=None):
        return self.entry(kind, self.width(operands[0]), operands, extra, name)

    def add(self, a, b, name=None):
        return self.term(8, a, b, name=name)

    def multiply(self, a, b, name=None):
        return self.term(9, a, b, name=name)

    def shift_left(self, a, amount):
        return self.term(10, a, extra=[amount])

    def concat(self, high, low, name=None):
        return self.entry(12, self.width(high) + self.width(low), (high, low), name=name)

    def zero_extend(self, a, width):
        return self.entry(14, width, (a,))

    # formulas
    def formula(self, kind, *operands, name=None):
        return self.entry(kind, 0, operands, name=name)

    def true(self):
        return self.formula(32)

    def equal(self, a, b):
        return self.formula(34, a, b)

    def at_most(self, a, b, name=None):
        return self.formula(35, a, b, name=name)

    def not_(self, a, name=None):
        return self.formula(40, a, name=name)

    def all_(self, *formulas, name=None):
        """The conjunction of one or more."""
        so_far = formulas[0]
        for at, f in enumerate(formulas[1:], 2):
            so_far = self.formula(41, so_far, f, name=name if at == len(formulas) else None)
        return so_far

    def exists(self, x, f):
        return self.formula(48, x, f)

    def forall(self, x, f):
        return self.formula(49, x, f)

    # what is written
    def bytes(self):
        return bytes(oracle.sheet(self.parts))

    def bits(self):
        return sum(width for kind, width, _ in self.parts if kind == 1)

    def text(self):
        rows, place = [("entry", "kind", "width", "place", "body", "reads")], 2 + 4 * len(self.parts)
        for i, (kind, width, body) in enumerate(self.parts):
            name = self.names[i] if not self.names[i].startswith("#") else ""
            reads = " is ".join(t for t in (name, self.says[i]) if t)
            shown = bytes(body).hex(" ") or "empty"
            rows.append((str(i), f"{kind} {KINDS[kind][0]}", str(width), str(place), shown, reads))
            place += len(body)
        wide = [max(len(r[c]) for r in rows) for c in range(5)]
        table = ["  ".join([*(cell.ljust(w) for cell, w in zip(r, wide)), r[5]]).rstrip() for r in rows]
        size = f"{len(self.parts)} entries, {place} bytes"
        return "\n".join([f"Asked: {self.asked}", *self.notes, "", size, *table, ""])


SHEETS = []


# ---- document 01's sheet and cases

def sheet_a():
    s = Sheet("sheet_a", "do x and y, a bit each, add up to 0 for some values?",
              "01's sheet A. Sat at limit 3 and above, unknown at limit 2 (case 1).")
    x, y = s.var(1, "x"), s.var(1, "y")
    s.equal(s.add(x, y), s.const(1, 0))


def case_3():
    s = Sheet("case_03", "can (x shifted left by 1) times y be 1, at width 3?",
              "01 asks it at limit 0. The lowest bit decides, so it is unsat at every limit.")
    x, y = s.var(3, "x"), s.var(3, "y")
    s.equal(s.multiply(s.shift_left(x, 1), y), s.const(3, 1))


def case_4():
    s = Sheet("case_04", "is x times y ever equal to itself, at width 2?",
              "01 asks it at limit 0, where it is unknown. The program's limit is 1,000, where it is sat.")
    x, y = s.var(2, "x"), s.var(2, "y")
    product = s.multiply(x, y, "product")
    s.equal(product, product)


def case_5():
    s = Sheet("case_05", "is there an x of at most 1 and at least 5, with x times y being 0, at width 3?",
              "01 asks it at limit 0; unsat there and here.")
    x, y = s.var(3, "x"), s.var(3, "y")
    one, five, zero = s.const(3, 1), s.const(3, 5), s.const(3, 0)
    product = s.multiply(x, y)
    s.all_(s.at_most(x, one), s.at_most(five, x), s.equal(product, zero))


def case_6():
    s = Sheet("case_06", "has every x a y with x + y being 0, at width 2?",
              "01 asks it at limit 0 (unknown) and 2,048 (sat). The program's limit is 1,000: sat.")
    x, y = s.var(2, "x"), s.var(2, "y")
    s.forall(x, s.exists(y, s.equal(s.add(x, y), s.const(2, 0))))


def case_7(kind, word, left, right):
    s = Sheet(f"case_07_{word}_{left}_{right}", f"is {left} at most {right}, {word}, at width 1?")
    s.formula(kind, s.const(1, left), s.const(1, right))


def case_8(value):
    s = Sheet(f"case_08_constant_{value}", f"is the constant {value} accepted at width 3?",
              "The formula itself is just true.")
    s.const(3, value)
    s.true()


def case_9():
    s = Sheet("case_09", "is an operand equal to its own entry refused?", "Entry 1 names itself: refusal 4.")
    s.var(1, "x")
    s.entry(3, 1, (1,))
    s.true()


def case_10(width):
    s = Sheet(f"case_10_width_{width}", f"are there x and y, each 1 to 4, with x times y being 0, at width {width}?",
              "01 asks it with limit and slots 16,384; here it is asked with the program's 1,000 and 2,048.",
              "At width 4 there are (x = y = 4), at width 5 there are none.")
    x, y = s.var(width, "x"), s.var(width, "y")
    one, four, zero = s.const(width, 1), s.const(width, 4), s.const(width, 0)
    between = [s.at_most(one, x), s.at_most(x, four), s.at_most(one, y), s.at_most(y, four)]
    s.all_(*between, s.equal(s.multiply(x, y), zero))


def case_11(amount, same):
    other = f"one by {same}" if same else "x itself"
    s = Sheet(f"case_11_by_{amount}", f"can a shift by {amount} at width 3 differ from {other}?",
              "It can't: the amount is first reduced modulo the width.")
    x = s.var(3, "x")
    shifted = s.shift_left(x, amount)
    s.not_(s.equal(shifted, s.shift_left(x, same) if same else x))


def case_12(more):
    bits = 129 if more else 128
    s = Sheet(f"case_12_{bits}_bits", f"are {bits} variable bits accepted?",
              "One bit too many: refusal 7." if more else "The formula itself is just true.")
    for name in "abcd":
        s.var(32, name)
    if more:
        s.var(1, "e")
    s.true()


# ---- rules for a mesh of ward controllers

def controllers(s, n, rank_bits, address_bits):
    """Each controller's key: its rank, ties broken by its bus address."""
    ranks = [s.var(rank_bits, f"rank{i}") for i in range(1, n + 1)]
    addresses = [s.var(address_bits, f"address{i}") for i in range(1, n + 1)]
    return ranks, addresses, [s.concat(r, a, name=f"key{i}") for i, (r, a) in enumerate(zip(ranks, addresses), 1)]


def leads(s, keys, i):
    """No other controller's key is above that of controller i."""
    return s.all_(*(s.at_most(k, keys[i]) for j, k in enumerate(keys) if j != i), name=f"leads{i + 1}")


def leads_alone(s, keys, i):
    """Controller i's key is above every other's."""
    above = [s.not_(s.at_most(keys[i], k)) for j, k in enumerate(keys) if j != i]
    return s.all_(*above, name=f"leads{i + 1}")


def differ(s, terms):
    return [s.not_(s.equal(a, b)) for i, a in enumerate(terms) for b in terms[i + 1:]]


def mesh_two_lead():
    s = Sheet("mesh_two_lead", "can controllers 1 and 2 of three both lead, when all bus addresses differ?",
              "A controller leads when no other has a higher rank, or the same rank and a higher address.")
    _, addresses, keys = controllers(s, 3, 4, 3)
    s.all_(leads(s, keys, 0), leads(s, keys, 1), *differ(s, addresses))


def mesh_nobody_leads():
    s = Sheet("mesh_nobody_leads",
              "can it happen that none of three controllers leads, when two may have been set to one address?",
              "A controller leads when its rank, then its address, is above every other's. Two alike leave nobody.")
    _, _, keys = controllers(s, 3, 3, 2)
    s.all_(*(s.not_(leads_alone(s, keys, i)) for i in range(3)))


def mesh_nobody_leads_addressed():
    s = Sheet("mesh_nobody_leads_addressed",
              "can it happen that none of three controllers leads, when all bus addresses differ?",
              "The same rule as mesh_nobody_leads, with the missing condition.")
    _, addresses, keys = controllers(s, 3, 3, 2)
    s.all_(*(s.not_(leads_alone(s, keys, i)) for i in range(3)), *differ(s, addresses))


def mesh_bonus(wide):
    name = "mesh_bonus_wide" if wide else "mesh_bonus_wraps"
    s = Sheet(name, "can controller 2 lead although controller 1 has a higher rank and at least its uptime bonus?",
              "The score is rank + bonus; the higher score leads, and controller 1 leads on a tie.",
              "Both are extended by a bit before they are added, so that nothing is lost: it can't." if wide else
              "The sum is taken at 4 bits and wraps, so that a high rank can lose.")
    rank = [s.var(4, f"rank{i}") for i in (1, 2)]
    bonus = [s.var(4, f"bonus{i}") for i in (1, 2)]
    parts = [(s.zero_extend(r, 5), s.zero_extend(b, 5)) if wide else (r, b) for r, b in zip(rank, bonus)]
    scores = [s.add(r, b, f"score{i}") for i, (r, b) in enumerate(parts, 1)]
    leads2 = s.not_(s.at_most(scores[1], scores[0]), name="leads2")
    s.all_(s.not_(s.at_most(rank[0], rank[1])), s.at_most(bonus[1], bonus[0]), leads2)


def mesh_delay():
    s = Sheet("mesh_delay",
              "is there a deadline other than 0 that some rank meets for every delay: rank + delay = deadline?",
              "Numbers of 4 bits, so that the sum may wrap.",
              "The deadline is free; delay and rank are bound, and listed as 0.")
    deadline, delay, rank = s.var(4, "deadline"), s.var(4, "delay"), s.var(4, "rank")
    reached = s.equal(s.add(rank, delay), deadline)
    s.all_(s.forall(delay, s.exists(rank, reached)), s.not_(s.equal(deadline, s.const(4, 0))))


def mesh_health():
    s = Sheet("mesh_health", "can two controllers' health words, eight single flags each, add up to 128 or more?",
              "Every flag is a variable of its own, so the levels have all of controller 1's before controller 2's.",
              "The sum's top bit then needs more nodes than the limit of 1,000 allows, and is left out: unknown.")
    flags = [[s.var(1, f"flag{i}.{b}") for b in range(8)] for i in (1, 2)]
    words = []
    for word in flags:
        so_far = word[0]
        for flag in word[1:]:
            so_far = s.concat(flag, so_far)
        words.append(so_far)
    s.at_most(s.const(8, 128), s.add(*words, name="health"))


def mesh_weighted():
    s = Sheet("mesh_weighted", "can two controllers have equal scores, the score being rank times weight at 5 bits?",
              "The two products need more nodes than the program's 2,048 slots: refusal 11.")
    rank = [s.var(5, f"rank{i}") for i in (1, 2)]
    weight = [s.var(5, f"weight{i}") for i in (1, 2)]
    s.equal(*(s.multiply(r, w, f"score{i}") for i, (r, w) in enumerate(zip(rank, weight), 1)))


def describe():
    sheet_a()
    case_3()
    case_4()
    case_5()
    case_6()
    for kind, word in ((36, "signed"), (35, "unsigned")):
        case_7(kind, word, 1, 0)
        case_7(kind, word, 0, 1)
    case_8(7)
    case_8(8)
    case_9()
    case_10(4)
    case_10(5)
    case_11(3, 0)
    case_11(4, 1)
    case_12(False)
    case_12(True)
    mesh_two_lead()
    mesh_nobody_leads()
    mesh_nobody_leads_addressed()
    mesh_bonus(False)
    mesh_bonus(True)
    mesh_delay()
    mesh_health()
    mesh_weighted()


# ---- the expected listings

def compared(data):
    """The listing by tests/comparison."""
    command = ["cargo", "run", "--release", "--quiet", "--", "program"]
    place = os.path.join(ROOT, "tests/comparison")
    return subprocess.run(command, input=data, cwd=place, check=True, stdout=subprocess.PIPE).stdout


def by_oracle(data):
    """The listing by tests/oracle.py."""
    number, verdict, must, may, used, *cells = oracle.solve(list(data), LIMIT, 3 * SLOTS)
    lines = [f"answer {number}"]
    if number == 0:
        lines += [f"verdict {('sat', 'unsat', 'unknown')[verdict - 1]}", f"must {must}", f"may {may}", f"slots {used}"]
    if verdict == 1:
        _, es = oracle.check(list(data))
        order = oracle.Solver(es, LIMIT).order
        true = []  # the levels that the first accepted assignment makes true
        while must > 1:
            level, low, high = cells[3 * (must - 2):3 * (must - 1)]
            true += [] if low else [level]
            must = low or high
        lines += [f"entry {i} value {sum(1 << b for j, b in (order[l] for l in true) if j == i)}"
                  for i, e in enumerate(es) if e.kind == 1]
    return ("\n".join(lines) + "\n").encode()


def expected(sheet):
    data = sheet.bytes()
    listing = compared(data)
    if sheet.bits() <= ORACLE_BITS and listing != by_oracle(data):
        sys.exit(f"{sheet.name}: the two implementations differ:\n{listing.decode()}{by_oracle(data).decode()}")
    return listing


def files():
    """Path and contents of everything that is written."""
    out, printed = {}, b""
    for sheet in SHEETS:
        listing = expected(sheet)
        for folder in ("sheets", "crates/cases/data"):
            at = f"{folder}/{sheet.name}"
            out[at + ".sheet"], out[at + ".txt"], out[at + ".expected"] = sheet.bytes(), sheet.text().encode(), listing
        printed += sheet.name.encode() + b".sheet\n" + listing
    out["crates/cases/stdout"] = printed
    out["crates/prove/stdin"] = out["crates/cases/data/sheet_a.sheet"]
    out["crates/prove/stdout"] = out["crates/cases/data/sheet_a.expected"]
    return out


def main():
    describe()
    wrong = 0
    for path, contents in files().items():
        path = os.path.join(ROOT, path)
        if sys.argv[1:] == ["--check"]:
            same = os.path.exists(path) and open(path, "rb").read() == contents
            wrong += not same
            print("" if same else f"differs: {path}\n", end="")
        else:
            os.makedirs(os.path.dirname(path), exist_ok=True)
            with open(path, "wb") as file:
                file.write(contents)
    twice = sum(s.bits() <= ORACLE_BITS for s in SHEETS)
    print(f"{len(SHEETS)} sheets, {twice} of them by both implementations, {wrong} files differ")
    sys.exit(wrong > 0)


if __name__ == "__main__":
    main()
