#!/usr/bin/env python3
"""Write the standard input of this program, some hundred genlib texts, and by a reader of its own the output that it must give.
usage: cases.py"""
import pathlib, random, re
HERE = pathlib.Path(__file__).resolve().parent
NAMES = b"cell pins table area d0 d1 d2 d3\n"
NAME = rb"[A-Za-z0-9_]+"
FIGURE = rb"[0-9]+(\.[0-9]+)?"


class Form(Exception):
    pass


def words(line):
    """A line's words and signs; None where a byte is neither."""
    out, at = [], 0
    while at < len(line):
        m = re.compile(rb"[ \t]+|[A-Za-z0-9_.]+|[=;!'*+()]").match(line, at)
        if not m:
            return None
        if m.group()[:1] not in b" \t":
            out.append(m.group())
        at = m.end()
    return out


class Expression:
    """A tree of ("or", parts), ("and", parts), ("not", part) and names; read from the words behind `=`, the last of which is `;`."""

    def __init__(self, toks):
        self.toks, self.at, self.depth, self.deepest, self.pins = toks, 0, 0, 0, []
        self.all_pins = []
        self.tree = self.sum()
        if self.toks[self.at:] != [b";"]:
            raise Form

    def peek(self):
        return self.toks[self.at] if self.at < len(self.toks) else b""

    def parts(self, sign, kind, part):
        ps = [part()]
        while self.peek() == sign:
            self.at += 1
            ps.append(part())
        return ps[0] if len(ps) == 1 else (kind, ps)

    def sum(self):
        return self.parts(b"+", "or", self.product)

    def product(self):
        return self.parts(b"*", "and", self.factor)

    def factor(self):
        turns = 0
        while self.peek() == b"!":
            self.at += 1
            turns += 1
        t = self.peek()
        self.at += 1
        if t == b"(":
            self.depth += 1
            self.deepest = max(self.deepest, self.depth)
            f = self.sum()
            if self.peek() != b")":
                raise Form
            self.at += 1
            self.depth -= 1
        elif re.fullmatch(NAME, t):
            f = t
            if t not in (b"CONST0", b"CONST1"):
                self.all_pins.append(t)
                if t not in self.pins:
                    self.pins.append(t)
        else:
            raise Form
        while self.peek() == b"'":
            self.at += 1
            turns += 1
        return ("not", f) if turns % 2 else f


def value(tree, row):
    if isinstance(tree, bytes):
        return {b"CONST0": False, b"CONST1": True}.get(tree, row.get(tree))
    kind, ps = tree
    if kind == "not":
        return not value(ps, row)
    vs = [value(p, row) for p in ps]
    return any(vs) if kind == "or" else all(vs)


def thousandths(w):
    whole, _, more = w.partition(b".")
    if len(more) > 3:
        return None
    n = int(whole + more.ljust(3, b"0"))
    return n if n <= 65535 else None


def split_lines(t):
    """Each line's offset, contents (None where it has no end)."""
    out, at = [], 0
    while at < len(t):
        end = t.find(b"\n", at)
        if end < 0:
            out.append((at, t[at:], False))
            return out
        line = t[at:end]
        out.append((at, line[:-1] if line.endswith(b"\r") else line, True))
        at = end + 1
    return out


def gate(group):
    (_, line, ended), pins = group[0], group[1:]
    if not ended:
        raise Form
    w = words(line)
    if w is None or len(w) < 6 or w[0] != b"GATE" or not re.fullmatch(NAME, w[1]) or not re.fullmatch(FIGURE, w[2]) or not re.fullmatch(NAME, w[3]) or w[4] != b"=":
        raise Form
    e = Expression(w[5:])
    rows = []
    for _, line, ended in pins:
        p = words(line)
        if not ended or p is None or len(p) != 9 or p[0] != b"PIN" or not (p[1] == b"*" or re.fullmatch(NAME, p[1])) or not re.fullmatch(NAME, p[2]):
            raise Form
        if not all(re.fullmatch(FIGURE, x) for x in p[3:]):
            raise Form
        rows.append(p)
    fit = {x: next((p for p in rows if p[1] in (b"*", x)), None) for x in e.all_pins}
    if None in fit.values():
        raise Form
    if len(e.pins) > 4 or e.deepest > 16:
        return 23
    area = thousandths(w[2])
    delays = [(thousandths(fit[x][5]), thousandths(fit[x][7])) for x in e.pins]
    if area is None or any(None in d for d in delays):
        return 24
    table = sum(value(e.tree, {x: r >> j & 1 == 1 for j, x in enumerate(e.pins)}) << r for r in range(1 << len(e.pins)))
    d = ([max(x) for x in delays] + [0] * 4)[:4]
    return b"%s %d %04x %d %d %d %d %d\n" % (w[1], len(e.pins), table, area, *d)


def convert(t, lent):
    """The number and value of the answer, and the lent bytes."""
    memory = b"." * lent
    if len(t) > 65536:
        return 1, 0, memory
    groups = []
    for at, line, ended in split_lines(t):
        if not groups or re.match(rb"[ \t]*([A-Za-z0-9_]*)", line).group(1) == b"GATE":
            groups.append([])
        groups[-1].append((at, line, ended))
    out = NAMES
    for g in groups:
        try:
            c = gate(g)
        except Form:
            c = 22
        if isinstance(c, int):
            return c, g[0][0], memory
        out += c
    if len(out) > lent:
        return 18, len(out), memory
    return 0, len(out), out + memory[len(out):]


INV = b"GATE inv 1 O=!a;\nPIN a INV 1 999 1.0 0.2 1.0 0.2\n"
NAND = b"GATE nand2 2.5 O = !(a * b);\nPIN * INV 1 999 0.9 0 1.1 0\n"
PIN = b"PIN * NONINV 1 999 %s 0 %s 0\n"


def one(expression, pins=PIN % (b"1", b"2"), area=b"1"):
    return b"GATE g %s O=%s;\n%s" % (area, expression, pins)


def texts():
    r = random.Random(6)
    out = [b"", b"\n", b" ", b"\r\n", INV, NAND, INV + NAND, INV * 3, INV[:-1], INV + b"\n", INV + b" \n", b"\n" + INV, b"#\n" + INV, INV + b"# remark\n"]
    # the form of a line, by one change
    for t in (INV, NAND):
        for a, b in [(b"GATE", b"gate"), (b"GATE", b" \tGATE"), (b"GATE ", b"GATE"), (b"GATE", b"GATE_"), (b"GATE", b"GATE#"), (b"GATE", b"LATCH"), (b"PIN", b"pin"), (b"PIN ", b"PIN"),
                     (b"PIN", b" PIN"), (b"PIN", b"PINS"), (b";", b""), (b";", b" ; "), (b";", b";;"), (b";", b"; PIN a INV 1 999 1 0 1 0"), (b"=", b""), (b"=", b"=="), (b"O", b""), (b"O", b"O P"),
                     (b"O", b"a"), (b"O", b"O."), (b"O", b"GATE"), (b"INV", b""), (b"INV", b"1"), (b"INV", b"1.5"), (b"INV", b"*"), (b"999", b"-9"), (b"999", b"9."), (b"999", b".9"), (b"999", b"1e3"),
                     (b"999", b"00009999999999999999999999.99999999"), (b"999 ", b""), (b"999", b"9 9"), (b"\n", b"\r\n"), (b"\n", b"\r\r\n"), (b"\n", b"\r"), (b"a", b"a.b"), (b"a", b"2"), (b"a", b"PIN"),
                     (b"a", b"a_9Z"), (b"a", b"a-b"), (b"a", b"[a]"), (b"!", b""), (b"!", b"!!!"), (b"!", b"'"), (b"!", b"! \t!")]:
            if a in t:
                out += [t.replace(a, b, 1), t.replace(a, b)]
    out += [INV.replace(b"\n", b"\r\n") + NAND, INV + NAND.replace(b"\n", b"\r\n"), INV + NAND[:-1] + b"\r"]
    # figures
    for f in (b"0", b"0.0", b"0.000", b"0.0000", b"00", b"007", b"000000000000000000000000065.535", b"65.535", b"65.536", b"65.5350", b"65", b"66", b"65.53", b"1.", b".5", b"1..2", b"1.2.3", b"1,2",
              b"0.001", b"0.0005", b"99999999999999999999999999", b"18446744073709551616", b"18446744073709551.616", b"4294967.296", b"1.2345", b"+1", b"1 2", b""):
        out += [one(b"a", area=f), one(b"a", PIN % (f, b"1")), one(b"a", PIN % (b"1", f)), one(b"CONST1", area=f), one(b"a", b"PIN * INV %s 1 1 %s 1 %s\n" % (f, f, f))]
    # expressions
    for e in (b"CONST0", b"CONST1", b"!CONST0", b"CONST1'", b"CONST0*a", b"CONST1+a", b"CONST2", b"const0", b"0", b"1", b"0*1", b"a", b"!a", b"a'", b"!a'", b"!!a", b"a''", b"!a''", b"(a)", b"((a))'", b"!(a+b)'",
              b"a*b", b"a+b", b"a b", b"ab", b"a!b", b"a*!b", b"!a*b", b"a*b'", b"(a*b)'", b"a'*b'", b"a+b*c", b"a*b+c", b"(a+b)*c", b"a*(b+c)", b"a*b+c*d", b"(a+b)*(c+d)", b"d*c*b*a", b"b+a+b", b"a*a",
              b"a+a'", b"a*a'", b"a*b+!a*c", b"a*b'+a'*b", b"a*b*c*d", b"a*b*c*d*e", b"a+b+c+d+a", b"a+b+c+d+e*CONST0", b"CONST0+a+b+c+d", b"!(a*!(b*!(c*!d)))", b"a*", b"*a", b"+", b"", b"()", b"(a", b"a)",
              b"a)(b", b"(a))", b"((a)", b"a*+b", b"a++b", b"'a", b"!", b"a!", b"!'a", b"a*'", b"(a)b", b"(a)(b)", b"a;b", b"a=b", b"a ' ' '", b"! ! ! a", b" ( a ) ", b"a.b", b"1.5", b"a&b", b"a|b", b"a^b",
              b"CONST0CONST1", b"CONST1*CONST0", b"a\tb", b"a\t*\tb", b"x1+x2+x3+x4'", b"!(!(!(a)))", b"a*(b*(c*(d)))"):
        out += [one(e), one(b" %s " % e, PIN % (b"0.5", b"0.25"))]
    for depth in (15, 16, 17, 18, 40):
        out += [one(b"(" * depth + b"a" + b")" * depth), one(b"(" * depth + b"a" + b")" * (depth - 1)), one(b"(" * depth + b"a+b)" * depth), one(b"a*!" + b"(!" * depth + b"a'" + b")'" * depth)]
    deep = b"(" * 17 + b"a" + b")" * 17
    # the order of refusals, gate by gate
    bad = [one(b"a b"), one(deep), one(b"a", area=b"1.2345"), one(b"a*b*c*d*e"), one(b"a", b""), one(deep, area=b"70"), one(b"a*b*c*d*e", b"PIN a X 1 1 1 1 1 1\n"), one(b"a", PIN % (b"66", b"1") + b"\n")]
    out += bad + [x + y for x in bad + [INV] for y in bad + [INV]]
    # which PIN line counts
    p = [b"PIN %s INV 1 999 %d 0 %d 0\n" % (n, i + 1, 2 * i) for i, n in enumerate([b"a", b"*", b"b", b"a", b"c", b"*", b"A"])]
    for e in (b"a", b"b", b"a*b", b"b*a", b"c+b+a", b"A*a", b"CONST1"):
        for _ in range(4):
            out.append(one(e, b"".join(r.sample(p, r.randrange(1, 6)))))
    out += [one(b"a", p[0] + PIN % (b"99", b"1")), one(b"a", PIN % (b"99", b"1") + p[0]), one(b"a", b"PIN*INV 1 2 3 4 5 6\n"), one(b"a", b"PIN\ta\tINV\t1 2 3 4 5 6 \t \n"), one(b"a", b"PIN a INV 1 2 3 4 5 6 7\n"),
            one(b"a", b"PIN a INV 1 2 3 4 5\n"), one(b"a", b"PIN a * 1 2 3 4 5 6\n"), one(b"a", b"PIN ** 1 2 3 4 5 6\n"), one(b"a*b", p[0]), p[0] + one(b"a"), b"PIN\n" + one(b"a"), one(b"CONST0", b""), one(b"CONST0", b"") * 2]
    out += [one(b"a").replace(b" g ", b" %s " % n) for n in (b"abcdefghi", b"9", b"_", b"GATE", b"a-b", b"x" * 100, b"O", b"a b")]
    # random expressions
    def expr(d):
        k = r.randrange(6 if d else 2)
        if k < 2:
            e = r.choice([b"a", b"b", b"c", b"d", b"in_1", b"CONST0", b"CONST1", b"a", b"b"])
        elif k < 4:
            e = b"(" + expr(d - 1) + b")"
        else:
            e = b"(" + r.choice([b"*", b"+", b" * ", b" +\t"]).join(expr(d - 1) for _ in range(r.randrange(2, 4))) + b")"
        e = r.choice([b"", b"", b"", b"!", b"!!", b"! "]) + e + r.choice([b"", b"", b"", b"'", b"''", b" '"])
        return e
    for _ in range(60):
        e = r.choice([b"*", b"+"]).join(expr(3) for _ in range(r.randrange(1, 4)))
        out.append(one(e, PIN % (b"%d.%d" % (r.randrange(70), r.randrange(1000)), b"%d" % r.randrange(66))))
    # damaged
    for _ in range(80):
        t = bytearray(r.choice([INV + NAND, one(b"a*b+c'"), NAND + one(b"!(a+b)"), INV + one(b"(a+b)*c")]))
        for _ in range(r.randrange(1, 3)):
            i = r.randrange(len(t))
            t[i:i + r.randrange(2)] = bytes([r.choice(b"aGP01 .;=!'*+()\t\n\n\r-")])
        out.append(bytes(t))
    return [t for t in dict.fromkeys(out) if len(t) <= 600]


def cases():
    for t in texts():
        number, value, _ = convert(t, 65536)
        need = value if number == 0 else 0
        yield need + 2, t
    for t in (b"", INV, INV + NAND, one(b"a b"), one(b"a", area=b"66")):
        number, value, _ = convert(t, 65536)
        for lent in (0, 1, 32, 33, value - 1 if number == 0 else 5, value):
            yield lent, t


cs = list(dict.fromkeys(cases()))
assert all(0 not in t for _, t in cs)
inputs = b"".join(b"%d\0%s\0" % c for c in cs)
assert len(inputs) <= 131072 and all(lent <= 4096 for lent, _ in cs)
(HERE / "stdin").write_bytes(inputs)
(HERE / "stdout").write_bytes(b"".join(b"%d %d\n%s\n" % convert(t, lent) for lent, t in cs))
