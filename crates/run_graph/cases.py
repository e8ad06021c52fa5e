#!/usr/bin/env python3
"""Write the standard input of this program, some hundred graph texts in both forms, and by a reader of its own the output that it must give.
usage: cases.py"""
import pathlib, random, re
HERE = pathlib.Path(__file__).resolve().parent
WORDS = 80000
CUT_LIMIT = 18
WORDS_EACH = 16 + 6 * CUT_LIMIT  # of each variable

def number(f):
    """0 to 65,535 in decimal without leading zeros, or None"""
    return int(f) if re.fullmatch(rb"0|[1-9][0-9]{0,4}", f) and int(f) <= 65535 else None

def line_at(t, at, count, binary):
    """the numbers of the line at a place, if it has so many, and the next place"""
    end = t.find(b"\n", at)
    if end < 0:
        return None, 0
    stop = end - 1 if not binary and t[at:end][-1:] == b"\r" else end  # in the ASCII form bytes 13 and 10 end a line too
    ns = [number(f) for f in t[at:stop].split(b" ")]
    return (None if len(ns) != count or None in ns else ns), end + 1

def difference(t, at):
    """the difference at a place and the next place, or None where it takes more than two bytes or the text ends before its end"""
    found = re.compile(rb"[\x80-\xff]?[\x00-\x7f]", re.S).match(t, at)
    return None if found is None else (sum((byte & 127) << 7 * k for k, byte in enumerate(found[0])), found.end())

def read(t):
    if not t.startswith((b"aag ", b"aig ")):
        return "refused 7 0"
    binary = t.startswith(b"aig ")
    head, at = line_at(t, 4, 5, binary)
    if head is None:
        return "refused 7 0"
    m, i, l, o, a = head
    if l:
        return "refused 8 0"
    if m > 4095 or o > 4096 or i + a > m:
        return "refused 9 0"
    if binary and m != i + a:
        return "refused 19 0"
    if WORDS_EACH * (m + 1) + o > WORDS:
        return "refused 10 0"
    lines, defined = [], {0}
    if binary:
        # the inputs and ANDs have their numbers without lines
        lines = [("i", 0, [2 * v]) for v in range(1, i + 1)]
        defined = set(range(m + 1))
    for kind in "o" * o if binary else "i" * i + "o" * o + "a" * a:
        if at >= len(t):
            return f"refused 11 {len(t)}"
        ns, end = line_at(t, at, 3 if kind == "a" else 1, binary)
        if ns is None:
            return f"refused 11 {at}"
        if max(ns) > 2 * m + 1 or (kind != "o" and (ns[0] % 2 or ns[0] == 0)):
            return f"refused 12 {at}"
        if kind != "o":
            if ns[0] // 2 in defined:
                return f"refused 13 {at}"
            defined.add(ns[0] // 2)
        lines.append((kind, at, ns))
        at = end
    for v in range(i + 1, m + 1) if binary else []:
        ns = [2 * v]
        for _ in range(2):
            got = difference(t, at)
            if got is None:
                return f"refused 20 {at}"
            if got[0] > ns[-1] or (got[0] == 0 and len(ns) == 1):
                return f"refused 21 {at}"
            ns.append(ns[-1] - got[0])
            place, at = at, got[1]
        lines.append(("a", place, ns))
    for kind, place, ns in lines:
        if any(n // 2 not in defined for n in ([] if kind == "i" else ns if kind == "o" else ns[1:])):
            return f"refused 14 {place}"
    order = [0] + [ns[0] // 2 for kind, _, ns in lines if kind == "i"]
    ands = {ns[0] // 2: ns[1:] for kind, _, ns in lines if kind == "a"}
    placed = set(order)
    while True:
        ready = [v for v, ops in ands.items() if v not in placed and all(n // 2 in placed for n in ops)]
        if not ready:
            break
        order.append(min(ready))
        placed.add(min(ready))
    left = [v for v in ands if v not in placed]
    if left:
        return f"refused 15 {min(left)}"
    return " ".join(["placed"] + [str(v) for v in order] + ["outputs"] + [str(ns[0]) for kind, _, ns in lines if kind == "o"])

def graph(r):
    """a graph of random form, its AND lines in any order; now and then a literal is of a later variable, or of none"""
    i, a, o = r.randrange(5), r.randrange(12), r.randrange(4)
    m = i + a + r.choice([0, 0, 1, 3])
    names = r.sample(range(1, m + 1), i + a)
    ops = [0] + names[:i]
    ands = []
    for v in names[i:]:
        pick = ops if r.random() < 0.97 else range(m + 1)
        ands.append(b"%d %d %d\n" % (2 * v, 2 * r.choice(pick) + r.randrange(2), 2 * r.choice(pick) + r.randrange(2)))
        ops.append(v)
    r.shuffle(ands)
    outs = [b"%d\n" % (2 * r.choice(ops if r.random() < 0.97 else range(m + 1)) + r.randrange(2)) for _ in range(o)]
    return b"aag %d %d 0 %d %d\n" % (m, i, o, a) + b"".join(b"%d\n" % (2 * v) for v in names[:i]) + b"".join(outs) + b"".join(ands)

def ends(r, t):
    """some of the lines ended in two bytes"""
    return b"".join(x + r.choice([b"\n", b"\r\n"]) for x in t.split(b"\n")[:-1])

def groups(d):
    """a difference in groups of seven bits, lowest first"""
    return bytes([d]) if d < 128 else bytes([128 + d % 128, d // 128])

def binary_graph(r):
    """a graph of random form in binary; no difference has a byte 0, which would end the text here"""
    i, a, o = r.choice([1, 2, 4, 64, 130]), r.randrange(9), r.randrange(4)
    ands = b""
    for left in range(2 * (i + 1), 2 * (i + a + 1), 2):
        first = left - r.choice([n for n in (1, 2, 3, 126, 127, 128, 129, 131, r.randrange(1, left)) if n < left and n % 128])
        second = r.choice([n for n in range(first) if (first - n) % 128] or [None])
        if second is None:
            return binary_graph(r)
        ands += groups(left - first) + groups(first - second)
    outs = b"".join(b"%d\n" % r.randrange(2 * (i + a) + 2) for _ in range(o))
    return b"aig %d %d 0 %d %d\n" % (i + a, i, o, a) + outs + ands

def binary_texts():
    r = random.Random(2)
    b_ = b"aig 3 2 0 1 1\n6\n\x02\x02"
    f_ = b"aig 6 3 0 1 3\n12\n\x04\x02\x02\x02\x02\x02"
    out = [b_, f_, b_ + b"\xff\xff", b_ + b"i0 x\nc\n"] + [b_[:n] for n in range(len(b_))] + [f_[:n] for n in range(17, len(f_))]
    # the header: 19 after 9 and before 10
    out += [h + b"\n" for h in (b"aig 0 0 0 0 0", b"aig 1 0 0 0 0", b"aig 3 2 0 0 0", b"aig 3 2 0 0 2", b"aig 3 2 1 0 0", b"aig 645 0 0 0 0", b"aig 645 645 0 0 0", b"aig 644 644 0 0 0", b"aig 4095 4095 0 0 0",
                                 b"aig 4095 4094 0 0 0", b"aig 4096 4096 0 0 0", b"aig 4096 0 0 0 0", b"aig 0 0 0 4097 0", b"aig 1 0 0 4097 0", b"aigs 0 0 0 0 0", b"aig 0 0 0 0", b"aig 0 0 0 0 0 0", b"aig 00 0 0 0 0",
                                 b"aig 0 0 0 0 0\r", b"aig  0 0 0 0 0", b"aig")]
    # output lines keep 11 and 12, before any difference
    out += [b"aig 3 2 0 1 1\n" + l for l in (b"7\n\x02\x02", b"8\n\x07", b"06\n\x07", b"6\r\n\x02\x02", b"6 2 4\n\x02\x02", b"\n\x02\x02", b"65536\n\x02\x02", b"0\n\x02\x02", b"6")]
    # byte 10 alone ends the header and an output line: a byte 13 before each byte; bytes 13 and 10 for the first byte 10, and for the first two
    out += [b_[:n] + b"\r" + b_[n:] for n in range(len(b_) + 1)] + [t.replace(b"\n", b"\r\n", k) for t in (b_, f_) for k in (1, 2)]
    out += [b"aig 2 2 0 2 0\n" + l for l in (b"2\r\n4\n", b"2\n4\r\n", b"2\n4\r", b"2\r\r\n4\n", b"2\n\r\n", b"\r\n2\n4\n")]
    # 20 and 21 at each of their places, one before the other
    out += [b"aig 3 2 0 1 1\n6\n" + d for d in (b"\x82\x80", b"\x82\x80\x01\x02", b"\xff\xff", b"\x80\x80", b"\x02\x82", b"\x02\x82\x80", b"\x02\xff\xff\x01", b"\x07", b"\x07\x02", b"\x07\xff\xff",
                                                b"\x86\x01\x02", b"\xff\x7f\x02", b"\x02\x05", b"\x02\x04", b"\x02\xff\x7f", b"\x06\x01", b"\x01\x05", b"\x01\x06", b"\x05\x01")]
    # what a difference is taken from, in one byte and in two
    for left in (126, 128, 130, 256, 258):
        for d in (1, 126, 127, 129, 255, left - 1, left, left + 1, 16383):
            if d % 128:
                head = b"aig %d %d 0 0 1\n" % (left // 2, left // 2 - 1)
                out += [head + groups(d) + b"\x01", head + b"\x01" + groups(d)]
    for _ in range(60):
        t = binary_graph(r)
        n = r.randrange(len(t))
        out += [t, t[:n] + bytes([r.randrange(1, 256)]) + t[n + 1:], t[:n] + bytes([r.randrange(1, 256)]) + t[n:], t[:n]]
    return out

def texts():
    r = random.Random(1)
    b_ = b"aag 3 2 0 1 1\n2\n4\n6\n6 2 4\n"
    f_ = b"aag 6 3 0 1 3\n2\n4\n6\n12\n8 2 4\n10 8 6\n12 8 10\n"
    j_ = b"aag 2 0 0 0 2\n2 4 4\n4 2 2\n"
    k_ = b"aag 3 1 0 1 2\n2\n4\n4 6 6\n6 2 2\n"
    marked = [b"aag 0 0 0 0 0\n", b_, b_.replace(b"6 2 4", b"6 3 5"), f_, b"aag 0 0 0 1 0\n1\n", j_, k_]
    out = list(marked)
    # a symbol table behind the last AND line, and the same cut short
    out += [b_ + b"i0 x\no0 y\nc\n", b_ + b"\n", b_ + b"6 2 4\n", b_ + b"x"] + [b_[:n] for n in range(len(b_))]
    # the header; one with just as many words as there are, one with a word more
    most = (WORDS - 1) // WORDS_EACH - 1
    rest = WORDS - WORDS_EACH * (most + 1)
    for h in [b"", b"\n", b"aag\n", b"aag ", b"aig 0 0 0 0 0\n", b"aag  0 0 0 0 0\n", b" aag 0 0 0 0 0\n", b"aag 0 0 0 0\n", b"aag 0 0 0 0 0 0\n", b"aag 0 0 0 0 0 \n", b"aag 0 0 0 0 0",
              b"aag 00 0 0 0 0\n", b"aag 0 0 0 0 01\n", b"aag 65536 0 0 0 0\n", b"aag 65535 0 1 0 0\n", b"aag 65535 0 0 0 0\n", b"aag 4096 0 0 0 0\n", b"aag 4095 0 0 0 0\n", b"aag 0 0 0 4096 0\n",
              b"aag 0 0 0 4097 0\n", b"aag 1 1 0 0 1\n", b"aag 0 0 1 0 0\n", b"aag 0 0 0 0 0\r\n", b"AAG 0 0 0 0 0\n", b"aag 5 2 0 0 4\n", b"aag %d 0 0 %d 0\n" % (most, rest), b"aag %d 0 0 %d 0\n" % (most, rest + 1), b"aag -1 0 0 0 0\n"]:
        out.append(h)
    # lines that break their form, literals out of range, variables defined twice or nowhere
    for old, new in [(b"\n2\n", b"\n02\n"), (b"\n2\n", b"\n2 \n"), (b"\n2\n", b"\n\n"), (b"\n2\n", b"\n3\n"), (b"\n2\n", b"\n0\n"), (b"\n2\n", b"\n8\n"), (b"\n2\n", b"\n9\n"), (b"\n4\n", b"\n2\n"),
                     (b"\n6\n", b"\n7\n"), (b"\n6\n", b"\n8\n"), (b"\n6\n", b"\n0\n"), (b"\n6\n", b"\n1\n"), (b"\n6\n", b"\n6 6\n"), (b"6 2 4", b"7 2 4"), (b"6 2 4", b"0 2 4"), (b"6 2 4", b"4 2 4"),
                     (b"6 2 4", b"2 2 4"), (b"6 2 4", b"6 6 4"), (b"6 2 4", b"6 2 6"), (b"6 2 4", b"6 0 1"), (b"6 2 4", b"6 2"), (b"6 2 4", b"6 2 4 4"), (b"6 2 4", b"6 2 8"), (b"6 2 4", b"6 8 4"),
                     (b"6 2 4", b"6  2 4"), (b"6 2 4", b"6 2 65536"), (b"aag 3 2 0 1 1", b"aag 4 2 0 1 1"), (b"aag 3 2 0 1 1", b"aag 4 2 0 1 2")]:
        out += [b_.replace(old, new, 1), b_.replace(b"aag 3", b"aag 5", 1).replace(old, new, 1)]
    # undefined variables: the first line that uses one, outputs before ANDs
    out += [b"aag 5 1 0 2 1\n2\n4\n8\n4 10 2\n", b"aag 5 1 0 1 2\n2\n4\n4 2 10\n6 8 8\n", b"aag 5 1 0 1 2\n2\n0\n4 2 6\n6 8 8\n", b"aag 1 0 0 0 0\n", b"aag 9 1 0 1 1\n18\n18\n2 18 18\n"]
    # ANDs that cannot be placed: a ring, one that feeds itself, one behind a ring
    out += [b"aag 1 0 0 0 1\n2 2 2\n", b"aag 2 1 0 0 1\n2\n4 4 2\n", b"aag 4 1 0 1 3\n8\n2\n2 8 4\n4 6 8\n6 4 4\n", b"aag 3 0 0 1 3\n6\n6 4 4\n4 2 2\n2 0 1\n"]
    for name in ("maxhold_n2_w4.st.shuf", "sorter16.rs.shuf", "maxhold_n2_w4.st", "mult2.st", "gt_w2.st", "prio_n4_b2.b", "cmp3_w2.rs", "satadd_w3.dc2"):
        t = (HERE / "graphs" / (name + ".aag")).read_bytes()
        out += [t, t[: len(t) // 2]]
        for _ in range(4):
            n = r.randrange(len(t))
            out.append(t[:n] + bytes([r.choice(b"0123456789 \n")]) + t[n + 1:])
    for _ in range(150):
        t = graph(r)
        out.append(t)
        n = r.randrange(len(t))
        out.append(t[:n] + bytes([r.choice(b"0123456789 \n")]) + t[n + 1:])
    # lines that end in bytes 13 and 10, all or some; a byte 13 elsewhere, doubled, or as the last byte
    r = random.Random(3)
    for t in marked:
        out += [t.replace(b"\n", b"\r\n"), ends(r, t), ends(r, t), t.replace(b"\n", b"\r\r\n"), t[:-1] + b"\r"]
    out += [b_[:n] + b"\r" + b_[n:] for n in range(len(b_) + 1)]
    for _ in range(60):
        t = ends(r, graph(r))
        out.append(t)
        n = r.randrange(len(t))
        out.append(t[:n] + bytes([r.choice(b"0123456789 \n\r\r\r")]) + t[n + r.randrange(2):])
    return out + binary_texts()

def main():
    ts = texts()
    assert not any(b"\0" in t for t in ts)
    data = b"".join(t + b"\0" for t in ts)
    assert len(data) <= 131072, len(data)
    (HERE / "stdin").write_bytes(data)
    (HERE / "stdout").write_text("".join(read(t) + "\n" for t in ts))

main()
