#!/usr/bin/env python3
"""Write the standard input of this program, some hundred library texts, and by a reader of its own the output that it must give.
usage: cases.py"""
import pathlib, random, re
HERE = pathlib.Path(__file__).resolve().parent
NAMES = b"cell pins table area d0 d1 d2 d3"
RANGED = NAMES + b" l0 l1 l2 l3"  # "`l0` to `l3` after `d3` in its names line"
FIELDS = [rb"[A-Za-z][A-Za-z0-9_]{0,7}", rb"[0-4]", rb"[0-9a-f]{4}"] + [rb"(0|[1-9][0-9]{0,4})"] * 9

def read(t):
    lines, at = [], 0
    while at < len(t):
        end = t.find(b"\n", at)
        line = t[at:] if end < 0 else t[at:end]
        if end >= 0 and line[-1:] == b"\r":  # bytes 13 and 10 end a line too
            line = line[:-1]
        lines.append((at, line, end >= 0))
        at = len(t) if end < 0 else end + 1
    if not lines or not lines[0][2] or lines[0][1] not in (NAMES, RANGED):
        return "refused 2 0"
    ranged = lines[0][1] == RANGED
    cells = []
    for at, line, ended in lines[1:]:
        if len(cells) == 32:
            return f"refused 3 {at}"
        f = line.split(b" ")
        ok = ended and len(f) == (12 if ranged else 8) and all(re.fullmatch(p, x) for p, x in zip(FIELDS, f)) and all(int(x) <= 65535 for x in f[3:])
        if not ok:
            return f"refused 4 {at}"
        if any(c[0] == f[0] for c in cells):
            return f"refused 5 {at}"
        pins, table, d = int(f[1]), int(f[2], 16), [int(x) for x in f[4:8]]
        low = [int(x) for x in f[8:]] if ranged else d
        if table >> (1 << pins) or any(d[pins:]) or any(low[pins:]):
            return f"refused 6 {at}"
        if any(x > y for x, y in zip(low, d)):
            return f"refused 27 {at}"
        cells.append((f[0], pins, table, int(f[3]), *d, *low))
    return f"{'ranged' if ranged else 'read'} {len(cells)}" + "".join(" " + " ".join([c[0].decode()] + [str(x) for x in c[1:]]) for c in cells)

def cell(r, name):
    p = r.randrange(5)
    table = r.randrange(1 << (1 << p))
    d = [r.choice([0, 1, 9, 10, 65535, r.randrange(65536)]) if j < p else 0 for j in range(4)]
    return b"%s %d %04x %d %d %d %d %d\n" % (name, p, table, r.choice([0, 7, 65535]), *d)

def ranged_cell(r, name):
    """a cell line under the longer names line; now and then a lowest delay is above its delay, or an absent pin's isn't 0"""
    line = cell(r, name)[:-1]
    p, d = int(line.split(b" ")[1]), [int(x) for x in line.split(b" ")[4:]]
    low = [r.choice([0, x, x, x // 2, max(0, x - 1), min(65535, x + 1) if r.random() < 0.3 else x]) for x in d]
    if p < 4 and r.random() < 0.1:
        low[r.randrange(p, 4)] = 1
    return line + b" %d %d %d %d\n" % tuple(low)

def ends(r, t):
    """some of the lines ended in two bytes"""
    return b"".join(x + (r.choice([b"\n", b"\r\n"])) for x in t.split(b"\n")[:-1])

def texts():
    r = random.Random(1)
    head = NAMES + b"\n"
    out = [b"", b"\n", NAMES, head, head + b"\n", b" " + head, head[:-1] + b" \n", b"x" + head]
    many = [b"c%d 0 0000 1 0 0 0 0\n" % i for i in range(34)]
    out += [head + b"".join(many[:n]) for n in (31, 32, 33, 34)]
    out += [head + b"".join(many[:32]) + x for x in (b"\n", b"x")]
    good = b"inv 1 0001 1 10 0 0 0\n"
    for a, b in [(b"inv", b"9inv"), (b"inv", b"abcdefgh"), (b"inv", b"abcdefghi"), (b"inv", b"_a"), (b"inv", b"a_9Z"), (b"inv", b"a-b"), (b"inv", b""),
                 (b" 1 0001", b" 01 0001"), (b" 1 0001", b" 5 0001"), (b" 1 0001", b" 0 0001"), (b" 1 0001", b" 0 0002"), (b"0001", b"0004"), (b"0001", b"000A"),
                 (b"0001", b"001"), (b"0001", b"00001"), (b"0001", b"000g"), (b" 10 ", b" 65535 "), (b" 10 ", b" 65536 "), (b" 10 ", b" 00 "), (b" 10 ", b" 010 "),
                 (b" 10 ", b" 99999999999999999999999 "), (b" 10 ", b"  10 "), (b" 10 ", b" "), (b" 10 ", b" 1x "), (b"0 0\n", b"0 1\n"), (b"0 0\n", b"0 0 \n"),
                 (b"0 0\n", b"0 0 0\n"), (b"0 0\n", b"0\n"), (b"\n", b""), (b"\n", b"\r\n"), (b" 1 10", b"\t1 10")]:
        out += [head + good.replace(a, b, 1), head + b"nand2 2 0007 2 20 20 0 0\n" + good.replace(a, b, 1) + b"x"]
    out += [head + good + good, head + good + b"inv 9\n", head + good + b"inv 1 ffff 1 10 0 0 0\n", head + b"a 0 0000 1 0 0 0 0\nab 0 0000 1 0 0 0 0\n"]
    out += [head + b"w 4 fff%c 1 1 1 1 1\n" % b for b in range(1, 256)]  # each byte as a digit; byte 0 ends a text
    for name in ("tiny", "array", "full"):  # 5, 24 and 32 cells; then a cell more, a line repeated, an end cut off, a byte changed
        t = (HERE / "libraries" / (name + ".txt")).read_bytes()
        lines = t.splitlines(keepends=True)
        out += [t, t + b"more 0 0000 1 0 0 0 0\n", t + lines[-1], t[:-1], t[:-5], t.replace(b"\n", b"\r\n"), b"".join(lines[1:]), b"".join(lines[:2] + lines[:1] + lines[2:])]
        for _ in range(6):
            i = r.randrange(len(t))
            out.append(t[:i] + bytes([r.choice(b"019afgZ_ \n")]) + t[i + 1:])
    for _ in range(150):
        t = bytearray(head + b"".join(cell(r, r.choice([b"a", b"b", b"nand2", b"x%d" % r.randrange(9)])) for _ in range(r.randrange(4))))
        if r.random() < 0.6:
            for _ in range(r.randrange(1, 3)):
                i = r.randrange(len(t) if r.random() < 0.1 else max(1, len(t) - 33)) + (33 if len(t) > 40 else 0)
                i = min(i, len(t) - 1)
                t[i:i + r.randrange(2)] = bytes([r.choice(b"0123456789af gAz_\n\n ")])
        out.append(bytes(t))
    # lines that end in bytes 13 and 10, all or some; a byte 13 elsewhere, doubled, or as the last byte
    r = random.Random(2)
    small = head + good + b"nand2 2 0007 2 20 20 0 0\n"
    for n in range(len(small) + 1):
        out.append(small[:n] + b"\r" + small[n:])
    out += [(head + b"".join(many[:n])).replace(b"\n", b"\r\n") for n in (32, 33)]
    for _ in range(60):
        t = head + b"".join(cell(r, r.choice([b"a", b"b", b"nand2", b"x%d" % r.randrange(9)])) for _ in range(r.randrange(4)))
        t = ends(r, t)
        if r.random() < 0.5:
            n = r.randrange(len(t))
            t = t[:n] + bytes([r.choice(b"019af Z_\n\r\r\r")]) + t[n + r.randrange(2):]
        out.append(t)
    out += ranges()
    return out

def ranges():
    """the longer names line"""
    r = random.Random(3)
    head = RANGED + b"\n"
    inv, nand = b"inv 1 0001 1 10 0 0 0 5 0 0 0\n", b"nand2 2 0007 2 20 20 0 0 10 15 0 0\n"
    out = [RANGED, head, RANGED + b"\r\n", head[:-1] + b" \n", head[:-4] + b"\n", RANGED[:-1], NAMES + b" l0\n", head + b"\n", head + b"x", head + inv + nand]
    # eight fields under the longer names line, twelve under the shorter, and the numbers between and beyond
    short = b"nand2 2 0007 2 20 20 0 0\n"
    out += [head + short, head + inv + short, NAMES + b"\n" + inv, NAMES + b"\n" + short + inv]
    fields = (nand[:-1] + b" 0").split(b" ")
    out += [names + b" ".join(fields[:n]) + b"\n" for names in (head, NAMES + b"\n") for n in range(1, 14)]
    # the lowest delay of a pin: its delay, one above it (27); of an absent pin: not 0 (6), which comes before 27 on its line
    for a, b in [(b" 10 15 0 0\n", b" 20 20 0 0\n"), (b" 10 15 0 0\n", b" 21 15 0 0\n"), (b" 10 15 0 0\n", b" 10 21 0 0\n"), (b" 10 15 0 0\n", b" 0 0 0 0\n"),
                 (b" 10 15 0 0\n", b" 10 15 1 0\n"), (b" 10 15 0 0\n", b" 10 15 0 1\n"), (b" 10 15 0 0\n", b" 21 15 0 1\n"), (b"0007", b"0017"),
                 (b"0007 2 20 20 0 0 10", b"0017 2 20 20 0 0 21"), (b" 10 15 0 0\n", b" 10 015 0 0\n"), (b" 10 15 0 0\n", b" 10 65536 0 0\n"), (b" 10 15 0 0\n", b" 21 65536 0 0\n"),
                 (b" 10 15 0 0\n", b" 10 15 0 0"), (b" 20 20 0 0 10 15", b" 65535 65535 0 0 65535 65535")]:
        out += [head + nand.replace(a, b, 1), head + inv + nand.replace(a, b, 1) + b"x", head + inv + nand + inv.replace(b"inv", b"buf") + nand.replace(b"nand2", b"n").replace(a, b, 1)]
    # 5 before 27 on its line; 27 before 3 and 4 of the next
    out += [head + nand + nand.replace(b" 10 15", b" 21 15"), head + nand.replace(b" 10 15", b" 21 15") + b"bad\n"]
    many = [b"c%d 1 0001 1 9 0 0 0 %d 0 0 0\n" % (i, 10 if i == 31 else 9) for i in range(33)]
    out += [head + b"".join(many[:31]), head + b"".join(many), head + b"".join(many).replace(b" 10 0", b" 9 0")]
    for _ in range(90):
        t = head + b"".join(ranged_cell(r, r.choice([b"a", b"b", b"nand2", b"x%d" % r.randrange(9)])) for _ in range(r.randrange(4)))
        if r.random() < 0.3:
            t = ends(r, t)
        if r.random() < 0.3:
            n = r.randrange(len(t))
            t = t[:n] + bytes([r.choice(b"019af Z_\n\r")]) + t[n + r.randrange(2):]
        out.append(t)
    return out


ts = texts()
assert all(0 not in t for t in ts)
inputs = b"".join(t + b"\0" for t in ts)
assert len(inputs) <= 131072, len(inputs)
(HERE / "stdin").write_bytes(inputs)
(HERE / "stdout").write_text("".join(read(t) + "\n" for t in ts))
