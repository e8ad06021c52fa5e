#!/usr/bin/env python3
"""Runs rt check in a crate and writes the clauses that it asks for, until it asks for no more. usage: mend.py CRATE [ROUNDS]"""
import re, subprocess, sys, os
crate = sys.argv[1]; rounds = int(sys.argv[2]) if len(sys.argv) > 2 else 12
ASK = re.compile(r"^(\S+\.antt):(\d+):(\d+): error: `([^`]+)`: write the clauses?(?: `(.*)`)?$")
os.chdir("crates/" + crate)
for r in range(rounds):
    out = subprocess.run(["rt", "check"], capture_output=True, text=True)
    text = out.stdout + out.stderr
    at = text.rfind("rt: chose --jobs 2 for " + crate)
    text = text[at:] if at >= 0 else text
    open("/tmp/mend-%s.log" % crate, "w").write(text)
    asks = {}
    tl = text.split("\n")
    q = 0
    while q < len(tl):
        m = ASK.match(tl[q])
        if m:
            f, l, c, name, clause = m.groups()
            if clause is not None:
                asks.setdefault(f, []).append((int(l), int(c), name, [clause]))
            else:
                cl = []
                p = q + 1
                while p < len(tl) and tl[p].startswith("  "):
                    s = tl[p].strip()
                    if " = " in s and not s.startswith("no clause"): cl.append(s)
                    p += 1
                if cl: asks.setdefault(f, []).append((int(l), int(c), name, cl))
        q += 1
    n = 0
    for f, items in asks.items():
        lines = open(f).read().split("\n")
        head = "\n".join(x for x in lines if x.startswith(("use ", "pub use")))
        for l, c, name0, clauses in sorted(items, reverse=True):
            cl2 = []
            for clause in clauses:
                if re.search(r"[{,] ?zero[,}]", head): clause = clause.replace("Prim.Native.Nat.zero", "zero")
                if re.search(r"[{,] ?suc[,}]", head): clause = clause.replace("Prim.Native.Nat.suc", "suc")
                cl2.append(clause)
            name = cl2[0].split(" ")[0]
            i = l - 1
            def is_clause(k):
                s = lines[k].lstrip(" ")
                return s.startswith(name + " ") or s == name
            i0 = i
            while i >= 0 and not is_clause(i): i -= 1
            if i < 0 or i < i0 - 40:
                j = l - 1
                while j >= 0 and not re.match(r"\s*(?:(?:pub|abbrev|unfoldable) )*" + re.escape(name) + r"( |$)", lines[j]): j -= 1
                if j > i: i = j
            # forward: perhaps name first stands below l (where-block)
            if i < 0:
                i = l - 1
                while i < len(lines) and not is_clause(i): i += 1
            ind = len(lines[i]) - len(lines[i].lstrip(" "))
            last = None; k = i
            while k < len(lines):
                s = lines[k]
                indk = len(s) - len(s.lstrip(" "))
                if k == i or (indk == ind and is_clause(k)):
                    last = k
                elif s.strip() == "":
                    j = k
                    while j < len(lines) and lines[j].strip() == "": j += 1
                    if not (j < len(lines) and (len(lines[j]) - len(lines[j].lstrip(" ")) == ind and is_clause(j) or len(lines[j]) - len(lines[j].lstrip(" ")) > ind)):
                        break
                elif indk > ind or (s.strip() in (")", "}")):
                    last = k
                elif s.lstrip().startswith("unfolding"):
                    last = k
                else:
                    break
                k += 1
            for z, clause in enumerate(cl2):
                lines.insert(last + 1 + z, " " * ind + clause); n += 1
        open(f, "w").write("\n".join(lines))
    print(crate, "round", r, "clauses", n, "errors", len(re.findall(r": error", text)), "proved" if re.search(r"^logic=proved", text, re.M) else "")
    if n == 0: break
