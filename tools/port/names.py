#!/usr/bin/env python3
"""Brings the repository's own names in .antt files, clauses and edits to the kit's spelling: words in snake case, a dash only where it joins two names, no middle dot.

usage: names.py [--check] [--table FILE]        at the top of the repository, once, right after port.py

A name is turned wherever its token stands: in specs, proofs, clauses, must-fail edits and the wrong definitions of tests/refused. Names of the kit stay, and so do
functions of src/, for these have neither a dash nor a capital. --check prints the table and what would fall together, and writes nothing. --table writes the table.
"""
import collections
import os
import re
import sys

KIT = "/opt/rattle/rattle"
WORD = re.compile(r'[^\s(){}.;,@"«»]+')
STRING = re.compile(r'"(?:[^"\\\n]|\\.)*"')
DECLARED = re.compile(r'^(?:(?:abbrev|unfoldable|pub|data|record|mutual|module|section) )*([^\s(){}.;,@"«»]+)((?: [({].*[)}])*) *:(?: |$)')
USE = re.compile(r"^(?:unfoldable )?(?:pub )?use ([^\s{]+?)(?:\.\{(.*)\})?$")
CAMEL = re.compile(r"(?<=[a-z0-9₀-₉'])(?=[A-Z])")


def antt_files(top):
    for d, ds, fs in os.walk(top):
        ds[:] = sorted(x for x in ds if x not in ("out", ".git", "target"))
        for f in sorted(fs):
            if f.endswith(".antt"):
                yield os.path.join(d, f)


def code_tokens(text):
    for line in text.split("\n"):
        line = STRING.sub('""', line)
        at = re.search(r"(?<![^\s(){}.;,@\"«»])--", line)
        if at:
            line = line[: at.start()]
        yield from WORD.finditer(line)


def is_function_proof(p):
    parts = p.split("/")
    return "proofs" in parts and len(parts) - parts.index("proofs") > 2


def rust_files():
    for d, ds, fs in os.walk("crates"):
        ds[:] = sorted(x for x in ds if x not in ("out", "target"))
        yield from (os.path.join(d, f) for f in sorted(fs) if f.endswith(".rt"))


def turned():
    """The files in which names turn."""
    yield from antt_files("crates")
    for top, end in (("crates", ".rt"), ("crates", ".edit"), ("tests/refused", ".edit")):
        for d, ds, fs in os.walk(top):
            ds[:] = sorted(x for x in ds if x not in ("out", "target"))
            yield from (os.path.join(d, f) for f in sorted(fs) if f.endswith(end))


def turn(line, table, rust):
    """The line with each name of the table turned, but for quoted text of code and the backticks round a name in a comment."""

    def one(m):
        w = m[0]
        if w[0] == '"' or w not in table:
            return w
        # a lemma that had no dash and no capital may have the name of a function of src/, of its module or of a call in a proof
        if not CAMEL.search(w) and "-" not in w and "·" not in w and (rust or m.string[m.start() - 1 : m.start()] == "."):
            return w
        return table[w]

    return re.sub(r'"(?:[^"\\\n]|\\.)*"|' + (RUST_WORD if rust else r'[^\s(){}.;,@"«»`]+'), one, line)


RUST_WORD = r"""[^\W\d][\w'₀-₉·]*(?:-[\w'₀-₉]+)*"""


def snake(word):
    if word == "getD":
        return "get_or"
    return CAMEL.sub("_", word).lower() if word[:1].islower() and CAMEL.search(word) else word


def main():
    args = sys.argv[1:]
    check = "--check" in args
    table_at = args[args.index("--table") + 1] if "--table" in args else None
    crates = "crates"
    own_crates = set(os.listdir(crates))
    files = list(antt_files(crates))
    kit_tokens = set()
    for p in antt_files(KIT):
        with open(p, encoding="utf-8") as f:
            kit_tokens.update(WORD.findall(f.read()))
    declared, imported, seen, types = collections.defaultdict(set), set(), collections.Counter(), set()
    generated = set()
    for p in files:
        with open(p, encoding="utf-8") as f:
            text = f.read()
        for m in code_tokens(text):
            seen[m[0]] += 1
        for line in text.split("\n"):
            m = USE.match(line)
            if m and m[2] is not None:
                path = m[1].split(".")
                if not (path[0] == "Rattle" and path[1] in own_crates) and path[0] in ("Rattle", "Prim", "mathlib", "lib", "native", "borrow", "denote", "mir"):
                    for item in m[2].split(","):
                        imported.add(item.split(" as ")[0].strip())
            m = DECLARED.match(line.strip()) if not line.lstrip().startswith("--") else None
            if m and len(line) - len(line.lstrip(" ")) <= 8:
                declared[m[1]].add(p)
                if re.search(r"Type( \d)?( where)?$", line):
                    types.add(m[1])
    own = {n for n, ps in declared.items() if any(not is_function_proof(p) for p in ps)}
    # the names of functions, types and constructors, which a dash may join
    lemma_free = {n for n, ps in declared.items() if any("/specs/" in p for p in ps)} | imported | {"suc", "zero"}
    parts_known = {snake(n) for n in lemma_free}
    table = {}
    for token in sorted(seen):
        new = token
        if token in imported and token not in FIXED:
            continue
        if token in FIXED:
            table[token] = FIXED[token]
            continue
        if CAMEL.search(token) and token[:1].islower() and (token not in kit_tokens or token in own):
            new = "-".join(snake(s) for s in new.split("-"))
        if "-" in token.strip("-") and token in own and not token.startswith("-") and token not in imported:
            segments = [x for part in new.split("-") for x in [part]]
            out = segments[0]
            for left, right in zip(segments, segments[1:]):
                out += ("-" if left in parts_known and right in parts_known else "_") + right
            new = out
        if new != token:
            table[token] = new
    # "A lemma that would have its function's name gets `_lem`"
    back = collections.defaultdict(set)
    for token in seen:
        back[table.get(token, token)].add(token)
    for new, olds in sorted(back.items()):
        functions = [o for o in olds if CAMEL.search(o)] or [o for o in olds if o in own and "-" not in o and "·" not in o]
        lemmas = [o for o in olds if o in own and o not in functions]
        for o in lemmas if len(olds) > 1 and functions else []:
            if any("/specs/" in p for p in declared[o]):
                print("a definition, not a lemma:", o, functions)
            table[o] = new + "_lem"
    # a module of proofs/ has the name of each function of the crate
    functions_of = collections.defaultdict(set)
    for p in rust_files():
        with open(p, encoding="utf-8") as f:
            functions_of[p.split("/")[1]].update(re.findall(r"\bfn (\w+)", f.read()))
    for token in sorted(own):
        new = table.get(token)
        if token not in FIXED and any("/proofs/" in p and new in functions_of[p.split("/")[1]] for p in declared[token]):
            table[token] = new + "_value"
            print("has a function's name:", token, table[token])
    # what falls together
    back = collections.defaultdict(set)
    for token in seen:
        back[table.get(token, token)].add(token)
    for new, olds in sorted(back.items()):
        if len(olds) > 1:
            print("together:", new, "<-", *(f"{o}({seen[o]}{'d' if o in own else ''}{'k' if o in imported else ''})" for o in sorted(olds)))
    for t in sorted(types):
        if t[:1].islower():
            print("type in lower case:", t)
    if table_at:
        with open(table_at, "w", encoding="utf-8") as f:
            for a, b in sorted(table.items()):
                f.write(f"{a}\t{b}\n")
    for n in sorted(own):
        if n in table and any(is_function_proof(p) for p in declared[n]):
            print("also in a function's proof:", n)
    print(len(table), "names", file=sys.stderr)
    if not check:
        for p in turned():
            with open(p, encoding="utf-8") as f:
                old = f.read()
            new = "\n".join(turn(line, table, p.endswith(".rt") or "/must-fail/" in p) for line in old.split("\n"))
            new = re.sub(r"(?<![^\s{,])(" + WORD.pattern + r") as \1(?=[,}\s])", r"\1", new)
            if new != old:
                with open(p, "w", encoding="utf-8") as f:
                    f.write(new)


# names of the kit that specs/Lib.antt of base gives on under a name of its own
FIXED = {
    "List-as-Memᴰ": "Memᴰ",
    "List·Memᴰ·head": "Memᴰ-head",
    "List·Memᴰ·tail": "Memᴰ-tail",
    "List·Memᴰ·not-nil": "Memᴰ-not-nil",
    "List·Memᴰ·append-cases": "Memᴰ-append_cases",
    "List·Memᴰ·cases-cons": "Memᴰ-cases_cons",
    "List·Memᴰ·eq-of-singleton": "Memᴰ-eq_of_singleton",
    "Memᴰ·cast": "Memᴰ-cast",
    "Memᴰ·append-left": "Memᴰ-append_left",
    "Memᴰ·append-right": "Memᴰ-append_right",
    "Ordering·lt": "Ordering-lt",
    "Ordering·gt": "Ordering-gt",
    "Ordering·eq": "Ordering-eq",
    "Bool·beq": "beq",
    "Bool·not-not": "not-not",
    "List·getD-append": "get_or-append",
    "List·getD-map": "get_or-map",
    "List·getD-eq-default": "get_or-eq_default",
    "eqb·suc-suc": "eqb-suc-suc",
    "eqb·suc-zero": "eqb-suc-zero",
    "eqb·zero-suc": "eqb-zero-suc",
    # a crate has the name cut_lists
    "cutLists": "cut_lists_of",
    # local names beside functions
    "minArrival": "min_arrival",
    "pinTime": "pin_time",
    "feeds-itself": "feeds_itself_lem",
}
if __name__ == "__main__":
    main()
