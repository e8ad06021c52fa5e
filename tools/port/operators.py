#!/usr/bin/env python3
"""Takes the operators of clauses and specs/ from the kit's Prelude itself, and no longer through `base`: `rt ci` refuses an operator that another crate passes on.

usage: operators.py        at the top of the repository
"""
import glob
import re

PRELUDE = "Rattle.std.specs.Prelude"
LINE = 160


def items(head, path, names, end):
    """The import items of these names, each within a line."""
    out, line = [], []
    for name in names:
        if len(f"{head}{path}.{{{', '.join([*line, name])}}}{end}") > LINE and line:
            out.append(line)
            line = []
        line.append(name)
    return [f"{head}{path}.{{{', '.join(it)}}}{end}" for it in [*out, line] if it]


def main():
    for p in sorted(glob.glob("crates/*/specs/**/*.antt", recursive=True) + glob.glob("crates/*/src/**/*.rt", recursive=True)):
        if p == "crates/base/specs/Lib.antt":
            continue
        with open(p, encoding="utf-8") as f:
            old = f.read()
        operators, first, lines = [], None, old.split("\n")
        out = []
        for line in lines:
            m = re.match(r"^((?:ghost )?use )(Rattle\.base\.specs|Rattle\.std\.specs\.Prelude)\.\{(.*)\}(;?)$", line)
            if not m:
                out.append(line)
                continue
            names = [n.strip() for n in m[3].split(",")]
            mine = names if m[2] == PRELUDE else [n for n in names if "◌" in n]
            rest = [n for n in names if n not in mine]
            operators += [n for n in mine if n not in operators]
            if first is None:
                first = (len(out), m[1], m[4])
            if rest:
                out.append(f"{m[1]}{m[2]}.{{{', '.join(rest)}}}{m[4]}")
        if operators:
            at, head, end = first
            out[at:at] = items(head, PRELUDE, operators, end)
        new = "\n".join(out)
        if new != old:
            with open(p, "w", encoding="utf-8") as f:
                f.write(new)


main()
