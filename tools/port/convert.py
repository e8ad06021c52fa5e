#!/usr/bin/env python3
"""Turns the proofs of functions that stand in the older form (Proof.antt with tie.spec) into Invariants.antt and Answers.antt, or into the older form with today's names.

usage: convert.py NAMES CRATE..        at the top of the repository; NAMES is the folder that `rt names` wrote

A proof whose lemmas take the record of a place stays in Proof.antt, with its names turned; every other one is written anew. What it leaves to a reader is printed.
"""
import json
import os
import re
import sys

ID = r"[^\s(){}.;,@\"«»\[\]\\]+"
norm = lambda s: re.sub("[-_·]+", "-", s)
START = {"well-formed", "args", "requires", "ranges", "lifetimes", "well_formed", "pre", "size", "iterator", "type_inv", "auto"}


class Fn:
    def __init__(self, j):
        self.j = j
        self.places = {}
        for (old, parent, step, callee, _), new, arm, clause in zip(j["places"], j["places_by_name"], j["arms"], j["clauses"]):
            self.places[old] = dict(old=old, new=new, parent=parent, step=step, callee=callee, arm=arm, clause=clause)
        self.by_norm = {norm(k): k for k in self.places}
        self.needs = [(o, n, self.place(p[0])) for (o, n), p in zip(j["needs"], j["asked_at"])]
        self.loops = {norm(l[0][0]): (l[0][1], l[1], ch) for l, ch in zip(j["loops"], j["changed"])}
        self.params = j["params"]
        self.asked = j["asked"]
        self.args = {}
        for rows in j.get("args", []):
            for a, b in rows if rows and isinstance(rows[0], list) else [rows]:
                self.args[a.replace(" ", "").lstrip(".")] = b.replace(" ", "").lstrip(".")

    def place(self, name):
        if name in self.places:
            return name
        return self.by_norm.get(norm(name), None)


class Gone(Exception):
    pass


def alike(a, b):
    a, b = norm(a).lower(), norm(b).lower()
    return a == b or (a.endswith("-lem") and a[:-4] == b)


def above(fn, place):
    while place is not None:
        yield place
        place = fn.places[place]["parent"]


def translate(fn, place, parts, said, root=None):
    """The place and the new parts of a path that begins at a place."""
    i, first = 0, place
    while i < len(parts) and parts[i] == "before":
        p = fn.places[place]["parent"]
        if p is None:
            break
        place, i = p, i + 1
    while i < len(parts) and parts[i] == "before":
        i += 1
    if i == len(parts):
        return place, []
    f = parts[i]
    for k in (2, 1):
        key = ".".join(parts[i : i + k])
        if key in fn.args:
            return place, fn.args[key].split(".") + parts[i + k :]
    if norm(f) in START or norm(f).startswith(("told-", "fits-")):
        return place, parts[i:]
    # at the place itself, else at one above it, else at one above where the path began, for chains have grown shorter
    for q in [place, *above(fn, place), *above(fn, first), *(above(fn, root) if root else [])]:
        if fn.places[q]["step"][0] and alike(f, fn.places[q]["step"][0]):
            return q, turn_step(fn, fn.places[q], f, parts[i + 1 :], said)
    # already of today
    if f not in {q["step"][1] for q in fn.places.values()}:
        said.append(f"no step {f} at {place}")
    return place, parts[i:]


def turn_step(fn, at, f, rest, said):
    """The new parts of a step that is named."""
    if at["arm"]:
        arm, _, fields = at["arm"]
        best = None
        for nf, ostep, path in fields:
            if alike(f, ostep) and [norm(x) for x in rest[: len(path)]] == [norm(x) for x in path] and (best is None or len(path) > len(best[1])):
                best = (nf, path)
        if best:
            return [arm, best[0]] + rest[len(best[1]) :]
    if at["clause"] and rest[:1] == ["ensures"] and len(rest) > 1 and rest[1].isdigit():
        fields = at["clause"]["fields"]
        if int(rest[1]) < len(fields):
            rest = ["ensures", fields[int(rest[1])]] + rest[2:]
    if rest[:1] in (["new"], ["auto"]) and at["callee"] in fn.params:
        k, j = 0, 1
        while j < len(rest) and rest[j] == "1":
            k, j = k + 1, j + 1
        if j < len(rest) and rest[j] == "0" and k < len(fn.params[at["callee"]]):
            rest = [rest[0], fn.params[at["callee"]][k]] + rest[j + 1 :]
    if rest[:1] == ["branch"]:
        said.append("branch of " + f)
    return [at["step"][1]] + rest


HEAD = re.compile(r"(?<![^\s(){};,@\"«»\[\]\\])(" + ID + r")((?:\." + ID + r")+)?")


def rewrite(fn, text, env, said, flat):
    """The text with each path from a variable of env turned. Aliases that a let makes are followed; in the flat form they become the variable itself."""
    env = dict(env)
    # aliases: let x = PATH in, where PATH is a place
    changed = True
    while changed:
        changed = False
        for m in re.finditer(r"(?:let |, |\n\s*)(" + ID + r") = (" + ID + r")((?:\.before)*)(?= in[\s])", text):
            name, head, hops = m[1], m[2], m[3]
            if head in env and name not in env:
                place = env[head][0]
                for _ in range(hops.count(".before")):
                    place = place and (fn.places[place]["parent"] or place)
                if place:
                    env[name] = (place, env[head][1])
                    changed = True
    if flat:
        # drop the lets that only name a place
        for name, (place, root) in env.items():
            if name != root:
                text = re.sub(r"let " + re.escape(name) + r" = " + ID + r"(?:\.before)* in\s*", "", text)

    def one(m):
        name = m[1]
        if name not in env:
            return m[0]
        place, root = env[name]
        head = root if flat else name
        if not m[2]:
            if flat and name != root:
                return root
            return m[0]
        parts = m[2][1:].split(".")
        hops = 0
        while hops < len(parts) and parts[hops] == "before":
            hops += 1
        p, out = translate(fn, place, parts, said, env[root][0] if root in env else None)
        if not out:
            if flat:
                said.append("a place handed on: " + m[0])
            return m[0]
        return head + "." + ".".join(out)

    out, at = [], 0
    # comments and strings stay
    for m in re.finditer(r'--[^\n]*|"(?:[^"\\]|\\.)*"', text):
        out.append(HEAD.sub(one, text[at:m.start()]))
        out.append(m[0])
        at = m.end()
    out.append(HEAD.sub(one, text[at:]))
    return "".join(out)


SIG = re.compile(r"^((?:abbrev |pub |unfoldable )*)(" + ID + r")((?: [({][^)}]*[)}])*) :(?= |$)", re.M)


def items_of(text):
    """The head (comments, use lines) and the items: (comment, modifiers, name, signature, rest)."""
    lines = text.split("\n")
    head, items, pending, cur = [], [], [], None
    for line in lines:
        if line.startswith(("use ", "pub use ", "unfoldable use ")):
            if cur is None:
                head += pending
                pending = []
                head.append(line)
                continue
        m = SIG.match(line)
        if m and not line.startswith(("--", " ", "unfolding", "use ")):
            cur = [pending, line, m[1], m[2], []]
            pending = []
            items.append(cur)
            continue
        if line.startswith("--") or (cur is None):
            pending.append(line)
            continue
        if line.strip() == "" :
            pending.append(line)
            continue
        cur[4] += pending + [line]
        pending = []
    return head, items


def args_of(text):
    """The arguments in a text: groups in parentheses, braces or names."""
    out, at = [], 0
    while at < len(text):
        ch = text[at]
        if ch in " \n":
            at += 1
            continue
        if ch in "({":
            depth, j = 0, at
            while True:
                if text[j] in "({[":
                    depth += 1
                if text[j] in ")}]":
                    depth -= 1
                if text[j] == '"':
                    j = text.index('"', j + 1)
                j += 1
                if depth == 0:
                    break
            out.append(text[at:j])
            at = j
        else:
            m = re.match(r"[^\s(){}]+", text[at:])
            out.append(m[0])
            at += m.end()
    return out


TRIVIAL = re.compile(r"^\s*search (?:needs|rules)\s*$")


def tuple_to_record(body, fields):
    """A tuple at the end of the body as a record of these fields."""
    b = body.rstrip()
    if not b.endswith(")"):
        return None
    depth = 0
    for j in range(len(b) - 1, -1, -1):
        if b[j] in ")]}":
            depth += 1
        if b[j] in "([{":
            depth -= 1
            if depth == 0:
                break
    before = b[:j].rstrip()
    if before and not re.search(r"(?:^|\s)(?:in|=)$|^$", before):
        return None
    inner, parts, depth, last = b[j + 1:-1], [], 0, 0
    for k, ch in enumerate(inner):
        if ch in "([{":
            depth += 1
        if ch in ")]}":
            depth -= 1
        if ch == "," and depth == 0:
            parts.append(inner[last:k])
            last = k + 1
    parts.append(inner[last:])
    parts = [p.strip() for p in parts]
    if parts and parts[-1] == "":
        parts.pop()
    if len(parts) != len(fields):
        return None
    return b[:j] + "record { " + "; ".join(f"{f} = {p}" for f, p in zip(fields, parts)) + " }"


def convert(folder, fn, crate, path):
    p = os.path.join(folder, "Proof.antt")
    text = open(p, encoding="utf-8").read()
    said = []
    text = re.sub(r"(?<![\w-])needs(?![\w-])", "rules", text)
    # names of places and goals without their arguments of invariants
    head, items = items_of(text)
    spec = [it for it in items if "statement M" in it[1]]
    if len(spec) != 1 or "tie.spec" not in "\n".join(spec[0][4]):
        return ["another form"], None
    spec = spec[0]
    body = "\n".join(spec[4])
    unfolding = [l for l in spec[4] if l.startswith("unfolding")]
    m = re.search(r"tie\.close\s*\(\s*tie\.spec", body)
    inner = body[m.end():]
    # up to the closing parenthesis
    depth = 1
    for k, ch in enumerate(inner):
        if ch in "([{":
            depth += 1
        if ch in ")]}":
            depth -= 1
            if depth == 0:
                break
    args = args_of(inner[:k])
    n = 2 * len(fn.loops)
    loop_args, args = args[:n], args[n:]
    if len(args) != len(fn.needs):
        said.append(f"{len(args)} answers for {len(fn.needs)} goals")
    named = {it[3]: it for it in items if re.search(r"tie\.Need-", it[1] + "\n" + "\n".join(it[4][:3]))}
    invariants = {it[3]: it for it in items if re.search(r"tie\.(?:invariant|decreases)-", it[1])}
    helpers = [it for it in items if it is not spec and it[3] not in named and it[3] not in invariants]
    helper_text = "\n".join(it[1] + "\n" + "\n".join(it[4]) for it in helpers)
    used_invariants = any(re.search(r"(?<![\w.-])(?:" + "|".join(re.escape(i) for i in invariants) + r")(?![\w-])", "\n".join(it[4][0:])) for it in list(named.values()) + helpers) if invariants else False
    answer_text = "\n".join("\n".join(it[4]) for it in named.values()) + "\n" + "\n".join(args)
    places_in_answers = "tie." in re.sub(r"tie\.Need-\S+", "", answer_text)
    tie_mode = "tie." in helper_text or used_invariants or places_in_answers

    # which goal each named answer is for
    goal_of = {}
    for i, a in enumerate(args):
        if a in named and i < len(fn.needs) and len(args) == len(fn.needs):
            goal_of.setdefault(a, i)
    for name, it in named.items():
        if name not in goal_of:
            t = re.search(r"tie\.Need-(" + ID + ")", it[1] + "\n" + "\n".join(it[4]))[1]
            key = norm(re.sub(r"^(?:overflow|nonzero)[-_]", "", t))
            hit = [i for i, (o, _, _) in enumerate(fn.needs) if norm(o) == key]
            if hit:
                goal_of[name] = hit[0]
            else:
                said.append("no goal for " + name)

    def new_place(name):
        q = fn.place(name) or fn.place(name.replace("told", "told"))
        return q and fn.places[q]["new"]

    if tie_mode:
        said.append("tie")

        def tie_name(m):
            kind, name = m[1], m[2]
            if kind in ("Need-",):
                key = norm(re.sub(r"^(?:overflow|nonzero)[-_]", "", name))
                hit = [i for i, (o, _, _) in enumerate(fn.needs) if norm(o) == key]
                if hit:
                    return "tie.Need-" + fn.needs[hit[0]][1]
                said.append("no goal " + name)
                return m[0]
            if kind in ("invariant-", "decreases-"):
                hit = fn.loops.get(norm(name))
                return f"tie.{kind}{hit[0]}" if hit else m[0]
            q = fn.place(kind + name)
            if q:
                return "tie." + fn.places[q]["new"]
            said.append("no place " + kind + name)
            return m[0]

        TIE = re.compile(r"tie\.(Need-|invariant-|decreases-|(?=[A-Z]))(" + ID + ")")
        out = []
        for it in items:
            sig = it[1]
            rest = "\n".join(it[4])
            if it[3] in invariants:
                # one parameter more
                rest = re.sub(r"^((?:" + re.escape(it[3]) + r")(?: [^=\n]*?)?) =", r"\1 passed =", rest, count=1, flags=re.M)
                rest = TIE.sub(tie_name, rest)
                out.append((it, TIE.sub(tie_name, sig), rest))
                continue
            whole_sig = sig
            env = {}
            # the first variable of a named answer
            if it[3] in named:
                g = goal_of.get(it[3])
                mm = re.search(r"^" + re.escape(it[3]) + r" (" + ID + ")", rest, re.M)
                if g is not None and mm:
                    env[mm[1]] = (fn.needs[g][2], mm[1])
            # place-typed parameters, by name in the signature and in the clause by position
            names = re.findall(r"\((" + ID + r") : tie\.(" + ID + r")", sig + "\n" + rest)
            for v, pl in names:
                q = fn.place(pl)
                if q:
                    env[v] = (q, v)
            mm = re.search(r"^" + re.escape(it[3]) + r" ([^=\n]*?) ?=", rest, re.M)
            order = re.findall(r"tie\.((?:At|In|After|Then|Else|Start|Joined)" + r"[^\s(){}.;,]*)", sig)
            if mm and order and not names:
                for v, pl in zip(mm[1].split(), order):
                    q = fn.place(pl)
                    if q:
                        env[v] = (q, v)
            if it is spec:
                # each argument by its own place
                new_args = []
                for i, a in enumerate(args):
                    la = re.match(r"^\(λ (" + ID + r")((?: " + ID + r")*)\.(.*)\)$", a, re.S)
                    if la and i < len(fn.needs):
                        e = {la[1]: (fn.needs[i][2], la[1])}
                        a = f"(λ {la[1]}{la[2]}.{rewrite(fn, la[3], e, said, False)})"
                    new_args.append(a)
                name = path.split(".")[-1].lstrip("+")
                sname = re.sub(r"[-_]spec$", "_spec", spec[3])
                sname = name + "_spec"
                text_args, line, lines = "", "", []
                for a in loop_args + new_args:
                    if len(line) + len(a) > 140 and line:
                        lines.append(line)
                        line = ""
                    line += (" " if line else "") + a
                lines.append(line)
                rest = "\n".join(unfolding + [f"{sname} = tie.close (tie.spec"] + ["    " + l for l in lines]) + ")"
                out.append((it, f"pub {sname} : {{M : Type 1}} → statement M", rest))
                continue
            rest2 = rewrite(fn, rest, env, said, False)
            sig2 = rewrite(fn, sig, env, said, False)
            out.append((it, TIE.sub(tie_name, sig2), TIE.sub(tie_name, rest2)))
        new = "\n".join(head) + "\n"
        for it, sig, rest in out:
            new += "\n".join(it[0]) + ("\n" if it[0] else "\n") + sig + "\n" + rest + "\n"
        open(p, "w", encoding="utf-8").write(re.sub(r"\n{3,}", "\n\n", new))
        return said, "tie"

    # Invariants.antt
    module = f"Rattle.{crate}.proofs.{path}"
    uses = [l for l in head if l.startswith("use ") and not re.search(r"\.(?:Statement|Tie)(?:\.| as |$)", l)]
    comment = [l for l in head if l.startswith("--")]
    inv_out = []
    for name, it in invariants.items():
        kind = name.split("-")[0] if name.startswith(("invariant", "decreases")) else re.search(r"tie\.(invariant|decreases)-", it[1])[1]
        old = re.search(r"tie\.(?:invariant|decreases)-(" + ID + ")", it[1])[1]
        hit = fn.loops.get(norm(old))
        if not hit:
            said.append("no loop " + old)
            continue
        loop, vs, ch = hit
        rest = "\n".join(it[4])
        mm = re.match(r"^((?:unfolding[^\n]*\n)*)" + re.escape(name) + r"((?: [^\s=]+)*) =(.*)$", rest, re.S)
        if not mm:
            said.append("an invariant of another form: " + name)
            continue
        ps = mm[2].split()
        full = vs + [v for v, c in zip(vs, ch) if c]
        if len(ps) != len(full):
            said.append(f"{name}: {len(ps)} names for {len(full)}")
        table = {}
        for i, q in enumerate(ps):
            if i < len(vs):
                table[q] = ("l.initial." if ch[i] else "l.") + vs[i]
            elif i < len(full):
                table[q] = "l." + full[i]
        b = HEAD.sub(lambda m: table[m[1]] + (m[2] or "") if m[1] in table and m[1] != "_" else m[0], mm[3])
        goal = f"{kind}-{loop}"
        inv_out.append("\n".join([x for x in it[0] if x.startswith("--")] + [f"abbrev pub {goal} : goal.{goal}"]) + "\n" + mm[1] + f"{goal} l ={b}")
    # a lemma or definition that the invariants name stands with them
    shared, more_found = [], True
    while more_found:
        more_found = False
        seen = set(re.findall(ID, "\n".join(inv_out + ["\n".join([it[1]] + it[4]) for it in shared])))
        for it in helpers:
            if it not in shared and it[3] in seen:
                shared.append(it)
                more_found = True
    for it in reversed([it for it in helpers if it in shared]):
        opened = re.search(r"(?m)^unfolding .*(?<![\w-])" + re.escape(it[3]) + r"(?![\w-])", text)
        sig = re.sub(r"^((?:abbrev )*)(?:unfoldable )?(?:pub )?", lambda m: ("unfoldable " if opened and not m[1] else "") + m[1] + "pub ", it[1], count=1)
        inv_out.insert(0, "\n".join([x for x in it[0] if x.startswith("--")] + [sig] + it[4]))
    if shared:
        uses.append(f"use {module}.Invariants.{{{', '.join(it[3] for it in shared)}}}")
    # Answers.antt
    ans_out, answered = [], set()
    for it in [it for it in helpers if it not in shared]:
        ans_out.append("\n".join([x for x in it[0] if x.startswith("--")] + [it[1]] + it[4]))
    rename = {}
    for name, it in named.items():
        g = goal_of.get(name)
        if g is None:
            continue
        old, goal, place = fn.needs[g]
        rest = "\n".join(it[4])
        mm = re.match(r"^((?:unfolding[^\n]*\n)*)" + re.escape(name) + r"((?: " + ID + r")*?) =(.*)$", rest, re.S)
        if not mm or not mm[2].split():
            said.append("an answer of another form: " + name)
            continue
        vs = mm[2].split()
        b = rewrite(fn, mm[3], {vs[0]: (place, vs[0])}, said, True)
        if old in fn.asked:
            r = tuple_to_record(b, fn.asked[old])
            if r is None:
                said.append(f"{goal} is a record of {', '.join(fn.asked[old])}")
            else:
                b = r
        if TRIVIAL.match(b) and not mm[1]:
            answered.add(g)
            continue
        answered.add(g)
        ans_out.append("\n".join([x for x in it[0] if x.startswith("--")] + [f"pub {goal} : goal.{goal}"]) + "\n" + mm[1] + f"{goal} {more(vs)} ={b}")
    for i, a in enumerate(args):
        if i >= len(fn.needs) or i in answered or a in named:
            continue
        la = re.match(r"^\(λ (" + ID + r")((?: " + ID + r")*)\.(.*)\)$", a, re.S)
        old, goal, place = fn.needs[i]
        if not la:
            said.append("an argument of another form: " + a[:60])
            continue
        b = la[3]
        if TRIVIAL.match(b) and not (unfolding and goal.startswith("returns")):
            continue
        b = rewrite(fn, b, {la[1]: (place, la[1])}, said, True)
        if old in fn.asked:
            r = tuple_to_record(b, fn.asked[old])
            if r is None:
                said.append(f"{goal} is a record of {', '.join(fn.asked[old])}")
            else:
                b = r
        u = "".join(x + "\n" for x in unfolding)
        ans_out.append(f"pub {goal} : goal.{goal}\n{u}{goal} {more([la[1], *la[2].split()])} ={b}")
    for a, b in fn.args.items():
        if a.startswith("args."):
            ans_out = [re.sub(r"\." + re.escape(a[5:]) + r"(?![\w'-])", "." + b[5:], x) for x in ans_out]
    os.remove(p)
    if inv_out:
        open(os.path.join(folder, "Invariants.antt"), "w", encoding="utf-8").write(
            "\n".join(comment + used([l for l in uses if ".Invariants." not in l], "\n".join(inv_out)) + [f"use {module}.Given as goal", ""]) + "\n" + "\n\n".join(inv_out) + "\n"
        )
    if ans_out:
        open(os.path.join(folder, "Answers.antt"), "w", encoding="utf-8").write(
            "\n".join(comment + used(uses, "\n".join(ans_out)) + [f"use {module}.Goals as goal", ""]) + "\n" + "\n\n".join(ans_out) + "\n"
        )
    elif not inv_out and not os.listdir(folder):
        os.rmdir(folder)
    return said, "answers"


def more(vs):
    return " ".join(v for v in vs if not v.startswith("κ"))


def used(uses, text):
    """The use lines with only what the text names."""
    out = []
    words = set(re.findall(ID, text))
    for l in uses:
        m = re.match(r"^use ([^{]+)\.\{(.*)\}$", l)
        if not m:
            out.append(l)
            continue
        keep = []
        for name in [x.strip() for x in m[2].split(",")]:
            short = name.split(" as ")[-1]
            op = re.match(r"^◌(.+)◌$", short)
            if short in words or (op and op[1] in words) or short in ("rules", "arith") and short in text or short.startswith("["):
                keep.append(name)
        if keep:
            out.append(f"use {m[1]}.{{{', '.join(keep)}}}")
    return out


def main():
    names, crates = sys.argv[1], sys.argv[2:]
    for crate in crates:
        listed = json.load(open(os.path.join(names, "crates", crate, "names.json"), encoding="utf-8"))
        fns = {}
        for k, v in listed.items():
            m = re.match(rf"Rattle-{crate}-proofs\.(.*)\.Lts$", k)
            if m and isinstance(v, dict) and "needs" in v:
                fns[m[1]] = Fn(v)
        top = f"crates/{crate}/proofs"
        for d, ds, fs in sorted(os.walk(top)):
            if "Proof.antt" in fs:
                path = os.path.relpath(d, top).replace("/", ".")
                if path not in fns:
                    print(f"{crate}.{path}: no names")
                    continue
                try:
                    said, mode = convert(d, fns[path], crate, path)
                except Exception as e:
                    said, mode = [f"failed: {type(e).__name__} {e}"], None
                if said:
                    print(f"{crate}.{path}: " + "; ".join(dict.fromkeys(said)))


main()
