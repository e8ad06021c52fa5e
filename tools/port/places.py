#!/usr/bin/env python3
"""Counts the places of the design pass (docs/DESIGN-PASS.md) in crates/*/src, point by point; proofs/ too for point 8. At the top of a checkout:
places.py [-v] [POINT..]; -v prints each place. A place with a line `// Stays:` above it is counted apart, as kept."""
import collections, glob, re, sys

verbose = "-v" in sys.argv
wanted = [a for a in sys.argv[1:] if a != "-v"]


def sources():
    for path in sorted(glob.glob("crates/*/src/*.rt")):
        yield path, open(path).read()


def show(point, what, places, kept=()):
    if wanted and point not in wanted:
        return
    print(f"{point}  {what}: {len(places)}" + (f", kept {len(kept)}" if kept else ""))
    if verbose:
        for place in places:
            print("      ", place)
        for place in kept:
            print("       kept", place)


def stays(text, at):
    """Whether the comment right above the line of a place, or above its item, says that it stays."""
    before = text[:at].split("\n")[:-1]
    while before and (before[-1].strip().startswith(("//", "#[")) or before[-1].strip() == ""):
        if before[-1].strip().startswith("// Stays:"):
            return True
        if before[-1].strip() == "":
            break
        before.pop()
    return False


def split(found):
    return [p for p, k in found if not k], [p for p, k in found if k]


def functions(text):
    """Each function: its name, where it begins, its parameters, its clauses, its body."""
    for m in re.finditer(r"^( *)(?:pub )?(?:extern \"C\" )?fn (\w+)(?:<[^>]*>)?\(", text, re.M):
        i, depth = m.end(), 1
        while depth:
            depth += {"(": 1, ")": -1}.get(text[i], 0)
            i += 1
        params = text[m.end() : i - 1]
        j = re.compile(r"^" + m.group(1) + r"\{$|\{\n", re.M).search(text, i)
        start = text.find("\n" + m.group(1) + "{\n", i)
        if start < 0 or (j and j.start() < start and "ensures" not in text[i : j.start()] and "requires" not in text[i : j.start()]):
            start = j.start() if j else -1
        end = text.find("\n" + m.group(1) + "}\n", start + 1)
        yield m.group(2), m.start(), params, text[i:start], text[start : end + 2 + len(m.group(1))]


# 1: enums of the shape of Option or Result; flags with a value beside them; arms that only hand a refusal on; kinds that are numbers
found = []
for path, text in sources():
    for m in re.finditer(r"^(?:pub )?enum (\w+) \{\n(.*?)^\}", text, re.M | re.S):
        variants = [v.strip() for v in re.sub(r"//.*", "", m.group(2)).split("\n") if v.strip()]
        bare = [v for v in variants if "(" not in v and "{" not in v]
        full = [v for v in variants if "(" in v or "{" in v]
        refusing = [v for v in full if re.match(r"(Refused|Bad|Broken|Err)\b", v)]
        if len(variants) == 2 and full and (len(bare) == 1 or refusing) or len(variants) == 3 and refusing and full:
            found.append((f"{path}: {m.group(1)}", stays(text, m.start())))
show("1", "enums of the shape of Option or Result", *split(found))
found = []
for path, text in sources():
    for m in re.finditer(r"^(?:pub )?struct (\w+)(?:<[^>]*>)? \{\n(.*?)^\}", text, re.M | re.S):
        for flag in re.findall(r"\b(ok|broken|there|pair|found|good|valid|done): bool", m.group(2)):
            found.append((f"{path}: {m.group(1)}.{flag}", stays(text, m.start()) or f"Stays: {flag}" in m.group(2)))
show("1", "flags with a value beside them", *split(found))
found = []
for path, text in sources():
    for m in re.finditer(r"^ *(?:\w+::)?(?:Err|Refused|Bad|Broken|Nothing|Missing|None|Unreadable)\b(\(([^)]*)\))? => (?:return )?(?:\w+::)?(?:Err|Refused|Bad|Broken|Nothing|Missing|None)\b(\(([^)]*)\))?,?;?$", text, re.M):
        if (m.group(2) or "") == (m.group(4) or ""):
            found.append((f"{path}:{text[: m.start()].count(chr(10)) + 1}", stays(text, m.start())))
show("1", "arms that only hand a refusal or a miss on", *split(found))
found = []
for path, text in sources():
    for m in re.finditer(r"^pub const (\w+): (?:usize|u8|u16) = ([0-9]);$", text, re.M):
        group = text[: m.start()].rstrip("\n").split("\n")  # the constants right above it, parted by empty lines
        while group and (group[-1] == "" or re.match(r"(?:pub )?const ", group[-1])):
            group.pop()
        found.append((f"{path}: {m.group(1)}", stays(text, len("\n".join(group)) + 1) or any("// Stays:" in line for line in group[-4:])))
show("1", "numbers for kinds", *split(found))

# 2: functions whose bodies are alike but for names and numbers
shapes = collections.defaultdict(list)
for path, text in sources():
    for name, at, params, clauses, body in functions(text):
        tokens = re.findall(r"\"[^\"]*\"|b?'[^']*'|\w+|[^\w\s]", re.sub(r"//.*", "", params + " " + body))
        names = {}
        shape = []
        for t in tokens:
            if re.match(r"(let|mut|if|else|match|while|for|in|return|true|false|as|self|Some|None|Ok|Err|usize|bool)$", t):
                shape.append(t)
            elif re.match(r"[0-9]", t):
                shape.append("0")
            elif re.match(r"\w", t):
                shape.append("n" + str(names.setdefault(t, len(names))))
            else:
                shape.append(t)
        if len(tokens) >= 24:
            shapes[" ".join(shape)].append((f"{path}: {name}", stays(text, at)))
groups = [v for v in shapes.values() if len(v) > 1]
show("2", "functions alike but for names, types and numbers, in groups", *(["; ".join(p for p, _ in g) for g in groups if any(k for _, k in g) == kept] for kept in (False, True)))

# 3: loops that count an index by hand
found = []
for path, text in sources():
    for m in re.finditer(r"^( *)(?:'\w+: )?while (.*?)\{\n(.*?)^\1\}", text, re.M | re.S):
        steps = re.findall(r"^" + m.group(1) + r"    (\w+(?:\.\w+)*) [+-]= 1;", m.group(3), re.M)
        if any(re.search(r"\b" + re.escape(s) + r"\b", m.group(2)) for s in steps):
            found.append((f"{path}:{text[: m.start()].count(chr(10)) + 1}", stays(text, m.start())))
show("3", "while loops whose index goes by one", *split(found))
found = [(f"{path}:{text[: m.start()].count(chr(10)) + 1}", stays(text, m.start())) for path, text in sources() for m in re.finditer(r"^ *(?:'\w+: )?while (?!let )", text, re.M)]
show("3", "while loops but while let", *split(found))

# 4: conversions written by hand
found = []
for path, text in sources():
    for m in re.finditer(r"^( *)(?:pub )?fn (\w+)\((\w+): (u8|u16|u32|u64|usize)\) -> (?:u8|u16|u32|u64|usize)\s*(?:requires \{[^}]*\}\s*)?(?:ensures \{[^}]*\}\s*)?\{\s*\w+ as (?:u8|u16|u32|u64|usize)\s*\}", text, re.M):
        found.append((f"{path}: {m.group(2)}", stays(text, m.start())))
show("4", "functions that are one cast", *split(found))
found = []
for path, text in sources():
    for name, at, params, clauses, body in functions(text):
        types = re.findall(r": (&?\[?[\w; ]+\]?)", params)
        if re.search(r"-> bool", clauses) and len(types) == 2 and types[0] == types[1] and re.search(r"while|for ", body):
            found.append((f"{path}: {name}", stays(text, at)))
show("4", "equality written by hand", *split(found))

# 5: facts in three or more contracts of a crate, parameters that travel together
facts = collections.defaultdict(set)
pairs = collections.defaultdict(set)
for path, text in sources():
    crate = path.split("/")[1]
    for name, at, params, clauses, body in functions(text):
        for clause in re.findall(r"requires(?: \w+)? \{ (.*?) \}\n", clauses, re.S):
            for fact in re.split(r" × ", clause):
                fact = re.sub(r"\b(\w+)\.(now|old|new)\b", r"\1", re.sub(r"\s+", " ", fact)).strip("( )")
                if re.match(r"[A-Z]", fact):
                    facts[(crate, fact)].add(name)
        names = [p.split(":")[0].replace("mut ", "").strip() for p in params.split(",") if ":" in p]
        for i, a in enumerate(names):
            for b in names[i + 1 :]:
                pairs[(a, b)].add(f"{crate}::{name}")
many = [f"{c}: {f} ({len(n)})" for (c, f), n in sorted(facts.items(), key=lambda x: -len(x[1])) if len(n) >= 3]
show("5", "facts in the requires of three or more functions of a crate", many)
many = [f"{a}, {b} ({len(n)})" for (a, b), n in sorted(pairs.items(), key=lambda x: -len(x[1])) if len(n) >= 15]
show("5", "pairs of parameters that fifteen or more functions take", many)

# 6: arrays with a length beside them
found = []
for path, text in sources():
    for m in re.finditer(r"^(?:pub )?struct (\w+)(?:<[^>]*>)? \{\n(.*?)^\}", text, re.M | re.S):
        arrays = re.findall(r"(\w+): \[", m.group(2))
        lengths = re.findall(r"\b(n|len|count|length): usize", m.group(2))
        if arrays and lengths or len(arrays) > 1:
            found.append((f"{path}: {m.group(1)}", stays(text, m.start())))
show("6", "structs of an array and its length, or of parallel arrays", *split(found))

# 7: a switch on which step to run
found = []
for path, text in sources():
    for name, at, params, clauses, body in functions(text):
        for p, t in re.findall(r"(\w+): ([A-Z]\w+)", params):
            if re.search(r"^\s*\{\s*match " + p + r" \{", body) and re.search(r"^ *(?:pub )?enum " + t + r" \{\n(?:\s*(?://.*)?\w*,?\n)*\}", text, re.M):
                found.append((f"{path}: {name}", stays(text, at) or stays(text, re.search(r"^ *(?:pub )?enum " + t, text, re.M).start())))
show("7", "functions that switch on a bare kind", *split(found))

# 8: answers that the check may find alone
found = []
for path in sorted(glob.glob("crates/*/proofs/**/Answers.antt", recursive=True)):
    for m in re.finditer(r"^pub (\S+) : goal\.\S+\n\S+ c =\s+(omega arith|search rules|refl)\n", open(path).read(), re.M):
        found.append((f"{path}: {m.group(1)}", False))
show("8", "answers that are one tactic", *split(found))
