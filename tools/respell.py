#!/usr/bin/env python3
"""Brings the repository's own definitions and lemmas to today's spelling, once, right after the kit's port.py.

usage: respell.py BEFORE      at the top of the repository; BEFORE is the commit on which port.py ran

- a definition, field or constructor is in snake case: `maxThread` is `max_thread`, `digits-only` is `digits_only`
- in a lemma's name a dash joins two names that stand for something (`length-take`); a plain word is added by `_` (`decimal_one`)
- a type keeps its capital
- a name that would fall together with another keeps its old form
Files of crates/ take the names that port.py left; pages and must-fail edits take port.py's names too, which are read off by laying the declarations
of both trees side by side. It says what it renamed in tools/respelled.txt.
"""
import collections, glob, os, re, subprocess, sys

WORD = r"[A-Za-z_À-ʯͰ-Ͽ₀-₉◌ᴰ·][\w'′·◌₀-₉ᴰ]*(?:-[\w'′₀-₉ᴰ·◌]+)*"
STD = set("length take drop append set get_or map replicate reverse filter sum suc zero nil cons true false not or and max min add sub mul div mod pow le lt eq ne some none "
          "cond eqb ltb leb ones bit_or bit_and index insert remove elem any all".split())
# the constructor `no_race` has its name from port.py
BY_HAND = {"noRace": "no_race_found", "onPair": "on_pair", "on-pair": "on_pair_lem"}
KEYWORDS = set("data record deriving module where use mod pub package open as unfoldable abbrev axiom unfold unfolding ruleset mutual infix infixl infixr elim let in do type ground assumption "
               "search omega grind simp rw cc hlevel tt absurd".split())


def declared(text):
    """(kind, name) of each declaration, in order."""
    out, block, at = [], None, 0
    for line in text.split("\n"):
        if not line.strip() or line.lstrip().startswith("--"):
            continue
        indent = len(line) - len(line.lstrip())
        if block and indent <= at:
            block = None
        m = re.match(r"^ *(?:pub )?(record|data) ([^\s{}]+) ", line)
        if m and " where" in line and not block:
            out.append(("type", m.group(2)))
            block, at = m.group(1), indent
            continue
        if block:
            m = re.match(r"^ *(?:pub )?([^\s(){}:]+) : ", line)
            if m:
                out.append(("part", m.group(1)))
            continue
        m = re.match(r"^ *((?:(?:unfoldable|abbrev|pub) )*)([^\s(){}:,;]+)(?: \{[^}]*\})? : ", line)
        if m and m.group(2) not in ("let", "use", "mod", "module"):
            kind = "definition" if "abbrev" in m.group(1) or "unfoldable" in m.group(1) else "lemma"
            out.append((kind, m.group(2)))
    return out


def files(*ends):
    for folder, dirs, names in os.walk("crates"):
        dirs[:] = sorted(d for d in dirs if d not in ("out", "target"))
        for n in sorted(names):
            if n.endswith(ends):
                yield os.path.join(folder, n)


def own(path):
    """a file of definitions and lemmas, not of one function's proof"""
    return path.endswith(".antt") and not path.endswith(("Proof.antt", "Answers.antt", "Invariants.antt"))


def read(path):
    with open(path, encoding="utf-8") as f:
        return f.read()


def snake(name):
    name = re.sub(r"(?<=[a-z0-9])([A-Z])", lambda m: "_" + m.group(1).lower(), name)
    return name


def tokens(text):
    return re.findall(WORD, text)


def main():
    before = sys.argv[1]
    kinds = collections.defaultdict(set)
    for p in files(".antt"):
        if own(p):
            for kind, name in declared(read(p)):
                kinds[name].add(kind)
    # names that come from outside
    outside = set()
    crates = set(os.listdir("crates"))
    for p in files(".antt", ".rt"):
        for m in re.finditer(r"(?m)^ *(?:ghost )?use ([^\s{]+)\.\{([^}]*)\}", read(p)):
            part = m.group(1).split(".")
            if not (part[0] == "Rattle" and len(part) > 1 and part[1] in crates):
                outside |= {n.split(" as ")[0].strip() for n in m.group(2).split(",")}
    # every name that is used anywhere in specs and proofs, and the parameters of each source
    used = collections.Counter()
    parameters = set()
    for p in files(".antt", ".rt"):
        if own(p):
            for line in read(p).split("\n"):
                line = re.sub(r"(^|\s)--(\s.*)?$", "", line)
                m = re.match(r"^ *use [^\s{]+\.(\{.*)$", line)
                used.update(tokens(m.group(1) if m else "" if re.match(r"^ *(use|mod|pub mod) ", line) else line))
        elif p.endswith(".rt"):
            for m in re.finditer(r"fn \w+(?:<[^>]*>)?\(([^)]*)\)", read(p)):
                parameters |= set(re.findall(r"(\w+):", m.group(1)))

    known = set(STD) | {snake(n) for n, k in kinds.items() if "definition" in k or "type" in k} | {n for n, k in kinds.items() if "type" in k}
    renamed = {}
    for name in sorted(kinds):
        k = kinds[name]
        if name in outside or name.startswith("◌") or not re.match(r"^[a-z]", name):
            continue
        new = snake(name)
        if "-" in new:
            if k <= {"lemma"}:
                part = new.split("-")
                text = part[0]
                for i in range(1, len(part)):
                    text += ("-" if part[i - 1] in known and part[i] in known else "_") + part[i]
                new = text
            else:
                new = new.replace("-", "_")
        if new != name:
            renamed[name] = new
    # a definition comes before a lemma; a lemma that would have its name gets _lem, and one that would have another lemma's keeps its dash
    by = collections.defaultdict(list)
    for old, new in renamed.items():
        by[new].append(old)
    kept = {}
    for new, olds in sorted(by.items()):
        definitions = [o for o in olds if "definition" in kinds[o]] or [o for o in olds if kinds[o] != {"lemma"}]
        taken = bool(used[new]) or new in outside
        for old in olds:
            if new in KEYWORDS or new in parameters:
                kept[old] = new
            elif old in definitions:
                if taken or len(definitions) > 1:
                    kept[old] = new
            elif kinds[old] == {"lemma"} and (definitions or used[new]) and not used[new + "_lem"] and len(olds) <= len(definitions) + 1:
                renamed[old] = new + "_lem"
            elif taken or len(olds) > 1:
                kept[old] = new
    for old in kept:
        del renamed[old]
    for old, new in BY_HAND.items():
        kept.pop(old, None)
        renamed[old] = new
    # what port.py renamed, by the order of the declarations
    ported, strange = {}, []
    twice = collections.defaultdict(set)
    for p in files(".antt"):
        if not own(p):
            continue
        r = subprocess.run(["git", "show", before + ":" + p], capture_output=True, text=True)
        if r.returncode:
            strange.append(p)
            continue
        a, b = declared(r.stdout), declared(read(p))
        if len(a) != len(b):
            strange.append(p)
            continue
        for (_, x), (_, y) in zip(a, b):
            twice[x].add(y)
    for x, ys in twice.items():
        if len(ys) == 1:
            ported[x] = next(iter(ys))
        else:
            strange.append(x + ": " + " ".join(sorted(ys)))
    pages = {}
    for x, y in ported.items():
        z = renamed.get(y, y)
        if z != x:
            pages[x] = z
    for y, z in renamed.items():
        pages.setdefault(y, z)

    word = re.compile(r"(?<![\w'′·◌-])" + WORD)

    def swap(text, names):
        return word.sub(lambda m: names.get(m.group(0), m.group(0)), text)

    def code(line, names):
        head, mark, tail = line, "", ""
        m = re.search(r"(^|\s)(--|//)(\s|$)", line)
        if m:
            head, tail = line[: m.start(2)], line[m.start(2) :]
        camel = {o: n for o, n in names.items() if "-" not in o}
        tail = re.sub(r"`[^`]*`", lambda q: swap(q.group(0), names), tail)
        return swap(head, names) + swap(tail, camel)

    for p in files(".antt", ".rt", ".edit"):
        text = read(p)
        names = pages if p.endswith(".edit") else renamed
        lines = []
        for line in text.split("\n"):
            if p.endswith(".rt") and not re.match(r"^ *(ghost |requires|ensures|//)", line):
                lines.append(swap(line, {o: n for o, n in names.items() if "-" not in o}) if not re.search(r'"', line) else line)
            elif p.endswith(".edit") and line.startswith("#"):
                lines.append(line)
            else:
                lines.append(code(line, names))
        new = "\n".join(lines)
        if new != text:
            with open(p, "w", encoding="utf-8") as f:
                f.write(new)
    for p in ["README.md"] + sorted(glob.glob("docs/*.md") + glob.glob("docs/changes/*.md")):
        text = read(p)
        new = re.sub(r"`[^`\n]*`", lambda q: swap(q.group(0), pages), text)
        if new != text:
            with open(p, "w", encoding="utf-8") as f:
                f.write(new)
    with open("tools/respelled.txt", "w", encoding="utf-8") as f:
        f.write("# renamed in the pages and the must-fail edits: the name at the commit before port.py, and today's\n")
        f.writelines(f"{o} {n}\n" for o, n in sorted(pages.items()))
        f.write("# kept, since another name would have fallen together with it\n")
        f.writelines(f"{o} (not {n})\n" for o, n in sorted(kept.items()))
        f.write("# declarations that could not be laid side by side\n")
        f.writelines(s + "\n" for s in strange)
    print(f"respell: {len(renamed)} names in crates/, {len(pages)} in pages and edits, {len(kept)} kept, {len(strange)} to look at")


main()
