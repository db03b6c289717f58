#!/usr/bin/env python3
"""Respells the repository's own definitions and lemmas as the kit does: types and modules in upper camel case, everything else in snake case.

usage: python3 tools/respell.py          at the top of the repository, once, right after port.py
       python3 tools/respell.py --dry    says what it would turn and what it would leave, and writes nothing

A name is turned where the file that declares it, or that imports it by a `use` line, says whose it is; names of the kit keep their spelling. A lemma that
would have the name of a definition gets `_lem`, a field `_holds`. Of a .rt file only ghost lines and clauses hold such names; functions of src/, exported
names, strings, inputs and outputs keep theirs. An edit of must-fail/ is turned as the file that it edits.
"""
import collections
import os
import re
import sys

DRY = "--dry" in sys.argv
TOKEN = re.compile(r"[^\s(){}\[\],;.\"`]+")
WORD = r"[^\s(){}\[\],;.:=`\"]+"
DECL = re.compile(r"^(\s*)(?:(?:unfoldable|abbrev|pub|opaque|private)\s+)*(" + WORD + r")(?:\s*(?:\{[^}]*\}|\([^)]*\)))*\s+:(?:\s|$)")
DATA = re.compile(r"^\s*(?:pub\s+)?(?:record|data)\s+(?:pub\s+)?(" + WORD + ")")
CRATES = sorted(c for c in os.listdir("crates") if os.path.isdir(os.path.join("crates", c, "src")))
# names that would fall together with another, or with a parameter that a clause beside them names
ALONE = {"Done-with": "DoneAfter"}
OTHER = {"genAt": "gen_at_bus"}
USE = re.compile(r"^\s*(?:pub )?(?:ghost )?use ([^\s{;]+?)\.\{([^}]*)\}", re.M)


def snake(n):
    if n in OTHER:
        return OTHER[n]
    if n[0].isupper():
        return "".join(p[0].upper() + p[1:] for p in n.split("-") if p) if n[:1].isascii() else n
    n = re.sub(r"(?<=[a-z0-9'])([A-Z])", lambda m: "_" + m.group(1), n).replace("-", "_")
    return "".join(c.lower() if "A" <= c <= "Z" else c for c in n)


def module(p):
    """Rattle.CRATE.specs.M of a file, or None."""
    m = re.match(r"\./crates/(\w+)/(specs|proofs)/(.*)\.antt$", p)
    return f"Rattle.{m.group(1)}.{m.group(2)}." + m.group(3).replace("/", ".") if m else None


def files():
    for d, dirs, fs in os.walk("./crates"):
        dirs[:] = sorted(x for x in dirs if x != "out")
        for f in sorted(fs):
            if f.endswith((".antt", ".rt", ".edit")):
                yield os.path.join(d, f)


def declared(text):
    """Names that a file declares, and those of them that are fields of a record."""
    out, fields, record = set(), set(), None
    for l in text.split("\n"):
        s = l.lstrip()
        if not s or s.startswith(("--", "use ", "pub use ")):
            continue
        ind = len(l) - len(s)
        if record is not None and ind <= record:
            record = None
        m = DATA.match(l)
        if m:
            out.add(m.group(1))
            record = ind
            continue
        m = DECL.match(l)
        if m and m.group(2) not in ("let", "in", "pub"):
            out.add(m.group(2))
            if record is not None:
                fields.add(m.group(2))
    return out, fields


def imports(text):
    """name -> module that a file takes it from"""
    got = {}
    for m in USE.finditer(text):
        for x in m.group(2).split(","):
            x = x.strip()
            if x:
                a, _, b = x.partition(" as ")
                got[a.strip()] = m.group(1)
                if b:
                    got[b.strip()] = "local"
    return got


def main():
    texts = {p: open(p, encoding="utf-8").read() for p in files()}
    decl, fields = {}, {}
    for p, t in texts.items():
        if module(p) and not p.endswith("/Proof.antt"):
            decl[module(p)], fields[module(p)] = declared(t)
    where = collections.defaultdict(set)  # spelling -> (module, name)
    for m, ns in decl.items():
        for n in ns:
            if not n.startswith("◌"):
                where[snake(n)].add((m, n))
    new = {}
    clash = []
    for s, ms in where.items():
        names = {n for _, n in ms}
        if len(names) == 1:
            for m, n in ms:
                new[(m, n)] = s
            continue
        defs = {n for m, n in ms if ".specs." in m and n not in fields[m] and "-" not in n}
        keep = defs or {n for n in names if "-" not in n} or names
        if len(keep) > 1 and not defs:
            keep = {n for n in keep if "_" not in n} or keep
        for m, n in ms:
            is_def = n in keep and (not defs or ".specs." in m)
            if is_def and not (n in fields[m] and defs):
                new[(m, n)] = s
            else:
                new[(m, n)] = ALONE.get(n) or s + ("_holds" if n in fields[m] else "_lem")
                clash.append((m, n, new[(m, n)]))
    # a name that the file takes from the kit under that spelling
    for p, t in texts.items():
        kit = {n for n, m in imports(t).items() if not re.match(r"Rattle\.(%s)\." % "|".join(CRATES), m)}
        for n in decl.get(module(p), ()):
            if n not in kit and new.get((module(p), n)) in kit:
                clash.append((module(p), n, new[(module(p), n)] + " of the kit"))
                new[(module(p), n)] += "_lem"
    glob = {}
    for (m, n), s in new.items():
        glob.setdefault(n, s)
    field = {}
    for (m, n), s in new.items():
        if n in fields[m]:
            if n in field and field[n] != s:
                print("field differs", n, field[n], s)
            field[n] = s
    if DRY:
        for c in sorted(clash):
            print("clash", *c)

    def env(p):
        t = texts[p]
        e = {}
        for n, m in imports(t).items():
            if not re.match(r"Rattle\.(%s)\." % "|".join(CRATES), m):
                e[n] = n
            elif (m, n) in new:
                e[n] = new[(m, n)]
        for n in decl.get(module(p), ()):
            if (module(p), n) in new:
                e[n] = new[(module(p), n)]
        return e

    def turn(text, e, rt, edit=False):
        known = set(e.values())

        def one(m):
            w = m.group(0)
            i = m.start()
            dotted = i > 0 and m.string[i - 1] == "."
            if edit and w not in e and w not in field and snake(w) in known:
                return snake(w)  # port.py turned the file and not the edit
            if rt and not re.search(r"[a-z0-9][A-Z]", w) and not (w in e and w != e[w]):
                return w
            if dotted:
                return field.get(w, w)
            if w in e:
                return e[w]
            if w in field:
                return field[w]
            return w

        def use(m):
            # names of a use line go by the module that it names
            mod = m.group(1)
            if not re.match(r"Rattle\.(%s)\." % "|".join(CRATES), mod):
                return m.group(0)
            items = []
            for x in m.group(2).split(","):
                a, sep, b = x.strip().partition(" as ")
                items.append(new.get((mod, a), glob.get(a, a) if not mod.endswith((".Statement", ".Tie", ".TheVariants")) else a) + sep + b)
            return m.group(0)[: m.start(2) - m.start(0)] + ", ".join(items) + "}"

        out = []
        for l in text.split("\n"):
            if USE.match(l):
                out.append(USE.sub(use, l))
            elif rt and '"' in l:
                out.append(l)
            else:
                out.append(TOKEN.sub(one, l))
        return "\n".join(out)

    count = 0
    for p, t in texts.items():
        if p.endswith(".edit"):
            f = re.search(r"^file: *(\S+)", t, re.M).group(1)
            of = os.path.join(os.path.dirname(os.path.dirname(p)), f)
            e, rt = env(of), of.endswith(".rt")
            lines = [l if l.startswith(("#", "file:")) else l.split(":", 1)[0] + ":" + turn(l.split(":", 1)[1], e, rt, True) if ":" in l else l for l in t.split("\n")]
            got = "\n".join(lines)
        else:
            got = turn(t, env(p), p.endswith(".rt"))
        if got != t:
            count += 1
            if not DRY:
                open(p, "w", encoding="utf-8").write(got)
    print(len(new), "names,", sum(n != s for (_, n), s in new.items()), "turned, in", count, "files")


main()
