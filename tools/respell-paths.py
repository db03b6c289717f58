#!/usr/bin/env python3
"""After tools/respell.py: names that a text cites by their whole path, as Rattle.loops.specs.Loops.leastTo, in the spelling that the module declares; and names
that a file passes on or takes under another name (`pub use`, `as`), which no module declares."""
import os, re
exec(open("tools/respell.py").read().replace("\nmain()\n", "\n"))
texts = {p: open(p, encoding="utf-8").read() for p in files()}
decl = {module(p): declared(t)[0] for p, t in texts.items() if module(p)}
PATH = re.compile(r"\b(Rattle\.\w+\.(?:specs|proofs)\.[A-Z]\w*(?:\.[A-Z]\w*)*)\.([^\s(){}\[\],;.\"`]+)")
def one(m):
    mod, n = m.groups()
    if mod in decl and n not in decl[mod]:
        for s in (snake(n), snake(n) + "_lem", snake(n) + "_holds"):
            if s in decl[mod]:
                return mod + "." + s
        print("left", mod, n)
    return m.group(0)
OTHER = {"rowFigures": "row_figures", "outcomeOf": "outcome_of", "previewOf": "preview_of", "placeAt": "place_at", "replyOf": "reply_of", "requestOf": "request_of"}
for p, t in texts.items():
    g = PATH.sub(one, t)
    g = re.sub(r"\b(" + "|".join(OTHER) + r")\b", lambda m: OTHER[m.group(1)], g)
    if g != t:
        print(p)
        open(p, "w", encoding="utf-8").write(g)
