#!/usr/bin/env python3
"""Respells the repository's own names as today's Rattle spells names, once, right after port.py and before the commit.

usage: python3 tools/respell.py [COMMIT]     COMMIT is the last one in the older form; HEAD if left out

Definitions, lemmas, fields and constructors of antt files go to snake case (setOf: set_of); types, modules, and names of Rattle source stay. A dash stays
where it joins the names of two definitions (has-set_of); elsewhere it becomes `_`. A name that would fall together with another, or with a word of the
logic, gets an ending (`_lem`) or another name (OTHER). Then the must-fail edits and the documents follow, with what port.py respelled before. It prints
what it renamed and what it left."""
import difflib
import re
import subprocess
import sys
from pathlib import Path

top = Path(__file__).resolve().parent.parent
commit = sys.argv[1] if sys.argv[1:] else "HEAD"
TOKEN = re.compile(r"[A-Za-z_◌μ][\w'′◌-]*[\w'′◌]|[A-Za-z_μ]")
# words of std that a lemma's name may join by a dash
WORDS = {"length", "get_or", "append", "take", "drop", "replicate", "map", "cond", "min", "set"}
# a tactic's name, and pairs that would fall together
OTHER = {"first_of": "first_finding"}
KEEP = {"decreases-loop", "invariant-loop"}


def decls(text):
    """The declarations of an antt file: modifiers, kind, name."""
    for line in text.split("\n"):
        if re.match(r"\s*--|(pub )?use |(pub )?mod ", line):
            continue
        m = re.match(r"^\s*((?:(?:abbrev|unfoldable|pub)\s+)*)(?:(data|record)\s+)?([^\s:(){}]+)\s*(.*)$", line)
        if not m or m[3] in ("unfolding", "where", "infix", "infixl", "infixr", "let", "in", "elim", "→", "∙", "[", "|", "×"):
            continue
        if m[2] or m[4].startswith(":"):
            yield m[1].split(), m[2], m[3], m[4]


def snake(word):
    return re.sub(r"(?<=[a-z0-9])([A-Z])", lambda m: "_" + m[1].lower(), word.replace("getD", "get_or"))


files = sorted(p for p in (top / "crates").rglob("*.antt") if "out" not in p.parts)
texts = {p: p.read_text(encoding="utf-8") for p in files}
sources = sorted(p for p in (top / "crates").rglob("*.rt") if "out" not in p.parts)

own, defs, statements, tokens, said = {}, set(WORDS), set(), set(), set()
for p, t in texts.items():
    tokens.update(TOKEN.findall(t))
    for mods, kind, name, rest in decls(t):
        if p.name == "Proof.antt" and ("tie." in rest or "statement" in rest or "lts." in rest):
            if name.endswith("-spec"):
                own[name] = p
            continue
        if name[0].islower():
            own[name] = p
            if "specs" in p.parts:
                said.add(name)
            if "specs" in p.parts and ("abbrev" in mods or "unfoldable" in mods):
                defs.add(snake(name))
        else:
            statements.add(snake(name[0].lower() + name[1:]))
for p in sources:
    defs.update(re.findall(r"\bfn (\w+)", p.read_text(encoding="utf-8")))


def respelled(name):
    if name in KEEP:
        return name
    if name in OTHER:
        return OTHER[name]
    parts = [snake(w) for w in name.split("-")]
    flat = "_".join(parts)
    if flat in statements or flat.endswith("_spec") or name in said:
        return flat
    # the longest names of definitions from the left, as parts joined by `_`
    words, i = [], 0
    while i < len(parts):
        for j in range(len(parts), i, -1):
            if "_".join(parts[i:j]) in defs:
                break
        words.append("_".join(parts[i:j]) if "_".join(parts[i:j]) in defs else parts[i])
        i = j if "_".join(parts[i:j]) in defs else i + 1
    out = words[0]
    for a, b in zip(words, words[1:]):
        out += ("-" if a in defs and b in defs else "_") + b
    return out


renames = {}
# a definition comes before a lemma, which gives way to it
order = sorted(own, key=lambda name: (snake(name) not in defs, name))
held = {}
for name in order:
    new = respelled(name)
    if new in held or new != name and new in own and snake(new) in defs and snake(name) not in defs:
        print(f"falls together: {name} and {held.get(new, new)}: {new}_lem")
        new += "_lem"
    if new in held:
        sys.exit(f"{name}: no name left")
    held[new] = name
    if new != name:
        renames[name] = new
        if new in tokens and new not in own:
            print(f"also a word of another kind: {name}, {new}")

turn = lambda text: TOKEN.sub(lambda m: renames.get(m[0], m[0]), text)
for p in files:
    new = turn(texts[p])
    if new != texts[p]:
        p.write_text(new, encoding="utf-8")
for p in sources:
    old = p.read_text(encoding="utf-8")
    lines = []
    for line in old.split("\n"):
        # code and strings keep their names: only comments, imports for clauses and clauses are turned
        clause = re.search(r"ghost use|ensures|requires|ghost ", line)
        code, mark, comment = line.partition("//")
        lines.append(turn(line) if clause else code + mark + turn(comment))
    if "\n".join(lines) != old:
        p.write_text("\n".join(lines), encoding="utf-8")
print(f"{len(renames)} names respelled")


# ---- the names that port.py respelled, by the order of the declarations
def before(path):
    said = subprocess.run(["git", "show", f"{commit}:{path.relative_to(top)}"], capture_output=True, cwd=top)
    return said.stdout.decode() if said.returncode == 0 else None


ported = {}
for p in files:
    old = before(p)
    if old is None:
        continue
    for a, b in zip([d[2] for d in decls(old)], [d[2] for d in decls(p.read_text(encoding="utf-8"))]):
        if a != b and not a.startswith("_"):
            ported[a] = b
ported.update({"getD": "get_or"})


def flat(text):
    return re.sub(r"[\s_◌⌜⌝(){}]|λ r\.", "", text).lower()


def tight(text):
    """A projection written tight: `m .n`, `f m .n`."""
    text = re.sub(r"\(([\w']+)((?: \.\w+)+)\)", lambda m: m[1] + m[2].replace(" ", ""), text)
    text = re.sub(r"(?<![\w'])([\w']+(?:\.\w+)*) \.(\w)", r"\1.\2", text)
    return re.sub(r"\) \.(\w)", r").\1", text)


def port(text):
    text = re.sub(r"Rattle·(\w+)·specs\.specs\.", r"Rattle.\1.specs.", text)
    text = re.sub(r"Rattle·(\w+)\.", r"Rattle.\1.", text)
    text = re.sub(r"[\w′'·-]+", lambda m: ported.get(m[0], m[0]), text)
    text = re.sub(r"⌜ | ⌝", "", text)
    text = re.sub(r"\(([\w']+)((?: \.\w+)+)\)", lambda m: m[1] + m[2].replace(" ", ""), text)
    # a call that is projected: `(f a b .x)` to `(f a b).x`
    text = re.sub(r"\((\w[\w' -]* [\w'.]+) \.(\w+)\)", r"(\1).\2", text)
    return tight(text)


def line_after(old, new, k):
    """The line of the new text that line k of the old one became."""
    a, b = [flat(port(x)) for x in old], [flat(x) for x in new]
    at = [j for j, x in enumerate(b) if x == a[k]]
    if len(at) == 1:
        return at[0]
    near = difflib.get_close_matches(a[k], b, 1, 0.8)
    return b.index(near[0]) if near else None


left = 0
for edit in sorted((top / "crates").glob("*/must-fail/*.edit")):
    lines, file = edit.read_text(encoding="utf-8").split("\n"), None
    out = []
    for i, line in enumerate(lines):
        if line.startswith("file: "):
            file = edit.parent.parent / line[6:]
            old_text, new_text = before(file), file.read_text(encoding="utf-8")
        elif line.startswith("old: "):
            old = line[5:]
            if new_text.count(old) == 1 and old_text.count(old) == 1:
                changed = False
            else:
                changed = True
            new = next(x[5:] for x in lines[i:] if x.startswith("new: "))
            said = [port(old), port(new)]
            if changed and new_text.count(said[0]) != 1:
                k = [n for n, x in enumerate(old_text.split("\n")) if old in x]
                j = line_after(old_text.split("\n"), new_text.split("\n"), k[0]) if len(k) == 1 else None
                print(f"left: {edit.relative_to(top)}: {old} => {new}; the line now: {new_text.split(chr(10))[j].strip() if j is not None else '?'}")
                left += 1
            line = "old: " + (said[0] if changed else old)
        elif line.startswith("new: "):
            line = "new: " + port(line[5:])
        else:
            line = re.sub(r"[\w′'·-]+", lambda m: ported.get(m[0], m[0]), line)
        out.append(line)
    if out != lines:
        edit.write_text("\n".join(out), encoding="utf-8")
print(f"{left} texts of edits left by hand")

# ---- the documents cite declarations in backticks
for page in [*top.glob("*.md"), *top.glob("docs/**/*.md")]:
    old = page.read_text(encoding="utf-8")
    names = lambda m: "`" + re.sub(r"(?<![\w/-])[\w′'-]+(?![\w/-])", lambda w: ported.get(w[0], w[0]), m[1]) + "`"
    new = re.sub(r"`([^`\n]+)`", names, old)
    if new != old:
        page.write_text(new, encoding="utf-8")
