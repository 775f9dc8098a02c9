#!/usr/bin/env python3
"""Turns the definitions and lemmas of this repository to snake case, by the table respell.tsv beside it.

usage: respell.py ROOT              rewrites the .antt and .rt files below ROOT/crates, once, after the kit's port.py
       respell.py --table ROOT      writes the table anew from the declarations below ROOT/crates

A row of the table: KIND, OLD, NEW. 'word' holds in every file; 'name' in files of definitions and lemmas, and in a proof
of a function only where it is imported; 'lemma' (with a path) in that file and where it is imported from there.
"""
import collections
import glob
import os
import re
import sys

HERE = os.path.dirname(os.path.realpath(__file__))
TABLE = os.path.join(HERE, "respell.tsv")
W = r"[^\s(){}.;,@\"«»`\[\]\\]+"
QUOTED = re.compile(r'"(?:[^"\\\n]|\\.)*"')
OF_A_FUNCTION = ("Proof.antt", "Answers.antt", "Invariants.antt")
USE = re.compile(r"^(\s*(?:ghost )?(?:pub )?use )(Rattle\.(\w+)\.(?:specs|proofs)(?:\.[^\s{;.]+)*)\.\{([^}]*)\}", re.M)


def files(root, ending):
    found = glob.glob(os.path.join(root, "crates", "*", "**", "*" + ending), recursive=True)
    return sorted(f for f in found if "/out/" not in f)


def read(path):
    with open(path, encoding="utf-8", newline="") as f:
        return f.read()


def write(path, text):
    with open(path, "w", encoding="utf-8", newline="") as f:
        f.write(text)


def of_function(path):
    return os.path.basename(path) in OF_A_FUNCTION


def is_camel(n):
    return bool(re.match(r"[a-z]", n) and re.search(r"[a-z0-9₀-₉'][A-Z]", n)) and not re.match(r"x[0-9A-F_]+$", n)


def snake(n):
    n = n.replace("VAddr", "Vaddr")
    n = re.sub(r"([a-z0-9])([A-Z])", r"\1_\2", n)
    n = re.sub(r"([A-Z])([A-Z][a-z])", r"\1_\2", n)
    return "-".join(p.lower() if re.match(r"[a-z]", p) else p for p in n.split("-"))


def declared(root):
    """The names that files of definitions and lemmas declare, by what declares them, and the words that are imported from elsewhere."""
    own = {c for c in os.listdir(os.path.join(root, "crates"))}
    kinds = {k: collections.Counter() for k in ("decl", "field", "case", "type")}
    lib, tokens, bare = set(), collections.Counter(), {}
    where = collections.defaultdict(set)
    for f in files(root, ".antt"):
        t = read(f)
        for m in re.finditer(r"^\s*(?:ghost )?(?:pub )?use ([^\s{;]+?)\.\{([^}]*)\}", t, re.M):
            k = re.match(r"Rattle\.(\w+)\.(specs|proofs)", m[1])
            if not (k and k[1] in own):
                lib |= {n.strip().split(" as ")[0] for n in m[2].split(",")}
        code = re.sub(r'(?m)(^|\s)--[^\n]*|"(?:[^"\\\n]|\\.)*"', " ", t)
        for x in set(re.findall(W, code)):
            tokens[x] += 1
        bare[f] = set(re.findall(r"(?<![.\w'-])(" + W + ")", code))
        if of_function(f):
            continue
        mode = None
        for s in code.split("\n"):
            if not s.strip():
                continue
            ind = len(s) - len(s.lstrip())
            m = re.match(r"\s*(?:(?:abbrev|unfoldable|pub|private|mutual) )*(record|data) (" + W + ")", s)
            if m:
                mode = (m[1], ind)
                kinds["type"][m[2]] += 1
                continue
            if mode and ind <= mode[1]:
                mode = None
            m = re.match(r"^(\s*)((?:(?:abbrev|unfoldable|pub|private) )*)(" + W + r"(?: " + W + r")*) :(?: |$)", s)
            if m:
                for n in m[3].split(" "):
                    if n in ("let", "in", "λ", "|"):
                        break
                    kind = "field" if mode and mode[0] == "record" else "case" if mode else "decl"
                    kinds[kind][n] += 1
                    where[n].add(f)
    return kinds, lib, tokens, bare, where


def table(root):
    kinds, lib, tokens, bare, where = declared(root)
    rows, to = [], {}
    for t in sorted(tokens):
        if is_camel(t):
            to[t] = snake(t)
            rows.append(("word", t, to[t]))
    # a lemma that would have its definition's name
    for f, names in bare.items():
        if of_function(f):
            continue
        for old, new in to.items():
            if old in names and new in names and f in where[new]:
                rows.append(("lemma " + os.path.relpath(f, root), new, new + "_lem"))
    # what a dash may join: two names. A plain word is added with '_'
    words = {to.get(n, n) for k in kinds.values() for n in k if "-" not in n} | {n for n in lib if "-" not in n}
    taken = set(tokens) | set(to.values()) | {r[2] for r in rows}
    for n in sorted(set(kinds["decl"]) | set(kinds["field"]) | set(kinds["case"])):
        if "-" not in n or n in lib or not re.match(r"[A-Za-z]", n) or n.startswith("-") or n.endswith("-"):
            continue
        camel = to.get(n, n)
        parts = camel.split("-")
        if kinds["decl"][n] and not (kinds["field"][n] or kinds["case"][n]):
            new = parts[0]
            for a, b in zip(parts, parts[1:]):
                new += ("-" if a in words and b in words else "_") + b
        else:
            new = "_".join(parts)
        if new == camel or new in taken or not re.match(r"[a-z]", new):
            continue
        taken.add(new)
        rows.append(("name", camel, new))
    with open(TABLE, "w", encoding="utf-8") as f:
        for r in rows:
            f.write("\t".join(r) + "\n")


def load():
    words, names, lemmas = {}, {}, {}
    for line in read(TABLE).splitlines():
        kind, old, new = line.split("\t")
        if kind == "word":
            words[old] = new
        elif kind == "name":
            names[old] = new
        else:
            lemmas.setdefault(kind.split(" ", 1)[1], {})[old] = new
    return words, names, lemmas


def outside(text, turn):
    """The text with turn on what is no string."""
    out, at = [], 0
    for m in QUOTED.finditer(text):
        out += [turn(text[at : m.start()]), m[0]]
        at = m.end()
    return "".join(out) + turn(text[at:])


def by(table, text, after_dot=True):
    def one(m):
        if not after_dot and m.start() and text[m.start() - 1] == ".":
            return m[0]
        return table.get(m[0], m[0])

    return re.sub(W, one, text)


def module_path(module):
    k = re.match(r"Rattle\.(\w+)\.(specs|proofs)((?:\.[^\s{;.]+)*)$", module)
    return k and "crates/%s/%s%s.antt" % (k[1], k[2], k[3].replace(".", "/"))


def turn_text(path, text, tables):
    """The text of the file at path (from the root) respelled."""
    words, names, lemmas = tables
    is_rt = path.endswith(".rt")

    def respell(t):
        if is_rt:
            return re.sub(r"(?<![\w'-])[a-z][\w'-]*", lambda m: words.get(m[0], m[0]), t)
        return by(words, t)

    # a lemma that would have its definition's name, before the definition gets that name
    here = dict(lemmas.get(path, {}))
    if here:
        text = outside(text, lambda t: by(here, t, False))
    text = outside(text, respell)
    imported = {}
    for m in USE.finditer(text):
        theirs = lemmas.get(module_path(m[2]), {})
        for item in m[4].split(","):
            n = item.strip().split(" as ")[0].strip()
            if n in theirs:
                imported[n] = theirs[n]
            elif n in names and " as " not in item:
                imported[n] = names[n]
            elif n in names:
                text = text.replace(m[0], m[0].replace(item, item.replace(n, names[n], 1)))
    if is_rt:
        return text if not imported else outside(text, lambda t: re.sub(r"(?<![\w'-])[A-Za-z][\w'-]*", lambda m: imported.get(m[0], m[0]), t))
    if of_function(path):
        return outside(text, lambda t: by(imported, t, False))
    return outside(text, lambda t: by(imported, by(names, t), False))


def main(argv):
    if len(argv) == 2 and argv[0] == "--table":
        table(argv[1])
        return
    tables = load()
    root = argv[0]
    for f in files(root, ".antt") + files(root, ".rt"):
        old = read(f)
        new = turn_text(os.path.relpath(f, root), old, tables)
        if new != old:
            write(f, new)


if __name__ == "__main__":
    main(sys.argv[1:])
