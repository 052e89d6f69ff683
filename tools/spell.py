#!/usr/bin/env python3
"""Turns the names of this repository's own definitions and lemmas to today's spelling, once, after port.py, at the top of the checkout.

Words are in snake case: `isTrue` becomes `is_true`. A dash stays only where it joins names of definitions, as in `exp_at-constant`; elsewhere it
becomes `_`, as in `first_fails`. Names of other libraries, functions of src/, types and modules keep their spelling. In comments and pages only
what stands in backticks is turned. What falls together with another name is printed, and nothing is written then.
"""

import glob
import os
import re
import sys

NAME = re.compile(r"[^\s(){}\[\],.;:`\"]+")
DEFINED = re.compile(r"^ *(?:(?:pattern|unfoldable|abbrev|pub|infix[lr]?) )*([^\s:(){}.]+)(?: [^\s:(){}.]+)* (?:\{[^}]*\} |\([^)]*\) )*: ", re.M)
IMPORT = re.compile(r"^(?:ghost )?use ([^\s{]+?)(?:\.\{([^}]*)\}| as (\S+)|);?$", re.M)
# functions of the libraries that own lemmas are named after
LIBRARY = {"length", "drop", "take", "set", "sets", "append", "get_or", "map", "replicate"}
# a lemma whose name another library's function has, and a field whose name a definition has
CHANGED = {"bit-and": "bit_and_lem", "request-right": "right_request"}


def camel(word):
    return word if not re.match(r"^[a-z]", word) else re.sub(r"(?<=[a-z0-9])([A-Z]+)", lambda m: "_" + m.group(1).lower(), word)


def spelled(word, known):
    if not re.match(r"^[a-z]", word) or "◌" in word:
        return word
    if word in CHANGED:
        return CHANGED[word]
    parts = [camel(p).lower() if re.match(r"^[A-Z]+$", p) else camel(p) for p in word.split("-")]
    return ("-" if all(p in known for p in parts) else "_").join(parts)


def crates():
    return sorted(c for c in os.listdir("crates") if os.path.isdir(os.path.join("crates", c, "src")))


def lemmas(crate):
    here = os.path.join("crates", crate)
    return sorted(glob.glob(here + "/specs/**/*.antt", recursive=True) + glob.glob(here + "/proofs/*.antt"))


def own_module(path, own):
    m = re.match(r"Rattle\.(\w+)\.(specs|proofs)\.", path)
    return bool(m) and m.group(1) in own


def imports(text, own):
    """The names that a file takes from this repository's definitions and lemmas, and those that it takes from elsewhere."""
    mine, others = set(), set()
    for path, names, alias in IMPORT.findall(text):
        names = [n.strip() for n in names.split(",") if n.strip()]
        for n in names:
            whole, _, short = n.partition(" as ")
            (mine if own_module(path, own) else others).update({whole, short} - {""})
        if alias:
            others.add(alias)
    return mine, others


def split_comments(text, mark):
    """The text as (is code, part) pairs."""
    at, out = 0, []
    for m in re.finditer(r"(?:^|(?<=\s))" + re.escape(mark) + r"[^\n]*", text):
        out += [(True, text[at : m.start()]), (False, m.group(0))]
        at = m.end()
    return out + [(True, text[at:])]


def main():
    own = crates()
    files = [f for c in own for f in lemmas(c)]
    texts = {f: open(f, encoding="utf-8").read() for f in files}
    code = {f: "".join(p for is_code, p in split_comments(t, "--") if is_code) for f, t in texts.items()}
    known = set(LIBRARY)
    for f in files:
        if "/specs/" in f:
            known |= {camel(n) for n in DEFINED.findall(code[f]) if re.match(r"^[a-z]", n) and "-" not in n}
    # each name of a lemma file that is not another library's, and its new spelling; a lemma that would have its definition's name ends in `_lem`
    turned = {}
    plain = {n for f in files if "/specs/" in f for n in DEFINED.findall(code[f]) if "-" not in n}
    new_of = {}
    for n in plain:
        new_of.setdefault(spelled(n, known), n)
    for f in files:
        mine, others = imports(code[f], own)
        for w in set(NAME.findall(code[f])) - others:
            new = spelled(w, known)
            if new_of.get(new, w) != w and w not in CHANGED:
                new += "_lem"
            if new != w and re.match(r"^[a-z][\w'-]*$", w):
                turned.setdefault(w, new)
    bad = 0
    for f in files:
        mine, others = imports(code[f], own)
        words = set(NAME.findall(code[f]))
        taken = {}
        for w in words:
            new = w if w in others else turned.get(w, w)
            if new in taken and taken[new] != w:
                print(f"falls together: {f}: {w} and {taken[new]} as {new}")
                bad += 1
            taken[new] = w
    if bad and "--anyway" not in sys.argv:
        return 1
    names = {n for f in files for n in DEFINED.findall(code[f])}
    fields = {n for f in files for n in re.findall(r"^  +pub ([a-z][\w'-]*) : ", code[f], re.M)}
    ticked = lambda s: re.sub(r"`([^`\s]+)`", lambda m: "`" + ".".join(turned.get(w, w) if w in names else w for w in m.group(1).split(".")) + "`", s)
    count = 0

    def write(f, old, new):
        nonlocal count
        if new != old:
            count += 1
            if "--dry" not in sys.argv:
                open(f, "w", encoding="utf-8").write(new)

    for f in files:
        _, others = imports(code[f], own)
        turn = lambda m: m.group(0) if m.group(0) in others else turned.get(m.group(0), m.group(0))
        write(f, texts[f], "".join(NAME.sub(turn, p) if is_code else ticked(p) for is_code, p in split_comments(texts[f], "--")))
    for c in own:
        here = os.path.join("crates", c)
        for f in sorted(glob.glob(here + "/proofs/*/**/*.antt", recursive=True) + glob.glob(here + "/src/*.rt")):
            text = open(f, encoding="utf-8").read()
            mark = "//" if f.endswith(".rt") else "--"
            mine, others = imports(text, own)
            turn = lambda m: turned.get(m.group(0), m.group(0)) if m.group(0) in mine or m.group(0) in fields and m.string[m.start() - 1 : m.start()] == "." or re.search(r"[a-z][A-Z]", m.group(0)) else m.group(0)
            write(f, text, "".join(NAME.sub(turn, p) if is_code else ticked(p) for is_code, p in split_comments(text, mark)))
    for f in sorted(glob.glob("crates/*/must-fail/*.edit")):
        text = open(f, encoding="utf-8").read()
        write(f, text, NAME.sub(lambda m: turned.get(m.group(0), m.group(0)) if m.group(0) in names else m.group(0), text))
    for f in ["README.md", "tests/README.md", *sorted(glob.glob("docs/**/*.md", recursive=True))]:
        text = open(f, encoding="utf-8").read()
        if os.path.basename(f) != "PORT.md":
            write(f, text, ticked(text))
    print(f"{len(turned)} names, {count} files")
    if "--names" in sys.argv:
        for w, new in sorted(turned.items()):
            print(f"{w} {new}")
    return 0


if __name__ == "__main__":
    raise SystemExit(main())
