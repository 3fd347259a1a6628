#!/usr/bin/env python3
"""Gives this repository's own definitions and lemmas one spelling: words in snake case (`chargeOf` and `charge-of`
become `charge_of`). Types and modules keep theirs, functions of src/ too, and names that a library or the check makes.

usage: tools/respell.py [--names FILE]     at the top of the repository, once, after the port's own script

It prints the names that it turned; with --names it writes them, old and new, to FILE. It stops, and writes nothing,
where two names of a file would become one.
"""

import os
import re
import sys

PLAIN = re.compile(r"[a-z][A-Za-z0-9']*(?:[-_][A-Za-z0-9']+)*'*")
TOKEN = re.compile(r"[^\s(){}.;,@\"«»`]+")
USE = re.compile(r"^\s*(?:pub )?(?:ghost )?use ([^;{]*?)(?:\{([^}]*)\})?;?\s*$", re.M)
OWN = re.compile(r"Rattle\.(\w+)\.")
# a lemma and a definition that differ in spelling alone
APART = {"only-subtracts": "only_subtracts_lem"}
CLAUSE = re.compile(r"(?:requires|ensures)\s*\*?\s*(?:\w+\s*)?\{|ghost\s*(?:\w+\s*(?::\s*|=\s*))?\{")


def snake(name):
    name = name.replace("-", "_")
    name = re.sub(r"([a-z0-9])([A-Z])", lambda m: m.group(1) + "_" + m.group(2).lower(), name)
    return name


def turns(name):
    return PLAIN.fullmatch(name) and name != snake(name)


def read(path):
    with open(path, encoding="utf-8") as f:
        return f.read()


def parts(text):
    """The text as code and comments: pairs of a flag, whether it is code, and the piece."""
    at = 0
    for m in re.finditer(r'"(?:[^"\\\n]|\\.)*"|(?<![^\s(){}.;,])--[^\n]*|\{-.*?-\}', text, re.S):
        yield True, text[at : m.start()]
        yield False, m.group()
        at = m.end()
    yield True, text[at:]


def foreign(text, crates):
    """The names that a file imports from no crate of the repository."""
    out = set()
    for m in USE.finditer(text):
        head, items = m.group(1), m.group(2) or ""
        own = OWN.match(head)
        if own and own.group(1) in crates:
            continue
        for item in items.split(","):
            out.update(TOKEN.findall(item))
    return out


def main(argv):
    names = argv[1] if len(argv) == 2 and argv[0] == "--names" else None
    crates = sorted(c for c in os.listdir("crates") if os.path.isdir(f"crates/{c}/src"))
    theory, functions, sources = [], [], []
    for c in crates:
        for top, dirs, files in os.walk(f"crates/{c}"):
            dirs[:] = sorted(d for d in dirs if d != "out")
            for f in sorted(files):
                p = os.path.join(top, f)
                if f.endswith(".rt"):
                    sources.append(p)
                elif f.endswith(".antt"):
                    flat = top in (f"crates/{c}/specs", f"crates/{c}/proofs")
                    (theory if flat else functions).append(p)
    texts = {p: read(p) for p in theory + functions + sources}
    own = dict(APART)
    for p in theory:
        lib = foreign(texts[p], crates)
        for code, piece in parts(texts[p]):
            if code:
                for t in TOKEN.findall(piece):
                    if turns(t) and t not in lib:
                        own.setdefault(t, snake(t))
    for p in functions:
        for t in TOKEN.findall(texts[p]):
            if t.endswith("-spec") and turns(t):
                own.setdefault(t, snake(t))

    bad = []

    def rename(piece, keep, seen):
        def put(m):
            t = m.group()
            new = own.get(t) if t not in keep else None
            new = new or t
            seen.setdefault(new, set()).add(t)
            return new

        return TOKEN.sub(put, piece)

    def spans(piece, keep):
        """Of a comment: names in camel case anywhere, names with dashes in a code span."""
        def word(m):
            t = m.group()
            return own[t] if t in own and t not in keep and "-" not in t else t

        def span(m):
            return TOKEN.sub(lambda w: own.get(w.group(), w.group()) if w.group() not in keep else w.group(), m.group())

        return TOKEN.sub(word, re.sub(r"`[^`\n]*`", span, piece))

    new = {}
    for p in theory + functions:
        keep = foreign(texts[p], crates)
        seen = {}
        out = []
        for code, piece in parts(texts[p]):
            out.append(rename(piece, keep, seen) if code else spans(piece, keep))
        new[p] = "".join(out)
        if p in theory:
            bad += [f"{p}: {', '.join(sorted(v))} -> {k}" for k, v in seen.items() if len(v) > 1]
    for p in sources:
        text, keep, seen, out, at = texts[p], foreign(texts[p], crates), {}, [], 0
        while True:
            m = re.compile(r"^ghost use [^;]*;|" + CLAUSE.pattern, re.M).search(text, at)
            if not m:
                break
            end = m.end()
            if not m.group().startswith("ghost use"):
                depth = 1
                while depth:
                    depth += {"{": 1, "}": -1}.get(text[end], 0)
                    end += 1
            out += [text[at : m.start()], rename(text[m.start() : end], keep, seen)]
            at = end
        out.append(text[at:])
        new[p] = re.sub(r"//[^\n]*", lambda m: spans(m.group(), keep), "".join(out))
        bad += [f"{p}: {', '.join(sorted(v))} -> {k}" for k, v in seen.items() if len(v) > 1]
    if bad:
        print("\n".join(bad))
        return 1
    for p, t in new.items():
        if t != texts[p]:
            with open(p, "w", encoding="utf-8") as f:
                f.write(t)
    print(f"{len(own)} names: " + ", ".join(sorted(own)))
    if names:
        with open(names, "w", encoding="utf-8") as f:
            f.writelines(f"{k}\t{v}\n" for k, v in sorted(own.items()))
    return 0


if __name__ == "__main__":
    raise SystemExit(main(sys.argv[1:]))
