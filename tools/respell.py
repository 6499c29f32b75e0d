#!/usr/bin/env python3
"""Brings the repository's own names of definitions and lemmas to the library's spelling: words in snake case, facts and types in camel case.

usage: respell.py [--list]      at the top of the repository, once, after the kit's script; --list only prints old and new names

It reads the names that specs/ and proofs/ declare (definitions, lemmas, constructors, fields), and respells them in every .rt, .antt and .edit file
and between backticks in comments and pages. Code, strings, and names that Rattle makes are left alone. It stops where a new name is taken already.
"""
import glob
import os
import re
import sys

WORD = r"[^\s(){}.;,@\"«»\[\]\\:]+"
TOKEN = re.compile(r"\"(?:[^\"\\]|\\.)*\"|«[^»]*»|" + WORD + r"|.", re.S)
NAME = r"(?:«[^»]*»|[^\s(){}.;,@\"«»\[\]\\:◌]+)"
DECLARED = re.compile(r"^(?:pub )?(?:(?:abbrev|unfoldable|record|data) )?(?:pub )?(?:record |data )?(" + NAME + r")(?=[ ({][^=\n]*:|\s*:)", re.M)
MEMBER = re.compile(r"^  (?:pub )?([^\s:(){}.;,=][^:(){}.;,=\n]*?) :", re.M)
# Names whose new form the rule does not give.
CHOSEN = {"eqZ": "int_eq", "processesOf": "processes_of", "act-head": "act_head", "term-head": "term_head", "house-word": "house_word"}
# Words of the language, which keep their marks.
KEYWORDS = "data record deriving module where use mod pub package open as unfoldable abbrev axiom unfold unfolding ruleset mutual infix infixl infixr elim let in do".split()


def respelled(name):
    if name in CHOSEN:
        return CHOSEN[name]
    if name[0].isupper():
        return "".join(p[:1].upper() + p[1:] for p in re.split("[-_]", name)) if re.search("[-_]", name) else name
    return name.replace("-", "_")


def read(path):
    with open(path, encoding="utf-8") as f:
        return f.read()


def own(root):
    """The names that the repository declares, with the files that do; of proofs of functions only those that no goal has."""
    found = {}
    for path in sorted(glob.glob(root + "/crates/*/specs/**/*.antt", recursive=True) + glob.glob(root + "/crates/*/proofs/**/*.antt", recursive=True)):
        text = re.sub(r"--[^\n]*", "", read(path))
        goals = set(re.findall(r"^(?:abbrev )?(?:pub )?(" + NAME + r") : (?:goal|given|need)\.", text, re.M))
        for m in list(DECLARED.finditer(text)) + list(MEMBER.finditer(text)):
            for name in m[1].split():
                if name not in goals and not re.match(r"use$|mod$|module$|unfolding$|infix", name):
                    found.setdefault(name, set()).add(path)
    return found


def parts(text, comment):
    """The text as (is a token that may be a name, piece)."""
    at = 0
    for m in re.finditer(comment + r"[^\n]*", text):
        # A comment mark inside a string is no comment.
        line = text.rfind("\n", 0, m.start()) + 1
        if m.start() < at or text.count('"', line, m.start()) % 2:
            continue
        for t in TOKEN.finditer(text[at : m.start()]):
            yield True, t[0]
        for i, piece in enumerate(re.split("(`[^`]*`)", m[0])):
            if i % 2:
                for t in TOKEN.finditer(piece.strip("`").join("``")):
                    yield True, t[0]
            else:
                yield False, piece
        at = m.end()
    for t in TOKEN.finditer(text[at:]):
        yield True, t[0]


def turned(text, names, kind):
    out = []
    if kind == "page":
        pieces = [(i % 2 == 1, p) for i, p in enumerate(re.split("(`[^`\n]*`)", text))]
        for code, p in pieces:
            out.append("".join(names.get(t[0], t[0]) for t in re.finditer(WORD.replace('@', '@`') + "|.", p, re.S)) if code else p)
        return "".join(out)
    for code, t in parts(text, "--" if kind == "antt" else "//"):
        quoted = t[:1] == "«"
        plain = t[1:-1] if quoted else t
        # The formatter writes a minus sign between spaces, so a word with a dash is a name, in a source file too.
        if code and plain in names:
            out.append(names[plain])
        elif quoted and kind == "rt" and plain not in KEYWORDS:
            out.append(plain.replace("-", "_"))
        else:
            out.append(t)
    return "".join(out)


def main():
    root = os.getcwd()
    found = own(root)
    names = {n: respelled(n) for n in list(found) + list(CHOSEN) if respelled(n) != n and not n.startswith(("◌", "_"))}
    kinds = [(p, "rt") for p in glob.glob("crates/*/src/**/*.rt", recursive=True)]
    kinds += [(p, "antt") for p in glob.glob("crates/*/specs/**/*.antt", recursive=True) + glob.glob("crates/*/proofs/**/*.antt", recursive=True)]
    kinds += [(p, "rt") for p in glob.glob("crates/*/must-fail/*.edit")]
    kinds += [(p, "page") for p in ["README.md"] + glob.glob("docs/*.md")]
    taken = []
    for path, kind in kinds:
        tokens = {t.strip("«»") for code, t in parts(read(path), "--" if kind == "antt" else "//") if code}
        here = {o for o in names if o in tokens}
        news = {}
        for o in sorted(here):
            if names[o] in tokens:
                taken.append((path, o, names[o], "is taken"))
            if names[o] in news:
                taken.append((path, o, names[o], "falls together with " + news[names[o]]))
            news[names[o]] = o
    if "--list" in sys.argv:
        for o in sorted(names):
            print(o, names[o])
        for t in taken:
            print("TAKEN", *t)
        return
    for path, kind in kinds:
        old = read(path)
        new = turned(old, names, kind)
        if new != old:
            with open(path, "w", encoding="utf-8") as f:
                f.write(new)


main()
