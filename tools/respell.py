#!/usr/bin/env python3
"""Spells this repository's own definitions and lemmas as the kit's CONTRACT_STYLE.md does: in snake case, with a dash only where it joins two names.

usage: tools/respell.py        at the top of a repository whose crates port.py has turned; names.tsv beside this file has a row for each name

Rows: old, new and, where one spelling stood for two things, what the row is for: field (behind a dot, before ` =` or in a record) or lemma.
Turned: the code of .antt files, but for labels that Rattle made (declared in a function's own proof file, or behind `c.` or `before.`); comments' code
spans; in .rt files clauses, `ghost use` lines and comments; must-fail edits; code spans in docs. Strings stay.
"""

import os
import re
import sys

HERE = os.path.dirname(os.path.realpath(__file__))
NAME = r"[^\s(){}.;,@\"«»`]+"
DECLARED = re.compile(rf"(?m)^(?:(?:pub|abbrev) )*({NAME}) :")


def table():
    plain, fields, lemmas = {}, {}, {}
    with open(os.path.join(HERE, "names.tsv"), encoding="utf-8") as f:
        for line in f:
            old, new, *what = line.rstrip("\n").split("\t")
            {"": plain, "field": fields, "lemma": lemmas}[what[0] if what else ""][old] = new
    return plain, fields, lemmas


PLAIN, FIELDS, LEMMAS = table()


def turned(word, before, after, own):
    """The new spelling of a word of code, by what stands before and after it."""
    if word in own:
        return word
    if word in FIELDS:
        literal = re.match(r" =(?!=)", after) and re.search(r"[{;]\s*$", before)
        declared = re.match(r" :", after) and re.search(r"\n  pub $", before)
        field = before.endswith(".") or literal or (declared and own is not LAWS)
        if field:
            return word if is_label(before, own) else FIELDS[word]
        return LEMMAS.get(word, FIELDS[word])
    if is_label(before, own):
        return word
    return PLAIN.get(word, word)


def is_label(before, own):
    """Whether what follows is a step of a function's proof, which Rattle named."""
    return isinstance(own, set) and re.search(r"(?:\bc|\bbefore)\.$", before)


LAWS = frozenset(["-"])  # in a file of laws `pub NAME :` below an `open` declares a lemma, and no field


def code(text, own):
    return re.sub(NAME, lambda m: turned(m[0], text[max(0, m.start() - 200) : m.start()], text[m.end() : m.end() + 4], own), text)


def spans(text, own):
    return re.sub(r"`[^`\n]+`", lambda m: code(m[0], own), text)


def later(text, declared):
    """Names in code spans that port.py has turned already where they stand in code."""
    one = lambda m: m[0].replace("-", "_") if m[0] not in declared and m[0].replace("-", "_") in declared else m[0]
    return re.sub(r"`[^`\n]+`", lambda m: re.sub(NAME, one, m[0]), text)


def camel(text):
    """Names in camel case, wherever they stand: no word of English, and nothing of Rust or C here, is spelled so."""
    return re.sub(r"(?<![\w.:-])[a-z]\w*[A-Z][\w?]*", lambda m: PLAIN.get(m[0], m[0]), text)


def antt(text, own):
    parts = re.split(r'("(?:[^"\\\n]|\\.)*"|(?<![^\s(){}.;,@"])--[^\n]*)', text)
    for i, part in enumerate(parts):
        if i % 2 == 0:
            parts[i] = code(part, own) if i == 0 else code("\n" + part, own)[1:]
        elif part.startswith("--"):
            parts[i] = camel(spans(part, own))
    return "".join(parts)


def rust(text):
    parts = re.split(r'(b?"(?:[^"\\]|\\.)*"|//[^\n]*)', text)
    for i, part in enumerate(parts):
        if i % 2 == 0:
            parts[i] = re.sub(r"(?s)(ghost use [^;]*;|(?:requires|ensures)\*?(?: \w+)? \{.*?\}\n)", lambda m: code(m[0], ()), part)
        elif part.startswith("//"):
            parts[i] = camel(spans(part, ()))
    return "".join(parts)


def edit(text):
    proof = re.search(r"(?m)^file: .*\.antt$", text)
    return "".join(camel(l) if l.startswith("#") or not proof else code(l, ()) for l in text.splitlines(True))


def all_declared():
    names = set()
    for folder, _, files in os.walk("crates"):
        for f in files:
            if f.endswith(".antt"):
                with open(os.path.join(folder, f), encoding="utf-8") as g:
                    names.update(re.findall(rf"(?m)^ *(?:(?:pub|abbrev) )*({NAME})(?: [({{][^\n]*[)}}])? :", g.read()))
    return names


def main():
    declared = {PLAIN.get(n, FIELDS.get(n, n)) for n in all_declared()}
    for folder, dirs, files in os.walk("."):
        dirs[:] = [d for d in dirs if d not in (".git", "out", "target")]
        for f in files:
            p = os.path.join(folder, f)
            if not p.endswith((".antt", ".rt", ".edit", ".md", ".h", ".rs")) or p.startswith("./rust/relaypath/target"):
                continue
            with open(p, encoding="utf-8") as g:
                old = g.read()
            if f.endswith(".antt"):
                inner = re.search(r"/proofs/.+/", p)
                laws = re.search(r"/proofs/[^/]+$", p) and "/demands/" not in p
                own = set(DECLARED.findall(old)) if inner else LAWS if laws else frozenset()
                new = antt(old, own)
            elif f.endswith(".rt"):
                new = rust(old)
            elif f.endswith(".edit"):
                new = edit(old)
            else:
                new = later(camel(spans(old, ())), declared) if f.endswith(".md") else camel(old)
            if new != old:
                with open(p, "w", encoding="utf-8") as g:
                    g.write(new)
                print(p)


if __name__ == "__main__":
    sys.exit(main())
