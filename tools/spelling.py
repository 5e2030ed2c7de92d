#!/usr/bin/env python3
"""Spells this repository's own definitions, constructors, fields and lemmas as today's Rattle does: words in snake case. A dash stays where
it joins the names of two definitions. docs/PORT.md says when it was run, after port.py.

usage: python3 tools/spelling.py [--table]      at the top of the repository; --table prints old and new names and writes nothing

What turns: the words of specs/*.antt and proofs/*.antt, the clauses and `ghost use` lines of src/*.rt, the code spans of comments, and the
lines `old:` and `new:` of must-fail/*.edit. Names of goals and steps, which Rattle makes, are not in the table: they stand in the folders of
functions, below proofs/.
"""

import glob
import os
import re
import sys

WORD = re.compile(r"[^\s(){}.;,@\"«»`\[\]\\]+")
TOP = re.compile(r"^(?:abbrev |unfoldable )?(?:pub )?(data |record )?([^\s(){}.;,@\"«»:]+)(?= *:| \(|$)")
INSIDE = re.compile(r"^(?:  (?:pub )?| +(?:(?:abbrev |unfoldable )(?:pub )?|pub (?:abbrev |unfoldable )?))([^\s(){}.;,@\"«»:]+) *:(?: |$)")
# Names of std that a lemma's name may join by a dash.
OF_STD = {"append", "length", "take", "drop", "set", "map", "get_or", "sum", "max", "min"}
# A lemma that would have its definition's name ends in _lem.
BY_HAND = {n: n.replace("-", "_") + "_lem" for n in ("edit-number", "list-number", "look-up-number", "image-number", "is-in", "most-later",
                                                     "reached-in", "rows-given", "fields-at", "came_from", "read_number")}
# Names below one folder that would hide a definition there, or that have its name elsewhere.
LOCAL = {
    "crates/marked/": {"image-number": "image_number"},
    "crates/ledger/proofs/StepList.antt": {"rows_in": "rows_in_lem"},
    "crates/editing/proofs/Ledger.antt": {"word_after": "word_after_lem"},
}


def files():
    return sorted(glob.glob("crates/*/specs/**/*.antt", recursive=True) + glob.glob("crates/*/proofs/**/*.antt", recursive=True))


def of_functions(path):
    """Whether a file answers the goals of a function: it lies in a folder below proofs/."""
    return "/proofs/" in path and path.split("/proofs/", 1)[1].count("/") > 0


def snake(word):
    word = re.sub(r"(?<=[a-z0-9])([A-Z])", lambda m: "_" + m[1].lower(), word)
    return word


def declared():
    """Names that are declared outside of the folders of functions; those of constructors and fields; those of definitions in specs/."""
    lemmas, inner, defined = set(), set(), set()
    for path in files():
        if of_functions(path):
            continue
        with open(path, encoding="utf-8") as f:
            for line in f:
                if line.startswith(("use ", "--", "infix", "mod ", "pub mod ", "pub use ", "unfolding", " unfolding")):
                    continue
                m = TOP.match(line)
                if m and re.match(r"[a-z]", m[2]) and (":" in line or m[1]):
                    lemmas.add(m[2])
                    if "/specs/" in path:
                        defined.add(m[2])
                m = INSIDE.match(line)
                if m and re.match(r"[a-z]", m[1]):
                    inner.add(m[1])
    return lemmas, inner, defined


def new_name(name, inner, defined):
    if name in BY_HAND:
        return BY_HAND[name]
    # A fact that a name has as a part keeps its capital.
    word = snake(name)
    if "-" not in word or name in inner:
        return word.replace("-", "_")
    out = word.split("-")[0]
    rest = word.split("-")[1:]
    while rest:
        left_is = out in defined or out in OF_STD
        right_is = any("-".join(rest[:k]) in defined or "-".join(rest[:k]) in OF_STD for k in range(1, len(rest) + 1))
        out += ("-" if left_is and right_is else "_") + rest.pop(0)
    return out


def table():
    lemmas, inner, defined = declared()
    spelled = {snake(n).replace("-", "_") for n in defined}
    return {n: new for n in lemmas | inner if n in BY_HAND or re.search(r"[A-Z-]", n) for new in [new_name(n, inner, spelled)] if new != n}


def turn_text(text, names, behind_dot=True):
    return WORD.sub(lambda m: names.get(m[0], m[0]), text)


COMMENT = re.compile(r"--[^\n]*")
SPAN = re.compile(r"`[^`\n]*`")


def turn_antt(text, names):
    out, at = [], 0
    for m in COMMENT.finditer(text):
        before = text[m.start() - 1 : m.start()]
        if before and not before.isspace():
            continue
        out.append(turn_text(text[at : m.start()], names))
        out.append(SPAN.sub(lambda s: turn_text(s[0], names), m[0]))
        at = m.end()
    out.append(turn_text(text[at:], names))
    return "".join(out)


# In Rust text: clauses, `ghost` blocks and lines, and the spans of comments.
HEAD = re.compile(r"\b(?:requires|ensures)\s*\*?\s*(?:\w+\s*)?\{|\bghost\s+use\b|\bghost\s*(?:\w+\s*(?::\s*|=\s*))?\{|\bghost\s+invariant\s*(?:\w+\s*)?\{")


def turn_rt(text, names):
    out, at = [], 0
    for m in HEAD.finditer(text):
        if m.start() < at:
            continue
        if m[0].endswith("{"):
            depth, end = 1, m.end()
            while depth:
                depth += {"{": 1, "}": -1}.get(text[end], 0)
                end += 1
        else:
            end = text.index(";", m.end())
        out.append(spans(text[at : m.start()], names))
        out.append(turn_text(text[m.start() : end], names))
        at = end
    out.append(spans(text[at:], names))
    return "".join(out)


def spans(text, names):
    return re.sub(r"//[^\n]*", lambda c: SPAN.sub(lambda s: turn_text(s[0], names), c[0]), text)


def turn_edit(text, names):
    out, kind = [], "antt"
    for line in text.splitlines(keepends=True):
        if line.startswith("file:"):
            kind = "antt" if ".antt" in line else "rt"
        if line.startswith(("old:", "new:")) and (kind == "antt" or re.search(r"ensures|requires|ghost", line)):
            line = line[:4] + turn_text(line[4:], names)
        out.append(line)
    return "".join(out)


def meetings(names):
    """New names that some text has already."""
    words = {}
    for path in files() + sorted(glob.glob("crates/*/src/**/*.rt", recursive=True)):
        with open(path, encoding="utf-8") as f:
            for w in set(WORD.findall(re.sub(r"(--|//)[^\n]*", "", f.read()))):
                words.setdefault(w, set()).add(path)
    return words


def main(argv):
    names = table()
    if argv == ["--table"]:
        for old, new in sorted(names.items()):
            print(f"{old}\t{new}")
        return 0
    if argv == ["--meetings"]:
        words = meetings(names)
        by_new = {}
        for old, new in names.items():
            by_new.setdefault(new, []).append(old)
        for new, olds in sorted(by_new.items()):
            if len(olds) > 1:
                print("two:", new, olds)
            for old in olds:
                both = words.get(new, set()) & words.get(old, set())
                if both:
                    print("both:", old, new, sorted(both)[:3], len(both))
                elif new in words:
                    print("elsewhere:", old, new, sorted(words[new])[:2], len(words[new]))
        return 0
    for path in files():
        rewrite(path, turn_antt, local(path, names))
    for path in sorted(glob.glob("crates/*/src/**/*.rt", recursive=True)):
        rewrite(path, turn_rt, names)
    for path in sorted(glob.glob("crates/*/must-fail/**/*.edit", recursive=True)):
        rewrite(path, turn_edit, local(path, names))
    return 0


def local(path, names):
    for folder, more in LOCAL.items():
        if path.startswith(folder):
            names = names | more
    return names


def rewrite(path, turn, names):
    with open(path, encoding="utf-8", newline="") as f:
        text = f.read()
    new = turn(text, names)
    if new != text:
        with open(path, "w", encoding="utf-8", newline="") as f:
            f.write(new)
        print(path)


if __name__ == "__main__":
    raise SystemExit(main(sys.argv[1:]))
