#!/usr/bin/env python3
"""Gives the repository's own definitions, lemmas, fields and local names the spelling of Rattle: words in snake case.

usage: python3 tools/snake-names.py          at the top of a repository that port.py has turned

Rewrites specs/ and proofs/ and the clauses of src/ in place. A name is the repository's own where a file of specs/ or proofs/ defines it, as
an item, a field, a constructor, a parameter or a local name. In the names of goals and of steps of the code, which the check makes, the parts
that come from the source get the source's spelling. Names of the library stay, and so do comments, strings and Rust code. Says which names
fall together with others, and renames none of those.
"""

import collections
import os
import re
import sys

WORD = r"[^\s(){}\[\],;:.\"`⌜⌝∗→λ×⊎|/]+"
NAME = re.compile(WORD)
DASHED = re.compile(r"[^\W\d_][\w']*(?:-[\w']+)+")
# Parts of names with a capital inside, and what stands for them.
CAPITALS = {"getD": "get_or", "toB": "to_byte", "times_X": "times_x"}
ITEM = re.compile(r"^(?:pub |abbrev |unfoldable |mutual |ruleset |record |data )*(" + WORD + r")(?:\s*:|\s+[({])")
FIELD = re.compile(r"^\s+pub (" + WORD + r")\s*:")
BARE_FIELD = re.compile(r"^\s+(" + WORD + r")\s*:")
LOCAL = re.compile(r"\blet (" + WORD + r")\s*[:=]|λ \(?(" + WORD + r")[ .:]|[({](" + WORD + r"(?: " + WORD + r")*) :")
GOAL = re.compile(r":\s*goal\.")


def files(ending):
    for folder, dirs, names in os.walk("crates"):
        dirs[:] = sorted(d for d in dirs if d not in ("out", "data", "must-fail"))
        for n in sorted(names):
            if n.endswith(ending):
                yield os.path.join(folder, n)


def read(path):
    with open(path, encoding="utf-8") as f:
        return f.read()


def code(line):
    """The part of an antt line before its comment."""
    return re.split(r"(?:^|(?<=\s))--(?=\s|$)", line, 1)[0]


def defined(path, text):
    """The dashed names that this file defines, and those that are goals of the check."""
    own, goals = set(), set()
    for line in text.split("\n"):
        line = code(line)
        m = ITEM.match(line)
        if m and not line.startswith("use "):
            (goals if GOAL.search(line) else own).add(m.group(1))
        for m in (FIELD.match(line), BARE_FIELD.match(line)):
            if m:
                own.add(m.group(1))
        for m in LOCAL.finditer(line):
            for g in m.groups():
                own |= set(g.split()) if g else set()
    return {n for n in own if DASHED.fullmatch(n) or n in CAPITALS}, goals


def snake(name):
    to = name.replace("-", "_")
    for part, word in CAPITALS.items():
        to = re.sub(rf"\b{part}(?=_|\b)", word, to)
    return to


def library(text):
    """Names that a file imports from outside the repository."""
    crates = set(os.listdir("crates"))
    out = set()
    for m in re.finditer(r"^(?:ghost )?(?:pub )?use ([\w.+'-]+)\.\{([^}]*)\}", text, re.M):
        parts = m.group(1).split(".")
        if not (parts[0] == "Rattle" and len(parts) > 1 and parts[1] in crates):
            out |= {n.strip().split(" as ")[-1].strip() for n in m.group(2).split(",")}
    return out


def words_of_rust(texts):
    """Functions, parameters, fields, constants and other names of the source."""
    out = collections.Counter()
    for text in texts:
        for line in text.split("\n"):
            line = line.split("//")[0]
            if "ghost use" not in line:
                for m in re.finditer(r"\b(?:fn|let|let mut|const|static|type|struct|enum|mod|for)\s+(\w+)|\b(\w+)\s*:(?!:)", line):
                    out[m.group(1) or m.group(2)] += 1
    return out


# Parts of made names that are in snake case though no name of the source is.
MADE = ["in-default", "in-ok", "in-err", "type-inv", "deref-mut", "copy-from-slice", "to-be-bytes", "to-le-bytes", "from-be-bytes", "slice-bounds"]


def source_parts(texts):
    """Names of the source that have an underscore, as they were spelled in made names: with dashes."""
    out = {m: m.replace("-", "_") for m in MADE}
    for text in texts:
        for line in text.split("\n"):
            if "ghost use" not in line:
                for w in re.findall(r"\b[A-Za-z]\w*_\w*\b", line.split("//")[0]):
                    out[w.strip("_").replace("_", "-")] = w.strip("_")
    return out


def made(name, parts):
    """A made name with the source's spelling of its parts, the longest first."""
    words, out = name.split("-"), []
    while words:
        n = next((n for n in range(len(words), 1, -1) if "-".join(words[:n]) in parts), 1)
        out.append(parts["-".join(words[:n])] if n > 1 else words[0])
        words = words[n:]
    return "-".join(out)


def made_names(text, parts, outside):
    """A file of answers or invariants, with made names respelled."""
    if not re.search(r"^use .* as goal$", text, re.M):
        return text
    known = set(NAME.findall("\n".join(code(l) for l in text.split("\n") if not l.startswith("use "))))
    names = {n: made(n, parts) for n in known if "-" in n and n not in outside}
    return "\n".join(l if l.startswith("use ") else renamed(l, names, antt_line) for l in text.split("\n"))


def renamed(text, names, is_code_line):
    lines = []
    for line in text.split("\n"):
        head, rest = is_code_line(line)
        lines.append(NAME.sub(lambda m: names.get(m.group(0), m.group(0)), head) + rest)
    return "\n".join(lines)


def antt_line(line):
    head = code(line)
    return head, line[len(head) :]


def rust_line(line):
    head = line.split("//")[0]
    return ("", line) if '"' in head else (head, line[len(head) :])


def main():
    antt = {p: read(p) for p in files(".antt")}
    rust = {p: read(p) for p in files(".rt")}
    own, goals = set(), set()
    for p, t in antt.items():
        o, g = defined(p, t)
        own |= o
        goals |= g
    for t in rust.values():
        for m in re.finditer(r"^\s+(?:pub )?ghost (" + WORD + r")\s*:", t, re.M):
            if DASHED.fullmatch(m.group(1)):
                own.add(m.group(1))
    outside = {p: library(t) for p, t in (antt | rust).items()}
    everywhere = set().union(*outside.values())
    used = set()
    for t in antt.values():
        for line in t.split("\n"):
            used |= set(NAME.findall(re.sub(r"^(pub )?use [^{]*", "", code(line))))
    source = words_of_rust(rust.values())
    names = {}
    for n in sorted(own):
        to = snake(n)
        if n in goals:
            print(f"stays: {n} is the name of a goal too")
        elif to in used or to in everywhere:
            print(f"stays: {n}, since {to} is another name")
        else:
            if to in source:
                print(f"look: {n} becomes {to}, which is a name of the source")
            names[n] = to
    for p, t in (antt | rust).items():
        here = {n: to for n, to in names.items() if n not in outside[p]}
        new = renamed(t, here, antt_line if p in antt else rust_line)
        if new != t:
            with open(p, "w", encoding="utf-8") as f:
                f.write(new)
    print(f"{len(names)} names renamed")
    for crate in sorted(os.listdir("crates")):
        inside = os.path.join("crates", crate, "")
        parts = source_parts(t for p, t in rust.items() if p.startswith(inside))
        for p in antt:
            if p.startswith(inside + "proofs" + os.sep):
                text = read(p)
                new = made_names(text, parts, outside[p])
                if new != text:
                    with open(p, "w", encoding="utf-8") as f:
                        f.write(new)
    return 0


if __name__ == "__main__":
    sys.exit(main())
