#!/usr/bin/env python3
"""Lists the places in crates/*/src that docs/DESIGN-PASS.md counts, tests left out: `tools/forms.py [COMMIT]`.

It finds forms of code by their text, so each line is a place to look at and no verdict."""
import collections
import re
import subprocess
import sys

TABLES = ("key_tables.rt", "multiples.rt", "logarithms.rt")


def sources(commit):
    """The path and the text of each source file, in the working tree or at a commit."""
    at = [commit] if commit else []
    listed = ["git", "ls-tree", "-r", "--name-only", commit] if commit else ["git", "ls-files", "-co", "--exclude-standard"]
    for path in sorted(subprocess.run(listed, capture_output=True, text=True, check=True).stdout.split("\n")):
        if re.fullmatch(r"crates/\w+/src/.*\.rt", path):
            if at:
                text = subprocess.run(["git", "show", f"{commit}:{path}"], capture_output=True, text=True, check=True).stdout
            else:
                try:
                    with open(path, encoding="utf-8") as file:
                        text = file.read()
                except FileNotFoundError:
                    continue
            yield path[len("crates/") :], text.split("#[cfg(test)]")[0]


def functions(text):
    """Each function's name, parameters, the rest of its head, and its body."""
    for found in re.finditer(r"\bfn (\w+)(?:<[^(]*?>)?\(", text):
        depth, end = 1, found.end()
        while depth:
            depth += {"(": 1, ")": -1}.get(text[end], 0)
            end += 1
        head = re.split(r"\{\n|\n\s*\{|;\n", text[end:], maxsplit=1)[0]
        body = text[end + len(head) :]
        indent = re.search(r"[^\n]*$", text[: found.start()]).group(0)
        close = body.find("\n" + re.match(r" *", indent).group(0) + "}")
        yield found.group(1), text[found.end() : end - 1], head, body[:close] if close > 0 else body


def lines(files, pattern, without=None):
    """The lines in which a pattern stands."""
    for path, text in files:
        for number, line in enumerate(text.split("\n"), 1):
            if re.search(pattern, line) and not (without and re.search(without, line)):
                yield f"{path}:{number}: {line.strip()[:110]}"


def flags(files):
    """Functions that write through a parameter and answer a bool, errors that are bare numbers, and numbers that mean none."""
    for path, text in files:
        for name, parameters, head, _ in functions(text):
            if "&mut" in parameters and re.match(r"\s*-> bool\b", head):
                yield f"{path}: {name} answers a bool beside what it writes"
            if re.match(r"\s*-> Result<.*, (u8|usize)>", head):
                yield f"{path}: {name} gives an error that is a bare number"
    yield from lines(files, r"u64::MAX|^\s*(return )?(3312|20000|828);?$|== 0 \{\s*$|, // of 0, past|Some\(16\)", r"len\(\) == 0|% ")


def shapes(files):
    """Functions of the same shape: the same tokens, with every name, number and text alike."""
    same = collections.defaultdict(list)
    for path, text in files:
        for name, _, _, body in functions(text):
            tokens = re.findall(r"\w+|[^\w\s]", re.sub(r"//.*|b?\"[^\"]*\"", "", body))
            keep = {"for", "in", "if", "else", "match", "return", "while", "let", "mut", "self"}
            shape = " ".join(t if t in keep or not re.match(r"\w", t) else "x" for t in tokens)
            if len(tokens) > 11:
                same[shape].append(f"{path}: {name}")
    for names in same.values():
        if len(names) > 1:
            yield " ~ ".join(names)


def fact_shape(fact):
    """The fact without the times of its values and without the name of a value whose field it is about."""
    fact = re.sub(r"\.(now|old|new)\b", "", re.sub(r"\s+", " ", fact)).strip()
    return re.sub(r"\b[a-z]\w*\.(?=[a-z])", "_.", fact)


def facts(files):
    """Facts in the clauses of three or more functions of a crate, and parameters that three or more take together."""
    by_fact, by_pair = collections.defaultdict(set), collections.defaultdict(set)
    for path, text in files:
        crate = path.split("/")[0]
        for name, parameters, head, _ in functions(text):
            for fact in re.findall(r"(?:requires|ensures)(?: \w+)? \{(.*)\}", head):
                by_fact[crate, fact_shape(fact)].add(name)
            named = sorted(re.sub(r"\s+", " ", p).strip() for p in parameters.split(",") if ":" in p)
            for i, a in enumerate(named):
                for b in named[i + 1 :]:
                    by_pair[crate, f"{a}; {b}"].add(name)
    for kind, found in (("fact", by_fact), ("parameters", by_pair)):
        for (crate, what), names in sorted(found.items()):
            if len(names) > 2:
                yield f"{crate}: {kind} {what} ({', '.join(sorted(names))})"


def main():
    files = [(path, text) for path, text in sources(sys.argv[1] if len(sys.argv) > 1 else None)]
    code = [(path, text) for path, text in files if not path.endswith(TABLES)]
    found = (
        ("1 flags, sentinels and bare numbers", flags(files)),
        ("2 functions of the same shape", shapes(code)),
        ("3 loops that count an index or keep a count", lines(code, r"^ *(while |loop )|for [a-z_]+ in [^ ]*\.\.|^ *[a-z_.]+ (\+= 1;|= [a-z_.]+\.saturating_add\(1\))", r"for _ in|&")),
        ("4 conversions and prints by hand", lines(code, r"fn (digit|hex_digit|pair|level|bit|number_of|level_of|level_bits)\(|Err\(_\) => (return )?Err\(|Err\(\w+\) => (return )?Err\(|Err\(_\) => return")),
        ("5 facts and parameters that come together", facts(code)),
        ("6 buffers with a length beside, parallel arrays", lines(files, r"^ *(pub(\(crate\))? )?(len|degree): usize,|: \[\[u8; 11\]; 10\],|^const (HIGH|LOW)_\d+|^ *(high|low): \[u\d+; 256\],|inverses: \[u8; 10\],")),
        ("7 switches on which step to run", lines(code, r"^\s*\w+::\w+(\(\w+\))? => (self\.)?\w+\(|enum (Work|Stage|Figures)|(?<!\w)fn\(")),
    )
    for title, places in found:
        places = list(places)
        print(f"== {title}: {len(places)}")
        for place in places:
            print(f"   {place}")


main()
