#!/usr/bin/env python3
"""Brings the repository's own definitions, lemmas and fields to today's spelling: words in snake case, facts in upper camel case.

usage: tools/respell.py          at the top, once, after port.py: rewrites crates/ and prints what it renamed
       tools/respell.py --list   prints the names only

A name is this repository's own if an .antt file of crates/ declares it. `fooBar` becomes `foo_bar`, `foo-bar` becomes `foo_bar`.
Kept: names that begin with a capital, goals of a proof (`Need-..`), names of src/, exported C names, strings, data, and module names.
"""

import collections
import os
import re
import sys

STOP = r"\s(){}\[\],;:.λ\"`⌜⌝⟦⟧"
TOKEN = re.compile(rf"[^{STOP}]+")
DECLARED = re.compile(r"^(\s*)((?:abbrev |unfoldable |pub |data |record )*)([^\s:(){}.]+) :(?: |$)(.*)$")
# a fact that was spelled as a word, and a name of the documents with a capital of its own
FACTS = {"goodIn": "GoodIn", "dEoAOffset": "d_eoa_offset"}


def texts(root, ends):
    for folder, dirs, files in os.walk(root):
        dirs[:] = sorted(d for d in dirs if d != "out")
        for f in sorted(files):
            if f.endswith(ends):
                yield os.path.join(folder, f)


def read(p):
    with open(p, encoding="utf-8") as f:
        return f.read()


def snake(name):
    if name in FACTS:
        return FACTS[name]
    humps = re.sub(r"(?<=[a-z0-9])(?=[A-Z])|(?<=[A-Z])(?=[A-Z][a-z])", "_", name)
    words = humps.replace("-", "_").split("_")
    # a fact keeps its capital where a dash joined it to a word
    facts = {w for part in name.split("-")[1:] for w in [re.match(r"[A-Z]?", part).group(0) and part] if w}
    return "_".join(w if w in facts else w.lower() for w in words)


def declared():
    names = collections.defaultdict(list)
    for p in texts("crates", (".antt",)):
        for line in read(p).split("\n"):
            m = DECLARED.match(line)
            if m and not line.lstrip().startswith("--"):
                names[m.group(3)].append((p, m.group(4)))
    return names


def own():
    """The names to turn, each with what it becomes."""
    out = {}
    for n, places in declared().items():
        if n[0].isupper() or not re.match(r"^\+?[a-z]", n):
            continue
        if not (re.search(r"[a-z0-9][A-Z]", n) or "-" in n):
            continue
        if all(re.match(r"tie\.|statement ", t) for _, t in places):
            continue
        out[n] = snake(n)
    return out


def camel(word):
    return re.match(r"^[a-z][a-z0-9]*(?:[A-Z][a-zA-Z0-9]*)+['₀-₉]*$", word)


def table():
    """All that is turned: own names, with `_lem` on a lemma that would fall on a definition, and variables in camel case."""
    names, places = own(), declared()
    meant = collections.defaultdict(list)
    for a, b in names.items():
        meant[b].append(a)
    for b, all_of in meant.items():
        words = [a for a in all_of if "-" not in a]
        if len(all_of) > 1:
            for a in all_of:
                if "-" in a and words:
                    names[a] = b + "_lem"
        if b in places:
            for a in all_of:
                if "-" in a:
                    names[a] = b + "_lem"
                elif all("/proofs/" in p for p, _ in places[b]):
                    names[b] = b + "_lem"
                else:
                    raise SystemExit(f"respell: {a} falls on {b}")
    for p in texts("crates", (".antt",)):
        for w in TOKEN.findall(read(p)):
            if w not in names and camel(w):
                names[w] = snake(w)
    return names


def turn(text, names, only=lambda word: True):
    def one(m):
        w = m.group(0)
        if w not in names or not only(w):
            return w
        if "-" in w and m.start() and text[m.start() - 1] == "." and w not in FIELDS:
            return w
        return names[w]

    return TOKEN.sub(one, text)


def is_camel(word):
    return bool(camel(word))


def antt(text, names):
    out = []
    for line in text.split("\n"):
        code, dashes, note = line.partition("--") if re.match(r"^\s*--", line) else (line, "", "")
        if dashes:
            note = re.sub(r"`[^`]*`", lambda m: turn(m.group(0), names), note)
            note = turn(note, names, is_camel)
        out.append(turn(code, names) + dashes + note)
    return "\n".join(out)


def rt(text, names):
    parts = re.split(r'(b?"(?:\\.|[^"\\\n])*")', text)
    return "".join(t if i % 2 else turn(t, names, is_camel) for i, t in enumerate(parts))


def edit(text, names):
    of_antt = False
    out = []
    for line in text.split("\n"):
        if line.startswith("file: "):
            of_antt = line.endswith(".antt")
            out.append(line)
        elif line.startswith(("old: ", "new: ")):
            out.append(line[:5] + (turn(line[5:], names) if of_antt else rt(line[5:], names)))
        else:
            out.append(turn(line, names, is_camel))
    return "\n".join(out)


FIELDS = set()


def main(argv):
    names = table()
    for n, places in declared().items():
        if any(not t.startswith("tie.") for _, t in places):
            FIELDS.add(n)
    if argv == ["--list"]:
        for a, b in sorted(names.items()):
            print(a, b)
        return
    for p in list(texts("crates", (".antt", ".rt", ".edit"))) + ["README.md"] + list(texts("docs", (".md",))):
        was = read(p)
        now = antt(was, names) if p.endswith(".antt") else rt(was, names) if p.endswith(".rt") else edit(was, names) if p.endswith(".edit") else turn(was, names, is_camel)
        if now != was:
            with open(p, "w", encoding="utf-8") as f:
                f.write(now)
    print(f"respell: {len(names)} names")


if __name__ == "__main__":
    main(sys.argv[1:])
