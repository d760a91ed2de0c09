#!/usr/bin/env python3
"""Writes docs/LAWS.md, and the lists of must-fail edits in docs/CONTRACTS.md, from the sources. tests/run.py checks that both are up to date."""
import collections
import re
import sys

from sources import CRATES, ROOT, declares, edits, first_sentence, laws, modules, owner, replacements, sources

LAWS, CONTRACTS, PROMISES = (ROOT / "docs" / name for name in ("LAWS.md", "CONTRACTS.md", "PROMISES.md"))
MARKED = re.compile(r"(<!-- edits: (\w+) -->\n).*?(<!-- end -->)", re.S)
# characters of a statement and of one side of an edit on a page
STATEMENT, SIDE = 100, 72
INTRODUCTION = """# Laws

This page is written from the sources by `python3 tests/pages.py`; the gate checks that it is up to date.
It lists what is proved below the promises (`docs/PROMISES.md`), crate by crate in the order of `crates.txt`, and then where the definitions stand.

The files of `proofs/` have {all:,} public theorems, records and types. {listed} of them are below:

- each that another crate cites;
- each that nothing cites and that is an end in itself, such as a case of the document;
- in a crate with definitions that a promise can name, each theorem that a comment explains.

Left out are {promised} that `docs/PROMISES.md` names, {steps} that are steps within their own crate, what is not public, and the proofs of functions (`proofs/FUNCTION/`).

After a name stands the comment above it, or else its statement in code. A statement is without plain variables and the parameters of its module; of more than some {cut} characters its end is shown.
"For any tree" and "for any medium" mean what they say: such a law is proved once, and a packet and a sheet are two cases of it.
"""
DEFINITIONS = """## Where the definitions stand

What a contract or a promise cites is in one of these files. A reader of the promises needs those of the first table alone, in the order of `docs/ARCHITECTURE.md`.
"""
INTERNAL = """### What no promise names

What only the code below a promise needs stands in `specs/internal/` of its crate.
"""


def cut(text, most):
    """The text, cut after a word where it has more than so many characters."""
    return text if len(text) <= most else text[:most].rsplit(" ", 1)[0].rstrip(" →") + " …"


def cited():
    """Who cites a name of a crate's proofs, by the crate, the file's path in its proofs, and the name: the crates whose files import it."""
    names = collections.defaultdict(set)
    for crate in CRATES:
        for path in sources(crate, "specs", ".antt") + sources(crate, "proofs", ".antt") + sources(crate, "src", ".rt"):
            text = path.read_text()
            for other, module, listed, alias in re.findall(r"^(?:ghost )?use Rattle\.(\w+)\.proofs\.([\w.]+?)(?:\.\{([^}]*)\}| as ([\w'-]+));?$", text, re.M):
                for name in listed.split(",") if listed else re.findall(r"(?<![\w.'-])%s\.([\w'-]+)" % re.escape(alias), text):
                    names[other, module.replace(".", "/"), name.split(" as ")[0].strip()].add(crate)
            # an attribute of a function names lemmas by their paths
            for other, module, name in re.findall(r"\b(\w+)::proofs::([\w:]+)::([\w'-]+)", text):
                names[crate if other == "crate" else other, module.replace("::", "/"), name].add(crate)
    return names


def used_in(path, name):
    """Whether a file uses a name that it declares: the name stands elsewhere than in front of its declaration and its clauses."""
    text = re.sub(r"--.*|\bpub |\b(?:record|data) ", "", path.read_text())
    found = re.findall(r"^( *)(.*?)(?<![\w'.-])%s(?![\w'-])" % re.escape(name), text, re.M)
    return any(before or space != found[0][0] for space, before in found)


def sections(page):
    """The sections of a page: each heading, and the text up to the next one."""
    parts = re.split(r"^#+ (.*)$", page, flags=re.M)
    return list(zip(parts[1::2], parts[2::2]))


def promised():
    """The names that the promises' page has under the heading of a file: the file's path, the name."""
    for heading, body in sections(PROMISES.read_text()):
        for file in re.findall(r"`(crates/[^`]+)`", heading):
            yield from ((file, name) for name in re.findall(r"`([^`\s/]+)`", body) if declares(ROOT / file, name))


def arrows(text):
    """The parts of a statement between its arrows, those inside brackets left whole."""
    parts, depth = [""], 0
    for character in text:
        depth += (character in "({") - (character in ")}")
        if character == "→" and depth == 0:
            parts.append("")
        else:
            parts[-1] += character
    return [part.strip() for part in parts]


def unbound(part):
    """A part of a statement without the plain variables in front: a type that names no variable is no hypothesis."""
    while group := re.match(r"[({][\w' ]+ : ((?:[^(){}]|\([^(){}]*\))*)[)}]\s*", part):
        if re.search(r"\b[a-z]\w*", group.group(1)):
            break
        part = part[group.end():]
    return part


def statement(text):
    """A statement without its plain variables; where it is long, its last parts, which have what is concluded."""
    parts = [part for part in map(unbound, arrows(text)) if part]
    front = len(parts) - 1
    while front > 0 and len(" → ".join(parts[front - 1:])) <= STATEMENT:
        front -= 1
    return "… → " * (front > 0) + cut(" → ".join(parts[front:]), STATEMENT)


def named_by_promises(path):
    """Whether a promise can name what a file of definitions defines."""
    return "internal" not in path.parts


def laws_of(crate, citations, promises, counts):
    """The laws of a crate: a line for each file, and below it a line for each law."""
    defining = any(map(named_by_promises, modules(crate, "specs")))
    for path in modules(crate, "proofs"):
        file, found = path.relative_to(ROOT / "crates" / crate / "proofs"), list(laws(path))
        if not found:
            continue
        yield f"\n**`proofs/{file}`** {first_sentence(path)}\n"
        for name, said, comment in found:
            by = citations[crate, str(file.with_suffix("")), name]
            counts["all"] += 1
            if (str(path.relative_to(ROOT)), name) in promises:
                counts["promised"] += 1
            elif by - {crate} or defining and said and comment or not by and not used_in(path, name):
                counts["listed"] += 1
                yield f"- `{name}`: {comment}" if comment else f"- `{name}`: `{statement(said)}`" if said else f"- `{name}`, a record"
            else:
                counts["steps"] += 1


def definitions():
    """The files of definitions, each with its first sentence: those that a promise can name, and those of specs/internal."""
    files = [path for crate in CRATES for path in modules(crate, "specs")]
    for title, internal in ((DEFINITIONS, False), (INTERNAL, True)):
        yield title
        yield "| Crate | File | What it says |\n|---|---|---|"
        for path in files:
            crate, *rest = path.relative_to(ROOT / "crates").parts
            if named_by_promises(path) != internal:
                yield f"| `{crate}` | `{'/'.join(rest)}` | {first_sentence(path)} |"
        yield ""


def laws_page():
    """The text of docs/LAWS.md."""
    citations, promises, counts = cited(), set(promised()), collections.Counter(all=0, listed=0, promised=0, steps=0)
    lines = ["## The laws beneath"]
    for crate in CRATES:
        found = list(laws_of(crate, citations, promises, counts))
        lines += [f"\n### {crate}", *found] if found else []
    text = INTRODUCTION.format(cut=STATEMENT, **counts) + "\n" + "\n".join(lines) + "\n\n" + "\n".join(definitions())
    return text.replace("\n\n\n", "\n\n").rstrip() + "\n"


def change(old, new):
    """What an edit changes, old → new: where a side is long, the words that differ with one of those on each side."""
    words, others = old.split(), new.split()
    if max(len(old.strip()), len(new.strip())) > SIDE:
        least = min(len(words), len(others))
        front = next((i for i in range(least) if words[i] != others[i]), least)
        back = next((i for i in range(least - front) if words[-1 - i] != others[-1 - i]), least - front)
        front, back = max(front - 1, 0), max(back - 1, 0)
        words, others = (["…"] * (front > 0) + side[front:len(side) - back] + ["…"] * (back > 0) for side in (words, others))
    sides = [cut(" ".join(side), 2 * SIDE) for side in (words, others)]
    return " → ".join(f"`{side}`" if side else "nothing" for side in sides)


def edit_line(crate, label):
    """An edit in a line: its label, what is wrong, the file and the function or definition, the change."""
    made = []
    for file, old, new in replacements(label):
        # a replacement of what an earlier one put is one with it
        earlier = next((i for i, (f, _, put) in enumerate(made) if (f, put) == (file, old)), None)
        if earlier is None:
            made.append((file, old, new))
        else:
            made[earlier] = (file, made[earlier][1], new)
    says = label.read_text().split("\nfile: ")[0].replace("\n", " ").strip()
    places = list(dict.fromkeys((file, owner(ROOT / "crates" / crate / file, old)) for file, old, _ in made))
    where = "; ".join(f"`{file}`" + (f", `{name}`" if name else "") for file, name in places)
    return f"- `{label.stem}`: {says} {where}: " + "; ".join(change(old, new) for _, old, new in made)


def contracts_page(page):
    """The text of docs/CONTRACTS.md, with the edits of each crate between its marks."""
    return MARKED.sub(lambda m: m.group(1) + "".join(edit_line(m.group(2), label) + "\n" for label in edits(m.group(2))) + m.group(3), page)


def unmarked(page):
    """The crates that have edits and no marks for them on the page, and those that have two."""
    marks = [name for _, name, _ in MARKED.findall(page)]
    return [crate for crate in CRATES if edits(crate) and marks.count(crate) != 1]


def pages():
    """Each page that is written from the sources: its file, and the text that it should have."""
    yield LAWS, laws_page()
    yield CONTRACTS, contracts_page(CONTRACTS.read_text())


def main():
    for path, text in pages():
        path.write_text(text)
    missing = unmarked(CONTRACTS.read_text())
    if missing:
        print("docs/CONTRACTS.md has not one mark '<!-- edits: NAME -->' for", ", ".join(missing))
    return 1 if missing else 0


if __name__ == "__main__":
    sys.exit(main())
