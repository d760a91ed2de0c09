#!/usr/bin/env python3
"""Counts the places in crates/*/src that today's Rattle writes in another form, by the points of docs/DESIGN-PASS.md.

    python3 tests/forms.py [COMMIT] [--list POINT]

With a commit it reads that commit's sources, else the files as they stand; --list prints each place of a point.
"""
import collections
import pathlib
import re
import subprocess
import sys

TOP = pathlib.Path(__file__).resolve().parent.parent
SOURCE = re.compile(r"crates/[^/]+/src/.*\.rt$")


def sources(commit):
    """Returns the text of each source file, by its path."""
    def git(*words):
        return subprocess.run(["git", "-C", str(TOP), *words], check=True, capture_output=True, text=True).stdout

    if commit:
        return {f: git("show", f"{commit}:{f}") for f in git("ls-tree", "-r", "--name-only", commit).split() if SOURCE.match(f)}
    return {str(p.relative_to(TOP)): p.read_text() for p in sorted(TOP.glob("crates/*/src/**/*.rt"))}


def lines(texts, pattern):
    """Returns FILE:LINE: TEXT of each line that the pattern finds."""
    found = re.compile(pattern)
    return [f"{f}:{i}: {l.strip()}" for f, t in texts.items() for i, l in enumerate(t.split("\n"), 1) if found.search(l)]


def enums(texts):
    """Returns each enum of two variants, one of which says that there is no value, or that there is nothing to say."""
    none = re.compile(r"^\s*(Refused|Bad|NoShelf|Accepted)\b", re.M)
    variant = re.compile(r"^    [A-Z]\w*", re.M)
    return [f"{f}: {m.group(1)}" for f, t in texts.items() for m in re.finditer(r"\benum (\w+) \{(.*?)\n\}", t, re.S)
            if none.search(m.group(2)) and len(variant.findall(m.group(2))) == 2]


def functions(text):
    """Returns (name, comment, head, body) of each function: `head` is its signature and clauses."""
    out = []
    for m in re.finditer(r"((?:^ *//[^\n]*\n)*)^( *)(?:#\[[^\n]*\]\n *)*(?:pub(?:\(\w+\))? )?(?:extern \"C\" )?fn (\w+)(.*?)\n\2\{\n(.*?)\n\2\}", text, re.S | re.M):
        out.append((m.group(3), m.group(1), m.group(4), m.group(5)))
    return out


def zero_for_none(texts):
    """Returns each function that answers 0, or another number, where it has no answer, as its comment says."""
    says = re.compile(r"(\bor 0\b|\b0 (if|where|for)\b|`FAULT` plus|[Rr]eturned where a number has no value)")
    keep = re.compile(r"amperes \+ 1|0 for no limit|Q_TC_Range has no")
    return [f"{f}: {n}" for f, t in texts.items() for n, c, h, b in functions(t) if says.search(c) and not keep.search(c)] \
        + lines(texts, r"^pub const NO_(SPEED|CLASS|VOLTAGE|CURRENT): u32|^pub const NONE: u32")


def twins(texts):
    """Returns the functions whose bodies, of 12 tokens or more, are the same when names and numbers are left out."""
    shapes = collections.defaultdict(list)
    for f, t in texts.items():
        for n, c, h, b in functions(t):
            tokens = re.findall(r"\w+|[^\w\s]", re.sub(r"//[^\n]*", "", b))
            shape = " ".join("x" if re.match(r"\w", w) and w not in KEYWORDS else w for w in tokens)
            if len(tokens) >= 12:
                shapes[shape].append(f"{f}: {n}")
    return [p for places in shapes.values() if len(places) > 1 for p in places]


KEYWORDS = {"let", "mut", "while", "for", "in", "if", "else", "match", "return", "as", "self", "Self", "true", "false"}


def hand_loops(texts):
    """Returns each `while` that counts: down to 0, or an index up to an end."""
    return lines(texts, r"^\s*while (0 < \w+|\w+ <=? [\w.:()]+) \{")


def by_hand(texts):
    """Returns each function or expression that compares, orders, copies or converts by hand."""
    names = r"(same|lower|nearer|sooner|chosen|wide|wider|power|low|magnitude|put_word|put_decimal|put_signed|put_digit|put_labelled|move_down|move_up|number_of|tree_of|read_full|refused|done|answer|store_two|store_four|store_eight|byte|two|four|eight)"
    return lines(texts, rf"^\s*(pub(\(\w+\))? )?fn {names}(<[^>]*>)?\(") + lines(texts, r"^pub fn number\(tree")


def facts(texts):
    """Returns each fact that stands in the `requires` of three or more functions, and each group of four or more parameters that three or more take."""
    counts = collections.Counter()
    for f, t in texts.items():
        for n, c, h, b in functions(t):
            for fact in set(re.findall(r"\b([A-Z]\w+) ", " ".join(re.findall(r"requires \{(.*)\}", h)))):
                counts[f"{f.split('/')[1]}: fact {fact}"] += 1
            names = re.findall(r"(\w+): ", h.split("requires")[0].split("ensures")[0])
            for i in range(len(names) - 3):
                counts[f"{f.split('/')[1]}: parameters {' '.join(names[i:i + 4])}"] += 1
    return [f"{p} ({k} functions)" for p, k in sorted(counts.items()) if k >= 3]


def buffers(texts):
    """Returns each pair of arrays or slices that go together, and each array with a count beside it."""
    return lines(texts, r"widths: &\[u32\], most: &\[u32\]|^\s+(starts|stops|speeds): (&'a )?\[u\d+; MOST\]|values: &(mut )?\[u32(; NUMBERS)?\]|fn \w+_(widths|most)\(")


def switches(texts):
    """Returns each test of a medium that chooses the function to call."""
    return lines(texts, r"if medium == (run::)?PACKET|match (self\.)?medium \{|^match self \{|^\s+match self \{")


POINTS = {
    "1a": ("own enums of the shape of Option or Result", enums),
    "1b": ("arms that only hand a refusal on", lambda t: lines(t, r"Refused\((r|_), ?(place|_)\) =>")),
    "1c": ("refusals as numbers", lambda t: [l for l in lines(t, r"^pub const [A-Z_]+: u32 = \d+;") if "/refusals.rt" in l]),
    "1d": ("kinds as numbers: medium, phase, type, range", lambda t: lines(t, r"\bmedium: u32|^const (PASSED|JUDGED|SPEED|STARTS|ENDS|BOTH|REPLACING|LOWERING|NOMINAL): u32")),
    "1e": ("a number that stands for no answer", zero_for_none),
    "1f": ("a flag with values beside it", lambda t: lines(t, r"^pub struct Found \{")),
    "2a": ("types of a field kind with an impl of their own", lambda t: [l for l in lines(t, r"^impl \w+ \{") if "/kinds/" in l]),
    "2b": ("functions of one shape", twins),
    "3": ("loops that count by hand", hand_loops),
    "4": ("functions that compare, order, convert or print by hand", by_hand),
    "5": ("facts and parameters that three or more functions share", facts),
    "6": ("arrays that go together, or have a count beside them", buffers),
    "7": ("switches on which function to call", switches),
}


def main():
    words = sys.argv[1:]
    listed = words[words.index("--list") + 1] if "--list" in words else None
    commit = words[0] if words and not words[0].startswith("--") else None
    texts = sources(commit)
    for point, (title, find) in POINTS.items():
        places = find(texts)
        if listed is None:
            print(f"{point:3} {len(places):4}  {title}")
        elif listed == point:
            print("\n".join(places))


if __name__ == "__main__":
    main()
