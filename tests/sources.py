"""What the tests and the pages read of the sources: crates, functions, declarations, quotations, must-fail edits."""
import itertools
import pathlib
import re

ROOT = pathlib.Path(__file__).resolve().parent.parent
# a line of crates.txt has a crate's name, 'staticlib' after it where it is an archive, and behind the colon the crates that it names
CRATES = [line.split()[0].rstrip(":") for line in (ROOT / "crates.txt").read_text().splitlines() if ":" in line.split("#")[0]]
FUNCTION = re.compile(r'^(\s*)(pub )?(?:final )?(extern "C" )?fn (\w+)')
# the files in which the proof of a function stands, in the order in which they are read
OF_FUNCTION = ("Invariants.antt", "Answers.antt", "Proof.antt")
# what a line of definitions or proofs has after "--", outside strings and without the marks of a heading
COMMENT = re.compile(r'(?:[^"-]|"[^"]*"|-(?!-))*--[-= ]*(.*)')
# a quotation mark with which a quotation begins, also inside another one
OPENING = re.compile(r'(?<![^\s("])"(?=["\w(.-])')


def sources(crate, folder, suffix):
    """The files of a crate's folder, in the order of their paths."""
    return sorted((ROOT / "crates" / crate / folder).glob("**/*" + suffix))


def of_function(path):
    """Whether a file is of a function's proof, which has a folder of its own, and no module of lemmas."""
    return path.name in OF_FUNCTION and path.parent.name != "proofs"


def modules(crate, folder):
    """The files of a crate's folder that declare or prove something: neither lists of modules nor proofs of functions."""
    return [path for path in sources(crate, folder, ".antt") if path.stem[0].isupper() and path.name != "Lib.antt" and not of_function(path)]


def indent(line):
    return len(line) - len(line.lstrip())


def functions(path):
    """Each function of a source file: its first line's number, whether it is public, its name (a method's after its type), its head up to the body."""
    lines, owner = path.read_text().splitlines(), ""
    for i, line in enumerate(lines):
        block = re.match(r"^impl(?:<[^>]*>)? (?:.* for )?(\w+)", line)
        if block or line == "}":
            owner = block.group(1) + "::" if block else ""
        m = FUNCTION.match(line)
        if not m:
            continue
        head = []
        for j in range(i, len(lines)):
            head.append(lines[j])
            if lines[j].endswith("{") and indent(lines[j]) == len(m.group(1)):
                break
        yield i + 1, bool(m.group(2)), (owner if m.group(1) else "") + m.group(4), "\n".join(head)


def by_traits(path):
    """Each public function by a trait, that is of a public trait and of a type's impl of one: its first line's number, its name after the trait's or
    the type's, its head up to the body or the semicolon, and what stands in the block before it. The traits of a file that are private are left out."""
    lines = path.read_text().splitlines()
    private = re.findall(r"^trait (\w+)", path.read_text(), re.M)
    owner, began = "", 0
    for i, line in enumerate(lines):
        block = re.match(r"^(?:pub trait (\w+)|impl(?:<[^>]*>)? (\w+)(?:<.*>)? for (\w+))", line)
        if block or line == "}":
            is_public = block and block.group(2) not in private
            owner, began = (block.group(1) or block.group(3)) if is_public else "", i
        m = FUNCTION.match(line)
        if m and owner:
            end = next(j for j in range(i, len(lines)) if lines[j].endswith(";") or lines[j].endswith("{") and indent(lines[j]) == indent(line))
            yield i + 1, f"{owner}::{m.group(4)}", "\n".join(lines[i:end + 1]), "\n".join(lines[began:i])


def public_functions(crate):
    """The public functions of a crate, by their paths in it: `write::put` of `src/write.rt`, `Lows::with` of a type of `src/lib.rt`."""
    for path in sources(crate, "src", ".rt"):
        parts = path.relative_to(ROOT / "crates" / crate / "src").with_suffix("").parts
        module = "" if parts in (("lib",), ("main",)) else "::".join(parts) + "::"
        for _, public, name, _ in functions(path):
            if public:
                yield module + name
        for _, name, _, _ in by_traits(path):
            yield module + name


def first_sentence(path):
    """The sentence with which a file starts."""
    said = []
    for line in path.read_text().splitlines():
        if not re.match(r"(--|//) ", line):
            break
        said.append(line[3:].strip())
    return re.match(r'.*?[.!?]"?(?=\s+[A-Z"`]|$)|.*', " ".join(said)).group(0)


def quotations(text):
    """Each quotation of a text, after the place where it starts. It may have quotation marks inside; one without its last mark ends with the text."""
    start = depth = 0
    for mark in re.finditer('"', text):
        opens = OPENING.match(text, mark.start())
        start = mark.end() if opens and not depth else start
        depth += 1 if opens else -1
        if depth <= 0:
            yield start, text[start:mark.start()]
            depth = 0
    if depth:
        yield start, text[start:]


def quoted(path):
    """Each quotation in a comment of a file of definitions or proofs, after the number of the line where it starts. It may go on in the comment's next line."""
    lines = enumerate(map(COMMENT.match, path.read_text().splitlines()), 1)
    for comment, block in itertools.groupby(lines, lambda line: line[1] is not None):
        if comment:
            block = list(block)
            text = "\n".join(line.group(1) for _, line in block)
            yield from ((block[0][0] + text.count("\n", 0, start), quotation) for start, quotation in quotations(text))


def comment_above(lines, i):
    """The comment that stands right above a line, without headings of sections."""
    said = []
    while i > 0 and re.match(r"\s*-- (?!----|====)", lines[i - 1]):
        i -= 1
        said.insert(0, lines[i].strip()[3:])
    return " ".join(said)


def laws(path):
    """Each public theorem, record and type of a file of proofs: its name, its statement (none of a record or a type), the comment above it."""
    lines, block = path.read_text().splitlines(), None
    for i, line in enumerate(lines):
        if not line.strip() or line.lstrip().startswith("--"):
            continue
        if block is not None and indent(line) <= block:
            block = None
        if block is not None:
            continue
        m = re.match(r"\s*(pub )?(?:record|data) (\S+)", line)
        if m:
            block = indent(line)
            if m.group(1):
                yield m.group(2), "", comment_above(lines, i)
            continue
        m = re.match(r"\s*pub (\S+) : (.*)", line)
        if m:
            said = [m.group(2)]
            for more in lines[i + 1:]:
                if not more.strip() or indent(more) <= indent(line):
                    break
                said.append(more.strip())
            yield m.group(1), " ".join(said), comment_above(lines, i)


def declares(path, name):
    """Whether a file declares a name: a theorem, a definition, a record, a type, or a function of the code."""
    if path.suffix == ".rt":
        return any(name == declared for _, _, declared, _ in functions(path))
    return re.search(r"^\s*((abbrev|unfoldable) )?(pub )?(record |data )?%s( |$)" % re.escape(name), path.read_text(), re.M) is not None


def edits(crate):
    """The must-fail edits of a crate."""
    return sorted((ROOT / "crates" / crate / "must-fail").glob("*.edit"))


def replacements(label):
    """Each replacement of a must-fail edit as rt reads it: the file, the old text, the new one."""
    file = old = ""
    for line in label.read_text().split("\n"):
        if line.startswith("file: "):
            file = line.removeprefix("file: ")
        elif line.startswith("old: "):
            old = line.removeprefix("old: ")
        elif line.startswith("new:"):
            yield file, old, line.removeprefix("new:").removeprefix(" ")
            old = ""


def owner(path, old):
    """What an old text of an edit stands in: a function, a constant, a definition or a record, by its name."""
    text = path.read_text()
    lines = text.splitlines()
    i = text[:text.index(old)].count("\n") if old in text else None
    if i is None:
        return ""
    return (owner_in_code if path.suffix == ".rt" else owner_in_definitions)(lines, i)


def owner_in_code(lines, i):
    named = re.compile(r'\s*(?:pub(?:\(\w+\))? )?(?:final )?(?:extern "C" )?(?:fn|const|trait|impl(?:<[^>]*>)?(?: .* for)?) (\w+)')
    names, depth = [], indent(lines[i]) + 1
    for line in reversed(lines[:i + 1]):
        m = named.match(line)
        if m and indent(line) < depth:
            names.insert(0, m.group(1))
            depth = indent(line)
    return "::".join(names)


def owner_in_definitions(lines, i):
    def name(line):
        return re.match(r"\s*(?:(?:abbrev|unfoldable) )?(?:pub )?(?:record |data )?(\S+)", line).group(1)

    depth = indent(lines[i])
    for line in reversed(lines[:i]):
        if line.strip() and not line.lstrip().startswith("--") and indent(line) < depth:
            return name(lines[i]) if line.lstrip().startswith("module ") else name(line)
    return name(lines[i])
