#!/usr/bin/env python3
"""The tests beside the proofs: what rt does not look at. 'sources' runs those that read the sources alone, 'logs' those that read what rt said:
what the gate kept of rt ci in target/ci.log, and what tests/proved kept of each program and archive in target/log. No word runs all of them."""
import functools
import re
import sys

import documents
import pages
from sources import CRATES, OF_FUNCTION, ROOT, by_traits, declares, edits, functions, modules, of_function, public_functions, quoted, replacements, sources

SECONDS = 120
SENTENCE = 300
# the functions of the C library and of the kit's own C code on which each program's proof rests, and the archives', which rest on none: those that
# std's read, write and arguments reach, and its files
ASSUMED = {
    "seglink": "",
    "fleet_c": "",
    "listing": """
        libc::chdir libc::getcwd libc::lseek libc::read libc::write
        os::c::__xpg_strerror_r os::c::rattle_arg os::c::rattle_env os::c::rattle_env_at os::c::rattle_errno os::c::rattle_set_errno""",
    "wall_screen": """
        libc::chmod libc::chown libc::close libc::fchmod libc::fdatasync libc::flock libc::fsync libc::ftruncate libc::futimens libc::lchown libc::link
        libc::lseek libc::mkdir libc::net::bind libc::pipe2 libc::read libc::readlink libc::realpath libc::rename libc::rmdir libc::statx libc::symlink
        libc::unlink libc::write
        os::c::__xpg_strerror_r os::c::fcntl os::c::getdents64 os::c::open os::c::rattle_errno os::c::rattle_open_dir_at os::c::rattle_set_errno
        os::c::unlinkat""",
}
# what an error says that is of the edit's shape, or of another declaration, and not of a fact
SHAPES = ("can be named from here", "has no field", "was not admitted", "is not in scope")
# what rt ci says of a crate that it proved, of its proof and of an edit
PROVED = re.compile(r"^rt: (\w+) (proved|is kept: an earlier run on this machine proved the same files over the same libraries)$", re.M)
SECTION = re.compile(r"^== (\w+)\n(.*?)^rt: \1 proved$", re.M | re.S)
REFUSED = re.compile(r"^rt: must-fail (\w+)/(\w+)\.edit: refused, as it must be: (.*)$", re.M)


@functools.lru_cache(maxsize=None)
def said_by_ci():
    """What the last rt ci of the gate said."""
    log = ROOT / "target" / "ci.log"
    if not log.is_file():
        raise NotRun("there is no target/ci.log: .ci/run writes it")
    return log.read_text(errors="replace")


class NotRun(Exception):
    """Why a test cannot be run here. It counts neither as passed nor as failed."""


def contracts():
    """Every public function says what it returns, and no public operation asks for anything beforehand."""
    for crate in CRATES:
        for path in sources(crate, "src", ".rt"):
            for line, public, name, head in functions(path):
                if public and "ensures" not in head:
                    yield f"{path.relative_to(ROOT)}:{line}: {name} has no ensures"
                if public and 'extern "C"' in head and "requires" in head:
                    yield f"{path.relative_to(ROOT)}:{line}: {name} has a requires"
            for line, name, head, before in by_traits(path):
                # a trait's function has its clause there, and of std's traits the type says what it gives
                if "ensures" not in head and "for " not in before.splitlines()[0] or re.match(r"impl.*\b(Try)?From<", before) and "_gives = " not in before:
                    yield f"{path.relative_to(ROOT)}:{line}: {name} has no ensures"


def headed():
    """Every file starts with a sentence that says what it is; of the files in which a function's proof stands, the first does."""
    for crate in CRATES:
        for folder, suffix, mark in (("src", ".rt", "// "), ("specs", ".antt", "-- "), ("proofs", ".antt", "-- ")):
            for path in sources(crate, folder, suffix):
                before = OF_FUNCTION[:OF_FUNCTION.index(path.name)] if of_function(path) else ()
                if path.name != "Lib.antt" and not any((path.parent / name).is_file() for name in before) and not path.read_text().startswith(mark):
                    yield f"{path.relative_to(ROOT)} does not start with a sentence"


def commented():
    """Every function whose body has more than one line has a comment above it."""
    for crate in CRATES:
        for path in sources(crate, "src", ".rt"):
            lines = path.read_text().splitlines()
            for line, _, name, head in functions(path):
                first, indent = line + head.count("\n"), re.match(" *", lines[line - 1]).group()
                # an attribute may have lines of its own
                before = re.sub(r"(^ *#\[[^\n]*(?:\n(?: {4,}[^\n/#]| *[)\]])[^\n]*)*?\]\n)+\Z", "", "".join(each + "\n" for each in lines[: line - 1]), flags=re.M)
                above = before.splitlines()[-1]
                if lines.index(indent + "}", first) - first > 1 and not above.strip().startswith("//"):
                    yield f"{path.relative_to(ROOT)}:{line}: {name} has no comment"


def plain():
    """No comment begins with "The same" or contains "Assumes nothing"."""
    for crate in CRATES:
        for path in sources(crate, "src", ".rt") + sources(crate, "specs", ".antt") + sources(crate, "proofs", ".antt"):
            for number, line in enumerate(path.read_text().splitlines(), 1):
                if re.match(r"\s*(//|--)[ -]*(the same\b|.*assumes nothing)", line, re.I):
                    yield f"{path.relative_to(ROOT)}:{number}: {line.strip()}"


def quotations():
    """Every quotation in a comment of the definitions stands word for word in document 01, in document 02, on the interface page or in a demand of the promises' page."""
    if not documents.FOLDER.is_dir():
        raise NotRun("../shared/documents is not there")
    texts = list(documents.quotable())
    for crate in CRATES:
        for path in sources(crate, "specs", ".antt"):
            for line, quotation in quoted(path):
                if not documents.stands(quotation, texts):
                    yield f"{path.relative_to(ROOT)}:{line}: {' '.join(quotation.split())}"


def no_axioms():
    """No axiom stands in the repository, and no archive's proof rests on one; a program's rests on what std reads, writes and opens by, and on no other.
    What rt ci says of each crate that it proved is that it is proved."""
    for crate in CRATES:
        for path in sources(crate, "specs", ".antt") + sources(crate, "proofs", ".antt"):
            if re.search(r"^\s*axiom |Prim\.Axiom", path.read_text(), re.M):
                yield f"{path.relative_to(ROOT)} names an axiom"
    proved, sections = dict(PROVED.findall(said_by_ci())), dict(SECTION.findall(said_by_ci()))
    for crate in CRATES:
        verdict = [line for line in sections.get(crate, "").splitlines() if line.startswith("logic=")]
        program = (ROOT / "crates" / crate / "src" / "main.rt").exists()
        if crate not in proved:
            yield f"{crate}: rt ci has not proved it"
        elif crate in sections and (len(verdict) != 1 or not verdict[0].startswith("logic=proved ") or ("axioms=" in verdict[0]) != program):
            yield f"{crate}: its verdict is {verdict}"
    for crate, wanted in ASSUMED.items():
        log = ROOT / "target" / "log" / f"{crate}.out"
        said = log.read_text(errors="replace") if log.is_file() else ""
        verdict = "".join([line for line in said.splitlines() if line.startswith("logic=")][-1:])
        reached = re.findall(r"^  (\S+) +reached$", said, re.M)
        counted = int((re.findall(r" axioms=(\d+) ", verdict) or [0])[0])
        if not verdict.startswith("logic=proved ") or sorted(reached) != sorted(wanted.split()) or counted != len(reached):
            yield f"{crate}: its verdict is '{verdict}', and its proof rests on {' '.join(reached) or 'no function of C'}"


def quick():
    """Every crate that rt ci proved in this run is checked in less than two minutes, however busy the machine is."""
    kept = ROOT / "target" / "ci.times"
    if not kept.is_file():
        raise NotRun("there is no target/ci.times: .ci/run writes it")
    took = dict(line.split() for line in kept.read_text().splitlines())
    for crate in SECTION.findall(said_by_ci()):
        if crate[0] not in took:
            yield f"{crate[0]}: no time"
        elif int(took[crate[0]]) >= SECONDS:
            yield f"{crate[0]}: {took[crate[0]]} s"


def refused():
    """A crate with public functions has must-fail edits, and each is refused because a fact fails, and not for its shape."""
    why = {(crate, label): reason for crate, label, reason in REFUSED.findall(said_by_ci())}
    for crate in CRATES:
        labels = edits(crate)
        if list(public_functions(crate)) and len(labels) < 2:
            yield f"{crate} has public functions and {len(labels)} must-fail edits"
        for label in labels:
            reason = why.get((crate, label.stem))
            if reason is None or any(shape in reason for shape in SHAPES):
                said = re.findall(rf"^rt: must-fail {crate}/{label.stem}\.edit: (.*)$", said_by_ci(), re.M)
                yield f"{crate}/{label.stem}: {said[0][:200] if said else 'not tried'}"


def none_bad():
    """Every must-fail edit can be applied, compiled and read: rt ci counts no bad one, and as many refused as there are."""
    counted = re.findall(r"^rt: ok; .*?; must-fail edits: (\d+) refused(.*?);", said_by_ci(), re.M)
    if counted != [(str(sum(len(edits(crate)) for crate in CRATES)), "")]:
        yield f"rt ci counts {counted} of {sum(len(edits(crate)) for crate in CRATES)}"


def appliable():
    """Every must-fail edit names files of its crate, its old texts stand there exactly once, and the new ones are others."""
    for label in sorted((ROOT / "crates").glob("*/must-fail/*.edit")):
        name, made, texts = label.relative_to(ROOT), list(replacements(label)), {}
        if not made:
            yield f"{name} replaces nothing"
        for file, old, new in made:
            path = label.parent.parent / file
            if file.split("/")[0] not in ("src", "specs", "proofs") or not path.is_file():
                yield f"{name}: the crate has no file {file}"
                continue
            # a replacement is made in what those before it left
            text = texts.get(file, path.read_text())
            if text.count(old) != 1 or old == new:
                yield f"{name}: '{old}' stands {text.count(old)} times in {file}, to be '{new}'"
            texts[file] = text.replace(old, new)


def cited():
    """Every theorem that the documents cite as `name` in a file of theirs stands there."""
    for page in sorted((ROOT / "docs").glob("**/*.md")):
        for name, file in re.findall(r"`([^`\s]+)` \(`(crates/[^`]+\.antt)`\)", page.read_text()):
            if not (ROOT / file).exists() or not declares(ROOT / file, name):
                yield f"{page.relative_to(ROOT)}: {name} is not in {file}"


def up_to_date():
    """The laws' page and the lists of edits on the contracts' page are what tests/pages.py writes."""
    for path, text in pages.pages():
        if not path.exists() or path.read_text() != text:
            yield f"{path.relative_to(ROOT)} is not up to date: run python3 tests/pages.py"
    for crate in pages.unmarked(pages.CONTRACTS.read_text()):
        yield f"docs/CONTRACTS.md has not one list of the edits of {crate}"


def stands_for(name, function):
    """Whether a name in the contracts' tables is a function's, or has T for the function's type."""
    return re.fullmatch(re.sub(r"\bT::", r"\\w+::", name), function) is not None


def contracted():
    """The tables of the contracts' page have every public function under its crate, and no other; an edit that its text names is one of a crate's."""
    page = pages.MARKED.sub("", pages.CONTRACTS.read_text())
    tables = {heading: re.findall(r"^\| (`.*?) \|", body, re.M) for heading, body in pages.sections(page)}
    for crate in CRATES:
        names = re.findall(r"`([^`]+)`", " ".join(tables.get(crate, ())))
        public = list(public_functions(crate))
        for function in public:
            if not any(stands_for(name, function) for name in names):
                yield f"docs/CONTRACTS.md does not have {crate}::{function}"
        for name in names:
            if not any(stands_for(name, function) for function in public):
                yield f"docs/CONTRACTS.md has {name} under {crate}, which is no public function of it"
    labels = {path.stem for crate in CRATES for path in edits(crate)}
    for row in re.findall(r"^\|.*\|(.*)\|$", dict(pages.sections(page))["Crossed wires and false converters"], re.M):
        for label in re.findall(r"`(\w+)`", row):
            if label not in labels:
                yield f"docs/CONTRACTS.md names the edit {label}, which no crate tries"


def short_sentences():
    """Every sentence of the promises' page is under 300 characters."""
    text = re.sub(r"^(#+|>|-|\d+\.) |\|", "\n\n", pages.PROMISES.read_text(), flags=re.M)
    for paragraph in re.split(r"\n\s*\n", text):
        for sentence in re.split(r"(?<=[.!?])[\"*)]*\s+", " ".join(paragraph.split())):
            if len(sentence) >= SENTENCE:
                yield f"docs/PROMISES.md: {len(sentence)} characters: {sentence[:80]} .."


def promised_files():
    """Each file is named once on the promises' page and exists, a file of proofs or of code in a heading."""
    page = pages.PROMISES.read_text()
    files = re.findall(r"`(\w[\w.-]*/[^`\s]*)`", page)
    headings = " ".join(heading for heading, _ in pages.sections(page))
    for file in dict.fromkeys(files):
        if not (ROOT / file).is_file():
            yield f"docs/PROMISES.md names {file}, which is not there"
        if files.count(file) != 1:
            yield f"docs/PROMISES.md names {file} {files.count(file)} times"
        if re.search("/(proofs|src)/", file) and f"`{file}`" not in headings:
            yield f"docs/PROMISES.md names {file}, and not in a heading"


def promised_names():
    """Every name on the promises' page is declared in the file of its heading, or is a word of the page that is declared in the file of its row."""
    page, words, said = pages.PROMISES.read_text(), set(), []
    for heading, body in pages.sections(page):
        for file, row in re.findall(r"^\| `(crates/[^`]+)` \|(.*)\|$", body, re.M):
            for name in re.findall(r"`([^`]+)`", row):
                words.add(name)
                if not (ROOT / file).is_file() or not declares(ROOT / file, name):
                    yield f"docs/PROMISES.md: {name} is not in {file}"
        said.append((re.findall(r"`(crates/[^`]+)`", heading), [name for name in re.findall(r"`([^`]+)`", re.sub(r"^\| `crates/.*$", "", body, flags=re.M)) if "/" not in name]))
    proved = {name for files, names in said if files for name in names}
    for files, names in said:
        for name in dict.fromkeys(names):
            if name not in words and not any((ROOT / file).is_file() and declares(ROOT / file, name) for file in files) and (files or name not in proved):
                yield f"docs/PROMISES.md: {name} is not in {files[0] if files else 'a file that a heading names'}"


def placed():
    """Every file of definitions that a promise can name has its row on the laws' page."""
    page = pages.LAWS.read_text()
    for crate in CRATES:
        for path in modules(crate, "specs"):
            file = path.relative_to(ROOT / "crates" / crate)
            if "internal" not in file.parts and f"| `{crate}` | `{file}` |" not in page:
                yield f"docs/LAWS.md does not place {path.relative_to(ROOT)}"


def used(name, text):
    """Whether a name that a file imports, an operator's by its signs, stands in its text."""
    name = name.split(" as ")[-1].strip()
    if "◌" not in name:
        return re.search(r"(?<![\w'-])%s(?![\w'-])" % re.escape(name), text)
    return all(sign in text for sign in name.split("◌"))


def imports():
    """No file imports a name that it does not use."""
    for crate in CRATES:
        for path in sources(crate, "src", ".rt") + sources(crate, "specs", ".antt") + sources(crate, "proofs", ".antt"):
            text = re.sub(r"(--|//).*", "", path.read_text())
            lines = re.findall(r"^((?:ghost )?use [^\n{;]*\.\{([^}]*)\};?)$", text, re.M)
            for line, names in lines:
                for name in names.split(","):
                    if not used(name.strip(), text.replace(line, "", 1)):
                        yield f"{path.relative_to(ROOT)} imports {name.strip()} and does not use it"


TESTS = {
    "sources": (contracts, headed, commented, plain, quotations, imports, appliable, up_to_date, contracted, cited, promised_files, promised_names, short_sentences, placed),
    "logs": (no_axioms, quick, refused, none_bad),
}


def main(words):
    passed = failed = 0
    for test in [test for word in words or TESTS for test in TESTS[word]]:
        try:
            faults = list(test())
        except NotRun as reason:
            print(f"not run, as {reason}: {test.__doc__.splitlines()[0]}")
            continue
        print(f"{'FAILED' if faults else 'ok'}: {test.__doc__.splitlines()[0]}")
        for fault in faults:
            print("   ", fault)
        passed, failed = passed + (not faults), failed + bool(faults)
    print(f"{passed} passed, {failed} failed")
    return 1 if failed else 0


if __name__ == "__main__":
    sys.exit(main(sys.argv[1:]))
