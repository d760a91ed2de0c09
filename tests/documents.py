"""What the tests read of the customer's documents: their paragraphs, and whether a quotation stands there word for word."""
import re

import pages
from sources import ROOT

FOLDER = ROOT.parent / "shared" / "documents"
NAMES = ("01-scope.md", "02-change-requests.md", "../design/INTERFACE.md")
# a number with its sign and its commas is one word, as is what hyphens, apostrophes and slashes join; every other sign is a word of its own
WORD = re.compile(r"-?\w+(?:[-'.,/]\w+)*|\S")


def words(text):
    """The words of a text with a space around each, without the marks of markdown for bold and for code."""
    return f" {' '.join(WORD.findall(re.sub(r'[*][*]|`', '', text)))} "


def paragraphs(page):
    """The words of each paragraph of a page. A heading, an item of a list and a row of a table are paragraphs too; in a row ": " stands between the cells."""
    for part in re.split(r"\n\s*\n|\n(?=(?:[-|]|#+|\d+\.) )", page):
        yield words(re.sub(r"\s*\|\s*", ": ", part.strip("|\n ")) if part.startswith("|") else re.sub(r"^(-|#+|\d+\.) ", "", part))


def quotable():
    """The words of each paragraph of documents 01 and 02 and of the interface page, and of each demand on the promises' page."""
    for name in NAMES:
        yield from paragraphs((FOLDER / name).read_text())
    for heading, body in pages.sections(pages.PROMISES.read_text()):
        if heading.startswith("Demand "):
            yield from (words(demand) for demand in re.findall(r"^> (.*)$", body, re.M))


def stands(quotation, texts):
    """Whether a quotation stands in one of the texts, each given by its words. Where it has "..", words are left out: the pieces stand in one text, in their order."""
    pieces = [re.escape(words(piece)) for piece in quotation.split("..") if piece.strip()]
    return bool(pieces) and any(re.search(".*".join(pieces), text) for text in texts)
