#!/usr/bin/env python3
"""Holds what stands in quotation marks in the comments of crates/ and in the rows of docs/RULES.md to its source, word for word.

    python3 tests/quotes.py [--list] [FOLDER]

FOLDER has 01-scope.md and 02-change-requests.md; without it, ../shared does. Where a document is not there, its quotes are skipped,
and the test says so.

Source: a quote is of the source that its comment or row names last before it: 'document 01' or 'document 02', the whole of it; 'K5',
that request of document 02; 'demand 3', as docs/PROMISES.md quotes it below its heading. Where none is named, it is of the one that
the file's first comment names in a sentence "Words in quotes are demand 3's.", or the heading above the row; else of document 01.
Word for word: the words stand so in one paragraph, item or cell of the source, or in a heading. '..' passes over words. The source's
own quotation marks, and its marks of bold and of readings ('*'), are left out.
Sentences: every row of docs/RULES.md begins with a quote, and together the rows have every word of both documents, but for headings and
the printed example: of document 01 those below no request's heading, of a request those below its own, 'When to wake us: K2', which
begins with its title. --list lists the sentences that the quotes in specs/ do not have whole: docs/RULES.md alone answers for them.
Ends with 'N passed, M failed'.
"""
import pathlib
import re
import sys

from kit import ROOT, Tally

RULES = ROOT / "docs" / "RULES.md"
DEMANDS = ROOT / "docs" / "PROMISES.md"
DOCUMENTS = {"document 01": "01-scope.md", "document 02": "02-change-requests.md"}
REQUESTS = 14
COMMENT = {".antt": re.compile(r"(?:^|.*?\s)--(?:\s+(.*)|$)"), ".rt": re.compile(r"(?:^|.*?\s)//[/!]?(?:\s+(.*)|$)")}
NAMED = re.compile(r"\b(?:(?i:demand [123]|document 0[12])|K[0-9]{1,2})\b")
OF_FILE = re.compile(rf"Words in quotes are ({NAMED.pattern})'s\.")
MARKS = re.compile(r'\*\*|(?:^|(?<=\s))\*\s|"')
BLOCK = re.compile(r"^```.*?^```$", re.M | re.S)
TITLES = re.compile(r"^\|.*\n\|[-:| ]+$", re.M)
OF_REQUEST = re.compile(r"#+ (.+): K[0-9]{1,2}$")
ITEM = re.compile(r"^(?:#+|-|[0-9]+\.)\s+")
SENTENCE = re.compile(r"[^.;]+(?:[.;](?!\s|$)[^.;]*)*[.;]?")


def plain(text):
    return " ".join(MARKS.sub("", text).split())


def read_document(path):
    """The paragraphs, items and cells of a document, each in a line of it, and its headings; None where it is not there."""
    if not path.is_file():
        return None
    said, titles = [], []
    for line in TITLES.sub("", BLOCK.sub("", path.read_text())).splitlines():
        if line.startswith("#"):
            titles.append(plain(ITEM.sub("", line)))
        elif line.startswith("|"):
            said += [plain(cell) for cell in line.split("|")]
        else:
            said.append(plain(ITEM.sub("", line)))
    return said, titles


def read_sources(folder):
    """What may be quoted, by the name of the source; None for what is in a document that is not there."""
    found = {}
    for name, file in DOCUMENTS.items():
        read = read_document(folder / file)
        found[name] = read and read[0] + read[1]
    for request in (f"K{number}" for number in range(1, REQUESTS + 1)):
        told = found["document 02"]
        found[request.lower()] = told and [said for said in told if said.startswith(request + ".")]
    for part in DEMANDS.read_text().split("\n## "):
        demand = NAMED.match(part)
        if demand:
            found[demand.group(0).lower()] = [plain(said) for said in part.split("\n\n") if said.startswith('"')]
    return found


def comments(path):
    """The comments of a file: the number of the first line, and the text. Lines of comment that follow each other are one."""
    found, last = [], 0
    for number, line in enumerate(path.read_text().splitlines(), 1):
        match = COMMENT[path.suffix].match(line)
        alone = line.lstrip().startswith(("--", "//"))
        if match and alone and last == number - 1 and found:
            found[-1][1] += " " + (match.group(1) or "")
        elif match:
            found.append([number, match.group(1) or ""])
        last = number if alone else 0
    return found


def pattern_of(quote):
    """Finds the parts of a quote, which '..' divides, one behind the other and each in whole words and numbers."""
    parts = [part.strip() for part in re.split(r"(?:^|\s)\.\.(?:\s|$)", quote)]
    return re.compile(".*?".join(rf"(?<!\w)(?<!\d[,.^])({re.escape(part)})(?!\w|[,.^]\d)" for part in parts))


class Quotes:
    """Holds quotes to their sources, and notes which letters of these they have."""

    def __init__(self, sources):
        self.sources, self.tally = sources, Tally()
        self.had = {}  # by the kind of place and the text of a source: the places of the letters that are quoted

    def hold(self, kind, place, text, source, aside=None):
        """All quotes of a text, which are of this source where it names none. Quotes of others are of the kind `aside`, where it is named."""
        own = source
        pieces = text.split('"')
        if len(pieces) % 2 == 0:
            self.tally.add(place, "a quotation mark is not closed")
        for outside, quote in zip(pieces[0::2], pieces[1::2]):
            names = NAMED.findall(outside)
            source = names[-1].lower() if names else source
            if self.sources.get(source, ()) is not None:
                of = aside if aside and source != own else kind
                self.tally.add(place, self.judge(of, " ".join(quote.split()), source))

    def judge(self, kind, quote, source):
        """Why the quote is not right, or None."""
        pattern = pattern_of(quote)
        found = [match for match in map(pattern.search, self.sources.get(source, ())) if quote and match]
        for match in found:
            letters = self.had.setdefault((kind, match.string), set())
            for group in range(1, pattern.groups + 1):
                letters.update(range(*match.span(group)))
        return None if found else f'"{quote}" does not stand so in {source}'

    def lacks(self, kind, text):
        """Each sentence of a text, or part of one, with whether quotes of this kind lack a word of it."""
        letters = self.had.get((kind, text), set())
        for sentence in SENTENCE.finditer(text):
            words = [word.start() for word in re.compile(r"\w+").finditer(text, *sentence.span())]
            if len(words) > 1 and re.search("[a-z]", sentence.group(0)):
                yield sentence.group(0).strip(), not letters.issuperset(words)


def hold_comments(quotes):
    for path in sorted((ROOT / "crates").rglob("*")):
        if path.suffix in COMMENT:
            found, place = comments(path), path.relative_to(ROOT)
            head = OF_FILE.search(found[0][1]) if found and found[0][0] == 1 else None
            for number, text in found:
                quotes.hold(place.parts[2], f"{place}:{number}", text, head.group(1).lower() if head else "document 01")


def hold_rules(quotes):
    """Each row of a table, other than its first, begins with a quote; and all its quotes are right, as is a request's title in a heading."""
    source, lines = "document 01", RULES.read_text().splitlines()
    for number, (line, after) in enumerate(zip(lines, lines[1:] + [""]), 1):
        if line.startswith("#"):
            named = NAMED.search(line)
            source = named.group(0).lower() if named else "document 01"
            title = OF_REQUEST.match(line)
            if title and quotes.sources.get(source, ()) is not None:
                quotes.tally.add(f"docs/RULES.md:{number}", quotes.judge("rules", title.group(1), source))
        elif line.startswith("|") and "|-" not in (line[:2], after[:2]):
            place = f"docs/RULES.md:{number}"
            quotes.tally.add(place, None if '"' in line.split("|")[1] else "the row does not begin with a quote")
            quotes.hold("rules", place, line, source, "aside")


def check_sentences(quotes, name, said, listed):
    sentences = [each for text in said for each in quotes.lacks("rules", text)]
    for sentence, lacks in sentences:
        quotes.tally.add("docs/RULES.md", f'no row has all of "{sentence}"' if lacks else None)
    alone = [sentence for text in said for sentence, lacks in quotes.lacks("specs", text) if lacks]
    print(f"{name}: {len(sentences)} sentences and parts of them, {len(alone)} of which specs/ does not quote whole (--list)")
    for sentence in alone if listed else []:
        print(f"  {sentence}")


def main():
    words = [word for word in sys.argv[1:] if word != "--list"]
    folder = pathlib.Path(words[0]) if words else ROOT.parent / "shared"
    quotes = Quotes(read_sources(folder))
    hold_comments(quotes)
    hold_rules(quotes)
    for name, file in DOCUMENTS.items():
        document = read_document(folder / file)
        if document:
            check_sentences(quotes, name, document[0], "--list" in sys.argv)
        else:
            print(f"skipped: there is no {folder / file}, so nothing was held to {name}")
    return quotes.tally.end()


sys.exit(main())
