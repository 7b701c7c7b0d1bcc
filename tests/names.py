#!/usr/bin/env python3
"""Holds the README, the pages in docs/ and those of integrations/ to the files that they speak of.

Places: `name` file:line, as in `chosen` crates/rules/proofs/Chosen.antt:12, where the name may stand at the end of the line
above. The file declares the name in that line; --mend corrects the line. A file with a line and no name is an error.
Files and links: every path from the root, and every link that is no web address, exists. The README has every crate and folder.
Quotes: every fenced block of docs/PROMISES.md stands below a line that names its file, and is whole lines of that file, but
for white space. A line '..' in it passes over lines of the file.
Ends with 'N passed, M failed'.
"""
import pathlib
import re
import sys

ROOT = pathlib.Path(__file__).resolve().parent.parent
MAPPING = ROOT / "README.md"
QUOTING = ROOT / "docs" / "PROMISES.md"
PAGES = [MAPPING, *sorted((ROOT / "docs").glob("*.md")), *sorted((ROOT / "integrations").glob("*/README.md"))]
PLACE = re.compile(r"`([^`\s]+)`(\s+)([\w./-]+\.\w+):(\d+)")
LINED = re.compile(r"[\w./-]+\.(?:antt|rt|edit|py|rs|h|c):\d+")
FOLDERS = "crates|tests|docs|files|lab(?!/out/)|samples|second|tools|include|install|integrations|bindings|bench|examples|[.]ci"
FILE = re.compile(rf"(?<![\w/.*-])((?:{FOLDERS})/[\w./-]*\w)(?![\w/*-])")
LINK = re.compile(r"\]\(([^)\s]+)\)")
FENCE = re.compile(r"^```")
DECLARED = {
    ".rt": r"^\s*(?:pub )?(?:extern \"C\" )?(?:fn|struct|enum|const|mod) {}(?![\w-])",
    ".antt": r"^\s*(?:(?:unfoldable|abbrev|pub|record|data) )*{}\s(?:.*\s)?:(?:\s|$)",
}
JOINTS = {"→", "↔", "×", "⊎", "≡", "∷", "&&", "||"}  # no statement ends before one of these


class Count:
    def __init__(self):
        self.passed = self.failed = 0

    def add(self, page, why):
        """One thing more was looked at: it is right where there is no reason why not."""
        if why is None:
            self.passed += 1
        else:
            self.failed += 1
            print(f"{page.relative_to(ROOT)}: {why}")


def line_of(file, name):
    """The line of the file that declares the name, or None."""
    path = ROOT / file
    if not path.is_file() or path.suffix not in DECLARED:
        return None
    pattern = re.compile(DECLARED[path.suffix].format(re.escape(name)))
    for number, line in enumerate(path.read_text().splitlines(), 1):
        if pattern.match(line):
            return number
    return None


def check_places(page, text, count, mend):
    """The text with its lines corrected, where that is asked for."""

    def judge(match):
        name, gap, file, line = match.groups()
        found = line_of(file, name)
        if found is None:
            count.add(page, f"`{name}` is not declared in {file}")
            return match.group(0)
        wrong = found != int(line) and not mend
        count.add(page, f"`{name}` stands at {file}:{found}, not {line} (python3 tests/names.py --mend)" if wrong else None)
        return f"`{name}`{gap}{file}:{found}" if mend else match.group(0)

    mended = PLACE.sub(judge, text)
    for lined in LINED.findall(PLACE.sub("", text)):
        count.add(page, f"{lined} has a line, but no name in `..` before it")
    return mended


def check_files(page, text, count):
    for file in FILE.findall(LINK.sub("", PLACE.sub("", text))):
        count.add(page, None if (ROOT / file).exists() else f"there is no {file}")
    for link in LINK.findall(text):
        if "://" not in link:
            there = (page.parent / link.partition("#")[0]).exists()
            count.add(page, None if there else f"the link {link} leads nowhere")


def check_map(page, text, count):
    """Every crate, and every folder of the root that is no built one, has its line."""
    crates = [f"crates/{path.name} " for path in sorted((ROOT / "crates").iterdir())]
    folders = [f"{path.name}/ " for path in sorted(ROOT.iterdir()) if path.is_dir() and path.name[0] != "."]
    for name in crates + [folder for folder in folders if folder not in ("crates/ ", "target/ ")]:
        count.add(page, None if f"\n| {name}" in text else f"the map has no line for {name}")


def blocks(text):
    """Each fenced block: its number of line, the line above it, and its own lines."""
    above, inside = "", None
    for number, line in enumerate(text.splitlines(), 1):
        if FENCE.match(line):
            if inside is None:
                start, inside = number, []
            else:
                yield start, above, inside
                above, inside = "", None
        elif inside is None:
            above = line
        else:
            inside.append(line)
    if inside is not None:
        yield start, above, inside


def parts(lines):
    """The parts of a block, which a line '..' divides, as lists of words."""
    found = [[]]
    for line in lines:
        if line.strip() == "..":
            found.append([])
        else:
            found[-1] += line.split()
    return found


def is_quote(path, lines):
    """Whether every part of a block is whole lines of the file, one part behind the other, and none is cut short."""
    words, ends = [], [0]  # the file's words, and how many of them stand above the end of each line
    for line in path.read_text().splitlines():
        words += line.split()
        ends.append(len(words))
    at = 0
    for part in parts(lines):
        fits = (end for end in ends if end >= at and stands(words, ends, end, part))
        start = next(fits, None)
        if start is None:
            return False
        at = start + len(part)
    return True


def stands(words, ends, start, part):
    """Whether the words of a part stand at a place, to the end of a line and of what is said there."""
    after = start + len(part)
    return part and words[start:after] == part and after in ends and not JOINTS.intersection(words[after : after + 1])


def check_quotes(page, text, count):
    for number, above, lines in blocks(text):
        place, file = PLACE.search(above), LINED.search(above) or FILE.search(above)
        path = ROOT / file.group(0).partition(":")[0] if file else None
        head = next((line.strip()[:60] for line in lines), "")
        if path is None or not path.is_file():
            why = "no line above it names its file"
        elif not is_quote(path, lines):
            why = f"it does not stand so in {path.relative_to(ROOT)}"
        elif place and not re.search(rf"(?<![\w-]){re.escape(place.group(1))}(?![\w-])", "\n".join(lines)):
            why = f"it does not speak of `{place.group(1)}`"
        else:
            why = None
        count.add(page, why and f"the block in line {number}, '{head}': {why}")


def main():
    mend, count = "--mend" in sys.argv[1:], Count()
    for page in PAGES:
        text = page.read_text()
        mended = check_places(page, text, count, mend)
        check_files(page, text, count)
        if page == QUOTING:
            check_quotes(page, text, count)
        if page == MAPPING:
            check_map(page, text, count)
        if mended != text:
            page.write_text(mended)
    print(f"{count.passed} passed, {count.failed} failed")
    return 1 if count.failed or not count.passed else 0


sys.exit(main())
