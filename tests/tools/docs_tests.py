"""Tests of the pages themselves: short paragraphs, links that lead somewhere, and names of what is there."""

import collections
import glob
import os
import re

from bench import TOP, same

MOST_WORDS = 120
PAGES = ["README.md"] + sorted(os.path.relpath(path, TOP) for path in glob.glob(os.path.join(TOP, "docs", "*.md")))
FENCED = re.compile(r"^```.*?^```$", re.DOTALL | re.MULTILINE)
INDENTED = re.compile(r"^ {4,}(?![-*] |[0-9]+\. ).*$", re.MULTILINE)
# What begins a paragraph: an empty line, a list's item, a table's row, a heading.
PARTS = re.compile(r"\n[ \t]*\n|\n(?=[ \t]*(?:[-*|#]|[0-9]+\.)[ |#])")
LINK = re.compile(r"\]\(([^)\s]+)\)")
CODE = re.compile(r"`([^`\n]+)`")
HEADING = re.compile(r"^#+ +(.*)$", re.MULTILINE)
FOLDERS = ("bench", "bin", "crates", "defs", "docs", "packaging", "scenarios", "tests", "tools")
PATH = re.compile(r"[\w.-]+(?:/[\w.-]+)+/?")
FILE = re.compile(r"\w+\.(?:antt|rt)")
# What a path in a crate begins with, where a page has said `NAME: ` before it.
INNER = ("src", "specs", "proofs", "must-fail")
# A word of a path that stands for any.
ANY = re.compile("NAME|PREFIX")
# Pages that speak of what isn't in the clone: files that the reader makes.
READERS = ("README.md", "docs/GUIDE.md", "docs/MANUAL.md", "docs/SCALE.md")


def text_of(page):
    with open(os.path.join(TOP, page), encoding="utf-8") as file:
        return file.read()


def prose_of(page):
    """Returns a page without its blocks of commands and drawings."""
    return INDENTED.sub("", FENCED.sub("", text_of(page)))


def paragraphs(text):
    """Yields the paragraphs of a page: a list's item is one, and so is a table's cell."""
    for part in PARTS.split(text):
        yield from part.strip().strip("|").split(" | ") if part.lstrip().startswith("|") else [part.strip()]


def dependencies():
    """Returns the crates, each with the libraries that it names."""
    found = {}
    for line in text_of("crates.txt").splitlines():
        name, colon, libraries = line.partition("#")[0].partition(":")
        if colon:
            found[name.split()[0]] = libraries.split()
    return found


def names_of_files():
    """Returns the names of all files of crates, without their folders."""
    found = set()
    for _, folders, files in os.walk(os.path.join(TOP, "crates")):
        folders[:] = [folder for folder in folders if folder != "out"]
        found.update(files)
    return found


def anchors_of(text):
    """Returns the anchors of a page's headings."""
    heads = [re.sub(r"[^\w\- ]", "", head.lower()).replace(" ", "-") for head in HEADING.findall(FENCED.sub("", text))]
    return set(heads) | set(re.findall(r'<a (?:id|name)="([^"]+)"', text))


def test_no_paragraph_is_long():
    long = [(page, len(each.split()), each[:50]) for page in PAGES for each in paragraphs(prose_of(page))
            if len(each.split()) > MOST_WORDS]
    same(f"paragraphs of more than {MOST_WORDS} words", long, [])


def test_links_lead_somewhere():
    broken = []
    for page in PAGES:
        for link in LINK.findall(text_of(page)):
            path, _, anchor = link.partition("#")
            if re.match(r"[a-z]+:", link):
                continue
            target = os.path.normpath(os.path.join(os.path.dirname(page), path)) if path else page
            if not os.path.exists(os.path.join(TOP, target)) or \
                    anchor and target.endswith(".md") and anchor not in anchors_of(text_of(target)):
                broken.append((page, link))
    same("broken links", broken, [])


def missing_path(path, crates):
    """Whether a path of a page begins at the top, or in a crate, and isn't there."""
    first = path.split("/")[0]
    if ANY.search(path):
        return False
    if first in FOLDERS:
        return not os.path.exists(os.path.join(TOP, path))
    return first in crates and not os.path.exists(os.path.join(TOP, "crates", path))


def test_files_are_there():
    crates, names, missing = dependencies(), names_of_files(), []
    for page in PAGES:
        for code in CODE.findall(prose_of(page)):
            if FILE.fullmatch(code) and code not in names:
                missing.append((page, code))
            if page not in READERS:
                missing += [(page, path) for path in PATH.findall(code) if missing_path(path, crates)]
    same("files that aren't there", missing, [])


def files_of_crates(cell):
    """Yields each file in a crate of which a cell of a table speaks after `CRATE: `, with that crate."""
    name = None
    for word, path in re.findall(r"\b([a-z][a-z0-9]*_\w+|dialect|turnstile): |`([^`]+)`", cell):
        name = word or name
        if name and path.split("/")[0] in INNER:
            yield name, path
        elif name and FILE.fullmatch(path) and path.endswith(".antt"):
            yield name, f"specs/{path}"


def test_crates_are_there():
    """A name before `: ` and files of a crate, and one in bold, are those of crates."""
    crates, wrong = dependencies(), []
    for cell in (cell for page in ("ARCHITECTURE", "CHANGING") for cell in paragraphs(text_of(f"docs/{page}.md"))):
        wrong += [(name, path) for name, path in files_of_crates(cell)
                  if not os.path.exists(os.path.join(TOP, "crates", name, path))]
    for bold in re.findall(r"^- \*\*([a-z0-9_, ]+)\.\*\*", text_of("docs/GUARANTEES.md"), re.MULTILINE):
        wrong += [name for name in bold.split(", ") if name not in crates]
    same("crates and files of crates that aren't there", wrong, [])


def test_the_map_has_each_crate_above_what_it_needs():
    crates, order, wrong = dependencies(), [], []
    for row in re.findall(r"^\| (`\w+`(?:, `\w+`)*) \|", text_of("docs/ARCHITECTURE.md"), re.MULTILINE):
        order += CODE.findall(row)
    order = [name for name in order if name in crates]
    for at, name in enumerate(order):
        wrong += [(name, library) for library in crates[name] if library in crates and library not in order[:at]]
    same("crates of the map that stand before what they need", wrong, [])
    same("crates that the map lacks", sorted(set(crates) - set(order)), [])
    same("crates twice in the map", [name for name, times in collections.Counter(order).items() if times > 1], [])
