#!/usr/bin/env python3
"""Fails when the papers cite something that does not exist.

    tests/papers/cited.py       checks README.md, docs/*.md, docs/changes/*.md and examples/README.md, but not docs/PORT.md,
                                which sets names that are gone beside today's; nor the code in docs/DESIGN-PASS.md, which does so too

A citation is a place and, right behind it in backticks, names that stand there:

    frame/Stuffing `meaning`, `taken`     definitions, fields or cases in crates/frame/specs/Stuffing.antt
    ledger/proofs/EveryList `every_list`  theorems in crates/ledger/proofs/EveryList.antt
    packet/src/items.rt `read_items`      functions, types or constants in that file; words of a C or Rust file
    code of frame `put_byte`              the same, in any source file of the crate
    mutant of frame `put_byte`            the same, and a function or constant of the crate in docs/mutants.txt
    examples/histories `repeated`         files in that folder, with or without their ending
    link `closing_flag_lost`              a must-fail edit of the crate, or a written one of tests/mutants
    run board_cases, ash_cases            subjects with a line `= board`, `= ash` in crates/run_cases/stdin

Between the names of one place only a comma, a colon, "and", "or" and a remark in brackets may stand. A name
without a place has to be a crate, a path, a folder with its slash, a `make` target, a name of the C header,
a path crate::module::name of the code, or one of WORDS. In "`new` for `old`" the old code has to stand in
the sources, word for word. Two digits with a slash, as 1/0, are the counters of a frame and no path. Rows of
CLAIMS.md have ids, each once. Whatever cannot be placed is a failure.
"""
import re
import sys
from pathlib import Path

from repository import Repository, names_of

ROOT = Path(__file__).resolve().parents[2]

# Words of the language and of other programs, and what the program prints. As few as can be.
WORDS = {"requires", "ensures", "Learnt", "Asked", 'extern "C"', "let .. else", "&mut Board", "rt", "rustc",
         "main", "read", "write", "memcpy", "memset", "refused 15", "reply", "N passed, 0 failed"}

ENDINGS = "antt|rt|rs|py|sh|md|txt|c|h|cpp|awk|edit|history|expected|capture"
PATH = re.compile(r"(?<![\w/.:<-])(?!\d/\d\b)(?:[.\w*+-]+(?:/[\w.*+-]+)+/?|[\w*-]+\.(?:" + ENDINGS + r")\b)")
CODE_PATH = re.compile(r"(?<![\w:])(?!std::)[a-z]\w*(?:::\w+)+")
LINK = re.compile(r"\[[^\]]+\]\(([^)\s]+)\)")
BETWEEN = re.compile(r"(\s*\([^()`]*\))?(\s*[,:]\s*((and|or)\s+)?|\s+(and|or)\s+)")


def place_of(repository, before):
    """What the text right before a name cites, as a test of names; None if it cites no place."""
    if found := re.search(r"\b(code|mutants?)\s+of\s+(\w+)\s+$", before):
        has = repository.has_in_code if found[1] == "code" else repository.has_mutant
        return lambda name: found[2] in repository.crates and has(found[2], name)
    if found := re.search(r"([\w/.+-]+/[\w.+-]*)`?([,:]?)\s+$", before):
        path = repository.proved(found[1]) or repository.path(found[1])
        if path and not (path.is_dir() and found[2]):
            return lambda name: name in names_of(path)
    if found := re.search(r"(?<![\w/`:.-])(\w+)\s+$", before):
        if found[1] in repository.crates:
            return lambda name: repository.has_edit(found[1], name)
    return None


def stands_alone(repository, name):
    """Whether a name needs no place before it. Paths are looked up apart."""
    first = name.split()[0]
    if name in WORDS or name in repository.crates or name.startswith("rt ") or not re.search(r"\w", name):
        return True
    if re.fullmatch(r"[0-9a-f]{2}( [0-9a-f]{2})*", name) or PATH.fullmatch(first) or CODE_PATH.fullmatch(name):
        return True
    if found := re.fullmatch(r"make ([a-z_-]+)( [A-Z_]+=.*)?", name):
        return found[1] in repository.targets
    if name.lower().startswith("arznavik_"):
        return name in repository.header
    return name.endswith("/") and name[:-1] in repository.folders


def blocks(text):
    """(first line, text) of each paragraph, list item and table cell."""
    start, lines = 1, []
    for number, line in enumerate([*text.splitlines(), ""], 1):
        if not line.strip() or re.match(r"\s*([-*]|\d+\.) |\||#", line):
            yield start, "\n".join(lines)
            start, lines = number, []
        if line.startswith("|"):
            yield from ((number, cell) for cell in re.split(r"(?<!\\)\|", line)[1:-1])
        else:
            lines.append(line)
    yield start, "\n".join(lines)


def names_in(repository, block):
    """(position, complaint) for each name of a block that cannot be placed."""
    test, end = None, 0
    for span in re.finditer(r"`([^`]+)`", block):
        name, before, behind = span[1], block[:span.start()], block[span.end():]
        place = place_of(repository, before)
        if place or not BETWEEN.fullmatch(block[end:span.start()]):
            test = place
        end = span.end()
        if re.match(r" for (`|the same)", behind):
            continue
        if before.endswith("` for "):
            if not repository.has_code(name):
                yield span.start(), f"`{name}` stands in no source file"
        elif test and not test(name):
            yield span.start(), f"`{name}` is not in the place before it"
        elif not test and not stands_alone(repository, name):
            yield span.start(), f"`{name}` has no place"


def links_in(root, page, papers):
    for found in LINK.finditer(papers[page]):
        target, _, anchor = found[1].partition("#")
        path = (Path(page).parent / target).as_posix() if target else page
        headings = re.findall(r"^#+ (.*)$", papers.get(path, ""), re.M)
        if not (root / path).exists():
            yield found.start(), f"a link to {target}, which is not there"
        elif anchor and anchor not in {re.sub(r"[^\w -]", "", h.lower()).replace(" ", "-") for h in headings}:
            yield found.start(), f"a link to #{anchor}, which is no heading of {path}"


def tokens_in(repository, page, text):
    """Paths, code paths and runs, in backticks or not."""
    text = re.sub(r"\]\([^)]*\)|`[^`\n]*` for ", lambda found: " " * len(found[0]), text)
    for found in PATH.finditer(text):
        if not repository.has_path(found[0], page):
            yield found.start(), f"{found[0]} is not there"
    for found in CODE_PATH.finditer(text):
        if not repository.has_code_path(found[0]):
            yield found.start(), f"{found[0]} is not in the code"
    for found in re.finditer(r"\b[a-z]+_(cases|bench)\b", text):
        if found[0] not in repository.crates:
            yield found.start(), f"there is no crate {found[0]}"
    for found in re.finditer(r"\b(TODO|FIXME|XXX)\b", text):
        yield found.start(), f"{found[0]}: unfinished"
    for found in re.finditer(r"\brun (\w+_cases(?:, \w+_cases)*)", text):
        for crate in found[1].split(", "):
            if crate not in repository.runs:
                yield found.start(), f"run_cases runs nothing of {crate}"


def ids_in(text):
    """Each row has an id of its own, and rows refer to ids that are there."""
    seen = {}
    for found in re.finditer(r"^\|(?! id | function |---)([^|]*)\|", text, re.M):
        row = found[1].strip()
        if not re.fullmatch(r"[A-Z][A-Za-z]*\d*\.\d+|`\w+(::\w+)+`", row):
            yield found.start(), "a row without an id"
        elif seen.setdefault(row, found.start()) != found.start():
            yield found.start(), f"the id {row} is there twice"
    for found in re.finditer(r"(?<![\w.])[A-Z][A-Za-z]*\d*\.\d+\b", text):
        if found[0] not in seen:
            yield found.start(), f"there is no row {found[0]}"


def check(repository, page, papers):
    """Every complaint about one of the papers, which are a dictionary from paths to texts."""
    text = papers[page]
    prose = re.sub(r"^```.*?^```$", lambda found: "\n" * found[0].count("\n"), text, flags=re.M | re.S)
    cited = prose if page == "docs/DESIGN-PASS.md" else text
    found = [*links_in(repository.root, page, papers), *tokens_in(repository, page, cited)]
    found += ids_in(text) if page == "docs/CLAIMS.md" else []
    places = [(1 + text[:at].count("\n"), complaint) for at, complaint in found]
    for first, block in blocks(prose):
        if not block.startswith("    "):
            places += [(first + block[:at].count("\n"), c) for at, c in names_in(repository, block)]
    return [f"{page}:{line}: {complaint}" for line, complaint in sorted(places)]


def papers_of(root):
    pages = [root / "README.md", root / "examples/README.md", *sorted((root / "docs").glob("**/*.md"))]
    pages = [page for page in pages if page != root / "docs/PORT.md"]
    return {page.relative_to(root).as_posix(): page.read_text() for page in pages}


def main():
    repository, papers = Repository(ROOT), papers_of(ROOT)
    complaints = [complaint for page in papers for complaint in check(repository, page, papers)]
    print("\n".join(complaints) or f"papers: all that {len(papers)} pages cite is there")
    return 1 if complaints else 0


if __name__ == "__main__":
    sys.exit(main())
