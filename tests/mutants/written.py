#!/usr/bin/env python3
"""Tries written wrong programs against the prover: each must be refused because a fact does not hold.

    written.py --try [CRATE..]          try tests/mutants/written/CRATE/*.edit, of all crates if none is named
    written.py --apply-only [CRATE..]   only see that these edits, and those of the gate, still fit the sources

An edit has the form of crates/CRATE/must-fail/*.edit: comments with #, then `file:` lines, each followed by pairs
of an `old:` and a `new:` line. The old text stands in the file exactly once. It works on a copy of the repository
outside it. One line is printed for each edit, with a verdict of run.py; any verdict but `fact`, and an edit
that does not fit, is a failure.
"""

import sys
import time
from pathlib import Path
from typing import Iterator, NamedTuple

from run import check, copied

WRITTEN = Path("tests/mutants/written")
PARTS = ("src", "specs", "proofs")


class BadEdit(Exception):
    """Why an edit does not fit the sources."""


class Change(NamedTuple):
    """In a file of the crate, this text for that."""

    file: str
    old: str
    new: str


def main() -> None:
    match sys.argv[1:]:
        case ["--apply-only", *crates]:
            failed = apply_only(crates)
        case ["--try", *crates]:
            failed = try_all(crates)
        case _:
            sys.exit(__doc__)
    if failed:
        sys.exit(f"written edits: FAILED: {', '.join(failed)}")


def apply_only(crates: list[str]) -> list[str]:
    """The edits that do not fit, with those of the gate."""
    failed = []
    count = 0
    for edit in [*edits(crates), *gate_edits(crates)]:
        count += 1
        try:
            edited(Path("crates") / crate_of(edit), edit)
        except BadEdit as why:
            print(f"{edit}: {why}", file=sys.stderr)
            failed.append(label_of(edit))
    print(f"written edits: {count - len(failed)} fit the sources, {len(failed)} do not", flush=True)
    return failed if count else ["no edit found"]


def try_all(crates: list[str]) -> list[str]:
    """The edits that do not fit or are not refused at a fact."""
    asked = list(edits(crates))
    if not asked:
        print("written edits: none of these crates has one")
        return []
    with copied() as copy:
        failed = try_each(copy, asked)
    print(f"written edits: {len(asked)} tried, {len(failed)} failed", flush=True)
    return failed


def try_each(copy: Path, asked: list[Path]) -> list[str]:
    failed = []
    for crate in dict.fromkeys(map(crate_of, asked)):
        verdict, error = check(copy, crate)
        if verdict != "passed":
            sys.exit(f"{crate} itself is not proved: {error}")
        for edit in (e for e in asked if crate_of(e) == crate):
            began = time.monotonic()
            verdict, error = try_edit(copy, edit)
            took = time.monotonic() - began
            print(f"{label_of(edit)}: {verdict}, {took:.0f} s, {error}", flush=True)
            if verdict != "fact":
                failed.append(label_of(edit))
    return failed


def try_edit(copy: Path, edit: Path) -> tuple[str, str]:
    """The verdict on the crate with the edit, and the first error."""
    crate = copy / "crates" / crate_of(edit)
    try:
        changed = edited(crate, edit)
    except BadEdit as why:
        return "does not fit", str(why)
    kept = {path: path.read_text() for path in changed}
    try:
        for path, text in changed.items():
            path.write_text(text)
        return check(copy, crate.name)
    finally:
        for path, text in kept.items():
            path.write_text(text)


def edits(crates: list[str]) -> Iterator[Path]:
    """The written edits of the crates, of all if none is named."""
    for crate in crates or sorted(path.name for path in WRITTEN.iterdir()):
        yield from sorted((WRITTEN / crate).glob("*.edit"))


def gate_edits(crates: list[str]) -> Iterator[Path]:
    for folder in sorted(Path("crates").glob("*/must-fail")):
        if not crates or folder.parent.name in crates:
            yield from sorted(folder.glob("*.edit"))


def crate_of(edit: Path) -> str:
    return edit.parent.name if WRITTEN in edit.parents else edit.parent.parent.name


def label_of(edit: Path) -> str:
    return f"{crate_of(edit)}/{edit.stem}"


def edited(crate: Path, edit: Path) -> dict[Path, str]:
    """The files that the edit changes, with their new texts."""
    texts: dict[Path, str] = {}
    changes = list(read_edit(edit))
    if not changes:
        raise BadEdit("it has no `old:` and `new:` pair")
    for change in changes:
        path = crate / change.file
        if path not in texts:
            texts[path] = read_file(path, change.file)
        found = texts[path].count(change.old)
        if found != 1:
            raise BadEdit(f"{change.file} has {found} times: {change.old}")
        texts[path] = texts[path].replace(change.old, change.new)
    return texts


def read_file(path: Path, name: str) -> str:
    if Path(name).parts[:1] not in [(part,) for part in PARTS] or ".." in Path(name).parts or not path.is_file():
        raise BadEdit(f"no file of src/, specs/ or proofs/: {name}")
    return path.read_text()


def read_edit(edit: Path) -> Iterator[Change]:
    """The changes of an edit in their order. A `file:` line holds for the pairs behind it."""
    file, old = "", ""
    for line in edit.read_text().splitlines():
        if line.startswith("file: "):
            file = line.removeprefix("file: ")
        elif line.startswith("old: "):
            if old:
                raise BadEdit(f"no `new:` behind: {old}")
            old = line.removeprefix("old: ")
        elif line.startswith("new:"):
            if not old:
                raise BadEdit(f"no `old:` before: {line}")
            yield Change(file, old, line.removeprefix("new:").removeprefix(" "))
            old = ""
        elif line.strip() and not line.startswith("#"):
            raise BadEdit(f"not a line of an edit: {line}")
    if old:
        raise BadEdit(f"no `new:` behind: {old}")


if __name__ == "__main__":
    main()
