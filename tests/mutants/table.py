#!/usr/bin/env python3
"""The list of mutants and the table of their verdicts, which are made and not written.

    table.py                      print the table of docs/mutants.txt
    table.py --check              see that docs/MUTANTS.md has that table
    table.py --list OUT CRATE..   print the list for docs/mutants.txt, from the reports OUT/CRATE.txt of run.py

In the list a mutant has three lines: where it stands with its kind and verdict, the line before, and the line
after. Those that are no programs are only counted, in a line for each crate.
"""

import re
import sys
from collections import Counter
from pathlib import Path
from typing import Iterator

LIST = Path("docs/mutants.txt")
PAPER = Path("docs/MUTANTS.md")
VERDICTS = ("fact", "form", "passed")
MUTANT = re.compile(r"^(\w+)/\S+ \S+: \w+, (\w+)$")
UNCOUNTED = re.compile(r"^(\w+): no program, (\d+)$")


def main() -> None:
    match sys.argv[1:]:
        case []:
            print("\n".join(table()))
        case ["--check"]:
            check()
        case ["--list", out, *crates] if crates:
            for crate in crates:
                print("\n".join(listed(Path(out), crate)))
        case _:
            sys.exit(__doc__)


def check() -> None:
    wanted = table()
    if "\n".join(wanted) not in PAPER.read_text():
        sys.exit(f"{PAPER} has not the table of {LIST}; tests/mutants/table.py prints it:\n" + "\n".join(wanted))
    print(f"mutants: {PAPER} has the table of {LIST}, {len(wanted) - 3} crates")


def table() -> list[str]:
    """The lines of the table, crate by crate in the order of the list, and their sum."""
    tallies = counted()
    rows = [row(f"`{crate}`", tally) for crate, tally in tallies.items()]
    total = sum(tallies.values(), Counter())
    head = "| crate | programs | " + " | ".join(VERDICTS) + " | no program |"
    return [head, "|---" * (len(VERDICTS) + 3) + "|", *rows, row("all", total)]


def row(name: str, tally: Counter[str]) -> str:
    verdicts = [tally[verdict] for verdict in VERDICTS]
    return "| " + " | ".join(map(str, [name, sum(verdicts), *verdicts, tally["no program"]])) + " |"


def counted() -> dict[str, Counter[str]]:
    """How often each verdict stands in the list, for each crate."""
    tallies: dict[str, Counter[str]] = {}
    for number, line in enumerate(LIST.read_text().splitlines(), 1):
        if line.startswith("    "):
            continue
        mutant, uncounted = MUTANT.match(line), UNCOUNTED.match(line)
        if mutant and mutant.group(2) in VERDICTS:
            tallies.setdefault(mutant.group(1), Counter())[mutant.group(2)] += 1
        elif uncounted:
            tallies.setdefault(uncounted.group(1), Counter())["no program"] += int(uncounted.group(2))
        else:
            sys.exit(f"{LIST}, line {number}: no line of the list: {line}")
    return tallies


def listed(out: Path, crate: str) -> Iterator[str]:
    """A crate's lines of the list, from its report."""
    no_program = 0
    for line in (out / f"{crate}.txt").read_text().splitlines():
        verdict, file, function, kind, before, after, _ = line.split("\t")
        if verdict in VERDICTS:
            yield f"{crate}/{file} {function}: {kind}, {verdict}"
            yield f"    {before}"
            yield f"    {after}"
        elif verdict == "unread":
            no_program += 1
        else:
            sys.exit(f"{crate}: a mutant had no answer, try it again: {line}")
    yield f"{crate}: no program, {no_program}"


if __name__ == "__main__":
    main()
