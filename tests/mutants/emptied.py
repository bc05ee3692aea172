#!/usr/bin/env python3
"""Empties the contract of each public function of the libraries, one at a time, and says what breaks first.

    emptied.py OUT [CRATE..]

An emptied contract says only that the answer is itself, and the answers of the function's own proof to what it
promised are left out, so that what breaks is a caller's proof or a theorem that rests on the contract. It works on
a copy of the repository outside it and writes OUT/emptied.txt, a line for each function: the function, then the file
and the name that is refused first, in its own crate or in the crates above it, lowest first. `nothing` there is a
contract that no library needs. A function of which the prover gave no answer is a failure.
"""

import re
import sys
from pathlib import Path
from typing import Iterator, NamedTuple

from run import check, copied

# A public function up to the line that opens its body, which stands alone where there is a contract.
FUNCTION = re.compile(r"^pub (?:extern \"C\" )?fn (\w+)(?:(?!^\}).)*?^\{$", re.M | re.S)
ENSURES = re.compile(r"^    ensures (?:\w+ )?\{.*\}\n", re.M)
EMPTY = "    ensures { result ≡ result }\n"
EQUALITY = "ghost use Rattle.std.specs.Prelude.{◌≡◌};\n"
# The answers to the goals that the contract holds where the function returns.
RETURNS = re.compile(r"^pub (returns\S*) : .*\n(?:(?:\1 |unfolding |[ \t]).*\n|\n(?=[ \t]))*", re.M)
# Verdicts that show nothing: the changed source was not read, or the prover gave no answer.
NO_ANSWER = ("unread", "late")
# Where an error stands, and the name of what is refused: a law, or a goal of a function.
PLACE = re.compile(r"(\S+?):\d+:\d+: (?:error: |it is not proved .*?\()`([^`]+)`")


class Public(NamedTuple):
    """A public function: its crate, source file, name, and the source with its contract emptied."""

    crate: str
    source: Path
    name: str
    text: str


def main() -> None:
    out, asked = Path(sys.argv[1]), sys.argv[2:]
    out.mkdir(parents=True, exist_ok=True)
    unanswered = []
    with copied() as copy, (out / "emptied.txt").open("w") as lines:
        order = libraries(copy)
        for crate in asked or list(order):
            for function in public_functions(copy, crate):
                first = broken(copy, order, function)
                if first.startswith(NO_ANSWER):
                    unanswered.append(function.name)
                line = f"{crate}::{function.name}\t{first}"
                lines.write(line + "\n")
                lines.flush()
                print(line, flush=True)
    if unanswered:
        sys.exit(f"no answer of: {', '.join(unanswered)}")


def libraries(copy: Path) -> dict[str, list[str]]:
    """The libraries of the repository in the order of their layers, with all that each stands on."""
    lines = (line.partition("#")[0].split(":") for line in (copy / "crates.txt").read_text().splitlines() if ":" in line)
    named = {words.split()[0]: deps for words, deps in lines}
    own = {name: deps.split() for name, deps in named.items() if (copy / "crates" / name / "src/lib.rt").exists()}
    order: dict[str, list[str]] = {}
    while len(order) < len(own):
        for name, deps in own.items():
            if name not in order and all(d in order for d in deps if d in own):
                below = [d for d in deps if d in own]
                order[name] = sorted({*below, *(b for d in below for b in order[d])})
    return order


def public_functions(copy: Path, crate: str) -> Iterator[Public]:
    for source in sorted((copy / "crates" / crate / "src").rglob("*.rt")):
        text = source.read_text()
        for found in FUNCTION.finditer(text):
            if not ENSURES.search(found.group()):
                continue
            bare = ENSURES.sub("", found.group()).removesuffix("{")
            emptied = text[: found.start()] + bare + EMPTY + "{" + text[found.end() :]
            if "◌≡◌" not in emptied:
                emptied = re.sub(r"^(?=ghost use)", EQUALITY, emptied, count=1, flags=re.M)
            yield Public(crate, source, found.group(1), emptied)


def broken(copy: Path, order: dict[str, list[str]], function: Public) -> str:
    """The first error where the function's contract is emptied, in the first crate that is refused."""
    kept = {function.source: function.source.read_text()}
    answers = own_answers(copy, function)
    function.source.write_text(function.text)
    if answers.exists():
        kept[answers] = answers.read_text()
        answers.write_text(RETURNS.sub("", kept[answers]))
    try:
        above = [name for name, below in order.items() if function.crate in below]
        for crate in [function.crate, *above]:
            verdict, error = check(copy, crate)
            if verdict in NO_ANSWER:
                return f"{verdict}: {error}"
            if verdict != "passed":
                place = PLACE.match(error)
                return f"{place.group(1)} {place.group(2)}" if place else error
        return "nothing"
    finally:
        for path, text in kept.items():
            path.write_text(text)


def own_answers(copy: Path, function: Public) -> Path:
    module = function.source.relative_to(copy / "crates" / function.crate / "src").with_suffix("")
    folder = [] if module.name == "lib" else module.parts
    return copy.joinpath("crates", function.crate, "proofs", *folder, function.name, "Answers.antt")


if __name__ == "__main__":
    main()
