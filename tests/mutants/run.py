#!/usr/bin/env python3
"""Tries mutants of crates against the prover, and says which it does not refuse.

    run.py [--kinds KIND,..] OUT CRATE..

The kinds are operator, constant, swapped (two arguments), uncalled (an argument for the call) and dropped (a
statement); all of them without --kinds. It works on a copy of the repository outside it and writes
OUT/CRATE.txt, a line for each mutant: verdict, file, function, kind, the line before and after, and the first
error. A constant that its own crate does not pin down is tried in the crates above that name it. The verdicts:

    fact     refused: a fact of the contract, of a law or of safety does not hold
    form     refused: the proof names a place that the changed code does not have. (Where only answers do, and an index
             or a sum is unproved beside, whose goals are named by no place, that is a fact.)
    passed   proved: the contract lets it through, or it means the same
    unread   not a program or definition of the language (a wrong type, an overflowing constant); shows nothing
    late     no answer in time, or none but that the prover met a limit or stopped; shows nothing
"""

import argparse
import os
import re
import shutil
import signal
import subprocess
import sys
import tempfile
from collections import Counter
from contextlib import contextmanager
from pathlib import Path
from typing import Iterator

from edits import Mutant, mutants

KINDS = ("operator", "constant", "swapped", "uncalled", "dropped")
LIMIT_SECONDS = 300
# The status of `rt check` where something is refused. Other ones say that there is no answer.
NOT_PROVED = 1
FORM = re.compile(r"that can be named from here|has no field|no such field|is not in scope|has no `|was not admitted|unexpected")
SAFETY = re.compile(r"it is not proved that .*\(`(?:bounds|overflow)[-_]")
# What rt says at a place: an error, or by `note:` a fact that is not proved.
TOLD = re.compile(r"^(?:note: )?(?:\./)?(\S+:\d+:\d+: .*(?:\berror\b|\bnot proved\b).*)$", re.M)


def main() -> None:
    words = argparse.ArgumentParser(description="Tries mutants of crates against the prover, and says which it does not refuse.")
    words.add_argument("--kinds", default=",".join(KINDS), help="which kinds, with commas between")
    words.add_argument("out", type=Path)
    words.add_argument("crates", nargs="+")
    asked = words.parse_args()
    asked.out.mkdir(parents=True, exist_ok=True)
    with copied() as copy:
        for crate in asked.crates:
            try_crate(copy, crate, asked.kinds.split(","), asked.out / f"{crate}.txt")


@contextmanager
def copied() -> Iterator[Path]:
    """A copy of the repository, gone at the end. It stands outside, where `rt ci` does not meet it, and begins with
    what checks of the same crates on this machine kept."""
    with tempfile.TemporaryDirectory(prefix="arznavik-") as folder:
        copy = Path(folder)
        shutil.copytree("crates", copy / "crates", ignore=shutil.ignore_patterns("out"))
        for name in ("crates.txt", "HANDLES"):
            if Path(name).is_file():
                shutil.copy(name, copy / name)
        yield copy


def try_crate(copy: Path, crate: str, kinds: list[str], report: Path) -> None:
    """Tries every mutant of a crate, and says which passed: to be read, as some mean the same."""
    verdict, error = check(copy, crate)
    if verdict != "passed":
        sys.exit(f"{crate} itself is not proved: {error}")
    tally: Counter[str] = Counter()
    with report.open("w") as lines:
        for source in sorted((copy / "crates" / crate / "src").rglob("*.rt")):
            text = source.read_text()
            for mutant in (m for m in mutants(text) if m.kind in kinds):
                source.write_text(mutant.text)
                verdict, error = check_all(copy, [crate, *users(copy, crate, mutant)])
                tally[verdict] += 1
                lines.write(line_of(verdict, source.name, mutant, error))
                lines.flush()
                if verdict == "passed":
                    print(f"{crate} {mutant.function}: {mutant.before} -> {mutant.after}", flush=True)
            source.write_text(text)
    print(crate, sum(tally.values()), "mutants:", ", ".join(f"{tally[v]} {v}" for v in sorted(tally)), flush=True)


def users(copy: Path, crate: str, mutant: Mutant) -> list[str]:
    """The crates above that name the constant which a mutant changes, lowest first."""
    constant = re.search(r"\bconst (\w+)", mutant.before)
    if not constant:
        return []
    order = [line.split(":")[0].split()[0] for line in (copy / "crates.txt").read_text().splitlines() if ":" in line]
    name = re.compile(rf"\b{constant.group(1)}\b")
    above = order[order.index(crate) + 1 :]
    return [user for user in above if any(name.search(s.read_text()) for s in (copy / "crates" / user / "src").rglob("*.rt"))]


def check_all(copy: Path, crates: list[str]) -> tuple[str, str]:
    """The verdict of the first crate that refuses, else that the mutant passed."""
    for crate in crates:
        verdict, error = check(copy, crate)
        if verdict != "passed":
            return verdict, error
    return "passed", ""


def check(copy: Path, crate: str) -> tuple[str, str]:
    """The verdict on the crate as it stands, and the first error."""
    try:
        status, said = run_prover(copy, crate)
    except subprocess.TimeoutExpired:
        return "late", f"no answer within {LIMIT_SECONDS} s"
    if status == 0:
        return "passed", ""
    if status != NOT_PROVED:
        return "late", said.strip()[-200:]
    told = [f"{crate}/{line}" for line in TOLD.findall(said)] or [said.strip()[-200:]]
    first = told[0][:200]
    if not re.search(r"^logic=not-proved", said, re.M) or first.startswith(f"{crate}/specs/"):
        return "unread", first
    of_form = [line for line in told if FORM.search(line)]
    if told[0] not in of_form:
        return "fact", first
    unsafe = next((line for line in told if SAFETY.search(line)), None)
    if unsafe and all("/Answers.antt:" in line for line in of_form):
        return "fact", unsafe[:200]
    return "form", first


def run_prover(copy: Path, crate: str) -> tuple[int, str]:
    """Exit status and output. Nothing that was started is left behind, whatever ends the wait."""
    pipe = subprocess.PIPE
    with subprocess.Popen(
        ["rt", "check"], cwd=copy / "crates" / crate, stdout=pipe, stderr=pipe, text=True, start_new_session=True
    ) as run:
        try:
            said = run.communicate(timeout=LIMIT_SECONDS)
        except BaseException:
            os.killpg(run.pid, signal.SIGKILL)
            raise
    return run.returncode, "".join(said)


def line_of(verdict: str, file: str, mutant: Mutant, error: str) -> str:
    fields = (verdict, file, mutant.function, mutant.kind, mutant.before, mutant.after, error)
    return "\t".join(" ".join(field.split()) for field in fields) + "\n"


if __name__ == "__main__":
    main()
