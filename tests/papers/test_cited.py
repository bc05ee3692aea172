#!/usr/bin/env python3
"""cited.py would fail: each kind of citation is damaged once in a copy of the papers, and has to be reported.

The first citation of a kind on a page is changed, and a complaint about that very line has to come.
"""
import re
import unittest

from cited import ROOT, check, papers_of
from repository import Repository

CLAIMS = "docs/CLAIMS.md"
# what is damaged, where it is found first, what it becomes
DAMAGES = [
    ("a definition", CLAIMS, r"(\| \w+/[A-Z]\w+ `)([\w-]+)`", r"\1no-\2`"),
    ("a definition behind a comma", CLAIMS, r"(\| \w+/[A-Z]\w+ `[\w-]+`, `)([\w-]+)`", r"\1no-\2`"),
    ("a theorem", CLAIMS, r"(\w+/proofs/\w+ `)([\w-]+)`", r"\1no-\2`"),
    ("a file of definitions", CLAIMS, r"(\| \w+/)([A-Z]\w+ `)", r"\1No\2"),
    ("a theorem of another file", CLAIMS, r"ledger/proofs/EveryList (`every_list`)", r"ledger/proofs/Streams \1"),
    ("a definition of another file", CLAIMS, r"frame/(?!Answers)[A-Z]\w+ (`)", r"frame/Answers \1"),
    ("an edit", CLAIMS, r"(\| link `)(\w+)`", r"\1no_\2`"),
    ("an edit of another crate", CLAIMS, r"\| link (`\w+`)", r"| value \1"),
    ("a mutant", CLAIMS, r"(mutant of \w+ `)(\w+)`", r"\1no_\2`"),
    ("a mutant that was not made", CLAIMS, r"mutant of \w+ `\w+`", "mutant of cases `not_run`"),
    ("a mutant of code that is gone", CLAIMS, r"mutant of \w+ `\w+`", "mutant of value `INTEGER`"),
    ("code that was changed", CLAIMS, r"(` for `)(let [^`]+`)", r"\1no_\2"),
    ("code cut off inside its last word", CLAIMS, r"(` for `[^`]*\w\w)\w`", r"\1`"),
    ("code cut off inside its first word", CLAIMS, r"(` for `)\w(\w[^`]*`)", r"\1\2"),
    ("a function", CLAIMS, r"\| (\w+::\w+::)(\w+)", r"| \1no_\2"),
    ("a run", CLAIMS, r"run (\w+)_cases", r"run no\1_cases"),
    ("a run of what is no subject", CLAIMS, r"run (\w+)_cases", "run run_cases"),
    ("a run behind another", CLAIMS, r"(run \w+_cases, )\w+_cases", r"\1run_cases"),
    ("a path", CLAIMS, r"tests/c/(\w+)\.c", r"tests/c/no_\1.c"),
    ("a history", CLAIMS, r"(examples/histories `)(\w+)`", r"\1no_\2`"),
    ("an id that is there twice", CLAIMS, r"(?m)^\| D1\.2 ", "| D1.1 "),
    ("a row that another refers to", CLAIMS, r"the rows F\.1 to F\.(\d+)", r"the rows F.1 to F.9\1"),
    ("a row without an id", CLAIMS, r"(?m)^\| D1\.2 ", "| "),
    ("a name without a place", CLAIMS, r"A contract is stated once", "A `contract` is stated once"),
    ("an unfinished place", CLAIMS, r"(?m)^(\| D1\.2 \|)", r"\1 TODO"),
    ("a make target", "README.md", r"`make (\w+)`", r"`make no\1`"),
    ("a name of the header", "README.md", r"`arznavik_(\w+)`", r"`arznavik_no_\1`"),
    ("an anchor", "README.md", r"\]\(#([\w-]+)\)", r"](#no-\1)"),
    ("a link", "docs/TESTING.md", r"\]\((\w+\.md)\)", r"](NO\1)"),
]


class Cited(unittest.TestCase):
    def test_each_damage_is_reported(self):
        repository, papers = Repository(ROOT), papers_of(ROOT)
        before = {page: check(repository, page, papers) for page in papers}
        for what, page, found, becomes in DAMAGES:
            with self.subTest(what):
                text = papers[page]
                place = re.search(found, text)
                self.assertIsNotNone(place, f"{page} has nothing of this kind")
                damaged = text[:place.start()] + re.sub(found, becomes, place[0], count=1) + text[place.end():]
                after = check(repository, page, {**papers, page: damaged})
                line = f"{page}:{1 + text[:place.start()].count(chr(10))}:"
                self.assertTrue(any(c.startswith(line) for c in after if c not in before[page]), "not reported")


if __name__ == "__main__":
    unittest.main()
