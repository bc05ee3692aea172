#!/usr/bin/env python3
"""What README.md quotes is what there is: the output of `make run`, the theorem's statement, the crates in their
order, and C that compiles."""
import os
import re
import subprocess
import unittest

from cited import ROOT

TEXT = (ROOT / "README.md").read_text()
BLOCKS = re.findall(r"^```(c?)\n(.*?)^```$", TEXT, re.M | re.S)


class Readme(unittest.TestCase):
    def test_output_of_make_run(self):
        expected = (ROOT / "examples/histories/case_6.expected").read_text()
        self.assertIn(("", expected), BLOCKS)

    def test_statement_of_the_theorem(self):
        statement = " ".join((ROOT / "crates/ledger/proofs/EveryList.antt").read_text().split())
        block = next(text for _, text in BLOCKS if text.startswith("every_list"))
        for line in block.splitlines():
            quoted = re.split(r"  +", line)[0]
            self.assertIn(quoted, statement)

    def test_order_of_the_crates(self):
        rows = [line.partition("#")[0] for line in (ROOT / "crates.txt").read_text().splitlines()]
        lines = [(row.split()[0].removesuffix(":"), row.partition(":")[2]) for row in rows if row.strip()]
        table = TEXT.partition("| crate | what lives there |")[2].partition("\n\n")[0]
        named = [name for cell in re.findall(r"^\|([^|]*)\|", table, re.M) for name in re.findall(r"`(\w+)`", cell)]
        own = [name for name, _ in lines]
        self.assertEqual(own, named)
        for place, (name, needed) in enumerate(lines):
            later = set(needed.split()) & set(own[place:])
            self.assertFalse(later, f"{name} stands on crates behind it")

    def test_snippet_compiles(self):
        command = [os.environ.get("CC", "cc"), "-std=c99", "-Wall", "-Wextra", "-Wpedantic", "-Werror",
                   "-fsyntax-only", "-I", str(ROOT / "include"), "-x", "c", "-"]
        snippet = next(text for language, text in BLOCKS if language == "c")
        subprocess.run(command, input=snippet, text=True, check=True)


if __name__ == "__main__":
    unittest.main()
