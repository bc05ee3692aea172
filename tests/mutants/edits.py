"""Small wrong programs made of a source file: one change each, in the code and never in a contract."""

import re
from typing import Iterator, NamedTuple


class Mutant(NamedTuple):
    """A source text with one change, and what was changed."""

    function: str
    kind: str
    line: int
    before: str
    after: str
    text: str


# What stands for an operator in its mutant. Spaces keep references and generic marks out.
OPERATORS = {
    " < ": " <= ",
    " <= ": " < ",
    " == ": " != ",
    " != ": " == ",
    " + ": " - ",
    " - ": " + ",
    " * ": " + ",
    " / ": " * ",
    " % ": " / ",
    " ^ ": " & ",
    " & ": " | ",
    " << ": " >> ",
    " >> ": " << ",
    " && ": " || ",
    " || ": " && ",
    " += ": " -= ",
    " -= ": " += ",
}

NUMBER = re.compile(r"(?<![\w'\\])(0x[0-9a-f_]+|[0-9][0-9_]*)((?:u8|u16|u32|u64|usize|i64)?)(?!\w)")
CHARACTER = re.compile(r"b'(.)'")
TEXT = re.compile(r'b"([^"\\\\])')
NAME = re.compile(r"(?<![\w:])[A-Z][A-Z0-9_]+(?!\w)")
VARIANT = re.compile(r"\b([A-Z]\w+)::([A-Z]\w+)\b(\(?)(?!\s*\{)")
CALL = re.compile(r"\b[a-z_][\w:]*\(([^()]*(?:\([^()]*\)[^()]*)*)\)")
FUNCTION = re.compile(r"^\s*(?:pub(?:\(crate\))? )?(?:extern \"C\" )?fn (\w+)")
# A line of a contract, a declaration or a comment: no code to change.
PASSED_OVER = re.compile(r"^\s*(//|ensures|requires|ghost|use |pub use|mod |pub mod|pub enum|enum|pub struct|struct|#)")


def mutants(text: str) -> Iterator[Mutant]:
    """All mutants of a source text, in the order of its lines."""
    lines = text.split("\n")
    function = "(constants)"
    for at, line in enumerate(lines):
        found = FUNCTION.match(line)
        if found:
            function = found.group(1)
            continue
        if PASSED_OVER.match(line):
            continue
        for kind, changed in changes(lines, at):
            before = line.strip()
            after = changed[0].strip() if changed else "(dropped)"
            count = dropped(lines, at) if kind == "dropped" else 1
            whole = lines[:at] + changed + lines[at + count :]
            yield Mutant(function, kind, at + 1, before, after, "\n".join(whole))


def changes(lines: list[str], at: int) -> Iterator[tuple[str, list[str]]]:
    """The changes of one line: their kind, and the lines that stand in its place."""
    line = lines[at]
    for new in operators(line):
        yield "operator", [new]
    for new in constants(line, lines):
        yield "constant", [new]
    for new in swapped(line):
        yield "swapped", [new]
    for new in uncalled(line):
        yield "uncalled", [new]
    if dropped(lines, at):
        yield "dropped", []


def operators(line: str) -> Iterator[str]:
    """One operator for another, a test for its opposite."""
    for old, new in OPERATORS.items():
        for start in places(line, old):
            yield line[:start] + new + line[start + len(old) :]
    for found in re.finditer(r"\b(if|while) (!?)(\w+(?:\([^{]*\))?) \{$", line):
        opposite = "" if found.group(2) else "!"
        yield f"{line[:found.start()]}{found.group(1)} {opposite}{found.group(3)} {{"


def constants(line: str, lines: list[str]) -> Iterator[str]:
    """A number one more, another letter, true for false, another name or variant."""
    if line.strip().startswith(("name:", "pub ")) and "const" not in line:
        return
    for found in NUMBER.finditer(line):
        value = int(found.group(1).replace("_", ""), 0)
        yield line[: found.start()] + str(value + 1) + found.group(2) + line[found.end() :]
    for found in CHARACTER.finditer(line):
        yield line[: found.start()] + f"b'{chr(ord(found.group(1)) + 1)}'" + line[found.end() :]
    for found in TEXT.finditer(line):
        yield line[: found.start(1)] + chr(ord(found.group(1)) ^ 1) + line[found.end(1) :]
    for old, new in (("true", "false"), ("false", "true")):
        for found in re.finditer(rf"\b{old}\b", line):
            yield line[: found.start()] + new + line[found.end() :]
    yield from other_names(line, lines)
    yield from other_variants(line, lines)


def other_names(line: str, lines: list[str]) -> Iterator[str]:
    """A named constant for the next that the file names."""
    if "const" in line.split(":")[0]:
        return
    known = sorted({name for other in lines if not other.strip().startswith("//") for name in NAME.findall(other)})
    for found in NAME.finditer(line):
        if len(known) > 1:
            other = known[(known.index(found.group(0)) + 1) % len(known)]
            yield line[: found.start()] + other + line[found.end() :]


def other_variants(line: str, lines: list[str]) -> Iterator[str]:
    """A variant for another of its enum that the file names with as much data."""
    for found in VARIANT.finditer(line):
        enum, name, data = found.groups()
        known = sorted({v for other in lines for e, v, d in VARIANT.findall(other) if (e, d) == (enum, data)})
        if len(known) > 1 and name in known:
            other = known[(known.index(name) + 1) % len(known)]
            yield line[: found.start(2)] + other + line[found.end(2) :]


def swapped(line: str) -> Iterator[str]:
    """Two arguments of a call that stand side by side, swapped."""
    for found in CALL.finditer(line):
        arguments = [part.strip() for part in split_arguments(found.group(1))]
        for i in range(len(arguments) - 1):
            if arguments[i] == arguments[i + 1]:
                continue
            other = arguments[:i] + [arguments[i + 1], arguments[i]] + arguments[i + 2 :]
            yield line[: found.start(1)] + ", ".join(other) + line[found.end(1) :]


def uncalled(line: str) -> Iterator[str]:
    """An argument of a call in place of the call."""
    for found in CALL.finditer(line):
        for argument in split_arguments(found.group(1)):
            if argument.strip():
                yield line[: found.start()] + argument.strip() + line[found.end() :]


def dropped(lines: list[str], at: int) -> int:
    """How many lines a statement has that starts at `at` and can be left out; 0 if none does."""
    line = lines[at].strip()
    if re.match(r"if .*\{$", line) and at + 2 < len(lines):
        if lines[at + 1].strip().startswith("return") and lines[at + 2].strip() == "}":
            return 3
    if line.endswith(";") and not line.startswith(("let ", "return", "const", "pub ", "}", "]", ")")):
        return 1
    return 0


def split_arguments(text: str) -> list[str]:
    """The arguments of a call, cut at the commas that stand in no bracket of their own."""
    parts, depth, start = [], 0, 0
    for at, letter in enumerate(text):
        depth += (letter in "([") - (letter in ")]")
        if letter == "," and depth == 0:
            parts.append(text[start:at])
            start = at + 1
    return parts + [text[start:]]


def places(line: str, part: str) -> Iterator[int]:
    """Where the part stands in the line."""
    at = line.find(part)
    while at >= 0:
        yield at
        at = line.find(part, at + 1)
