#!/usr/bin/env python3
"""Brings the names of this repository's own definitions and lemmas to snake case.

usage: tools/respell.py          at the top of the repository, once, after the toolchain's script for older repositories
       tools/respell.py --list   the names and what they become, and nothing else

A name that a file of specs/ or of laws in proofs/ declares, and that has a hyphen or a capital inside it, is written
with underscores: stuffByte and stuff-byte become stuff_byte. Names of the toolchain's library, of generated modules and
of code stay. Where two names of one file would fall together, TOGETHER says what becomes of one of them.
"""

import os
import re
import subprocess
import sys

NAME = r"[a-z][\w'′]*(?:-[\w'′]+)*"
TOKEN = re.compile(r"[^\W\d][\w'′]*(?:-[\w'′]+)*")
DECLARED = re.compile(rf"^\s*(?:(?:pub|abbrev|unfoldable)\s+)*({NAME})\s*:(?:\s|$)")
LET = re.compile(rf"\blet ({NAME})\s*[:=]")
BOUND = re.compile(rf"[({{]\s*((?:{NAME}\s+)+):\s")
LAMBDA = re.compile(rf"λ ((?:{NAME}\s*)+)\.")
ALIAS = re.compile(rf"^\s*(?:ghost )?use ([\w.+'-]+) as ({NAME});?\s*$", re.M)
USE = re.compile(r"^\s*(?:ghost )?use ([\w.+'-]+)(?:\.\{([^}]*)\}| as ([\w'-]+))?;?\s*$")

# A lemma that had its definition's name but for the spelling is that definition's law.
LAWS = """after-history all-handed bad-header between-flags by-type check-over cut_by escaped-length flag-turn form-at
fresh-sender may-join no_place no-reserved-bit none-held other-check packet-items place-from read-update refused-event
refused-piece repeats-if reply-heard reset-ack-good reset-ack-number reset-heard row-at row-names same_bytes seen_by send-filled
sending-told sent-by sequences-sent short-call told-by told-up""".split()
TOGETHER = {name: name.replace("-", "_") + "_law" for name in LAWS} | {
    "at_flag": "behind_a_flag",
    "by-sender": "from_sender",
    "file-request": "file_request_call",
    "handed-on": "frame_handed_on",
    "handedOut": "handed_out_now",
    "packet-room": "room_for_packet",
    "property-get": "property_get_call",
    "read-frame": "read_frame_call",
    "reply-room": "room_for_reply",
    "write-frame": "write_frame_call",
}


def snake(name):
    return re.sub(r"(?<=[a-z0-9])([A-Z])", r"_\1", name.replace("-", "_")).lower()


def files(*endings):
    listed = subprocess.run(["git", "ls-files", "-z"], capture_output=True, text=True, check=True).stdout
    return [f for f in listed.split("\0") if f.endswith(endings) and os.path.exists(f)]


def text_of(path):
    with open(path, encoding="utf-8") as f:
        return f.read()


def is_law(path):
    parts = path.split("/")
    return len(parts) == 4 and parts[0] == "crates" and parts[2] in ("specs", "proofs")


def is_own(module):
    """Whether a path names definitions or laws of this repository, and no generated module."""
    parts = module.split(".")
    return len(parts) == 4 and parts[0] == "Rattle" and os.path.isdir("crates/" + parts[1])


def record_fields(text):
    inside = None
    for line in text.splitlines():
        indent = len(line) - len(line.lstrip())
        if inside is not None and line.strip() and indent <= inside:
            inside = None
        if inside is not None:
            m = DECLARED.match(line)
            if m:
                yield m.group(1)
        elif re.match(r"\s*(?:pub )?record .*where\s*$", line):
            inside = indent


def own_names():
    """The names that are declared, those of them that are fields, and the names of the library."""
    declared, fields, kit = set(), set(), set()
    for path in files(".antt", ".rt"):
        text = text_of(path)
        for line in text.splitlines():
            m = USE.match(line)
            if m and m.group(2) and not is_own(m.group(1)):
                kit |= {n.split(" as ")[0].strip() for n in m.group(2).split(",")}
        if not path.endswith(".antt") or not is_law(path):
            continue
        fields |= set(record_fields(text))
        declared |= {m.group(2) for m in ALIAS.finditer(text)}
        for line in text.splitlines():
            if line.lstrip().startswith("--"):
                continue
            declared |= {m.group(1) for m in [DECLARED.match(line)] if m}
            declared |= {m.group(1) for m in LET.finditer(line)}
            for m in list(BOUND.finditer(line)) + list(LAMBDA.finditer(line)):
                declared |= set(m.group(1).split())
    return declared, fields, kit


def table():
    declared, fields, kit = own_names()
    renamed = {n: TOGETHER.get(n) or snake(n) for n in declared if n not in kit}
    return {a: b for a, b in renamed.items() if a != b}, fields


def respell_line(line, renamed, fields, aliases):
    m = USE.match(line)
    if m:
        head, names = line.partition("{")[:2], line.partition("{")[2]
        if m.group(2) is not None:
            return head[0] + head[1] + TOKEN.sub(lambda t: renamed.get(t.group(0), t.group(0)) if is_own(m.group(1)) else t.group(0), names)
        if m.group(3) is not None:
            before, word, alias = line.rpartition(" as ")
            return before + word + TOKEN.sub(lambda t: renamed.get(t.group(0), t.group(0)), alias)
        return line
    comment = re.match(r"\s*(--|//)", line)

    def one(t):
        name = t.group(0)
        if comment and "-" in name and not in_ticks(line, t.start()):
            return name
        if line[t.start() - 1:t.start()] == "." and t.start() and name not in fields:
            receiver = re.search(r"([\w'-]+)\.$", line[:t.start()])
            if not (receiver and receiver.group(1) in aliases):
                return name
        return renamed.get(name, name)

    return TOKEN.sub(one, line)


def in_ticks(line, at):
    return line[:at].count("`") % 2 == 1


def respell(text, renamed, fields):
    aliases = {m.group(2) for m in ALIAS.finditer(text) if is_own(m.group(1))}
    return "\n".join(respell_line(line, renamed, fields, aliases) for line in text.split("\n"))


def code_lines(text, renamed, fields):
    """Of a source file only imports, clauses and comments."""
    depth, out = 0, []
    for line in text.split("\n"):
        clause = depth > 0 or re.match(r"\s*(requires|ensures|ghost)\b", line)
        if clause and not re.match(r"\s*ghost use", line):
            depth += line.count("{") - line.count("}")
        if clause or re.match(r"\s*//", line):
            line = respell_line(line, renamed, fields, set())
        out.append(line)
    return "\n".join(out)


def write(path, new):
    if new != text_of(path):
        with open(path, "w", encoding="utf-8") as f:
            f.write(new)


def main(argv):
    renamed, fields = table()
    if argv == ["--list"]:
        print("\n".join(f"{a} {renamed[a]}" for a in sorted(renamed)))
        return 0
    for path in files(".antt"):
        write(path, respell(text_of(path), renamed, fields))
    for path in files(".rt"):
        if path.startswith("crates/"):
            write(path, code_lines(text_of(path), renamed, fields))
    return 0


if __name__ == "__main__":
    raise SystemExit(main(sys.argv[1:]))
