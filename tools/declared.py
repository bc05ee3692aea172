#!/usr/bin/env python3
"""Prints what is declared otherwise than at a commit, old beside new, as Markdown.

    tools/declared.py COMMIT     public functions with their clauses, public types and constants of crates/*/src; definitions of
                                 crates/*/specs; theorems of crates/*/proofs, which are those that a comment calls so or that
                                 README.md or docs/ name at the commit or now

A text that differs only in spaces is the same.
"""
import re
import subprocess
import sys
from pathlib import Path

ROOT = Path(__file__).resolve().parents[1]

ITEM = re.compile(r"^ *pub (?:(?:const|extern \"C\"|unsafe|static) )*(fn|struct|enum|type|const|static|trait) ?(\w+)", re.M)
IMPL = re.compile(r"^impl(?:<[^{]*?>)? (?:[^{]*? for )?(\w+)[^{]*\{$")
HEAD = re.compile(r"^( *)((?:pub |abbrev |unfoldable |data |record |ruleset )*)([^\s:(){}=]+)((?: |$).*)$")


def files(commit, folder, ending):
    """Text by path, of a commit or, with None, of the working tree."""
    if commit is None:
        return {p.relative_to(ROOT).as_posix(): p.read_text() for p in sorted(ROOT.glob(f"crates/*/{folder}/**/*.{ending}"))
                if "/out/" not in p.as_posix()}
    names = subprocess.run(["git", "ls-tree", "-r", "--name-only", commit, "crates"], cwd=ROOT, text=True, capture_output=True, check=True)
    found = [n for n in names.stdout.splitlines() if re.fullmatch(rf"crates/\w+/{folder}/.*\.{ending}", n)]
    show = lambda n: subprocess.run(["git", "show", f"{commit}:{n}"], cwd=ROOT, text=True, capture_output=True, check=True).stdout
    return {n: show(n) for n in found}


def of_source(text):
    """The public items of a source file: a function's head with its clauses, a type or a constant whole."""
    found, lines, owner = {}, text.splitlines(), ""
    for at, line in enumerate(lines):
        if impl := IMPL.match(line):
            owner = impl[1] + "."
        elif line == "}":
            owner = ""
        if not (item := ITEM.match(line)):
            continue
        end = at
        if item[1] == "fn":
            while not re.match(r"^ *\{$|.*;$|.* \{$", lines[end]):
                end += 1
            body = lines[at:end] + [lines[end].removesuffix("{")]
        else:
            while not re.search(r"[;}]$", lines[end]) or not (lines[end].startswith("}") or end == at or lines[end].endswith(";")):
                end += 1
            body = [it for it in lines[at:end + 1] if not it.strip().startswith("//")]
        if item[1] in ("const", "static") and len(body) > 6:
            body = body[:1] + ["    .."] + body[-1:]
        found[owner + item[2]] = "\n".join(it for it in body if it.strip())
    return found


def of_proof_file(text, whole):
    """The declarations of an .antt file, whole or the statements alone, and which of them a comment calls a theorem."""
    found, theorems, comment = {}, set(), ""
    paragraphs = re.split(r"\n\s*\n", text)
    for paragraph in paragraphs:
        current, lines = None, []
        for line in paragraph.splitlines():
            if line.strip().startswith("--"):
                if current:
                    found.setdefault(current, "\n".join(lines))
                    current, lines = None, []
                comment += line
                continue
            if re.match(r"^ *(module|use|where|unfolding|pub mod|ruleset|pub ruleset)\b", line) and not current:
                continue
            head = HEAD.match(line)
            starts = head and (re.match(r"^ *:", head[4]) or re.search(r"\b(data|record)\b", head[2]) and head[2].strip())
            if starts and (not current or len(head[1]) <= indent):
                if current:
                    found.setdefault(current, "\n".join(lines))
                current, lines, indent = head[3], [line], len(head[1])
                if "THEOREM" in comment:
                    theorems.add(current)
                continue
            if current:
                if not whole and re.match(rf"^ *(?:unfolding\b|where\b|{re.escape(current)}[ \n=])", line):
                    found.setdefault(current, "\n".join(lines))
                    current, lines = None, []
                    continue
                lines.append(line)
        if current:
            found.setdefault(current, "\n".join(lines))
        comment = ""
    return found, theorems


def named_in_papers(commit):
    def page(name):
        if commit is None:
            return (ROOT / name).read_text() if (ROOT / name).exists() else ""
        return subprocess.run(["git", "show", f"{commit}:{name}"], cwd=ROOT, text=True, capture_output=True).stdout
    names = subprocess.run(["git", "ls-tree", "-r", "--name-only", commit or "HEAD", "README.md", "docs"], cwd=ROOT, text=True, capture_output=True).stdout
    pages = [n for n in names.splitlines() if n.endswith(".md") and n not in ("docs/PORT.md", "docs/DESIGN-PASS.md")]
    return {word for n in pages for span in re.findall(r"`([^`\n]+)`", page(n)) for word in re.findall(r"[^\s,]+", span)}


def same(a, b):
    return re.sub(r"\s+", " ", a).strip() == re.sub(r"\s+", " ", b).strip()


def dedented(text):
    lines = text.splitlines()
    least = min((len(it) - len(it.lstrip()) for it in lines if it.strip()), default=0)
    return "\n".join(it[least:] for it in lines)


def printed(title, old, new):
    """One place, or nothing where it is the same."""
    rows = []
    for name in [*old, *(n for n in new if n not in old)]:
        a, b = old.get(name), new.get(name)
        if a is not None and b is not None and same(a, b):
            continue
        rows += ["  old: " + (dedented(a).replace("\n", "\n       ") if a is not None else f"({name} was not there)"),
                 "  new: " + (dedented(b).replace("\n", "\n       ") if b is not None else f"({name} is gone)"), ""]
    return [title, *rows] if rows else []


def main():
    commit = sys.argv[1]
    out = []
    for heading, folder, ending in (("Source", "src", "rt"), ("Definitions", "specs", "antt"), ("Theorems", "proofs", "antt")):
        before, after = files(commit, folder, ending), files(None, folder, ending)
        papers = named_in_papers(commit) | named_in_papers(None)
        section = []
        for path in sorted({*before, *after}):
            if re.search(r"/proofs/.*(Goals|Answers|Invariants)\.antt$", path):
                continue
            a, b = before.get(path, ""), after.get(path, "")
            if ending == "rt":
                old, new = of_source(a), of_source(b)
            else:
                (old, t), (new, u) = of_proof_file(a, folder == "specs"), of_proof_file(b, folder == "specs")
                if folder == "proofs":
                    keep = lambda d: {n: v for n, v in d.items() if n in t | u or n in papers and v.lstrip().startswith("pub ")}
                    old, new = keep(old), keep(new)
            section += printed(path.removeprefix("crates/").replace("/", " "), old, new)
        out += [f"### {heading}", "", "```", *section, "```", ""]
    print("\n".join(out))


if __name__ == "__main__":
    main()
