"""What there is in the repository for the papers to cite."""
import re
from functools import cache
from pathlib import Path

TOP = ("crates", "docs", "tests", "tools", "examples", "include", "bench", ".ci")


@cache
def names_of(path):
    """What a file declares or holds: definitions, theorems, fields and cases; functions, types and constants."""
    if path.is_dir():
        return {name for inside in path.iterdir() for name in (inside.name, inside.stem)}
    text = path.read_text()
    if path.suffix == ".antt":
        names = re.findall(r"^\s*(?:(?:abbrev|unfoldable|pub)\s+)*([^\s:(){}]+)\s+:(?:\s|$)", text, re.M)
        return {*names, *re.findall(r"^\s*(?:pub\s+)?(?:record|data)\s+(\S+)", text, re.M)}
    if path.suffix == ".rt":
        names = re.findall(r"\b(?:fn|struct|enum|const|mod)\s+(\w+)", text)
        handed_on = re.findall(r"^pub use [\w:]*::(?:(\w+)|\{([^}]*)\});", text, re.M)
        return {*names, *(word for used in handed_on for word in re.findall(r"\w+", " ".join(used)))}
    return set(re.findall(r"\w+", text))


def words_of(code):
    """Code as its words and signs with a space between, so that a part of it begins and ends with whole words."""
    return " " + " ".join(re.findall(r"\w+|[^\w\s]", code)) + " "


class Repository:
    def __init__(self, root):
        self.root = root
        self.crates = set(re.findall(r"^(\w+)[^:#\n]*:", (root / "crates.txt").read_text(), re.M))
        self.targets = set(re.findall(r"^([a-z_-]+):", (root / "Makefile").read_text(), re.M))
        self.header = set(re.findall(r"\w+", (root / "include/arznavik.h").read_text()))
        # What rt keeps and builds in a crate's out/ is nothing to cite.
        found = [path for path in root.glob("crates/*/*") if path.name != "out"]
        found += [path for top in (*TOP, *found) if top != "crates" for path in (root / top).rglob("*")]
        found += [*root.glob("crates/*"), *root.iterdir()]
        self.files = {path.name for path in found if path.is_file()}
        self.folders = {path.name for path in found if path.is_dir()}
        self.sources = {crate: sorted((root / "crates" / crate / "src").glob("*.rt")) for crate in self.crates}
        self.all_code = [words_of(path.read_text()) for paths in self.sources.values() for path in paths]
        subjects = re.findall(r"^= (\w+)$", (root / "crates/run_cases/stdin").read_text(), re.M)
        self.runs = {subject + "_cases" for subject in subjects} & self.crates
        mutants = (root / "docs/mutants.txt").read_text()
        self.mutants = {*re.findall(r"^(\w+)/\S+ (\w+): ", mutants, re.M),
                        *re.findall(r"^(\w+)/\S+ \(constants\): .*\n\s+(?:pub )?const (\w+)", mutants, re.M)}

    @cache
    def proved(self, place):
        """The file that crate/File or crate/proofs/File means, or None."""
        crate, _, rest = place.removeprefix("crates/").removesuffix(".antt").partition("/")
        paths = [self.root / "crates" / crate / (inside + ".antt") for inside in (rest, "specs/" + rest)]
        return next((path for path in paths if crate in self.crates and path.is_file()), None)

    def bases(self, page="README.md"):
        """Where a path may start: the root, crates/, docs/ or the page's own folder."""
        return (self.root, self.root / "crates", self.root / "docs", (self.root / page).parent)

    @cache
    def path(self, place):
        """The file or folder that a path means, or None."""
        found = [base / place for base in self.bases() if (base / place).exists()]
        return found[0] if found else None

    @cache
    def has_path(self, token, page):
        """A path, stars allowed; or the name of a file anywhere. What is built under target/ is not looked up."""
        token = token.rstrip("/.")
        if token.startswith("target/") or self.proved(token):
            return True
        if "/" not in token:
            return token in TOP or any(Path(name).match(token) for name in self.files)
        return any(any(base.glob(token)) for base in self.bases(page))

    def has_edit(self, crate, name):
        folders = (self.root / "crates" / crate / "must-fail", self.root / "tests/mutants/written" / crate)
        return any((folder / (name + ".edit")).is_file() for folder in folders)

    def has_in_code(self, crate, name, module=None):
        paths = [path for path in self.sources[crate] if module in (None, path.stem)]
        return any(name in names_of(path) for path in paths)

    def has_mutant(self, crate, name):
        """A function or constant of the code that mutants of the list change."""
        return (crate, name) in self.mutants and self.has_in_code(crate, name)

    def has_code_path(self, path):
        """crate::name, or crate::module::name with the name in that module."""
        crate, *modules, name = path.split("::")
        return crate in self.crates and self.has_in_code(crate, name, modules[-1] if modules else None)

    @cache
    def has_code(self, line):
        """Some code that stands in a source file word for word, however it is broken into lines."""
        return any(words_of(line) in code for code in self.all_code)
