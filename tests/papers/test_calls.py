#!/usr/bin/env python3
"""What no contract can say of the code: that no function calls itself, directly or through others, but the plain and the
escaped reader of a whole frame, which 01 asks to call each other; and how often a packet's items are walked.

The calls are read off the sources. A function is named crate::module::function, with the module `lib` or `main` for
those of the crate's own file, and a function of an `impl` block crate::module::Type::function. Of a call by a dot the
type is not read: it may be of every such function of that name."""
import re
import unittest
from collections import Counter

from cited import ROOT

FUNCTION = re.compile(r"^( *)(?:pub(?:\(crate\))? )?(?:extern \"C\" )?fn (\w+)(?:<[^(]*>)?\(.*?^\1\}$", re.M | re.S)
IMPL = re.compile(r"^impl\b[^{;]*?(\w+)(?:<[^{;]*>)? \{$.*?^\}$", re.M | re.S)
CALL = re.compile(r"(?<!fn )((?<!\.)\.\s*)?\b((?:\w+::)*)([a-z_]\w*)\s*(?:::<[^()]*>)?\(")
# A function that is handed on by its name, and not called.
PATH_AS_VALUE = re.compile(r"(?<![\w:])((?:[a-z_]\w*::)+)([a-z_]\w*)\b(?!\s*(?:\(|::|!))")
NAME_AS_VALUE = re.compile(r"[(,]\s*([a-z_]\w*)\s*(?=[,)])")
IMPORT = re.compile(r"^(?:pub(?:\(crate\))? )?use ([^;]+);", re.M)
# Comments, attributes, contracts, and what only contracts use.
NO_CODE = re.compile(r"//.*|^ *#!?\[.*\]$|^ *ghost .*|^ +(?:requires|ensures)\*?(?: \w+)? \{.*\}$", re.M)
NO_CALLS = {"if", "while", "match", "return", "for", "in", "let"}
# Forms of the language that this reader of calls does not follow; none of them is in use.
NOT_READ = re.compile(r"\bself::|\bsuper::|\buse [^;]* as |\buse [^;]*\*|\btrait\b|\bmacro_rules\b")
OUTSIDE = {"std"}

READERS = {"frame::unstuffing::read_plain", "frame::unstuffing::read_escaped"}
# The functions that walk all items of a packet. Only the first gives all that one walk finds.
WALKS = {f"packet::reading::{name}" for name in
         ("look_for", "read_packet", "count_all", "count", "find", "behind", "value")}


class Sources:
    """The functions of the repository, or of texts by crate and module, and what they call."""

    def __init__(self, texts):
        bare = {place: NO_CODE.sub("", text) for place, text in texts.items()}
        self.imports = {place: self.imported(text) for place, text in bare.items()}
        self.bodies, self.unread = {}, []
        for place, text in bare.items():
            self.unread += NOT_READ.findall(text)
            own = {block.span(): block[1] for block in IMPL.finditer(text)}
            self.unread += ["impl"] * (len(re.findall(r"^ *(?:unsafe )?impl\b", text, re.M)) - len(own))
            functions = list(FUNCTION.finditer(text))
            self.unread += (Counter(re.findall(r"\bfn (\w+)", text)) - Counter(it[2] for it in functions)).elements()
            for it in functions:
                of = [name for (start, end), name in own.items() if start < it.start() < end]
                self.unread += [it[2]] * (bool(it[1]) != bool(of) or (*place, *of, it[2]) in self.bodies)
                self.bodies[(*place, *of, it[2])] = it[0]
        self.of_types = [name for name in self.bodies if len(name) == 4]
        self.calls = {"::".join(name): self.called(*name) for name in self.bodies}

    @staticmethod
    def imported(text):
        paths = [path for used in IMPORT.findall(text) for path in Sources.paths("".join(used.split()))]
        return {path[-1]: path for path in paths}

    @staticmethod
    def paths(used):
        """The paths of an import, of which a part may be a list in braces."""
        before, brace, inside = used.partition("{")
        if not brace:
            return [used.split("::")]
        parts, depth = [""], 0
        for letter in inside.removesuffix("}"):
            depth += (letter == "{") - (letter == "}")
            if letter == "," and not depth:
                parts.append("")
            else:
                parts[-1] += letter
        found = [path for part in parts if part for path in Sources.paths(before + part)]
        return [path[:-1] if path[-1] == "self" else path for path in found]

    def called(self, crate, module, *names):
        calls, body = Counter(), self.bodies[crate, module, *names]
        for path, name in PATH_AS_VALUE.findall(body):
            if path.split("::")[0] not in OUTSIDE and not is_type(path.split("::")[0]):
                self.unread.append(path + name)
        for name in NAME_AS_VALUE.findall(body):
            is_ours = (crate, module, name) in self.bodies or name in self.imports[crate, module]
            # What is bound stands there once more.
            if is_ours and len(re.findall(rf"\b{name}\b(?!\s*\()", body)) == 1:
                self.unread.append(name)
        for dot, path, name in CALL.findall(body.partition(")")[2]):
            words = [*path.split("::")[:-1], name]
            if dot:
                calls.update("::".join(it) for it in self.of_types if it[3] == name)
            elif path and is_type(words[-2]):
                of = names[0] if words[-2] == "Self" else words[-2]
                calls.update("::".join(it) for it in self.of_types if it[2:] == (of, name))
            elif name not in NO_CALLS or path:
                calls["::".join(self.meant(crate, module, words))] += 1
        return calls

    def meant(self, crate, module, words):
        """The function that a path names in a module."""
        if words[0] in OUTSIDE:
            return words
        imported = self.imports[crate, module].get(words[0], words)
        if imported not in (words, words[:1]):
            return self.meant(crate, module, [*imported, *words[1:]])
        if words[0] == "crate":
            words = [crate, *words[1:]]
        elif (crate, words[0]) in self.imports:
            words = [crate, *words]
        elif len(words) == 1:
            words = [crate, module, *words]
        return self.exported(words)

    def exported(self, words):
        """A name that a crate hands on stands in one of its modules."""
        if tuple(words) in self.bodies:
            return words
        for top in ("lib", "main"):
            own = [words[0], top, *words[1:]]
            if tuple(own) in self.bodies:
                return own
            handed_on = self.imports.get((words[0], top), {}).get(words[-1])
            if len(words) == 2 and handed_on:
                return self.meant(words[0], top, handed_on)
        self.unread.append("::".join(words))
        return words

    def reached(self, start):
        """What a function calls, directly or through others."""
        seen, left = set(), list(self.calls[start])
        while left:
            name = left.pop()
            if name in self.calls and name not in seen:
                seen.add(name)
                left.extend(self.calls[name])
        return seen

    def circles(self):
        return {name for name in self.calls if name in self.reached(name)}


def is_type(word):
    return word[0].isupper() or re.fullmatch(r"[iu](?:8|16|32|64|128|size)|bool|char|str", word)


def repository():
    paths = ROOT.glob("crates/*/src/**/*.rt")
    return Sources({(path.relative_to(ROOT).parts[1], path.stem): path.read_text() for path in paths})


class Calls(unittest.TestCase):
    def test_no_function_calls_itself(self):
        self.assertEqual(repository().circles(), READERS)

    def test_looks_at_a_packet(self):
        sources = repository()
        for crate, most in (("board", 2), ("transfer", 5)):
            walks = Counter()
            for name, calls in sources.calls.items():
                if name.startswith(f"{crate}::"):
                    walks.update({walk: count for walk, count in calls.items() if walk in WALKS})
            self.assertEqual(walks, {"packet::reading::look_for": most}, crate)

    def test_every_call_is_read(self):
        sources = repository()
        self.assertEqual(sources.unread, [])
        self.assertIn("packet::items::read_items", sources.reached("display::lib::receive"))
        self.assertIn("packet::items::read_items", sources.reached("transfer::taking::take"))

    def test_forms_of_a_call(self):
        imports = ("use other::more;\nuse crate::deep;", "use other::{less, more};\nuse crate::{deep, deep::again};",
                   "use other::{\n    self,\n    inner::{less, more},\n};\nuse crate::deep::{self};")
        forms = ("again(n)", "again (n)", "again::<u8>(n)", "deep::again(n)", "crate::deep::again(n)", "more(n)", "other::more(n)",
                 "0..again(n)", "n.more()", "Deep::deeper(n)")
        for used in imports:
            for form in forms:
                texts = {
                    ("one", "lib"): "mod deep;\npub use deep::{again, less};\n",
                    ("one", "deep"): "%s\n\npub fn again(n: usize) -> usize {\n    %s\n}\n" % (used, form),
                    ("other", "lib"): "mod inner;\npub use inner::more;\n",
                    ("other", "inner"): "pub fn more<T: Copy>(n: usize) -> usize {\n    one::again(n)\n}\n\n"
                                        "impl Deep {\n    pub fn more(self) -> usize\n        ensures low { again }\n"
                                        "    {\n        Self::deeper(self)\n    }\n\n"
                                        "    fn deeper(self) -> usize {\n        one::again(self.0)\n    }\n}\n",
                }
                sources = Sources(texts)
                self.assertIn("one::deep::again", sources.circles(), (used, form))
                self.assertEqual(sources.unread, [], (used, form))

    def test_forms_that_are_not_read(self):
        for form in ("self::again(n)", "super::deep::again(n)", "unknown::again(n)", "nobody(n)", "n.map(deep::again)",
                     "n.fold(0, again)"):
            text = "pub fn again(n: usize) -> usize {\n    %s\n}\n" % form
            self.assertNotEqual(Sources({("one", "lib"): text}).unread, [], form)
        for line in ("use deep::again as more;", "use deep::*;", "use deep::{again as more, less};", "use deep::{more::*};",
                     "impl Deep {", "trait Deep {", "    fn again(n: usize) -> usize {\n        n\n    }"):
            self.assertNotEqual(Sources({("one", "lib"): line + "\n"}).unread, [], line)


if __name__ == "__main__":
    unittest.main()
