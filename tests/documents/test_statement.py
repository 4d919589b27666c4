"""Tests that docs/statement.md is what the sources have, that it is whole, and that statement.py sees what is left out.

    python3 -m pytest tests/documents/test_statement.py
"""

from __future__ import annotations

import contextlib
import io
import os
import re
import tempfile
import unittest
from typing import Iterator
from unittest import mock

from tools.markdown import anchor
from tools.places import TOP, text_of
from tools.sources import statement
from tools.sources import statement_sources as sources
from tools.sources.statement_sources import Name, Unclear
from tools.sources.statement_text import GLOSSARY, GROUPS

def clear_caches() -> None:
    for one in vars(sources).values():
        if hasattr(one, "cache_clear"):
            one.cache_clear()


@contextlib.contextmanager
def repository(files: dict[str, str]) -> Iterator[None]:
    """Has the sources be these, below crates/."""
    with tempfile.TemporaryDirectory() as top, mock.patch.object(sources, "TOP", top):
        for path, text in files.items():
            path = os.path.join(top, "crates", path)
            os.makedirs(os.path.dirname(path), exist_ok=True)
            with open(path, "w", encoding="utf-8") as file:
                file.write(text)
        clear_caches()
        try:
            yield
        finally:
            clear_caches()


def stands_in(word: str, code: str) -> bool:
    """Whether a code has a name as a word of its own, or a part of one that is written round its arguments."""
    marks = [re.escape(mark) for mark in word.split("◌") if mark]
    return any(re.search(rf"(?<![^\s(){{}};,]){mark}(?![^\s(){{}};,.])", code) for mark in marks)


def words_used(definition: str, more: str = "") -> set[str]:
    """The names that a definition of the file a/specs/A.antt uses."""
    head = "use Rattle.std.specs.Prelude.{◌+◌, ℕ, List, [], ◌∷◌}\n" + more + "\n"
    with repository({"a/specs/A.antt": head + definition}):
        found = sources.definitions_of("crates/a/specs/A.antt")
        return {name.word for name in list(found.values())[-1].uses}


class Page(unittest.TestCase):
    """The page itself. It is read here by its blocks alone, and the sources by their `use` lines alone."""

    def setUp(self) -> None:
        self.page = text_of("docs/statement.md")
        block = r"^`(crates/[^`]*)`[^`]*(?:`[^`\n]*`[^`]*)*?\n\n```\w*\n(.*?)\n```$"
        self.blocks: list[tuple[str, str]] = re.findall(block, self.page, re.MULTILINE | re.DOTALL)

    def defined(self) -> set[tuple[str, str]]:
        found: set[tuple[str, str]] = set()
        for path, block in self.blocks:
            heads = re.findall(
                r"^(?:abbrev |unfoldable )?pub (?:record |data |struct |enum |)(\w+)", block, re.MULTILINE
            )
            cases = re.findall(r"^  (\w+) :", block, re.MULTILINE)
            found.update((path, word) for word in heads + cases)
        return found

    def test_is_what_the_sources_have(self) -> None:
        self.assertEqual(statement.difference(self.page, statement.page()), [])

    def test_each_block_stands_in_its_file(self) -> None:
        self.assertEqual(2 * len(self.blocks), len(re.findall(r"^```", self.page, re.MULTILINE)))
        for path, block in self.blocks:
            text = text_of(path)
            for part in block.split("\n\n"):
                lines = [line for line in part.split("\n") if line != "}"]
                self.assertTrue(all(line in text for line in lines), f"{path}: {part}")
                if path.endswith(".antt"):
                    self.assertIn(f"\n\n{part}\n", f"\n{text}\n", path)

    def test_each_import_that_a_block_uses_is_there(self) -> None:
        defined = self.defined()
        known = {(crate, word) for crate, lines in GLOSSARY.items() for word, _form, _meaning in lines}
        for path, block in self.blocks:
            code = re.sub(r"--.*|//.*", "", block)
            for crate, module, words in re.findall(r"use Rattle\.(\w+)\.specs\.([\w.]+)\.\{(.*)\}", text_of(path)):
                for word in words.split(", "):
                    old, _as, new = word.partition(" as ")
                    if not stands_in(new or old, code):
                        continue
                    if not os.path.isdir(os.path.join(TOP, "crates", crate)):
                        self.assertIn((crate, old), known, path)
                    elif module.startswith("declared."):
                        kind = re.sub(r"\.The\w+$", "", module).split(".")[-1]
                        self.assertIn(kind, {word for place, word in defined if place.endswith(".rt")}, path)
                    else:
                        self.assertIn((f"crates/{crate}/specs/{module.replace('.', '/')}.antt", old), defined, path)

    def test_each_name_of_its_file_that_a_block_uses_is_there(self) -> None:
        defined = self.defined()
        for path, block in self.blocks:
            names = re.findall(r"^(?:abbrev |unfoldable )?pub (?:record |data |)(\w+)", text_of(path), re.MULTILINE)
            code = re.sub(r"--.*|^  pub \w+ :", "", block, flags=re.MULTILINE)
            for word in names if path.endswith(".antt") else ():
                self.assertTrue((path, word) in defined or not stands_in(word, code), f"{path}: {word}")

    def test_contents_lead_to_headings(self) -> None:
        anchors = {anchor(title) for title in re.findall(r"^## (.*)$", self.page, re.MULTILINE)}
        self.assertLessEqual(set(re.findall(r"\]\(#([^)]*)\)", self.page)), anchors)

    def test_ends_in_what_the_theorem_names(self) -> None:
        self.assertEqual(re.findall(r"^pub record (\w+)", self.page, re.MULTILINE)[-1], "EndsAs")
        self.assertIn("ensures { EndsAs ", self.page.split("## Positions")[0])

    def test_has_the_definitions_of_the_rules(self) -> None:
        # The definitions that docs/rules.md names, but for those of other promises.
        elsewhere = {"IsOver", "IsSeam", "IsOnOpenEdge", "NoOverlap", "NoCrack", "EitherDiagonalSplits"}
        rules = text_of("docs/rules.md").split("## The draw list")[0]
        named = set()
        for paragraph in re.findall(r"\*Definition:\*(.*?)\n\n", rules, re.DOTALL):
            named.update(re.findall(r"`(\w+)`", paragraph))
        self.assertGreater(len(named), 20)
        self.assertEqual(named - elsewhere - {word for _path, word in self.defined()}, set())

    def test_sentences_are_short(self) -> None:
        for group in GROUPS:
            for sentence in re.split(r"(?<=\.) ", group.text):
                self.assertLessEqual(len(sentence.split()), 25, sentence)


class Check(unittest.TestCase):
    """That statement.py fails if the page is not whole."""

    def status(self, *words: str) -> tuple[int, str]:
        with contextlib.redirect_stdout(io.StringIO()) as said:
            status = statement.main(list(words))
        return status, said.getvalue()

    def test_of_a_page_that_differs(self) -> None:
        self.assertEqual(self.status("--check"), (0, "1 passed, 0 failed, 0 skipped\n"))
        with mock.patch.object(statement, "written", lambda: statement.page().replace("128 ∷ []", "127 ∷ []")):
            status, said = self.status("--check")
        self.assertEqual(status, 1)
        self.assertIn("+offsets_x One = 128 ∷ []", said)
        self.assertTrue(said.endswith("0 passed, 1 failed, 0 skipped\n"))

    def test_of_a_definition_in_no_group(self) -> None:
        with mock.patch.object(statement, "GROUPS", GROUPS[1:]):
            self.assertRaisesRegex(Unclear, "stands in 0 groups", statement.page)
            self.assertEqual(self.status("--check")[0], 1)

    def test_of_a_definition_before_what_it_uses(self) -> None:
        with mock.patch.object(statement, "GROUPS", (GROUPS[1], GROUPS[0]) + GROUPS[2:]):
            self.assertRaisesRegex(Unclear, "which the page does not have before it", statement.page)

    def test_of_a_place_with_nothing_to_show(self) -> None:
        idle = GROUPS[0]._replace(places=GROUPS[0].places + ("crates/grid/specs/Seam.antt",))
        with mock.patch.object(statement, "GROUPS", (idle,) + GROUPS[1:]):
            self.assertRaisesRegex(Unclear, "rests on nothing in crates/grid/specs/Seam.antt", statement.page)

    def test_of_the_glossary(self) -> None:
        shorter = {**GLOSSARY, "std": tuple(line for line in GLOSSARY["std"] if line[0] != "Appends")}
        longer = {**GLOSSARY, "std": GLOSSARY["std"] + (("reverse", "reverse xs", "xs, the last element first"),)}
        for changed in (shorter, longer):
            with mock.patch.object(statement, "GLOSSARY", changed):
                self.assertRaisesRegex(Unclear, "Appends|reverse", statement.page)


class Reading(unittest.TestCase):
    """What is read of a definition."""

    def test_names_at_any_depth(self) -> None:
        upper = "use Rattle.b.specs.B.{far}\n\nabbrev pub near : far\nnear = far\n"
        middle = "use Rattle.b.specs.C.{farthest}\nabbrev pub far : farthest\nfar = farthest\n"
        lower = "abbrev pub farthest : Type 0\nfarthest = ⊥\n"
        with repository({"a/specs/A.antt": upper, "b/specs/B.antt": middle, "b/specs/C.antt": lower}):
            ours, others = sources.rests_on([sources.definitions_of("crates/a/specs/A.antt")["near"]])
            self.assertEqual([name.word for name in ours], ["far", "farthest"])
            self.assertEqual(others, set())
        for lacking, said in (
            ({"b/specs/B.antt": middle}, "is not there"), ({"b/specs/B.antt": "\n"}, "no definition far")
        ):
            with repository({"a/specs/A.antt": upper, **lacking}):
                near = sources.definitions_of("crates/a/specs/A.antt")["near"]
                self.assertRaisesRegex(Unclear, said, sources.rests_on, [near])

    def test_variables_are_no_names(self) -> None:
        term = "abbrev pub f : (n : ℕ) → ℕ\nf m = let k : ℕ = m in (λ x y. x + y) k m\n"
        record = "pub record R {T : Type 0} (a b : T) : Type 0 where\n  pub n : ℕ\n  pub of : a + b + n\n"
        for text in (term, record):
            self.assertEqual(words_used(text), {"ℕ", "◌+◌"})

    def test_a_pattern_may_have_the_word_of_a_definition(self) -> None:
        before = "abbrev pub g : ℕ\ng = 0\n\n"
        self.assertEqual(words_used(before + "abbrev pub f : ℕ → ℕ\nf g = g\n"), {"ℕ"})
        self.assertEqual(words_used(before + "abbrev pub f : ℕ → ℕ\nf h = g\n"), {"ℕ", "g"})
        # Bound further in, the word is taken for the name.
        self.assertEqual(words_used(before + "abbrev pub f : ℕ → ℕ\nf h = (λ g. g) h\n"), {"ℕ", "g"})

    def test_cases_and_labels(self) -> None:
        before = "pub data D : Type 0 where\n  one : D\n  more : List D → D\n\n"
        self.assertEqual(words_used('abbrev pub f : ℕ\nf = "a -- b" + 1 -- not g\n'), {"ℕ", "◌+◌"})
        by_cases = "abbrev pub f : List ℕ → ℕ\nf [] = 0\nf (x ∷ xs) = x\n"
        self.assertEqual(words_used(before + by_cases), {"ℕ", "List", "[]", "◌∷◌"})
        self.assertEqual(words_used(before + "abbrev pub f : D → ℕ\nf one = 0\nf (more ds) = 1\n"), {"ℕ", "D"})
        self.assertEqual(words_used(before + "abbrev pub f : ℕ → ℕ\nf n = (record { one = n; more = n }).one\n"), {"ℕ"})

    def test_types_of_rust(self) -> None:
        text = (
            "use b::Inner;\n\n/// What it is.\n#[derive(Clone)]\npub struct Outer {\n    pub at: Option<Inner>,\n}\n\n"
            "impl Model for Outer {\n    ghost use Rattle.a.specs.A.{far};\n    ghost Value = { far };\n}\n"
        )
        inner = "pub enum Inner {\n    Big(u32),\n    Small,\n}\n"
        with repository({"a/src/outer.rt": text, "a/specs/A.antt": "", "b/src/lib.rt": inner}):
            found = sources.type_of("crates/a/src/outer.rt", "Outer")
            self.assertEqual({name.word for name in found.uses}, {"Inner", "Option", "far"})
            self.assertTrue(found.text.startswith("/// What it is.\npub struct Outer {"))
            self.assertTrue(found.text.endswith("impl Model for Outer {\n    ghost Value = { far };\n}"))
            self.assertEqual(sources.type_of("crates/b/src/lib.rt", "Inner").uses, {Name("std", "u32")})
        with repository({"a/src/outer.rt": text.replace("use b::Inner;", ""), "a/specs/A.antt": ""}):
            self.assertRaisesRegex(Unclear, "Inner", sources.type_of, "crates/a/src/outer.rt", "Outer")

    def test_variants_lead_to_their_type(self) -> None:
        variants = "use Rattle.b.specs.declared.kind.Kind.TheVariants"
        text = f"use Rattle.std.specs.Prelude.{{ℕ}}\n{variants} as kind\n{variants}.{{Big as Large}}\n\n"
        text += "abbrev pub f : ℕ\nf = g kind.Small Large\n"
        kinds = {"b/src/kind.rt": "pub enum Kind {\n}\n"}
        with repository({"a/specs/A.antt": text, **kinds}):
            self.assertRaisesRegex(Unclear, "nothing says what g is", sources.definitions_of, "crates/a/specs/A.antt")
        with repository({"a/specs/A.antt": text.replace("= g", "= 0"), **kinds}):
            found = sources.definitions_of("crates/a/specs/A.antt")["f"]
            self.assertIn(Name("crates/b/src/kind.rt", "Kind"), found.uses)
            self.assertEqual(dict(found.renamed), {"kind": "the variants of `Kind`", "Large": "`Big` of `Kind`"})

    def test_what_is_not_understood_is_said(self) -> None:
        for text in (
            "axiom pub f : ℕ\n",
            "abbrev pub f : ℕ\nf = 0\nabbrev pub g : ℕ\ng = 0\n",
            "abbrev pub f : ℕ\ng = 0\n",
            "abbrev pub f : ℕ\nf = h\n",
            "abbrev pub f : ℕ\nf = 1 ∘ 2\n",
            "use Rattle.b.specs.B\n",
        ):
            self.assertRaises(Unclear, words_used, text)

    def test_contracts(self) -> None:
        text = (
            "ghost use Rattle.std.specs.Prelude.{◌≤◌};\nghost use Rattle.a.specs.A.{Far};\nuse std::io::Read;\n\n"
            "/// Reads.\n#[inline]\npub fn run<R: Read>(input: &mut R, count: u32) -> bool\n"
            "    requires some { 1 ≤ count }\n    ensures { Far (R.remaining input.old) result }\n{\n    body()\n}\n"
        )
        with repository({"a/src/lib.rt": text, "a/specs/A.antt": ""}):
            found = sources.contract_of("crates/a/src/lib.rt", "run")
            self.assertEqual({name.word for name in found.uses}, {"Read", "u32", "bool", "◌≤◌", "Far", "remaining"})
            self.assertTrue(found.text.startswith("/// Reads.\npub fn run"))
            self.assertTrue(found.text.endswith("ensures { Far (R.remaining input.old) result }"))
            self.assertRaises(Unclear, sources.contract_of, "crates/a/src/lib.rt", "walk")
