"""Tests that what the documents name is there: files, definitions, commands, and the calls and clauses of the promises.
Also that each public definition of specs/ has a sentence of its own, above it and in its crate's Lib.antt.

    python3 -m pytest tests/documents/test_documents.py
"""

from __future__ import annotations

import glob
import os
import re
import tempfile
import unittest
from unittest import mock

from tools import definitions as lines, places
from tests.reference import canvas_mutants, mutants, renderer, sample_patterns
from tools.ci import checks
from tools.markdown import anchor, rows
from tools.places import TOP, text_of
from tools.sources import contracts as contracts_of_crates, layers, promises
from tools.sources.rattle import definitions_in, functions_in
from tools.sources.public_calls import CRATES, calls_in, calls_of, given_out, named_calls, public_calls

PATH = re.compile(r"`((?:[a-z_.]+/)+[\w.-]+\.(?:antt|rt|md|py|json|png|1|c|cpp|txt))`")


# A link to a file of the repository, to a part of one, or to a part of the page itself.
LINK = re.compile(r"\]\((?!\w+:)([\w./-]*)(?:#([^)]*))?\)")


def without_code(text: str) -> str:
    """A document without its blocks of code."""
    return re.sub(r"(?ms)^```.*?^```$", "", text)


def anchors(text: str) -> set[str]:
    """The names by which links find the headings of a document, as GitHub makes them."""
    heads = re.findall(r"(?m)^#+ (.*)$", without_code(text))
    return set(map(anchor, heads))


def documents() -> dict[str, str]:
    names = ["README.md", "CHANGELOG.md", "CONTRIBUTING.md", "RELEASING.md", "STYLE.md"]
    names += [
        os.path.join(folder, "README.md") for folder in ("crates", "examples", os.path.join("tests", "regressions"))
    ]
    names += places.files("docs", "**", "*.md")
    return {name: text_of(name) for name in names}


def sources(pattern: str) -> dict[str, str]:
    return {path: text_of(path) for path in places.files("crates", "*", pattern)}


def contracts() -> dict[str, set[str | None]]:
    """The names of clauses that stand under each name of a call, in any crate."""
    found: dict[str, set[str | None]] = {}
    for text in sources("src/**/*.rt").values():
        for call in functions_in(text):
            found.setdefault(call.name, set()).update(call.clauses)
    return found


def parts() -> dict[str, set[str | None]]:
    """The fields of each definition in the specs of any crate."""
    found: dict[str, set[str | None]] = {}
    for text in sources("specs/**/*.antt").values():
        for one in definitions_in(text):
            found.setdefault(one.name, set()).update(one.fields)
    return found


class Names(unittest.TestCase):
    def test_files(self) -> None:
        for name, text in documents().items():
            for path in set(PATH.findall(text)):
                # A file is named from the top, from the document's folder, from crates/, from a crate, or as a wheel
                # has it; one that a command makes is not there before it.
                folders = (
                    (), (os.path.dirname(name),), ("crates",), ("crates", "*"), ("crates", "*", "src"),
                    ("python", "src"),
                )
                places = [os.path.join(TOP, *folder, path) for folder in folders]
                if not path.startswith(("out/", "conformance/out/", "crates/NAME/", "trirast/lib/")):
                    self.assertTrue(any(map(glob.glob, places)), f"{name}: {path}")

    def test_statement_is_short(self) -> None:
        self.assertLessEqual(text_of("docs/statement.md").count("\n"), 3000)

    def test_links(self) -> None:
        texts = documents()
        for name, text in texts.items():
            for page, anchor in LINK.findall(without_code(text)):
                path = os.path.normpath(os.path.join(os.path.dirname(name), page)) if page else name
                self.assertTrue(os.path.exists(os.path.join(TOP, path)), f"{name}: {page}")
                if anchor and path in texts:
                    self.assertIn(anchor, anchors(texts[path]), f"{name}: {page}#{anchor}")

    def test_index_has_each_page(self) -> None:
        linked = {page for page, _anchor in LINK.findall(text_of("docs/README.md"))}
        every = {os.path.relpath(path, "docs") for path in places.files("docs", "**", "*.md")}
        pages = {path for path in every if not path.startswith("generated")} - {"README.md"}
        self.assertEqual(pages - linked, set())

    def test_commands(self) -> None:
        rules = text_of("Makefile") + "".join(map(text_of, places.files("packaging", "*.mk")))
        targets = set(re.findall(r"^([\w-]+):", rules, re.MULTILINE)) | {check.name for check in checks.CHECKS}
        for name, text in documents().items():
            named = re.findall(r"`make ([\w-]+)`", text) + re.findall(r"^make ([\w-]+)", text, re.MULTILINE)
            self.assertLessEqual(set(named), targets, name)

    def test_definitions_of_the_rules(self) -> None:
        definitions = sources("specs/**/*.antt")
        for paragraph in re.findall(r"\*Definition:\*(.*?)\n\n", text_of("docs/rules.md"), re.DOTALL):
            files = [definitions[path] for path in re.findall(r"`(crates/[\w/.]+\.antt)`", paragraph)]
            self.assertTrue(files, paragraph)
            for name in re.findall(r"`(\w+)`", paragraph):
                stands = re.compile(
                    rf"^(?:(?:pub|abbrev|record|data|opaque|unfoldable) )*{name} (?:.*)?:", re.MULTILINE
                )
                self.assertTrue(any(stands.search(text) for text in files), f"{name}: {paragraph}")

    def test_faults_of_lists(self) -> None:
        pairs = [pair for pair in vars(renderer).values() if isinstance(pair, tuple) and len(pair) == 2]
        kinds = [pair for pair in pairs if isinstance(pair[-1], str)]
        self.assertEqual([number for number, _name in kinds], [1, 2, 3, 4, 5, 6, 7, 9, 10])
        for number, name in kinds:
            self.assertIn(f"| {number} | `{name}` |", text_of("docs/draw-list.md"))
            self.assertIn(f"{number} {name}", text_of("docs/trirast.1"))

    def test_lines_of_the_program(self) -> None:
        page = text_of("docs/trirast.1")
        texts = {path.split(os.sep)[1]: "" for path in sources("src/**/*.rt")}
        for path, text in sources("src/**/*.rt").items():
            texts[path.split(os.sep)[1]] += text
        lines = {line.rstrip() for line in re.findall(r'"(trirast: [a-z ]+)', texts["engine"] + texts["program_input"])}
        self.assertLessEqual({"trirast: list fault", "trirast: out of memory"}, lines)
        # What workers report is drawn again by the calling thread, so the program never prints it.
        for line in lines - {"trirast: pool fault"}:
            self.assertIn(line, page)

    def test_crates(self) -> None:
        page = text_of(layers.DIAGRAM)
        self.assertEqual(text_of(layers.LIST), layers.listing())
        self.assertEqual(page, layers.with_diagram(page))
        # Each crate has its line of what it does, and stands on those before it and on the toolchain's.
        before: set[str] = set()
        every = [one for layer in layers.layers() for one in layer.crates]
        self.assertEqual(
            {one.name for one in every}, {path.split(os.sep)[1] for path in places.files("crates", "*", "src")}
        )
        trusted = text_of("docs/proofs.md").split("## Trusted")[1].split("\n## ")[0]
        for one in every:
            self.assertRegex(one.does, r"^[A-Z`].*\.$", one.name)
            self.assertLessEqual(set(one.uses), before | set(re.findall(r"`(\w+)`", trusted)), one.name)
            before.add(one.name)

    def test_what_c_libraries_carry(self) -> None:
        # No reader of JSON is below the library for canvases, and no reader of arguments below the other one.
        self.assertNotIn("serde_json", layers.reached("canvas_c"))
        self.assertNotIn("clap", layers.reached("trirast_c"))
        # Programs that read both stand on both, by crates between.
        self.assertLessEqual({"serde_json", "clap"}, layers.reached("trirast_cli"))

    def test_number_of_mutants(self) -> None:
        page = " ".join(text_of("docs/proofs.md").split())
        self.assertIn(f"each of {len(mutants.MUTANTS)} mutants of the reference renderer", page)
        self.assertIn(f"that of canvases each of {len(canvas_mutants.EVERY)},", page)

    def test_sample_patterns(self) -> None:
        table = text_of("docs/rules.md").split("## Sample positions")[1].split("\n\n")[2]
        found: dict[int, tuple[tuple[int, int], ...]] = {}
        for samples, positions in list(rows(table))[1:]:
            count = int(samples.split(",")[0])
            pairs = re.findall(r"\((-?\d),(-?\d)\)", positions)
            found[count] = found.get(count, ()) + tuple((int(x), int(y)) for x, y in pairs)
        self.assertEqual(found, renderer.PATTERNS)
        self.assertEqual(text_of("docs/samples.svg"), sample_patterns.svg())


class Proofs(unittest.TestCase):
    """What carries each promise: calls, and behind a colon the names of their clauses or of a record's parts."""

    def test_calls_and_clauses(self) -> None:
        known = {**parts(), **contracts()}
        types = set(re.findall(r"\b(?:struct|enum|trait) (\w+)", "".join(sources("src/**/*.rt").values())))
        types |= parts().keys()
        clauses: set[str | None] = set()
        for _words, carriers in promises.promises():
            carriers = re.sub(r"\(.*?\)", "", carriers)
            words = [word.split("::")[-1] for word in re.findall(r"`([\w:]+)`", carriers)]
            # "The same" calls are those of the row above.
            clauses = clauses if carriers.startswith("the same") else set()
            clauses = clauses.union(*(known.get(word, set()) for word in words))
            for word in words:
                is_there = word in (types if word[0].isupper() else known.keys() | clauses)
                self.assertTrue(is_there, f"{word} is nowhere: {carriers}")
            for part in carriers.split(";"):
                head, _colon, named = part.partition(": ")
                if not re.search(r"[A-Z]\w*`$", head):
                    for word in re.findall(r"`(\w+)`", named):
                        self.assertTrue(word in clauses or word[0].isupper(), f"{word} is no clause: {carriers}")

    def test_every_public_call_is_named(self) -> None:
        public = public_calls()
        named = set().union(*(named_calls(carriers, public) for _words, carriers in promises.promises()))
        tested = text_of("docs/proofs.md").split("## What is only tested")[1].split("\n## ")[0]
        self.assertEqual(sorted(public - named - set(re.findall(r"`([\w:]+)`", tested))), [])

    def test_the_page_of_promises_is_written(self) -> None:
        self.assertEqual(text_of(promises.PAGE), promises.page(), "run python3 -m tools.sources.promises")

    def test_public_calls_are_read_of_sources(self) -> None:
        root = "pub use a::Shape;\npub use b::{\n    draw,\n    Job,\n};\nmod c;\npub fn version() {}\n"
        self.assertEqual(given_out(root), {"Shape", "draw", "Job", "version"})
        text = """\
pub fn draw() {
    fn inside() {}
}
pub fn hidden() {}
pub(crate) fn draw() {}
impl<'a, T: Into<u8>> Shape<'a, T> {
    pub fn side(&self) {}
    pub(crate) fn area(&self) {}
    fn own(&self) {}
}
impl Clone for Shape {
    pub fn clone(&self) {}
}
pub trait Job: Sync {
    fn work(&self);
}
impl Hidden {
    pub fn new() {}
}
pub extern "C" fn version() {}
"""
        calls = set(calls_in(text, "plain", given_out(root)))
        self.assertEqual(calls, {"plain::draw", "Shape::side", "Job::work", "plain::version"})
        self.assertLessEqual({call.split("::")[0] for call in public_calls() if call[0].islower()}, set(CRATES))

    def test_calls_are_read_of_cells(self) -> None:
        public = {
            "Tri::covers", "Tri::new", "Row::new", "Row::step", "Row::value", "grid::side", "reference::draw",
            "trirast::draw",
        }
        for cell, named in (
            ("`grid::Tri::covers`: its clause", {"Tri::covers"}),
            ("`Row`: `new`, `step`: their clauses; `value`: `new`", {"Row::new", "Row::step", "Row::value"}),
            ("`Tri::new`: `step` (`Row::step`); `side`: its clause", {"Tri::new", "grid::side"}),
            ("`reference::draw` and `draw`", {"reference::draw"}),
            ("`Tri::new`; `draw`: its clause", {"Tri::new"}),
        ):
            self.assertEqual(named_calls(cell, public), named, cell)

    def test_each_crate_has_its_contract(self) -> None:
        self.assertEqual(list(contracts_of_crates.lines(contracts_of_crates.CONTRACT)), layers.product())
        self.assertEqual(
            text_of(contracts_of_crates.PAGE), contracts_of_crates.page(), "run python3 -m tools.sources.contracts"
        )

    def test_what_crates_rely_on(self) -> None:
        relying = contracts_of_crates.lines(contracts_of_crates.RELIES_ON)
        uses = {one.name: one.uses for layer in layers.layers() for one in layer.crates}
        self.assertEqual(list(relying), [crate for crate in layers.product() if uses[crate]])
        for crate, cell in relying.items():
            text = "".join(map(text_of, places.files("crates", crate, "src", "**", "*.rt")))
            for part in [] if cell.startswith("none; ") else cell.split("; "):
                lower, named = part.split(": ")
                self.assertIn(lower.strip("`"), uses[crate], cell)
                root = text_of("crates", lower.strip("`"), "src", "lib.rt")
                public = given_out(root) | set(calls_of(lower.strip("`")))
                for word in re.findall(r"`([\w:]+)`", named):
                    name = word.split("::")[-1]
                    is_public = any(call == word or call.endswith(f"::{word}") for call in public)
                    self.assertTrue(is_public, f"{word} is no public name of {lower}: {cell}")
                    self.assertRegex(text, rf"\b{name}\b", f"{crate} has no {word}")


class Definitions(unittest.TestCase):
    """The comments of the definitions in specs/, and the lines of each crate's Lib.antt, which
    `python3 -m tools.definitions` writes."""

    def test_each_has_its_sentence_and_its_line(self) -> None:
        self.assertGreaterEqual(len(lines.crates()), 15)
        for crate in lines.crates():
            self.assertEqual(list(lines.faults(crate)), [])

    def test_all_are_read(self) -> None:
        # Counted here by the word `pub` alone: a definition stands at the line's start, or in a module with parameters.
        for path in places.files("crates", "*", "specs", "**", "*.antt"):
            code = re.findall(
                r"^(?! *pub \w+ :)(?:.* )?pub (?!mod\b|use\b).*", re.sub(r"--.*", "", text_of(path)), re.MULTILINE
            )
            self.assertEqual(len(list(definitions_in(text_of(path)))), len(code), path)

    def test_faults_are_seen(self) -> None:
        code = "abbrev pub f : ℕ → ℕ\nf n = n\n\n"
        for comment, fault in (
            ("", "no comment"),
            ("-- ---- numbers\n", "no comment"),
            ("-- The same.\n\n", "no comment"),
            ("-- its number.\n", "does not begin"),
            ("-- Its number\n", "full stop"),
            (f"-- {'Long ' * 30}number.\n", "too long"),
        ):
            (found,) = definitions_in(comment + code)
            self.assertRegex(" ".join(lines.faults_of(found)), fault)
        for comment in (
            "-- n is its own number.\n", "-- Its number,\n-- as it is. And more.\n", "-- ---- numbers\n-- 1 if it is.\n"
        ):
            (found,) = definitions_in(comment + code)
            self.assertEqual(list(lines.faults_of(found)), [])

    def test_first_sentence_is_the_line(self) -> None:
        text = (
            "-- A row\n-- of f.g. And more.\npub record Row (n : ℕ) : Type 0 where\n  pub first : "
            "ℕ\n\nmodule _ {X : Type 0} where\n"
        )
        text += "  -- A row in it.\n  abbrev pub inner : X → ℕ\n  inner x = 0\n"
        self.assertEqual(
            [one.line for one in definitions_in(text)], ["--   Row: A row of f.g.", "--   inner: A row in it."]
        )

    def test_lines_of_lib_are_compared(self) -> None:
        with tempfile.TemporaryDirectory() as top, mock.patch.object(places, "TOP", top):
            folder = os.path.join(top, "crates", "a", "specs")
            os.makedirs(folder)

            def put(name: str, text: str) -> None:
                with open(os.path.join(folder, name), "w", encoding="utf-8") as file:
                    file.write(text)

            put("B.antt", "use Rattle.a.specs.C.{g}\n\n-- Twice n.\nabbrev pub f : ℕ → ℕ\nf n = g n\n")
            put("C.antt", "-- The same n.\nabbrev pub g : ℕ → ℕ\ng n = n\n")
            put("Lib.antt", "pub mod B\npub mod C\n")
            self.assertRegex(" ".join(lines.faults("a")), r"Lib\.antt: this line is missing: --   f: Twice n\.")
            lines.write("a")
            self.assertEqual(list(lines.faults("a")), [])
            whole = text_of("crates", "a", "specs", "Lib.antt")
            first, last = "-- B.antt\n--   f: Twice n.\n", "-- C.antt\n--   g: The same n.\n"
            self.assertTrue(whole.endswith(f"{last}--\n{first}\npub mod B\npub mod C\n"))
            put("Lib.antt", whole.replace(f"{last}--\n{first}", f"{first}--\n{last}"))
            self.assertRegex(" ".join(lines.faults("a")), "reading order")
            put("Lib.antt", whole.replace("--   g: The", "--   h: The"))
            self.assertRegex(" ".join(lines.faults("a")), "missing: --   g: .* of no definition: --   h: ")
            put("Lib.antt", whole.replace("pub mod B\n", ""))
            self.assertRegex(" ".join(lines.faults("a")), "B is no module of it")
