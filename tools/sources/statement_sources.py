"""The definitions that a contract rests on, as the sources have them: what statement.py prints.

A definition of a .antt file is a paragraph, as rattle.py reads it. A type of a .rt file is its text without attributes,
and its `impl Model` where it has one. Every word of each must be known: a name of the file or of a `use` line, a
variable, or a word of the language. Any other word is `Unclear`, so nothing is left out in silence.
"""

from __future__ import annotations

import glob
import os
import re
from dataclasses import dataclass, field
from functools import lru_cache
from typing import Iterable, Iterator, NamedTuple

from tools.places import TOP
from tools.sources.rattle import Defined, definitions_in

USE = re.compile(r"^\s*(?:ghost )?use (Rattle\.[^;\n]*?);?$", re.MULTILINE)
RUST_USE = re.compile(r"^\s*(?:pub )?use ([a-z]\w*)::([^;]*);", re.MULTILINE)
TOKEN = re.compile(r'"(?:[^"\\]|\\.)*"|--.*|[(){};,]|[^\s(){};,"]+')
DECLARES = r"(?:pub(?:\(\w+\))? )?(?:struct|enum) "
WORD = re.compile(r"[^\W\d]\w*")
# Words and signs of the language, which no `use` line brings.
BUILT_IN = set("→ × ⊥ ¬ λ : = _ Type Unit record data let in where pub abbrev unfoldable ( ) { } ; ,".split())
# What Rust has without a `use` line.
RUST = set("bool u8 u16 u32 u64 usize i32 i64 str Option Result Vec Sync".split())
# What a clause has besides the parameters.
OF_CLAUSES = {"result", "self"}


class Unclear(Exception):
    """The sources have something that this reader does not understand, or lack something that they name."""


class Name(NamedTuple):
    """A definition or a type: its file in this repository, or the crate of the toolchain that has it."""

    place: str
    word: str

    @property
    def is_ours(self) -> bool:
        return self.place.endswith((".antt", ".rt"))


@dataclass(frozen=True)
class Definition:
    name: Name
    line: int
    text: str
    uses: frozenset[Name]
    # The words that its file has for names under which they are declared elsewhere: what each is.
    renamed: tuple[tuple[str, str], ...] = ()


@dataclass
class Scope:
    """What the words of a file mean: names of definitions and types, and modules by their own names."""

    names: dict[str, Name] = field(default_factory=dict)
    modules: dict[str, tuple[str, str]] = field(default_factory=dict)
    # Of a .rt file, the crates from which it has its types.
    crates: dict[str, str] = field(default_factory=dict)
    # What a name is that the file has under another word.
    renamed: dict[str, str] = field(default_factory=dict)
    # Those that may stand in a pattern and are no variables there.
    constructors: set[str] = field(default_factory=set)

    def add(self, word: str, name: Name) -> None:
        if self.names.setdefault(word, name) != name:
            raise Unclear(f"{word} is {name} and {self.names[word]}")

    def find(self, word: str) -> Name | None:
        return (
            self.names.get(word) or next((name for known, name in self.names.items() if word in known.split("◌")), None)
        )


@lru_cache(maxsize=None)
def text_of(path: str) -> str:
    with open(os.path.join(TOP, path), encoding="utf-8") as file:
        return file.read()


@lru_cache(maxsize=None)
def is_our_crate(crate: str) -> bool:
    return bool(crate) and os.path.isdir(os.path.join(TOP, "crates", crate))


@lru_cache(maxsize=None)
def file_of_type(crate: str, word: str) -> str:
    """The .rt file that declares a struct or an enum of a crate, which may have it from another crate."""
    paths = glob.glob(os.path.join(TOP, "crates", crate, "src", "**", "*.rt"), recursive=True)
    paths = sorted(os.path.relpath(path, TOP) for path in paths)
    declares = re.compile(rf"^{DECLARES}{word}\b", re.MULTILINE)
    found = [path for path in paths if declares.search(text_of(path))]
    roots = "".join(text_of(path) for path in paths if path.endswith("src/lib.rt"))
    given_on = re.search(rf"^pub use (\w+)::[^;]*\b{word}\b", roots, re.MULTILINE)
    if not found and given_on and is_our_crate(given_on[1]):
        return file_of_type(given_on[1], word)
    if len(found) != 1:
        raise Unclear(f"the type {word} of {crate} is declared in {len(found)} files")
    return found[0]


def imported(crate: str, module: str, word: str) -> Name:
    """What a `use` line brings."""
    if not is_our_crate(crate):
        return Name(crate, word)
    if not module.startswith("declared."):
        return Name(f"crates/{crate}/specs/{module.replace('.', '/')}.antt", word)
    *_path, kind = [part for part in module.split(".") if part not in ("TheVariants", "TheInside")]
    return Name(file_of_type(crate, kind), kind)


def scope_of_uses(text: str) -> Scope:
    scope = Scope()
    for line in USE.findall(text):
        found = re.fullmatch(r"Rattle\.(\w+)\.specs\.([\w.]+?)(?:\.\{(.*)\}| as (\w+))", line)
        if not found:
            raise Unclear(f"use {line}")
        crate, module, words, alias = found.groups()
        is_of_variants, kind = module.endswith(".TheVariants"), module.split(".")[-2:][0]
        if alias:
            scope.modules[alias] = (crate, module)
            scope.renamed[alias] = f"the variants of `{kind}`" if is_of_variants else f"`{module}`"
            continue
        for word in words.split(", "):
            old, _as, new = word.partition(" as ")
            scope.add(new or old, imported(crate, module, old))
            if new:
                scope.renamed[new] = f"`{old}` of `{kind}`" if is_of_variants else f"`{old}`"
            if is_of_variants:
                scope.constructors.add(new or old)
    return scope


def tokens(code: str) -> list[str]:
    return [word for word in TOKEN.findall(code) if not word.startswith("--")]


def binders(words: list[str]) -> Iterator[str]:
    """The variables that a term binds: by `λ`, by `let`, as `(x y : T)` or `{x : T}`, and as the fields of a record."""
    for at, word in enumerate(words):
        if word in "({":
            end = at + 1
            while end < len(words) and WORD.fullmatch(words[end]):
                end += 1
            if end < len(words) and words[end] == ":":
                yield from words[at + 1 : end]
        elif word == "λ":
            for variable in words[at + 1 :]:
                yield variable.rstrip(".")
                if variable.endswith("."):
                    break
        elif word in ("let", "pub"):
            yield words[at + 1]


def names_in(words: list[str], scope: Scope, variables: set[str]) -> Iterator[Name]:
    """What the words mean. Those of `variables` mean nothing else. A variable that the words bind themselves and that
    is a name here too is taken for the name: rather a definition too many than one too few."""
    bound = set(binders(words))
    for at, word in enumerate(words):
        before, after = (words[at - 1] if at else ""), (words[at + 1] if at + 1 < len(words) else "")
        is_label = after == "=" and before in "{;" or before == "pub" and after == ":"
        if word in BUILT_IN or word[0] in '".' or word[0].isdigit() or is_label:
            continue
        name = scope.find(word)
        head, *path = word.rstrip(".").split(".")
        if head in variables:
            continue
        name = name or scope.find(head)
        if name:
            yield name
        elif path and head in scope.modules:
            yield imported(*scope.modules[head], path[0])
        elif head in RUST:
            yield Name("std", head)
        elif head not in bound:
            raise Unclear(f"nothing says what {word} is")


# ---- files of definitions


def only_definitions(path: str) -> list[Defined]:
    """The definitions of a .antt file, which has nothing else but comments and `use` lines."""
    found, rest = list(definitions_in(text_of(path))), text_of(path)
    for one in found:
        if one.code not in rest:
            raise Unclear(f"{path}:{one.line_number}: more than one definition in a paragraph: {one.name}")
        rest = rest.replace(one.code, "", 1)
    for line in rest.split("\n"):
        if line.strip() and not line.startswith(("--", "use ", "pub mod ", "pub use ")):
            raise Unclear(f"{path}: no definition: {line}")
    return found


def constructors_of(code: list[str]) -> list[str]:
    """The names of the cases of a `data`."""
    return [line.split()[0] for line in code[1:]] if "pub data " in code[0] else []


def parts_of(code: list[str], word: str) -> Iterator[tuple[list[str], list[str]]]:
    """A definition as its signature and equations, or as its one part: of each the tokens of a head, whose variables
    hold in all of the part, and those of the rest."""
    starts = [0] + [at for at, line in enumerate(code) if at and line[0] not in " }"] + [len(code)]
    for begin, end in zip(starts, starts[1:]):
        words = tokens("\n".join(code[begin:end]))
        if begin == 0:
            stop = words.index("where") if "where" in words else 0
        elif words[0] != word:
            raise Unclear(f"an equation of {words[0]} below {word}")
        else:
            stop = words.index("=")
        yield words[:stop], words[stop:]


def uses_of(code: list[str], word: str, scope: Scope) -> set[Name]:
    found: set[Name] = set()
    for head, rest in parts_of(code, word):
        if "where" in rest:
            # A record's or a family's parameters.
            variables = set(binders(head)) - {word}
        else:
            # The variables of an equation's patterns: what is no constructor, nor a name of the toolchain.
            names = {part: scope.find(part) for part in head[1:] if WORD.fullmatch(part)}
            variables = {
                part for part, name in names.items() if not name or name.is_ours and part not in scope.constructors
            }
        found.update(names_in(head, scope, variables))
        found.update(names_in(rest, scope, variables))
    return found


def renamed_in(code: list[str], scope: Scope) -> tuple[tuple[str, str], ...]:
    words = tokens("\n".join(code))
    heads = {word.split(".")[0] for word in words if "." in word or word not in scope.modules}
    return tuple((head, scope.renamed[head]) for head in sorted(heads & scope.renamed.keys()))


@lru_cache(maxsize=None)
def definitions_of(path: str) -> dict[str, Definition]:
    """The definitions of a .antt file by their names; that of a `data` under the names of its cases too."""
    scope = scope_of_uses(text_of(path))
    found = only_definitions(path)
    owners: dict[str, str] = {}
    for one in found:
        owners[one.name] = one.name
        for case in constructors_of(one.code.split("\n")):
            owners[case] = one.name
            scope.constructors.add(case)
    for word, owner in owners.items():
        scope.add(word, Name(path, owner))
    defined = {}
    for one in found:
        name, code = Name(path, one.name), one.code.split("\n")
        try:
            uses = uses_of(code, one.name, scope) - {name}
        except (Unclear, ValueError) as error:
            raise Unclear(f"{path}: {one.name}: {error}") from error
        defined[one.name] = Definition(name, one.line_number, one.text, frozenset(uses), renamed_in(code, scope))
    return {word: defined[owner] for word, owner in owners.items()}


# ---- types and contracts of Rust


def rust_scope(path: str) -> Scope:
    """What the words of a .rt file mean in its clauses and its types."""
    text, crate = text_of(path), path.split("/")[1]
    scope = scope_of_uses(text)
    for root, rest in RUST_USE.findall(text):
        for word in re.findall(r"([A-Z]\w*)\s*(?:[,}]|$)", rest):
            scope.crates[word] = crate if root == "crate" else root
    scope.crates["crate"] = crate
    for word in re.findall(rf"^{DECLARES}(\w+)", text, re.MULTILINE):
        scope.add(word, Name(path, word))
    return scope


def rust_names(code: str, scope: Scope, variables: set[str]) -> Iterator[Name]:
    """What the types in a text of Rust are, without its comments."""
    code = re.sub(r"//.*", "", code)
    for path, word in re.findall(r"\b((?:\w+::)*)([A-Z]\w*|[iu](?:8|16|32|64)|usize|bool|str)\b", code):
        root = path.split("::")[0] or scope.crates.get(word, "")
        if not path and word in variables:
            continue
        if is_our_crate(root):
            yield Name(file_of_type(root, word), word)
        elif root == "crate":
            yield Name(file_of_type(scope.crates["crate"], word), word)
        elif not path and word in scope.names:
            yield scope.names[word]
        elif root or word in RUST:
            yield Name("std", word)
        else:
            raise Unclear(f"nothing says what {word} is")


def block(lines: list[str], start: int, end: str) -> list[str]:
    """From this line to the first that is `end`, and before it the comment; without attributes."""
    stop = next((at for at in range(start, len(lines)) if lines[at].rstrip() == end), None)
    begin = start
    while begin and re.match(r"\s*(///|#\[.*\]$)", lines[begin - 1]):
        begin -= 1
    if stop is None or lines[begin - 1].strip() and not lines[begin - 1].endswith("{"):
        raise Unclear(f"where this begins and ends: {lines[start]}")
    return [line for line in lines[begin : stop + 1] if not re.match(r"\s*(#\[|ghost use )", line)]


def model_of(lines: list[str], word: str) -> list[str]:
    """The `impl Model` of a type: what a contract sees of it."""
    starts = [at for at, line in enumerate(lines) if re.match(rf"impl(?:<.*>)? Model for {word}\b", line)]
    if not starts:
        return []
    lines = block(lines, starts[0], "}")
    return [line for at, line in enumerate(lines) if line.strip() or lines[at - 1].strip() and at > 1]


@lru_cache(maxsize=None)
def type_of(path: str, word: str) -> Definition:
    lines = text_of(path).split("\n")
    start = next(at for at, line in enumerate(lines) if re.match(rf"{DECLARES}{word}\b", line))
    code, model, scope = block(lines, start, "}"), model_of(lines, word), rust_scope(path)
    declared = "\n".join(code)
    inside = (
        re.sub(r"^\s*[A-Z]\w*", "", declared.split("{", 1)[1], flags=re.MULTILINE) if " enum " in declared else declared
    )
    parameters = set(re.findall(r"<(\w+)>", lines[start]))
    uses = set(rust_names(re.sub(rf"(struct|enum) {word}\b", "", inside), scope, parameters))
    for term in re.findall(r"ghost \w+ = \{(.*)\};", "\n".join(model)):
        uses.update(names_in(tokens(term), scope, parameters))
    text = "\n".join(code + [""] + model if model else code)
    return Definition(Name(path, word), start + 1, text, frozenset(uses - {Name(path, word)}))


def clauses_in(text: str) -> Iterator[str]:
    """The terms of the clauses of a contract."""
    for part in re.split(r"^\s*(?:requires|ensures)\b", text, flags=re.MULTILINE)[1:]:
        yield part[part.index("{") + 1 : part.rindex("}")]


def contract_of(path: str, word: str) -> Definition:
    """A function of a .rt file: its comment, head and clauses, without the body. One of an `impl` has
    that line above it."""
    lines = text_of(path).split("\n")
    starts = [at for at, line in enumerate(lines) if re.match(rf"\s*pub fn {word}\b", line)]
    if len(starts) != 1:
        raise Unclear(f"{path} has {len(starts)} functions {word}")
    start = starts[0]
    indent = lines[start][: len(lines[start]) - len(lines[start].lstrip())]
    text = "\n".join(block(lines, start, indent + "{")[:-1])
    owner = next((lines[at] for at in range(start, -1, -1) if indent and lines[at].startswith("impl")), "")
    signature = re.split(r"^\s*(?:requires|ensures)\b", text, flags=re.MULTILINE)[0]
    generics = set(re.findall(r"(\w+)(?::[^,>]*)?[,>]", (re.search(r"fn \w+(<.*?>)\(", signature) or [" ", ""])[1]))
    generics |= set(re.findall(r"(\w+)(?::[^,>]*)?[,>]", (re.match(r"impl(<.*?>) ", owner) or [" ", ""])[1]))
    scope = rust_scope(path)
    uses: set[Name] = set()
    parameters = set(re.findall(r"(\w+): ", signature)) | OF_CLAUSES
    uses.update(rust_names(owner + signature, scope, generics))
    for clause in clauses_in(text):
        words = tokens(clause)
        # A member of a bound of a type parameter, as R.remaining of R: Read.
        uses.update(Name("std", at.split(".")[1]) for at in words if at.split(".")[0] in generics and "." in at)
        uses.update(names_in(words, scope, parameters | generics))
    text = f"{owner}\n{text}\n}}" if owner else text
    kind = re.match(r"impl(?:<.*?>)? (\w+)", owner)
    return Definition(Name(path, f"{kind[1]}::{word}" if kind else word), start + 1, text, frozenset(uses))


# ---- all that a contract rests on


def definition_of(name: Name) -> Definition:
    if name.place.endswith(".rt"):
        return type_of(*name)
    if not os.path.exists(os.path.join(TOP, name.place)):
        raise Unclear(f"{name.place} is not there")
    found = definitions_of(name.place).get(name.word)
    if not found:
        raise Unclear(f"{name.place} has no definition {name.word}")
    return found


def rests_on(roots: Iterable[Definition]) -> tuple[dict[Name, Definition], set[Name]]:
    """Every definition of this repository that the roots use, at any depth, and every name of the toolchain."""
    ours: dict[Name, Definition] = {}
    others: set[Name] = set()
    open_names = [name for root in roots for name in root.uses]
    while open_names:
        name = open_names.pop()
        if not name.is_ours:
            others.add(name)
            continue
        found = definition_of(name)
        if found.name not in ours:
            ours[found.name] = found
            open_names.extend(found.uses)
    return ours, others
