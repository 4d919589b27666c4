"""What include/trirast.h and the crate trirast-sys declare, both in the words of Rust, so that they can be compared."""

from __future__ import annotations

import re

# The types of C as Rust names them.
TYPES = {
    "char": "c_char", "void": "c_void", "uint8_t": "u8", "uint16_t": "u16", "uint32_t": "u32", "uint64_t": "u64",
    "int32_t": "i32", "int64_t": "i64", "size_t": "usize",
}
# Numbers of the header that are not written in digits, as the crate writes them.
WORDS = {"SIZE_MAX": "usize::MAX"}
# Calls that the plain ones make for those who program in C, and what they pass.
PROVED = "trirast_proved_"


def enumerations(text: str) -> list[str]:
    return re.findall(r"typedef enum (\w+) \{", text)


def type_of(text: str, enums: list[str]) -> str:
    """A type of C in Rust, as `const uint8_t *`. Enumerations have 32 bits."""
    name = text.replace("const ", "").replace("*", "").strip()
    pointer = ("*const " if text.startswith("const ") else "*mut ") if "*" in text else ""
    array = re.fullmatch(r"(\w+)_of_(\d+)", name)
    if array:
        return f"{pointer}[{TYPES[array[1]]}; {array[2]}]"
    return pointer + ("u32" if name in enums else TYPES.get(name, name))


def variables(text: str, between: str, enums: list[str]) -> str:
    """The members of a struct or the parameters of a call in C, which are named one after another."""
    found = []
    # A pointer to arrays has its name inside.
    text = re.sub(r"(\w+) \(\*(\w+)\)\[(\d+)\]", r"\1_of_\3 *\2", text)
    for kind, names in re.findall(rf"((?:const )?\w+ \**)([\w\[\], ]+?) ?(?:{between}|$)", text):
        for name in names.split(","):
            array = re.fullmatch(r"(\w+)\[(\d+)\]", name.strip())
            element = type_of(kind, enums)
            found.append(f"{array[1]}: [{element}; {array[2]}]" if array else f"{name.strip()}: {element}")
    return ", ".join(found)


def in_c(header: str) -> dict[str, str]:
    """The calls, structs and numbers of the header, each by its name. What an inline call does is left out, and so are
    the checks that a caller switches on, which come last."""
    plain = header.partition("#ifdef TRIRAST_CHECKS")[0]
    text = re.sub(r"\s+", " ", re.sub(r"/\*.*?\*/", "", plain, flags=re.DOTALL))
    enums = enumerations(text)
    found = dict(re.findall(r"(?:#define )?\b(TRIRAST_\w+) (?:= )?(\d+|SIZE_MAX)(?=[ ,])", text))
    found = {name: WORDS.get(number, number) for name, number in found.items()}
    for members, name in re.findall(r"typedef struct \w+ \{([^{}]*)\} (\w+);", text):
        if not name.startswith(PROVED):
            found[name] = variables(members, ";", enums)
    for result, name, parameters in re.findall(r"((?:const )?\w+ \**)(trirast_\w+)\(([^()]*)\)(?:;| \{)", text):
        listed = "" if parameters == "void" else variables(parameters, ",", enums)
        if not name.startswith(PROVED):
            found[name] = f"({listed}) -> {type_of(result, enums)}"
    return found


def in_rust(source: str) -> dict[str, str]:
    """The same of the crate."""
    text = re.sub(r"\s+", " ", re.sub(r"//.*", "", source))
    found = {name: number.replace("_", "") for name, number in re.findall(r"pub const (\w+): \w+ = ([\d_]+);", text)}
    found.update(re.findall(r"pub const (\w+): \w+ = (\w+::MAX);", text))
    for name, members in re.findall(r"pub struct (\w+) \{(.*?)\}", text):
        found[name] = members.replace("pub ", "").strip().rstrip(",")
    for name, parameters, result in re.findall(r"pub fn (\w+)\(([^()]*)\) -> ([\w* ]+);", text):
        found[name] = f"({parameters.strip().rstrip(',')}) -> {result}"
    return found
