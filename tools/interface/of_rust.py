"""Declarations and comments of Rust, as rustfmt lays them out."""

from __future__ import annotations

from tools.interface.header import Function, Variable, header
from tools.interface.lines import WIDTH, sentence, wrapped
from tools.interface.numbers import Number

TYPES = {
    "void": "c_void", "char": "c_char", "uint8_t": "u8", "uint16_t": "u16", "uint32_t": "u32", "uint64_t": "u64",
    "int32_t": "i32", "int64_t": "i64", "size_t": "usize",
}


def rust_type(variable: Variable) -> str:
    """A type in Rust. An enumeration is a number of 32 bits."""
    is_plain = variable.type in TYPES or variable.type in header().structs
    kind = TYPES.get(variable.type, variable.type if is_plain else "u32")
    kind = f"[{kind}; {variable.length}]" if variable.length else kind
    return f"*{'const' if variable.is_const else 'mut'} {kind}" if variable.is_pointer else kind


def rust_number_type(kind: str) -> str:
    """The type of a number."""
    return TYPES[kind]


def rust_function(function: Function) -> str:
    """A declaration in Rust, as rustfmt lays it out."""
    parameters = [f"{each.name}: {rust_type(each)}" for each in function.parameters]
    head, end = f"    pub fn {function.name}(", f") -> {rust_type(function.result)};"
    line = head + ", ".join(parameters) + end
    if len(line) <= WIDTH:
        return line
    return "\n".join([head, *(f"        {each}," for each in parameters), f"    {end}"])


def rust_number(value: int) -> str:
    """A number with its thousands apart where it is long."""
    return f"{value:_}" if abs(value) >= 10000 else str(value)


def rust_doc(number: Number) -> str:
    """What a number means, above its name in Rust."""
    element = f"The element is the {number.element}." if number.element else ""
    return wrapped(" ".join(filter(None, (sentence(number.meaning), element, number.note))), "    /// ")
