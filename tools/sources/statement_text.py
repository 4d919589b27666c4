"""What docs/statement.md says by hand: its beginning, what comes before each group of definitions, and
the glossary."""

from __future__ import annotations

from typing import NamedTuple


class Group(NamedTuple):
    """Definitions that are read together: all of these files, or of a file those behind `#`."""

    title: str
    text: str
    source: str
    places: tuple[str, ...]


# The contract that the page is of, and those of the calls that alone change what it counts.
THEOREM = ("crates/engine/src/runs.rt", "run")
COUNTING = tuple(("crates/picture_file/src/counted.rt", call) for call in ("new", "read", "write", "flush"))

BEGINNING = """\
# What is proved

This page has the theorem about `trirast::run`, the call that reads a draw list and writes its image. The sources call
an image a picture. The page has every definition of this repository on which the theorem rests, in reading order. So
you need neither the code nor the proofs of that call.

[Every promise](generated/promises.md) has the promises of all other calls, each with the clauses that carry it: [the
program](generated/promises.md#the-program), [the library for C](generated/promises.md#the-library), [a
canvas](generated/promises.md#a-canvas). Their definitions are in `crates/*/specs`.

The [Glossary](#glossary) explains each symbol and each name of the toolchain, such as `negsuc` and `R.remaining`. The
[Index](#index) says which section defines a name of this repository, such as `Counted`.

You can read all of it in an afternoon, and in half an hour the ten definitions that fix the image. These are
`PassesEdge` and `Covers` (which samples a triangle covers), `IsValueAt` (depth and colour there), `Passes` and
`IsMerged` (depth test and new colour), `Draws` (one triangle at one sample), `Ends` (all of them), `IsResolved` (a
pixel), `IsPicture` (the bytes) and `Denotes` (which list the input is). The others are parts of these.

`python3 -m tools.sources.statement` makes the page from the sources, and CI compares the two.
"""

HOW_TO_READ = """\
- `requires` is what the caller promises. `ensures` is what holds when the call returns. `x.old` is the value behind a
  reference as the call begins, `x.new` the value at the return, and `result` what is returned.
- `f a b` is `f` of `a` and `b`. A definition with arguments that ends in `Type 0` is a statement, and one without them,
  such as `KindChecks`, is a type. A definition by cases has a line for each case.
- A record with values as arguments, such as `Covers` of four positions, is a statement too: all its fields hold. A
  field that is a value, such as `pub file : List ℕ`, says that there is one, and later fields use it. Any other
  record, such as `Position`, is data.
- `P × Q` is both, `P ⊎ Q` at least one, `P → Q` if P then Q, and `¬ P` not P. `⊥` never holds, and
  `Unit {0}` always does.
- `(x : T) → P` is P for each x, `(x : T) × P` is P for some x, and `λ x. e` is the function that takes x to e. A
  parameter in braces, such as `{X : Type 0}`, is left out where the definition is used.
- Numbers have no bound. An unsigned integer of Rust is an `ℕ` in its range, a signed one a `ℤ`, and an array or a `Vec`
  a list. In clauses, a struct with an `impl Model` is what its `view` says, and its `invariant` always holds.
- `∷` binds tighter than `++`, and `×` tighter than `⊎`. `abbrev` and `unfoldable` tell the prover when to unfold a
  definition, and do not change its meaning.
"""

THEOREM_TEXT = """\
If a run returns `Ok`, the input's bytes denote a draw list, and what was written is the file of that list's image. If
it returns an error, `Explains` says what was read and written by then. `EndsAs`, the last definition of this page,
states both. Its arguments are these:

| Argument | In the theorem | Meaning |
|---|---|---|
| `side` | `options.tile` | the tile size |
| `result` | `result` | what the run returns: `Ok`, or an error, which is a `Fault` |
| `left` | `R.remaining input.old.inner` | the bytes that the reader has left before the run |
| `left_after` | `R.remaining input.new.inner` | the bytes that the reader has left after the run |
| `held` | `W.contents output.old.inner` | the bytes that the writer holds before the run |
| `held_after` | `W.contents output.new.inner` | the bytes that the writer holds after the run |
| `ReadHasFailed` | `input.old.failures < input.new.failures` | a call of the reader failed in the run |
| `WriteHasFailed` | `output.old.failures < output.new.failures` | a call of the writer failed in the run |

`left` and `held` are known for readers and writers that make their bytes known, such as those over memory. For others,
such as standard input and output, they are `None`, and the theorem leaves their bytes open. The first of the
[premises](proofs.md#premises) is that these report their bytes as memory does. Another section lists what is
[trusted](proofs.md#trusted). It is not proved that a run ever ends.

The rest of the page begins with what a sample is and ends with `EndsAs`. Each definition uses only what comes before
it.
"""

GLOSSARY_TEXT = """\
This is what the page uses from the toolchain's crates, in one line each. Their own definitions count, and are trusted.
"""

GROUPS = (
    Group(
        "Positions and samples",
        "x runs to the right and y downwards, in 1/256 pixel. A pixel has one sample in its "
        "centre, or several in a standard "
        "pattern; a draw list has one or four. Each coordinate of a vertex is in the guard band.",
        "Direct3D 11, positions with 8 fractional bits, pixel centres and the standard patterns; "
        "the guard band is this project's "
        "limit.",
        (
            "crates/grid/specs/Position.antt",
            "crates/grid/src/point.rt",
            "crates/grid/src/sample_count.rt",
            "crates/grid/specs/Samples.antt",
        ),
    ),
    Group(
        "Edges and the top-left rule",
        "The edge function is zero on an edge's line, and has opposite signs on its two sides. A "
        "point on the line passes only if "
        "the edge is a top edge or a left edge.",
        "Pineda 1988 for the edge function, with the sign reversed; Direct3D 11, triangle rasterization rules.",
        ("crates/grid/specs/Edge.antt",),
    ),
    Group(
        "Coverage",
        "A triangle covers a point if its area is not zero and the point passes the top-left rule "
        "at all three edges, in either orientation.",
        "Direct3D 11, triangle rasterization rules.",
        ("crates/grid/specs/Triangle.antt", "crates/grid/src/triangle.rt"),
    ),
    Group(
        "Culling and scissor",
        "A triangle is front-facing if its vertices run clockwise on the screen, so that its doubled "
        "area is positive. Culling drops "
        "front-facing triangles, back-facing triangles, or none. The scissor is a rectangle of pixels.",
        "Direct3D 11, `D3D11_CULL_MODE` with clockwise triangles in front, and the scissor test.",
        (
            "crates/grid/src/cull.rt",
            "crates/grid/specs/Cull.antt",
            "crates/grid/src/pixels.rt#PixelBox",
            "crates/grid/specs/Pixels.antt#IsInBox",
        ),
    ),
    Group(
        "Values at a covered sample",
        "A depth or a channel at a sample is the mean of the three vertices' values, weighted by the "
        "edge functions of the opposite "
        "edges. Two bounds say that the exact mean is rounded down.",
        "the weights are the barycentric coordinates that the edge functions of Pineda 1988 give; "
        "rounding down is this project's rule.",
        ("crates/shade/specs/Quotient.antt", "crates/shade/specs/Value.antt"),
    ),
    Group(
        "Depth test",
        "The new depth is compared with the stored one, in one of eight ways.",
        "Direct3D 11, `D3D11_COMPARISON_FUNC`; depths that are integers of 16 bits are this project's rule.",
        ("crates/shade/src/depth.rt", "crates/shade/specs/Depth.antt"),
    ),
    Group(
        "New colour",
        "A channel that is written is blended with an equation of two factors and an operation, rounded "
        "once to the nearest integer and "
        "clamped. A draw list has two. With `none_blend` the channel becomes the source's. With "
        "`over_blend` it becomes the source over "
        "the stored channel by the source's alpha, as `shade::lists_are_blended` promises. A channel "
        "that is not written is unchanged.",
        "Direct3D 11, `D3D11_BLEND` and `D3D11_BLEND_OP`; Porter and Duff 1984, source over an opaque "
        "destination; the rounding is this "
        "project's rule.",
        (
            "crates/shade/src/operands.rt",
            "crates/shade/src/factor.rt",
            "crates/shade/src/equation.rt",
            "crates/shade/src/blend.rt",
            "crates/shade/specs/Blend.antt",
            "crates/shade/specs/Presets.antt",
        ),
    ),
    Group(
        "A sample after one triangle",
        "A triangle meets a sample if it is not culled, covers the sample's position, and neither "
        "scissor nor sample mask leaves the "
        "sample out. A sample that it meets takes its depth test, write mask and blending. Any "
        "other sample is unchanged.",
        "Direct3D 11: culling, scissor and coverage of the rasterizer; sample mask, depth test, write "
        "mask and blending of the output "
        "merger.",
        (
            "crates/shade/src/sample.rt",
            "crates/shade/src/state.rt",
            "crates/shade/src/placed.rt",
            "crates/shade/specs/Merging.antt",
            "crates/shade/specs/Placed.antt",
        ),
    ),
    Group(
        "A sample after all triangles",
        "Triangles take effect one after another in draw order. No tiles, lanes or threads are mentioned here.",
        "Direct3D 11 asks that results be as though primitives were drawn in order.",
        ("crates/shade/specs/Ending.antt",),
    ),
    Group(
        "Resolve",
        "With one sample, a pixel's channel is that sample's. With more, it is their mean, with halves rounded up.",
        "Direct3D 11 leaves the filter of a resolve open; the plain mean and its rounding are this project's rule.",
        ("crates/shade/specs/Resolve.antt",),
    ),
    Group(
        "The image",
        "A scene is what an image is drawn from. The image has the bytes of its pixels, row by "
        "row from the top. A pixel is the "
        "resolved colour, or the depth of the pixel's sample 0.",
        "the order of a depth's two bytes is that of Netpbm's pgm(5); that sample 0 is shown is this project's rule.",
        ("crates/draw_list/src/output.rt", "crates/draw_list/specs/Scene.antt", "crates/draw_list/specs/Picture.antt"),
    ),
    Group(
        "The image's file",
        "An image of colours is a binary PPM file, and an image of depths is a binary PGM file. Each "
        "has one spelling: the header, "
        "and then the rows.",
        "Netpbm's ppm(5) and pgm(5), one spelling of each.",
        ("crates/picture_file/specs/File.antt",),
    ),
    Group(
        "Parts of a JSON value",
        "These look into a JSON value: the value under a key or at an index, and the integer, "
        "string, boolean or array that it is. "
        "`serde_json` says which bytes are JSON, and of which value.",
        "RFC 8259 for JSON; the keys and words are this project's format.",
        ("crates/list_json/specs/Json.antt", "crates/list_json/specs/Keys.antt"),
    ),
    Group(
        "Primitives and their triangles",
        "A draw has a triangle list, a triangle strip or a list of strictly convex quads, over its "
        "own vertices. The scene has all "
        "their triangles in draw order, each with its draw's state.",
        "Vulkan 1.3 for the order of a strip's indices; quads are this project's own.",
        (
            "crates/draw_list/src/draw.rt",
            "crates/grid/specs/Quad.antt",
            "crates/draw_list/specs/Primitives.antt",
            "crates/draw_list/specs/Listing.antt",
        ),
    ),
    Group(
        "Which bytes denote a draw list",
        "These say, key by key, which JSON value is which part of a draw list. They have its ranges, "
        "its limits and the defaults of "
        "absent keys. `Denotes` says which scene the bytes denote.",
        "this project's format, in words in `docs/draw-list.md`.",
        ("crates/list_json/specs/Denotes.antt",),
    ),
    Group(
        "The first error",
        "All checks of an input are in one list, in a fixed order. An input that fails one has the "
        "error of the first that fails.",
        "this project's format, in words in `docs/draw-list.md`.",
        (
            "crates/draw_list/src/fault.rt",
            "crates/draw_list/specs/Fault.antt#outside",
            "crates/draw_list/specs/Fault.antt#fault_in_draw",
            "crates/checks/specs/FirstFault.antt",
            "crates/list_json/specs/Checks.antt",
        ),
    ),
    Group(
        "Readers and writers",
        "A run reads and writes through `Counted`, which counts the calls that failed. Its `read`, "
        "`write` and `flush` are all that "
        "raise the count, so their contracts are here too.",
        "`Read` and `Write` of Rust's standard library; counting is this project's own.",
        (
            "crates/picture_file/specs/Device.antt", "crates/picture_file/specs/Counted.antt",
            "crates/picture_file/src/counted.rt",
        ),
    ),
    Group(
        "What a run does",
        "The input's bytes are those that the reader gave up to its end. What was written is the "
        "whole file, or as much of its "
        "beginning as the error says. What a device does not make known (`None`) is left open.",
        "this project's own.",
        (
            "crates/grid/src/pixels.rt#TileSide",
            "crates/grid/specs/Pixels.antt#side_of",
            "crates/engine/src/options.rt",
            "crates/pool/src/fault.rt",
            "crates/engine/src/fault.rt",
            "crates/engine/specs/Input.antt",
            "crates/engine/specs/Runs.antt",
        ),
    ),
)

# Names of the toolchain that the page uses: how each is written, and what it means.
GLOSSARY: dict[str, tuple[tuple[str, str, str], ...]] = {
    "std": (
        ("◌≡◌", "a ≡ b", "a equals b"),
        ("◌≢◌", "a ≢ b", "a does not equal b"),
        ("◌↔◌", "P ↔ Q", "P if and only if Q"),
        ("◌⊎◌", "P ⊎ Q", "P or Q, or both"),
        ("ℕ", "ℕ", "the integers from 0, without bound"),
        ("ℤ", "ℤ", "the integers, without bound"),
        ("zero", "zero", "0, in a definition by cases"),
        ("suc", "suc n", "n + 1, in a definition by cases"),
        ("pos", "pos n", "n as a `ℤ`"),
        ("negsuc", "negsuc n", "-(n + 1) as a `ℤ`"),
        ("unsigned_abs", "unsigned_abs z", "the absolute value of z, an `ℕ`"),
        ("◌+◌", "a + b", "the sum"),
        ("◌-◌", "a - b", "the difference, and 0 if b is greater"),
        ("◌*◌", "a * b", "the product"),
        ("◌/◌", "a / b", "the quotient, rounded down"),
        ("◌%◌", "a % b", "the remainder"),
        ("◌^◌", "a ^ b", "the power"),
        ("◌<◌", "a < b", "a is less than b"),
        ("◌≤◌", "a ≤ b", "a is at most b"),
        ("min", "min a b", "the lesser of two numbers"),
        ("max", "max a b", "the greater of two numbers"),
        ("◌+ℤ◌", "a +ℤ b", "the sum of integers"),
        ("◌-ℤ◌", "a -ℤ b", "the difference of integers"),
        ("◌*ℤ◌", "a *ℤ b", "the product of integers"),
        ("◌<ℤ◌", "a <ℤ b", "a is less than b, of integers"),
        ("◌≤ℤ◌", "a ≤ℤ b", "a is at most b, of integers"),
        ("Bool", "Bool", "`true` or `false`, as a value that is computed"),
        ("true", "true", "the value of a test that holds"),
        ("false", "false", "the value of a test that does not hold"),
        ("not", "not b", "`true` if b is `false`, and `false` if b is `true`"),
        ("◌&&◌", "a && b", "`true` if both are"),
        ("◌||◌", "a || b", "`true` if at least one is"),
        ("◌==◌", "a == b", "whether two numbers of `ℕ` are equal"),
        ("nat_lt", "nat_lt a b", "whether a is less than b"),
        ("int_eq", "int_eq a b", "whether two integers are equal"),
        ("int_lt", "int_lt a b", "whether the integer a is less than b"),
        ("int_le", "int_le a b", "whether the integer a is at most b"),
        ("if◌then◌else◌", "if b then x else y", "x if b is `true`, and y if not"),
        ("List", "List T", "the lists of values of T"),
        ("[]", "[]", "the empty list"),
        ("◌∷◌", "x ∷ xs", "the list that begins with x and goes on with xs"),
        ("◌++◌", "xs ++ ys", "xs, and then ys"),
        ("length", "length xs", "how many elements xs has"),
        ("take", "take n xs", "the first n elements of xs, or all if there are fewer"),
        ("drop", "drop n xs", "xs without its first n elements"),
        ("map", "map f xs", "f of each element of xs, in order"),
        ("flat_map", "flat_map f xs", "the lists that f makes of the elements, one after another"),
        ("sum_by", "sum_by f xs", "the sum of f of each element"),
        ("range_with_len", "range_with_len a n", "the n numbers from a on"),
        ("slice_index", "slice_index xs i", "element i of a list of numbers, from 0; past the end it is 0"),
        ("slice_index_or", "slice_index_or xs i d", "element i of a list, from 0; past the end it is d"),
        ("list_any", "list_any test xs", "whether at least one element passes the test"),
        ("AllByRecursion", "AllByRecursion P xs", "P of each element"),
        ("bytes_eq", "bytes_eq a b", "whether two lists of bytes are equal"),
        ("codes", 'codes "text"', "the bytes of an ASCII text"),
        ("decimal", "decimal n", "the bytes of n in decimal digits, without leading zeros"),
        ("is_utf8", "is_utf8 bytes", "whether the bytes are UTF-8"),
        ("Option", "Option T", "a value of T, or none"),
        ("Some", "Some x", "there is a value, x"),
        ("None", "None", "there is no value"),
        ("is_some", "is_some o", "whether there is a value"),
        ("is_none", "is_none o", "whether there is none"),
        ("IsSome", "IsSome o", "there is a value"),
        ("unwrap_or", "unwrap_or o d", "the value of o, and d if there is none"),
        ("option_map", "option_map f o", "f of the value of o, and `None` if there is none"),
        ("option_map_or", "option_map_or f o d", "f of the value of o, and d if there is none"),
        (
            "option_and_then", "option_and_then f o",
            "what f, which may give none, gives for the value of o; `None` if o has none",
        ),
        ("Result", "Result T E", "`Ok` with a value of T, or `Err` with an error of E"),
        ("Ok", "Ok x", "the call succeeded, with x"),
        ("Err", "Err e", "the call failed, with e"),
        ("OnOk", "OnOk r P", "if r is `Ok`, then P"),
        ("IfErr", "IfErr r P", "if r is `Err e`, then P of e"),
        ("IsErrOf", "IsErrOf r e", "r is `Err e`"),
        ("remaining", "R.remaining r", "the bytes that a reader has left, or `None` if it does not make them known"),
        ("contents", "W.contents w", "the bytes that a writer holds, or `None` if it does not make them known"),
        ("Keeps", "Keeps old new", "if the bytes are known, they are unchanged"),
        ("Appends", "Appends old new bs", "if the bytes are known, they grew by bs at the end"),
        ("Consumes", "Consumes old new bs", "if the bytes are known, they began with bs, and the rest is left"),
        ("IsAtEnd", "IsAtEnd left", "if the bytes are known, none is left"),
        ("ReadsAtMost", "ReadsAtMost r buffer", "if r is `Ok n`, n is at most the buffer's length"),
        ("WritesAtMost", "WritesAtMost r buffer", "if r is `Ok n`, n is at most the buffer's length"),
        (
            "ReadConsumes",
            "ReadConsumes old new r buffer",
            "at `Ok n` the buffer's first n bytes are consumed, and n is 0 only at the end or for an "
            "empty buffer; at `Err` nothing is",
        ),
        (
            "WriteAppends", "WriteAppends old new r buffer",
            "at `Ok n` the buffer's first n bytes are appended; at `Err` nothing is",
        ),
        ("Read", "R: Read", "a reader of Rust's standard library"),
        ("Write", "W: Write", "a writer of Rust's standard library"),
        ("Threads", "Rt: Threads", "what starts threads"),
        ("Wait", "Rt: Wait", "what waits for them"),
        ("Sync", "Rt: Sync", "threads may share it"),
        ("Global", "Global", "the allocator; an allocation may fail"),
        ("bool", "bool", "`Bool`"),
        ("u8", "u8", "an `ℕ` below 2^8"),
        ("u16", "u16", "an `ℕ` below 2^16"),
        ("u32", "u32", "an `ℕ` below 2^32"),
        ("u64", "u64", "an `ℕ` below 2^64; `u64.MAX` is 2^64 - 1"),
        ("usize", "usize", "an `ℕ` below 2^64"),
        ("i32", "i32", "a `ℤ` from -2^31 to 2^31 - 1"),
    ),
    "serde_json": (
        ("Data", "Data", "a JSON value: null, a boolean, a number, a string, an array or an object"),
        ("Items", "Items", "the elements of an array"),
        ("no_items", "no_items", "no elements"),
        ("item", "item d ds", "the element d, and then ds"),
        ("items_len", "items_len ds", "how many elements there are"),
        ("Members", "Members", "the members of an object; each key is there once, with the value that came last"),
        ("no_members", "no_members", "no members"),
        ("member", "member k d ms", "the key k with the value d, and then ms"),
        ("read", "read bytes", "the value of a JSON text in UTF-8, and `None` if it is none; nesting over 127 is none"),
        ("get", "get key d", "the value under the key, if d is an object that has it"),
        ("at", "at i d", "element i, from 0, if d is an array that has it"),
        ("as_bool", "as_bool d", "the boolean that d is, if it is one"),
        ("as_number", "as_number d", "the number that d is, if it is one"),
        (
            "as_integer",
            "as_integer n",
            "the integer that n is, if it is one; what has a fraction or an exponent, `-0` and "
            "what is outside 64 bits is none",
        ),
        ("as_str", "as_str d", "the bytes of the string that d is, if it is one"),
        ("as_array", "as_array d", "the elements of the array that d is, if it is one"),
        ("as_object", "as_object d", "the members of the object that d is, if it is one"),
    ),
}
