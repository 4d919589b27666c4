"""The structs of ctypes have the layout of those in trirast.h, and the numbers of names are those of its enumerators,
as a C compiler finds."""

import ctypes
import os
import re
import shutil
import subprocess
import tempfile
import unittest
from typing import Any, Dict, List

from trirast import BLENDS, _blend, _declarations, _errors, _numbers, _rings, _vertices

from .common import PYTHON

INCLUDE = os.path.join(os.path.dirname(PYTHON), "include")
# The structs by their names in C: trirast_image_info is CImageInfo.
STRUCTS: Dict[str, Any] = {
    f"trirast{re.sub('(?=[A-Z])', '_', name[1:]).lower()}": struct for name, struct in vars(_declarations).items()
    if isinstance(struct, type) and issubclass(struct, ctypes.Structure)
}


def in_c(name: str) -> str:
    """A name as an enumerator has it: BAD_INDEX of BadIndex."""
    return re.sub("(?<=.)(?=[A-Z])", "_", name).upper()


ENUMERATORS = {
    **{f"TRIRAST_FACTOR_{name.upper()}": number for name, number in _numbers.FACTORS.items()},
    **{f"TRIRAST_OPERATION_{name.upper()}": number for name, number in _numbers.OPERATIONS.items()},
    **{f"TRIRAST_CULL_{name.upper()}": number for number, name in enumerate(_numbers.CULLS)},
    **{f"TRIRAST_DEPTH_{name.upper()}": number for number, name in enumerate(_numbers.DEPTH_TESTS)},
    **{f"TRIRAST_TOPOLOGY_{name.upper()}": number for number, (name, _length) in enumerate(_numbers.TOPOLOGIES)},
    **{f"TRIRAST_KEEP_{name}": 1 << k for k, name in enumerate(("RED", "GREEN", "BLUE", "ALPHA"))},
    **{f"TRIRAST_LIST_{in_c(name)}": number for number, name in _errors.DrawListError.causes.items()},
    **{f"TRIRAST_BATCH_{in_c(name)}": number for number, name in _errors.BatchError.causes.items()},
    "TRIRAST_STATUS_BAD_LIST": _numbers.BAD_LIST, "TRIRAST_STATUS_BAD_BATCH": _numbers.BAD_BATCH,
    "TRIRAST_NONE": _numbers.NONE,
    "TRIRAST_ERROR_MESSAGE_SIZE": _numbers.ERROR_MESSAGE_SIZE,
}


def answers(expressions: List[str]) -> List[int]:
    """What numbers of C are."""
    compiler = shutil.which("cc")
    if compiler is None or not os.path.exists(os.path.join(INCLUDE, "trirast.h")):
        raise unittest.SkipTest("there is no compiler, or no header beside the package")
    lines = "".join(f'    printf("%zu\\n", (size_t)({each}));\n' for each in expressions)
    source = f'#include <stdio.h>\n#include "trirast.h"\nint main(void) {{\n{lines}    return 0;\n}}\n'
    with tempfile.TemporaryDirectory() as folder:
        program = os.path.join(folder, "layout")
        command = [compiler, "-std=c99", "-I", INCLUDE, "-x", "c", "-", "-o", program]
        subprocess.run(command, input=source.encode(), check=True)
        return [int(line) for line in subprocess.run([program], check=True, stdout=subprocess.PIPE).stdout.split()]


class Layout(unittest.TestCase):
    def test_of_structs(self) -> None:
        self.assertGreater(len(STRUCTS), 15)
        expressions, wanted = [], []
        for name, struct in STRUCTS.items():
            expressions.append(f"sizeof({name})")
            wanted.append(ctypes.sizeof(struct))
            for field, *_ in struct._fields_:
                expressions += [f"offsetof({name}, {field})", f"sizeof((({name} *)0)->{field})"]
                wanted += [getattr(struct, field).offset, getattr(struct, field).size]
        self.assertEqual(dict(zip(expressions, answers(expressions))), dict(zip(expressions, wanted)))

    def test_of_vertices(self) -> None:
        columns = {column.name: column.begin for column in _vertices.WHOLE}
        expressions = ["sizeof(trirast_vertex)", *(f"offsetof(trirast_vertex, {name})" for name in columns)]
        self.assertEqual(answers(expressions), [_vertices.VERTEX_BYTES, *columns.values()])

    def test_of_boxes(self) -> None:
        columns = {column.name: column.begin for column in _rings.BOX}
        expressions = ["sizeof(trirast_box)", *(f"offsetof(trirast_box, {name})" for name in columns)]
        self.assertEqual(answers(expressions), [_rings.BOX_BYTES, *columns.values()])

    def test_of_numbers(self) -> None:
        self.assertEqual(dict(zip(ENUMERATORS, answers(list(ENUMERATORS)))), ENUMERATORS)

    def test_of_blends(self) -> None:
        for name, blend in BLENDS.items():
            fields = [field for field, *_ in _declarations.CBlend._fields_[:6]]
            found = answers([f"(TRIRAST_BLEND_{name.upper()}).{field}" for field in fields])
            made = _blend.blend_in_c(blend)
            # 0 is the default, which is one, zero and add.
            defaults = (2, 1, 1, 2, 1, 1)
            self.assertEqual(
                [number or default for number, default in zip(found, defaults)],
                [getattr(made, field) for field in fields],
            )


if __name__ == "__main__":
    unittest.main()
