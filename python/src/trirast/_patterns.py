"""The patterns in which the samples of a pixel lie: docs/rules.md."""

from ._numbers import PATTERNS as PATTERNS

# How far right of its upper left corner and below it they lie, in 1/256 pixel.
SAMPLES = {count: tuple((128 + 16 * x, 128 + 16 * y) for x, y in pattern) for count, pattern in PATTERNS.items()}
*_FEW, _MOST = map(str, PATTERNS)
# The numbers of samples that a pixel may have, in a message.
COUNTS = f"{', '.join(_FEW)} or {_MOST}"
