"""Numbers that callers give: whole where they have to be, and in their range."""
import operator
from typing import Optional, SupportsIndex

from .commands import MOST_TICK


def whole(name: str, number: SupportsIndex, least: int = -2 ** 63, most: int = 2 ** 63) -> int:
    """The number as an `int`.

    Raises `TypeError` if it is not whole, and `ValueError` if it is not from `least` to `most`. `name` says
    in both what the number is. Without these it may be any that a line may have, and many more.
    """
    try:
        found = operator.index(number)
    except TypeError:
        raise TypeError(f"{name} is a whole number, and not {number!r}") from None
    if not least <= found <= most:
        raise ValueError(f"{name} is {least:,} to {most:,}, and not {found:,}")
    return found


def whole_steps(steps: SupportsIndex) -> int:
    """So many steps, back if negative, as `whole`. There are no more between the first tick and the last."""
    return whole("steps", steps, -2 * MOST_TICK, 2 * MOST_TICK)


def whole_tick(tick: Optional[SupportsIndex]) -> int:
    """A tick, as `whole`. Without one it is 0."""
    return 0 if tick is None else whole("tick", tick, -MOST_TICK, MOST_TICK)
