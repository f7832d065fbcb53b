"""How long the buffers are that a call is lent."""
from __future__ import annotations

from typing import Callable, Optional, TypeVar

from ._derived import NUMBERS
from ._library import Text, octets
from ._refusals import Refusal

#: The most bytes of a program text, and of a proof text save for the long check.
TEXT = 65_535

#: The words of the store that `verdict` has. The check of two texts is slower past them.
STORE = 16_384

#: More than the live nogoods of a text of 65,535 bytes can take, `l` lines aside: a line of n numbers has 2 * n + 4
#: bytes or more, and adds 5 * n + 2 words or fewer.
MERGED = 163_840

_PROOF = (1 << 31) - 1
_LARGEST = 8_191

#: The external bodies that an `l` line is first reckoned with: it can need thousands of words, and seldom does.
FEW_EXTERNAL = 64


def table_for(program: bytes) -> int:
    """The words of a table that holds the rules of a program: no rule has more words than bytes."""
    return min(len(program), TEXT)


def memory_for(store: int) -> int:
    """The words of memory with which the long check reaches a store of so many words. More reach no further."""
    return 49_287 + (store + 7) // 8 * 25


def store_for(proof: Text) -> int:
    """The words of a store that holds all nogoods which a proof adds, so that 34 is never refused."""
    return reckoned(octets(proof), _LARGEST)


def reckoned(proof: bytes, external: int) -> int:
    """The same with no more than so many external bodies for each `l` line.

    They are reckoned from letters and spaces, up to a line that begins with no letter of a step or has too many
    numbers, where the check ends at the latest.
    """
    bodies = words = at = 0
    if len(proof) > _PROOF:
        return 0
    while at < len(proof) and proof[at] in b"abcdels":
        end = proof.find(b"\n", at)
        end = len(proof) if end < 0 else end
        spaces = proof.count(b" ", at, end)
        if spaces == 0 or spaces - 1 > NUMBERS:
            break
        words += _words(proof[at], spaces - 1, min(bodies, external))
        bodies += proof[at] == ord("b")
        at = end + 1
    return words


def _words(letter: int, count: int, external: int) -> int:
    """The words that a line of so many numbers adds."""
    if letter == ord("d"):
        return 0
    if letter == ord("l"):
        return 3 + external
    return 2 + count + (4 * max(count - 1, 0) if letter in b"be" else 0)


_Said = TypeVar("_Said")

# The questions that are answered no where the store may be too short.
_SHORT = (34, 57, 59, 60, 63)


def grown(store: Optional[int], first: int, most: Callable[[], int], said: Callable[[int], _Said]) -> _Said:
    """What a call says with a store of so many words; where none are told, it is doubled while it may be too short."""
    words = first if store is None else store
    while True:
        try:
            return said(words)
        except Refusal as refusal:
            limit = most() if store is None and refusal.number in _SHORT else 0
            if words >= limit:
                raise
        words = min(2 * words, limit)
