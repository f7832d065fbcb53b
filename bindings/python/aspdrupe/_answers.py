"""What the services answer."""
from __future__ import annotations

from dataclasses import dataclass, field
from typing import Optional, Sequence, Tuple


@dataclass(frozen=True)
class Table:
    """The rules of a program in words, as the program reader leaves them.

    The words of a rule are the head kind, the head count, the body kind and the body count, with body kind 1 the bound,
    then the heads ascending, and the literals ascending by atom, with body kind 1 each with its weight behind it.
    """

    rules: int
    words: Sequence[int]


@dataclass(frozen=True)
class Program(Table):
    """A program that was read."""

    #: N, the largest atom.
    atoms: int


@dataclass(frozen=True)
class SetAnswer:
    """What the set test says of a set. It is true where the set is an answer set."""

    #: The lowest atom that lies in just one of the set and the least model.
    differs: Optional[int]
    #: The first broken constraint's rule number, counted from 1.
    broken: Optional[int]
    #: The atoms of the least model.
    model: Tuple[int, ...]

    def __bool__(self) -> bool:
        return self.differs is None and self.broken is None


@dataclass(frozen=True)
class Line:
    """A line of a proof text."""

    #: One of a b c d e l s.
    letter: str
    #: Its numbers, the closing 0 aside.
    numbers: Tuple[int, ...]
    #: The position after its newline.
    next: int


@dataclass(frozen=True)
class Verdict:
    """What the whole check says of two texts that it does not refuse. It is true where the program has no answer set.

    Its string is the line that the program `verdict` prints.
    """

    #: The program has no answer set. Otherwise every step is good, and the empty nogood is not live: nothing is shown.
    inconsistent: bool
    #: N, the largest atom; R, the rules; S, the steps; K, the live nogoods after the last step.
    atoms: int
    rules: int
    steps: int
    nogoods: int
    #: The store: nogoods, oldest first, with 0 after them. The words of one are the step that added it, negative where
    #: it was deleted, the literal count, and the literals ascending by variable.
    store: Sequence[int] = field(repr=False, compare=False)

    def __bool__(self) -> bool:
        return self.inconsistent

    def __str__(self) -> str:
        word = "inconsistent" if self.inconsistent else "open"
        return f"{word} {self.atoms} {self.rules} {self.steps} {self.nogoods}"


@dataclass(frozen=True)
class Packet:
    """A packet that was read."""

    table: Table
    proof: bytes


@dataclass(frozen=True)
class Splitting:
    """A program whose long sums were split."""

    #: The program text that was written.
    text: bytes
    #: Its largest atom, and how many rules it has.
    atoms: int
    rules: int
    #: N, the largest atom of the program as written; those above it are new.
    old_atoms: int
