"""The inputs of bindings/c/stack.c, which reach the deepest paths of each service."""
from __future__ import annotations

from pathlib import Path
from typing import List, NamedTuple, Tuple

TEXT = 65_535
WORDS = 16_384
RULES = 1_024
PART = 64
WEIGHTED = 12
PACKET = 13 + 4 * WORDS + TEXT
IDLE = 20_000

HEADER = Path(__file__).resolve().parents[2] / "c" / "aspdrupe.h"
HEAD = "asp 1 0 0\n"
NEWLINES = "\n" * TEXT
LONG_LINE = "a" + " -8191" * 10_921 + " 0\n"
ONE_RULE = HEAD + "1 0 1 1 0 1 -1\n0\n"


def span(first: int, last: int) -> str:
    """Numbers, the first to the last, with a space before each."""
    return "".join(f" {n}" for n in range(first, last + 1))


def chain() -> str:
    """A chain of definitions of which the last name is refuted only at the chain's far end."""
    names = "".join(f"e {name} {name - 1} 0\n" for name in range(3, 2_003))
    return "b 2 -1 0\nc 2 1 0\ns 1 2 0\n" + names + "a 2002 0\nd 2002 0\n" * 100 + "a 1 0\na 0\n"


def wide() -> Tuple[str, str]:
    """Rules with as many heads and literals as there may be, 65 atoms a loop, and steps with as many numbers."""
    heads, body = span(1, PART), span(PART + 1, 2 * PART)
    rules = f"{HEAD}1 1 64{heads} 0 64{body}\n1 0 1 65 0 64{heads}\n1 0 1 1 0 0\n0\n"
    steps = f"b 130{body} 0\nb 131 0\nc 131 1 0\ns 1 130 131 0\ne 132{heads} 0\nl{span(1, PART + 1)} 0\n"
    return rules, steps + "".join(f"{letter} 132 -1{span(2, PART)} 0\n" for letter in "ad")


def big() -> str:
    """Rules with 64 heads, nearly as many as a text holds."""
    return HEAD + f"1 1 64{span(1_000, 999 + PART)} 0 0\n" * 190 + "0\n"


def full() -> Tuple[str, str]:
    """As many rules as there may be, in a table that they fill, and the steps that go through all of them."""
    rules = "".join(f"1 1 7 2 3 4 5 6 7 8 0 5 {('2 3 4 5 6', '4 5 6 7 8')[i % 2]}\n" for i in range(RULES))
    steps = "b 9 2 3 4 5 6 0\nb 10 4 5 6 7 8 0\n"
    again = "s 2 9 10 0\nd 2 -9 -10 0\nl 8 0\nd 8 -9 0\nl 2 3 0\nd 2 -10 0\nl 3 4 8 0\nd 3 0\n"
    return f"{HEAD}{rules}0\n", filled(steps, again, TEXT - 80)


def filled(text: str, more: str, size: int) -> str:
    """The text with more behind it until it has so many bytes."""
    return text + more * -(-max(size - len(text), 0) // len(more))


WEIGHT_RULES = WORDS // (6 + 2 * WEIGHTED)
WEIGHT_RULE = f"1 0 1 13 1 {WEIGHTED - 1} {WEIGHTED}" + "".join(f" {-atom} 1" for atom in range(1, WEIGHTED + 1)) + "\n"


def bodies(names: int) -> str:
    """The bodies of a rule with weights, named from behind this number, and that of the loop."""
    atoms = range(1, WEIGHTED + 1)
    listed = [" ".join(str(-atom) for atom in atoms if atom != left) for left in atoms]
    return "".join(f"b {names + left} {body} 0\n" for left, body in zip(atoms, listed)) + f"b {names + 13} 13 0\n"


def weights() -> Tuple[str, str, str]:
    """Rules with as many weights as there may be, steps that go through them, and a line with more weights."""
    rules = HEAD + WEIGHT_RULE * (WEIGHT_RULES - 1) + "1 0 1 13 0 1 13\n0\n"
    steps = bodies(13) + f"c 14 13 0\ns 13{span(14, 26)} 0\nl 13 0\n"
    many = "".join(f" {-atom} 4095" for atom in range(1, PART + 1))
    return rules, steps, f"{HEAD}1 1 64{span(1, PART)} 1 4095 64{many}\n0\n"


def weight_half(names: int) -> str:
    """The proof of a half of the program with weights, with names from behind this one."""
    front = f"{bodies(names)}c {names + 1} 13 0\nc {names + 13} 0\ns 13{span(names + 1, names + 13)} 0\nl 13 0\n"
    return front + "".join(f"s {atom} 0\n" for atom in range(1, WEIGHTED + 1)) + "a 13 0\na 0\n"


class Split(NamedTuple):
    """A program, the atom that it is split on, and the proofs of its two halves."""

    program: str
    atom: int
    first: str
    second: str


def weight_split() -> Split:
    """Rules with weights that fill the table, by which atom 13 holds, and a constraint against it."""
    program = HEAD + WEIGHT_RULE * (WEIGHT_RULES - 2) + "1 0 1 13 0 1 13\n1 0 0 0 1 13\n0\n"
    return Split(program, 13, "b 14 -13 0\nc 14 0\n" + weight_half(14), "e 14 -13 0\n" + weight_half(20))


def full_split() -> Split:
    """As many rules as there may be, and a first half that nearly fills the merged text."""
    program = HEAD + "1 0 1 1 0 1 -1\n" + "1 1 7 2 3 4 5 6 7 8 0 5 4 5 6 7 8\n" * (RULES - 1) + "0\n"
    names = "".join(f"e {name} 0\n" for name in range(8_001, 8_001 + PART))
    first = "b 9 -1 0\nc 9 0\nc 9 1 0\ns 1 9 0\na 0\n" + names
    second = "b 9 -1 0\nb 10 1 0\nc 10 0\nc 9 1 0\ns 1 9 0\ne 8001 9 0\na 0\n"
    return Split(program, 1, filled(first, f"a{span(8_001, 8_000 + PART)} 0\n", TEXT - 1_000), second)


SMALL_END = "b 9 -1 0\nc 9 1 0\ns 1 9 0\na 1 0\na 0\n"


def full_proof(names: int, size: int) -> str:
    """A proof for the program of that split which nearly fills a text with lines that it does not need."""
    front = SMALL_END + "".join(f"e {name} 0\n" for name in range(8_001, 8_001 + names))
    return filled(front, f"a{span(8_001, 8_000 + names)} 0\n", size)


WEIGHT_COSTS = [1, 1, 2, 1, 3, 1, 4, 1, 5, 1, 6, 1, -7, 1, -8, 1, -9, 1, -10, 1, -11, 1, 13, 1]
FULL_COSTS = [number for atom in range(1, 9) for number in (-atom, 1)]


def certificates() -> Tuple[str, str]:
    """Proofs that no answer set is cheaper: with weights that fill the table, and with a text that is nearly full."""
    unsupported = "".join(f"s {atom} 0\n" for atom in range(1, WEIGHTED + 1))
    dear = f"{weights()[1]}{unsupported}b 27 -7 -8 -9 -10 -11 13 0\nc 27 0\na 0\n"
    loops = "".join(f"l {first}{span(2, first - 1)}{span(first + 1, 8)} 0\n" for first in range(2, 9))
    front = f"b 9 2 3 4 5 6 0\nb 10 4 5 6 7 8 0\n{loops}s 1 0\nb 11 -1 -2 -3 -4 -5 -6 -7 -8 0\nc 11 0\na 0\n"
    return dear, filled(front, "s 2 9 10 0\nd 2 -9 -10 0\nl 8 0\nd 8 -9 0\n", TEXT - 80)


def tree(atom: int) -> List[int]:
    """Six splits from this atom on, each with an end where the atom is forbidden."""
    return [*range(atom, atom + 6), *[0] * 7]
