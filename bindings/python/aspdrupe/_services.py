"""The services. Each lends what its function needs, and makes of its code and numbers an answer or a refusal."""
from __future__ import annotations

from array import array
from ctypes import Array, c_int16, c_int32, c_uint8, c_uint16, c_uint32, c_uint64
from typing import Any, Iterable, List, Mapping, Optional, Sequence, Tuple, Type, Union

from . import _derived as derived
from ._answers import Line, Packet, Program, SetAnswer, Splitting, Table, Verdict
from ._library import Buffer, Text, call, numbers, octets, room
from ._refusals import (
    CheapestRefusal,
    MergeRefusal,
    PacketRefusal,
    ProgramRefusal,
    ProofRefusal,
    Refusal,
    SetRefusal,
    SplitRefusal,
    TrimRefusal,
    UnknownAnswer,
    refusal,
)
from ._rooms import FEW_EXTERNAL, MERGED, STORE, TEXT, grown, memory_for, reckoned, store_for, table_for


_PROGRAM = {question.number for question in derived.ProgramQuestion}
_LETTERS = {ord(letter): letter for letter in "abcdels"}


def _asked(kind: Type[Refusal], name: str, *given: Union[int, Buffer], stack: int = 0) -> List[int]:
    """The numbers of an answer, where the code is 0. Any other is a question's: of the program or the service."""
    code, answer = call(name, *given, stack=stack)
    if code == 0:
        return answer
    if code in _PROGRAM and kind is not PacketRefusal:
        raise refusal(ProgramRefusal, code, answer[0])
    raise refusal(kind, code)


def _table(program: bytes, words: Optional[int]) -> Array[Any]:
    """A table for a program, of so many words where they are told."""
    return room(c_int32, table_for(program) if words is None else words)


def _used(words: Sequence[int], rules: int) -> Tuple[int, ...]:
    """The words of so many rules, without what is behind them."""
    at = 0
    for _ in range(rules):
        heads, kind, count = words[at + 1], words[at + 2], words[at + 3]
        at += 4 + heads + (1 + 2 * count if kind == 1 else count)
    return tuple(words[:at])


def _as_table(program: Union[Text, Table]) -> Table:
    return program if isinstance(program, Table) else read_program(program)


def read_program(text: Text, *, table: Optional[int] = None) -> Program:
    """Reads a program text."""
    given = octets(text)
    words = _table(given, table)
    atoms, rules = _asked(ProgramRefusal, "read_program", given, words)[:2]
    return Program(rules, _used(list(words), rules), atoms)


def test_set(program: Union[Text, Table], atoms: Iterable[int]) -> SetAnswer:
    """Tests whether a set of atoms, ascending, is an answer set of a program."""
    given = _as_table(program)
    marks = room(c_uint8, derived.MARKS)
    code, answer = call("test_set", numbers(c_int32, given.words), given.rules, numbers(c_uint16, atoms), marks)
    if code not in (derived.YES, derived.DIFFERS, derived.BROKEN):
        raise refusal(SetRefusal, code)
    model = tuple(atom for atom, mark in enumerate(marks) if mark)
    differs = answer[0] if code == derived.DIFFERS else None
    return SetAnswer(differs, answer[0] if code == derived.BROKEN else None, model)


def read_line(text: Text, position: int = 0) -> Optional[Line]:
    """Reads the proof line that begins at a position, counted from 0 in bytes; None where the text ends there."""
    found = room(c_int32, derived.NUMBERS)
    code, (count, after, *_) = call("read_line", octets(text), position, found)
    if code == 0:
        return None
    if code in _LETTERS:
        return Line(_LETTERS[code], tuple(found[:count]), after)
    raise refusal(ProofRefusal, code)


def _verdict(name: str, program: bytes, proof: bytes, table: Optional[int], store: int, *more: Buffer) -> Verdict:
    """What a whole check says with a store of so many words."""
    lent = room(c_int32, store)
    code, answer = call(name, program, proof, _table(program, table), lent, *more, stack=derived.STACK)
    if code == derived.REFUSED_PROGRAM:
        raise refusal(ProgramRefusal, answer[0], answer[1])
    if code == derived.REFUSED_PROOF:
        raise refusal(ProofRefusal, answer[0], answer[1])
    if code not in (derived.INCONSISTENT, derived.OPEN):
        raise UnknownAnswer("code of the whole check", code)
    atoms, rules, steps, nogoods = answer
    return Verdict(code == derived.INCONSISTENT, atoms, rules, steps, nogoods, array("i", bytes(lent)))


def check(program: Text, proof: Text, *, table: Optional[int] = None, store: Optional[int] = None) -> Verdict:
    """Checks a proof text of up to 65,535 bytes against a program text."""
    rules, steps = octets(program), octets(proof)

    def said(words: int) -> Verdict:
        return _verdict("check_texts", rules, steps, table, words)

    return grown(store, STORE, lambda: store_for(steps), said)


def check_long(
    program: Text,
    proof: Text,
    *,
    table: Optional[int] = None,
    store: Optional[int] = None,
    memory: Optional[int] = None,
) -> Verdict:
    """Checks a proof text of up to 2,147,483,647 bytes. The memory decides how long it takes, and nothing else."""
    rules, steps = octets(program), octets(proof)

    def said(words: int) -> Verdict:
        working = room(c_uint32, memory_for(words) if memory is None else memory)
        return _verdict("check_long", rules, steps, table, words, working)

    first = reckoned(steps, FEW_EXTERNAL) if store is None else store
    return grown(store, first, lambda: store_for(steps), said)


def write_packet(program: Union[Text, Table], proof: Text, version: int = 2, *, output: Optional[int] = None) -> bytes:
    """Writes a packet of a version, 1 or 2: a program and a proof text in one. The proof is not checked."""
    given, steps = _as_table(program), octets(proof)
    packet = room(c_uint8, 13 + 4 * len(given.words) + len(steps) if output is None else output)
    table = numbers(c_int32, given.words)
    size = _asked(PacketRefusal, "write_packet", version, table, given.rules, steps, packet)[0]
    return bytes(packet)[:size]


def read_packet(packet: Text, version: int = 2, *, table: Optional[int] = None, proof: Optional[int] = None) -> Packet:
    """Reads a packet of a version."""
    given = octets(packet)
    words = room(c_int32, len(given) // 3 if table is None else table)
    steps = room(c_uint8, TEXT if proof is None else proof)
    rules, size = _asked(PacketRefusal, "read_packet", version, given, words, steps)[:2]
    return Packet(Table(rules, _used(list(words), rules)), bytes(steps)[:size])


def packet_up(packet: Text, *, output: Optional[int] = None) -> bytes:
    """Moves a packet of version 1 to version 2."""
    given = octets(packet)
    moved = room(c_uint8, len(given) + len(given) // 3 if output is None else output)
    size = _asked(PacketRefusal, "packet_up", given, moved)[0]
    return bytes(moved)[:size]


def packet_down(packet: Text, *, output: Optional[int] = None) -> bytes:
    """Moves a packet of version 2 to version 1, where that can hold it."""
    given = octets(packet)
    moved = room(c_uint8, len(given) if output is None else output)
    size = _asked(PacketRefusal, "packet_down", given, moved)[0]
    return bytes(moved)[:size]


def merge_halves(
    program: Text,
    atom: int,
    first: Text,
    second: Text,
    *,
    table: Optional[int] = None,
    store: Optional[int] = None,
    output: int = TEXT,
) -> bytes:
    """Merges the proofs of two halves into one of the program: the first demands the atom, the second forbids it."""
    rules, halves = octets(program), (octets(first), octets(second))

    def said(words: int) -> bytes:
        merged = room(c_uint8, output)
        lent = (_table(rules, table), room(c_int32, words), merged)
        size = _asked(MergeRefusal, "merge_halves", rules, atom, *halves, *lent, stack=derived.MERGE_STACK)[0]
        return bytes(merged)[:size]

    return grown(store, STORE, lambda: MERGED + sum(map(store_for, halves)), said)


def merge_tree(
    program: Text,
    tree: Iterable[int],
    ends: Sequence[Text],
    *,
    table: Optional[int] = None,
    store: Optional[int] = None,
    output: int = TEXT,
) -> bytes:
    """Merges the proofs at the ends of a tree of splits into one of the program.

    The tree is numbers: 0 for an end; for a split its atom, then the side that demands the atom, then the side that
    forbids it.
    """
    rules, proofs, shape = octets(program), [octets(end) for end in ends], numbers(c_uint16, tree)
    lengths = numbers(c_uint64, map(len, proofs))

    def said(words: int) -> bytes:
        merged = room(c_uint8, output)
        lent = (_table(rules, table), room(c_int32, words), merged)
        given = (rules, shape, b"".join(proofs), lengths)
        size = _asked(MergeRefusal, "merge_tree", *given, *lent, stack=derived.TREE_STACK)[0]
        return bytes(merged)[:size]

    return grown(store, STORE, lambda: MERGED + sum(map(store_for, proofs)), said)


def trim(program: Text, proof: Text, *, table: Optional[int] = None, store: Optional[int] = None) -> bytes:
    """Leaves of a proof only what it needs. That takes a whole check for each step, more than once."""
    rules, steps = octets(program), octets(proof)

    def said(words: int) -> bytes:
        text = (c_uint8 * len(steps)).from_buffer_copy(steps)
        lent = (text, _table(rules, table), room(c_int32, words))
        size = _asked(TrimRefusal, "trim_proof", rules, *lent, stack=derived.TRIM_STACK)[0]
        return bytes(text)[:size]

    return grown(store, STORE, lambda: store_for(steps), said)


def check_cheapest(
    program: Text,
    atoms: Iterable[int],
    costs: Union[Mapping[int, int], Iterable[int]],
    proof: Text = b"",
    *,
    table: Optional[int] = None,
    store: Optional[int] = None,
) -> int:
    """Certifies that a set is a cheapest answer set, and says its cost. The costs are literals, each with its cost.

    The proof is for the program with a constraint more, its last rule: the literals with their costs, and as bound what
    the set costs. Where that is 0, none is read.
    """
    rules, steps, chosen = octets(program), octets(proof), numbers(c_uint16, atoms)
    pairs = [number for pair in costs.items() for number in pair] if isinstance(costs, Mapping) else costs
    listed = numbers(c_int16, pairs)

    def said(words: int) -> int:
        given = (rules, chosen, listed, steps, _table(rules, table), room(c_int32, words))
        return _asked(CheapestRefusal, "check_cheapest", *given, stack=derived.CHEAPEST_STACK)[0]

    return grown(store, STORE, lambda: store_for(steps), said)


def split_sums(program: Text, group: int, *, table: Optional[int] = None, output: int = TEXT) -> Splitting:
    """Writes a program with its sums of 13 to 64 literals split, in groups of 2 to 12 literals, over new atoms.

    Up to N the answer sets stay, so an 'inconsistent' of what is written is one of the program.
    """
    given, written = octets(program), room(c_uint8, output)
    lent = (_table(given, table), written)
    size, atoms, rules, old = _asked(SplitRefusal, "split_sums", given, group, *lent, stack=derived.STACK)
    return Splitting(bytes(written)[:size], atoms, rules, old)
