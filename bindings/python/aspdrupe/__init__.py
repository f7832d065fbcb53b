"""The services of the proof checker for Python.

The work is done by functions that are proved to meet their contracts on every input; here they are called, and their
codes become answers and exceptions. A text is a string or bytes. What is refused is a `Refusal`, with the question's
number, its text, what to mend, and the line or step.

    >>> import aspdrupe
    >>> program = "asp 1 0 0\\n1 0 1 1 0 1 -1\\n0\\n"
    >>> print(aspdrupe.check(program, "b 2 -1 0\\nc 2 1 0\\ns 1 2 0\\na 1 0\\na 0\\n"))
    inconsistent 1 1 5 6

Buffers are as long as can be needed. Where they are to be shorter, `table`, `store`, `output` and so on say how long:
the program `verdict` has 16,384 words for the table and the store.

The checks, the merges, trimming and `check_cheapest` run in threads of their own, with the stack that they need; the
others need 64 KB where they are called. No call holds the interpreter's lock while it works.
"""
from __future__ import annotations

from ._answers import Line, Packet, Program, SetAnswer, Splitting, Table, Verdict
from ._derived import (
    CheapestQuestion,
    MergeQuestion,
    PacketQuestion,
    ProgramQuestion,
    ProofQuestion,
    SetQuestion,
    SplitQuestion,
    TrimQuestion,
)
from ._library import Text
from ._question import Question
from ._refusals import (
    CheapestRefusal,
    MergeRefusal,
    PacketRefusal,
    ProgramRefusal,
    ProofRefusal,
    Refusal,
    SetRefusal,
    SplitRefusal,
    TrimRefusal,
    UnknownAnswer,
)
from ._rooms import memory_for, store_for
from ._services import (
    check,
    check_cheapest,
    check_long,
    merge_halves,
    merge_tree,
    packet_down,
    packet_up,
    read_line,
    read_packet,
    read_program,
    split_sums,
    test_set,
    trim,
    write_packet,
)

__all__ = [
    "CheapestQuestion",
    "CheapestRefusal",
    "Line",
    "MergeQuestion",
    "MergeRefusal",
    "Packet",
    "PacketQuestion",
    "PacketRefusal",
    "Program",
    "ProgramQuestion",
    "ProgramRefusal",
    "ProofQuestion",
    "ProofRefusal",
    "Question",
    "Refusal",
    "SetAnswer",
    "SetQuestion",
    "SetRefusal",
    "SplitQuestion",
    "SplitRefusal",
    "Splitting",
    "Table",
    "Text",
    "TrimQuestion",
    "TrimRefusal",
    "UnknownAnswer",
    "Verdict",
    "check",
    "check_cheapest",
    "check_long",
    "memory_for",
    "merge_halves",
    "merge_tree",
    "packet_down",
    "packet_up",
    "read_line",
    "read_packet",
    "read_program",
    "split_sums",
    "store_for",
    "test_set",
    "trim",
    "write_packet",
]
