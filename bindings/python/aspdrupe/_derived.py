"""What the header for C and the Rust crate say. Written by bindings/python/derive.py; not edited by hand."""
from __future__ import annotations

from typing import Dict, Tuple

from ._question import Question

STACK = 786_432
MERGE_STACK = 1_179_648
TRIM_STACK = 1_310_720
CHEAPEST_STACK = 1_048_576
TREE_STACK = 2_359_296
ANSWER = 4
MARKS = 8_192
NUMBERS = 65
YES = 0
DIFFERS = 1
BROKEN = 2
INCONSISTENT = 0
OPEN = 1
REFUSED_PROGRAM = 2
REFUSED_PROOF = 3

# The parameters of each function; each pointer has its length after it.
FUNCTIONS: Dict[str, Tuple[str, ...]] = {
    "read_program": (
        "const uint8_t *text",
        "int32_t *table",
        "uint64_t *answer",
    ),
    "test_set": (
        "const int32_t *table",
        "uint64_t rules",
        "const uint16_t *set",
        "uint8_t *marks",
        "uint64_t *answer",
    ),
    "read_line": (
        "const uint8_t *text",
        "uint64_t position",
        "int32_t *numbers",
        "uint64_t *answer",
    ),
    "check_texts": (
        "const uint8_t *program",
        "const uint8_t *proof",
        "int32_t *table",
        "int32_t *store",
        "uint64_t *answer",
    ),
    "check_long": (
        "const uint8_t *program",
        "const uint8_t *proof",
        "int32_t *table",
        "int32_t *store",
        "uint32_t *memory",
        "uint64_t *answer",
    ),
    "write_packet": (
        "uint64_t version",
        "const int32_t *table",
        "uint64_t rules",
        "const uint8_t *proof",
        "uint8_t *packet",
        "uint64_t *answer",
    ),
    "read_packet": (
        "uint64_t version",
        "const uint8_t *packet",
        "int32_t *table",
        "uint8_t *proof",
        "uint64_t *answer",
    ),
    "packet_up": (
        "const uint8_t *packet",
        "uint8_t *output",
        "uint64_t *answer",
    ),
    "packet_down": (
        "const uint8_t *packet",
        "uint8_t *output",
        "uint64_t *answer",
    ),
    "merge_halves": (
        "const uint8_t *program",
        "uint64_t atom",
        "const uint8_t *first",
        "const uint8_t *second",
        "int32_t *table",
        "int32_t *store",
        "uint8_t *output",
        "uint64_t *answer",
    ),
    "trim_proof": (
        "const uint8_t *program",
        "uint8_t *text",
        "int32_t *table",
        "int32_t *store",
        "uint64_t *answer",
    ),
    "check_cheapest": (
        "const uint8_t *program",
        "const uint16_t *set",
        "const int16_t *costs",
        "const uint8_t *proof",
        "int32_t *table",
        "int32_t *store",
        "uint64_t *answer",
    ),
    "merge_tree": (
        "const uint8_t *program",
        "const uint16_t *tree",
        "const uint8_t *texts",
        "const uint64_t *lengths",
        "int32_t *table",
        "int32_t *store",
        "uint8_t *output",
        "uint64_t *answer",
    ),
    "split_sums": (
        "const uint8_t *program",
        "uint64_t group",
        "int32_t *table",
        "uint8_t *output",
        "uint64_t *answer",
    ),
}


class ProgramQuestion(Question):
    """A question put to a program text. A refusal names the first that is answered no; 54 and 55 are asked right after 6."""

    LENGTH = (
        1,
        "Has the text at most 65,535 bytes?",
        "a smaller program",
    )
    HEADER = (
        2,
        "Is line 1 `asp 1 0 0`?",
        "the header; to the program `verdict` an unreadable file is an empty one and ends here",
    )
    NUMBERS = (
        3,
        "Is there a line, ended, of well-formed numbers?",
        "no line `0` or newline at the end, two spaces, `-0`, leading zeros, a carriage return",
    )
    RANGE = (
        4,
        "Are all numbers from -8,191 to 8,191?",
        "fewer atoms; number them anew; divide weights and bound",
    )
    KINDS = (
        5,
        "Is the statement kind 1, the head kind 0 or 1, and the body kind 0 or 1?",
        "drop other statements; an empty line",
    )
    COUNTS = (
        6,
        "Are both counts and a bound there, the counts 0 to 64, and matched by what follows?",
        "the counts; split long rules; a missing bound or weight",
    )
    WEIGHTS = (
        54,
        "Are bound and weights 0 to 4,095?",
        "divide a bound and its weights; a negative weight: take the complement of its literal and raise the bound",
    )
    WEIGHT_COUNT = (
        55,
        "Has a body with weights at most 12 literals?",
        "split the sum",
    )
    HEAD_COUNT = (
        7,
        "Does the head count suit the head kind?",
        "normal: 0 or 1 heads, choice: 1 to 64; disjunction is not taken",
    )
    LITERALS = (
        8,
        "Are heads positive and distinct, literals nonzero with no atom twice?",
        "the rule; a plain body with `a, not a` never holds: drop the rule; in a sum add up the weights",
    )
    RULE_COUNT = (
        9,
        "Are there fewer than 1,024 rules before it?",
        "a smaller program",
    )
    TABLE = (
        10,
        "Does the table hold the rule?",
        "a smaller program, or a longer table where you lend it",
    )
    END = (
        11,
        "Does the text end after the line `0`?",
        "what follows it",
    )


class ProofQuestion(Question):
    """A question put to a proof text. A refusal names the first that is answered no; 56 is asked right after 31."""

    LENGTH = (
        21,
        "Has the text at most 65,535 bytes, for the long check 2,147,483,647?",
        "a shorter proof, or up to 2,147,483,647 bytes the long check",
    )
    SHAPE = (
        22,
        "Is the line a letter, a space, numbers, a closing `0` and a newline?",
        "the line's shape",
    )
    SIZES = (
        23,
        "Are all numbers from -8,191 to 8,191, and at most 65 of them?",
        "the line's numbers",
    )
    SIGNS = (
        24,
        "Is a first number there for `b c e l s`, and every sign as told?",
        "only `a`, `d` and the later numbers of `b`, `e` are signed",
    )
    DISTINCT = (
        25,
        "Is no variable named twice in the line?",
        "the line",
    )
    KNOWN = (
        26,
        "Are all variables known, save the name introduced?",
        "introduce it with `b` or `e` first",
    )
    FRESH = (
        27,
        "Is the name introduced unknown?",
        "take another number: a name is never new again, not even after `d`",
    )
    BODY = (
        28,
        "`b`: is it the body of a rule, and without a name?",
        "name each body once, as it stands in a rule; of weights, a minimal set",
    )
    COMPLETION = (
        29,
        "`c`: has a normal rule that body and that head?",
        "the name and the head; choice rules give no `c`",
    )
    SUPPORT = (
        30,
        "`s`: is it an atom, with exactly the names of its bodies?",
        "the name of every body of a rule with it in its head, choice rules too; name those that lack one by `b` first",
    )
    ATOMS = (
        31,
        "`l`: are all of them atoms?",
        "names stand in no `l` line",
    )
    LOOP = (
        56,
        "`l`: does every atom reach every atom inside the set?",
        "name a loop; an atom without an edge to itself takes `s`",
    )
    EXTERNALS = (
        32,
        "`l`: is each external body named?",
        "name the bodies first",
    )
    ADDITION = (
        33,
        "`a`: does propagation come to a conflict?",
        "the solver's step does not follow; earlier lines are missing",
    )
    STORE = (
        34,
        "Do the live nogoods fit the store?",
        "delete with `d`, or lend a longer store; a nogood takes two words and its literals",
    )


class SetQuestion(Question):
    """A question put by the set test. A refusal names the first that is answered no."""

    TABLE = (
        41,
        "Is the table one that the program reader leaves, with that rule count?",
        "read the program again",
    )
    SET = (
        42,
        "Is the set strictly ascending within 1 to the largest atom?",
        "the set",
    )
    MARKS = (
        43,
        "Are there 8,192 marks?",
        "the call",
    )


class PacketQuestion(Question):
    """A question put by the writer and the reader of packets, and by a move to the other version. A refusal names the first that is answered no; 61 is asked by a move down, before whether the output is long enough."""

    MARK = (
        51,
        "Does the packet begin with `RVP` and the version told, and is that 1 or 2?",
        "it is no packet, or one of the other version",
    )
    LENGTHS = (
        52,
        "Do the lengths make up the bytes given, and do the outputs hold what is written?",
        "a file that was cut or padded; a longer output",
    )
    PAIR = (
        53,
        "Does the table pass question 41 and the proof text questions 21 to 25, in version 1 without weights and without a variable above 4,095?",
        "read the program again; the proof's lines; send version 2",
    )
    OLD = (
        61,
        "Down: has the pair no weights, and no variable above 4,095?",
        "it stays in version 2",
    )


class MergeQuestion(Question):
    """A question put by the merge of two halves, after those put to the program. A refusal names the first that is answered no. 64 is asked by the merge of a tree, before any end is read; the others are then put to its ends and merges, a side that demands an atom before the other."""

    TREE = (
        64,
        "Tree: are the numbers a tree over the program's atoms, at most six splits deep and with no atom twice on a path, and the lengths those of its ends?",
        "the tree's numbers; the lengths; for a deeper tree, some of its sides merged first",
    )
    HALVES = (
        57,
        "Is the atom one of the program's, and each half, or end of a tree, inconsistent when it is checked with the store?",
        "the atom; the half's proof, by a check of its own; a longer store",
    )
    LIMITS = (
        58,
        "Is every line and name within its limit, and the text within 65,535 bytes and the output?",
        "a longer output; shorter proofs; fewer names",
    )
    STORE = (
        59,
        "Do the live nogoods of the merged proof fit the store?",
        "a longer store",
    )


class TrimQuestion(Question):
    """The question put by the trimming of a proof, after those put to the program."""

    ACCEPTED = (
        60,
        "Is the proof inconsistent when it is checked with the store?",
        "the proof, by a check of its own; a zero byte after it; a longer store",
    )


class CheapestQuestion(Question):
    """A question put to a set that is to be a cheapest answer set, after those put to the program. A refusal names the first that is answered no."""

    SET = (
        42,
        "Is the set strictly ascending within 1 to the largest atom?",
        "the set",
    )
    COSTS = (
        62,
        "Are there at most 12 literals over the program's atoms, no atom twice, each with a cost of 0 to 4,095, and does the set cost at most 4,095?",
        "the costs; divide them",
    )
    CERTIFICATE = (
        63,
        "Is the set an answer set, and where it costs more than 0 the proof inconsistent for the program restricted to lower costs?",
        "the set, by the set test; the proof, by a check of its own with the restriction as the last rule; a cheaper set; a longer store",
    )


class SplitQuestion(Question):
    """A question put by the splitting of long sums, after those put to the program. A refusal names the first that is answered no."""

    GROUP = (
        65,
        "Is the group size from 2 to 12?",
        "the call",
    )
    ROOM = (
        66,
        "Has the split program at most 1,024 rules, atoms up to 8,191, and a text within 65,535 bytes and the output?",
        "another group size, or a longer output; a smaller program; weights with fewer different sums",
    )
