"""Starred examples with every word, refusals of every service, and buffers that are too short."""
from __future__ import annotations

import pickle
import re
import unittest
from typing import Callable, Optional, Type
from unittest import mock

import aspdrupe
import inputs
from aspdrupe import Refusal, Table, _library

PROGRAM = b"asp 1 0 0\n1 0 1 1 0 1 -1\n0\n"
PROOF = b"b 2 -1 0\nc 2 1 0\ns 1 2 0\na 1 0\na 0\n"
RULES = (0, 1, 0, 1, 1, -1)
STORE = [1, 2, -1, -2, 1, 2, 1, 2, 2, 2, -1, 2, 3, 2, 1, -2, 4, 1, 1, 5, 0]
FACT = b"asp 1 0 0\n1 0 1 1 0 0\n0\n"
DEMANDED = b"b 2 -1 0\nc 2 0\nc 2 1 0\ns 1 2 0\na 0\n"
FORBIDDEN = b"b 2 -1 0\nb 3 1 0\nc 3 0\nc 2 1 0\ns 1 2 0\na 0\n"
MERGED = b"b 2 -1 0\nc 2 1 0\ns 1 2 0\na 1 0\ne 3 1 0\nc 2 1 0\ns 1 2 0\na -1 0\na 0\n"
EITHER = "asp 1 0 0\n1 1 2 1 2 0 0\n1 0 0 0 2 -1 -2\n0\n"
DEAR = "b 3 1 0\nc 3 0\nb 4 2 0\nc 4 0\nb 5 -1 -2 0\nc 5 0\na 0\n"
HUGE = 1 << 64


class Services(unittest.TestCase):
    def refused(self, kind: Type[Refusal], number: int, place: Optional[int], call: Callable[[], object]) -> Refusal:
        with self.assertRaises(kind) as caught:
            call()
        found = caught.exception
        self.assertEqual((found.number, found.place), (number, place))
        self.assertEqual((found.question.number, found.mend), (number, found.question.mend))
        return found


class Answers(Services):
    def test_starred_1(self) -> None:
        verdict = aspdrupe.check(PROGRAM, PROOF, table=6, store=21)
        self.assertEqual((str(verdict), list(verdict.store)), ("inconsistent 1 1 5 6", STORE))
        self.assertTrue(verdict)
        self.assertEqual(verdict, aspdrupe.check_long(PROGRAM.decode(), bytearray(PROOF)))
        self.refused(aspdrupe.ProofRefusal, 34, 5, lambda: aspdrupe.check(PROGRAM, PROOF, store=20))
        self.refused(aspdrupe.ProgramRefusal, 10, 2, lambda: aspdrupe.check(PROGRAM, PROOF, table=5))

    def test_open_is_false(self) -> None:
        verdict = aspdrupe.check(PROGRAM, PROOF + b"d 0\n", store=21)
        self.assertEqual((str(verdict), list(verdict.store)), ("open 1 1 6 5", [*STORE[:19], -5, 0]))
        self.assertFalse(verdict)
        self.assertFalse(aspdrupe.check("asp 1 0 0\n0\n", ""))

    def test_programs(self) -> None:
        self.assertEqual(aspdrupe.read_program(PROGRAM), aspdrupe.Program(1, RULES, 1))
        weights = aspdrupe.read_program("asp 1 0 0\n1 0 0 1 5 3 4 3 -2 2 3 4\n1 0 1 9 0 0\n0\n")
        self.assertEqual(weights.words, (0, 0, 1, 3, 5, -2, 2, 3, 4, 4, 3, 0, 1, 0, 0, 9))
        self.assertEqual((weights.rules, weights.atoms), (2, 9))

    def test_long_sums(self) -> None:
        """Not all of 1 to 13: 14 where all of 1 to 7 hold, 15 where all of 8 to 13 do, 16 where both do."""
        sum_of = lambda bound, first, last: f"{bound} {last - first + 1}" + "".join(f" {x} 1" for x in range(first, last + 1))
        long = f"asp 1 0 0\n1 0 0 1 {sum_of(13, 1, 13)}\n0\n"
        lines = [f"1 0 1 14 1 {sum_of(7, 1, 7)}", f"1 0 1 15 1 {sum_of(6, 8, 13)}", "1 0 1 16 0 2 14 15", "1 0 0 0 1 16"]
        text = "".join(f"{line}\n" for line in ["asp 1 0 0", *lines, "0"]).encode()
        self.assertEqual(aspdrupe.split_sums(long, 7), aspdrupe.Splitting(text, 16, 4, 13))
        self.assertEqual(aspdrupe.split_sums(PROGRAM, 2, table=6, output=27).text, PROGRAM)
        self.refused(aspdrupe.SplitRefusal, 65, None, lambda: aspdrupe.split_sums(long, 13))
        self.refused(aspdrupe.SplitRefusal, 65, None, lambda: aspdrupe.split_sums(long, HUGE))
        self.refused(aspdrupe.SplitRefusal, 66, None, lambda: aspdrupe.split_sums(long, 7, output=len(text) - 1))
        self.refused(aspdrupe.ProgramRefusal, 10, 2, lambda: aspdrupe.split_sums(long, 7, table=30))
        self.refused(aspdrupe.ProgramRefusal, 55, 2, lambda: aspdrupe.read_program(long))

    def test_sets(self) -> None:
        self.assertEqual(aspdrupe.test_set(PROGRAM, []), aspdrupe.SetAnswer(1, None, (1,)))
        self.assertEqual(aspdrupe.test_set(PROGRAM, [1]), aspdrupe.SetAnswer(1, None, ()))
        asks = "asp 1 0 0\n1 1 1 1 0 0\n1 0 0 0 1 -1\n0\n"
        self.assertEqual(aspdrupe.test_set(asks, []), aspdrupe.SetAnswer(None, 2, ()))
        self.assertTrue(aspdrupe.test_set(asks, [1]))
        self.assertFalse(aspdrupe.test_set(asks, []))
        self.assertTrue(aspdrupe.test_set(Table(0, []), []))

    def test_lines(self) -> None:
        at, seen = 0, []
        while (line := aspdrupe.read_line(PROOF, at)) is not None:
            seen.append((line.letter, *line.numbers))
            at = line.next
        self.assertEqual(seen, [("b", 2, -1), ("c", 2, 1), ("s", 1, 2), ("a", 1), ("a",)])
        self.assertEqual(at, len(PROOF))

    def test_merges(self) -> None:
        self.assertEqual(aspdrupe.merge_halves(PROGRAM, 1, DEMANDED, FORBIDDEN), MERGED)
        self.assertEqual(aspdrupe.merge_tree(PROGRAM, [1, 0, 0], [DEMANDED, FORBIDDEN]), MERGED)
        self.assertEqual(aspdrupe.merge_tree(PROGRAM, [0], [PROOF]), PROOF)
        self.assertEqual(str(aspdrupe.check(PROGRAM, MERGED)), "inconsistent 1 1 9 11")

    def test_trim(self) -> None:
        self.assertEqual(aspdrupe.trim(PROGRAM, b"b 2 -1 0\nc 2 1 0\ns 1 2 0\ne 3 2 0\na 1 0\na 0\n"), PROOF)

    def test_cheapest(self) -> None:
        self.assertEqual(aspdrupe.check_cheapest(EITHER, [1], {1: 3, 2: 5}, DEAR), 3)
        self.assertEqual(aspdrupe.check_cheapest(EITHER, [1], (2, 5, 1, 3), DEAR, table=12, store=40), 3)
        self.assertEqual(aspdrupe.check_cheapest(EITHER, [1], {2: 5}), 0)

    def test_packets(self) -> None:
        for version, size in ((1, 57), (2, 61)):
            packet = aspdrupe.write_packet(PROGRAM, PROOF, version, output=size)
            self.assertEqual((packet[:5], len(packet)), (b"RVP" + bytes([version, 0]), size))
            self.assertEqual(aspdrupe.read_packet(packet, version), aspdrupe.Packet(Table(1, RULES), PROOF))


class Refusals(Services):
    def test_programs(self) -> None:
        self.refused(aspdrupe.ProgramRefusal, 1, 0, lambda: aspdrupe.read_program("\n" * 65_536))
        self.refused(aspdrupe.ProgramRefusal, 2, 1, lambda: aspdrupe.read_program(""))
        self.refused(aspdrupe.ProgramRefusal, 10, 2, lambda: aspdrupe.read_program(PROGRAM, table=5))
        calls = [
            lambda text: aspdrupe.read_program(text),
            lambda text: aspdrupe.test_set(text, []),
            lambda text: aspdrupe.write_packet(text, PROOF),
            lambda text: aspdrupe.check(text, PROOF),
            lambda text: aspdrupe.check_long(text, PROOF),
            lambda text: aspdrupe.merge_halves(text, 1, PROOF, PROOF),
            lambda text: aspdrupe.merge_tree(text, [0], [PROOF]),
            lambda text: aspdrupe.trim(text, PROOF),
            lambda text: aspdrupe.check_cheapest(text, [1], {1: 1}, PROOF),
        ]
        for call in calls:
            wide = "asp 1 0 0\n1 0 1 1 0 0\n1 0 1 8192 0 0\n0\n"
            found = self.refused(aspdrupe.ProgramRefusal, 4, 3, lambda: call(wide))
            self.assertIs(found.question, aspdrupe.ProgramQuestion.RANGE)
            self.assertEqual(found.mend, "fewer atoms; number them anew; divide weights and bound")

    def test_proofs(self) -> None:
        for number, step, text in [
            (21, 0, "d 1 0\n" * 10_923),
            (22, 1, "x\n"),
            (23, 2, "b 2 -1 0\na 8192 0\n"),
            (24, 1, "s -1 0\n"),
            (25, 1, "a 1 -1 0\n"),
            (26, 1, "a 2 0\n"),
            (27, 1, "e 1 0\n"),
            (28, 1, "b 2 1 0\n"),
            (29, 2, "b 2 -1 0\nc 2 0\n"),
            (30, 1, "s 1 0\n"),
            (31, 2, "b 2 -1 0\nl 2 0\n"),
            (56, 1, "l 1 0\n"),
            (33, 1, "a 1 0\n"),
        ]:
            self.refused(aspdrupe.ProofRefusal, number, step, lambda: aspdrupe.check(PROGRAM, text))
            if number != 21:
                self.refused(aspdrupe.ProofRefusal, number, step, lambda: aspdrupe.check_long(PROGRAM, text))
        loop = "asp 1 0 0\n1 0 1 1 0 1 1\n1 0 1 1 0 1 -2\n0\n"
        self.refused(aspdrupe.ProofRefusal, 32, 1, lambda: aspdrupe.check(loop, "l 1 0\n"))

    def test_lines(self) -> None:
        for at in (1, 99, HUGE, -1):
            self.refused(aspdrupe.ProofRefusal, 22, None, lambda: aspdrupe.read_line(PROOF, at))
        self.refused(aspdrupe.ProofRefusal, 24, None, lambda: aspdrupe.read_line("s -1 0\n"))
        self.refused(aspdrupe.ProofRefusal, 21, None, lambda: aspdrupe.read_line(PROOF * 2_000))

    def test_sets(self) -> None:
        for rules, words in [(2, RULES), (-1, RULES), (HUGE, RULES), (-1, []), (1, [0, 1, 0, 0, HUGE])]:
            self.refused(aspdrupe.SetRefusal, 41, None, lambda: aspdrupe.test_set(Table(rules, words), []))
        for atoms in ([0], [2], [-1], [1, 1], [65_537], [HUGE + 1], [-HUGE]):
            self.refused(aspdrupe.SetRefusal, 42, None, lambda: aspdrupe.test_set(PROGRAM, atoms))

    def test_packets(self) -> None:
        for version in (0, 3, -1, HUGE, HUGE + 1):
            self.refused(aspdrupe.PacketRefusal, 51, None, lambda: aspdrupe.write_packet(PROGRAM, PROOF, version))
            self.refused(aspdrupe.PacketRefusal, 51, None, lambda: aspdrupe.read_packet(b"RVP", version))
        packet = aspdrupe.write_packet(PROGRAM, PROOF)
        for number, call in [
            (53, lambda: aspdrupe.write_packet(Table(2, RULES), PROOF)),
            (53, lambda: aspdrupe.write_packet(PROGRAM, b"a 0")),
            (52, lambda: aspdrupe.write_packet(PROGRAM, PROOF, output=60)),
            (51, lambda: aspdrupe.read_packet(packet, 1)),
            (52, lambda: aspdrupe.read_packet(packet[:-1])),
            (52, lambda: aspdrupe.read_packet(packet + b"\0")),
            (52, lambda: aspdrupe.read_packet(packet, table=5)),
            (52, lambda: aspdrupe.read_packet(packet, proof=34)),
            (51, lambda: aspdrupe.packet_up(packet)),
            (52, lambda: aspdrupe.packet_up(aspdrupe.packet_down(packet), output=60)),
            (52, lambda: aspdrupe.packet_down(packet, output=56)),
            (61, lambda: aspdrupe.packet_down(aspdrupe.write_packet(Table(1, [0, 0, 1, 0, 0]), b""))),
        ]:
            self.refused(aspdrupe.PacketRefusal, number, None, call)

    def test_merges(self) -> None:
        merge, kind = aspdrupe.merge_halves, aspdrupe.MergeRefusal
        for atom in (0, 2, -1, HUGE + 1):
            self.refused(kind, 57, None, lambda: merge(PROGRAM, atom, DEMANDED, FORBIDDEN))
        self.refused(kind, 57, None, lambda: merge(PROGRAM, 1, FORBIDDEN, DEMANDED))
        self.refused(kind, 58, None, lambda: merge(PROGRAM, 1, DEMANDED, FORBIDDEN, output=65))
        self.refused(kind, 59, None, lambda: merge(PROGRAM, 1, DEMANDED, FORBIDDEN, store=39))

    def test_trees(self) -> None:
        for tree, count in [
            ([], 0),
            ([0], 2),
            ([0, 0], 1),
            ([1, 0, 0], 1),
            ([2, 0, 0], 2),
            ([65_537, 0, 0], 2),
            ([-1, 0, 0], 2),
            ([1, 0, 1, 0, 0], 3),
        ]:
            self.refused(aspdrupe.MergeRefusal, 64, None, lambda: aspdrupe.merge_tree(PROGRAM, tree, [PROOF] * count))
        self.refused(aspdrupe.MergeRefusal, 57, None, lambda: aspdrupe.merge_tree(PROGRAM, [0], [b""]))
        self.refused(aspdrupe.MergeRefusal, 58, None, lambda: aspdrupe.merge_tree(PROGRAM, [0], [PROOF], output=34))
        ends = [DEMANDED, FORBIDDEN]
        self.refused(aspdrupe.MergeRefusal, 59, None, lambda: aspdrupe.merge_tree(PROGRAM, [1, 0, 0], ends, store=39))

    def test_trim(self) -> None:
        for text in (b"", PROOF + b"d 0\n", PROOF + b"\0", b"a" * 65_536):
            self.refused(aspdrupe.TrimRefusal, 60, None, lambda: aspdrupe.trim(PROGRAM, text))
        self.refused(aspdrupe.TrimRefusal, 60, None, lambda: aspdrupe.trim(PROGRAM, PROOF, store=20))

    def test_cheapest(self) -> None:
        check, kind = aspdrupe.check_cheapest, aspdrupe.CheapestRefusal
        for atoms in ([3], [2, 1], [-1], [65_537]):
            self.refused(kind, 42, None, lambda: check(EITHER, atoms, {}, DEAR))
        for costs in ({3: 1}, {1: -1}, {1: 4_096}, {1: 1, -1: 1}, {65_537: 1}, {1: 65_537}, {0: 1}, [1]):
            self.refused(kind, 62, None, lambda: check(EITHER, [1], costs, DEAR))
        self.refused(kind, 63, None, lambda: check(EITHER, [2], {1: 3, 2: 5}, DEAR))
        self.refused(kind, 63, None, lambda: check(EITHER, [1], {1: 3, 2: 5}, DEAR, store=39))

    def test_as_exceptions(self) -> None:
        found = self.refused(aspdrupe.ProofRefusal, 33, 1, lambda: aspdrupe.check(PROGRAM, "a 1 0\n"))
        self.assertEqual(str(found).split(": ")[0], "refused proof 33 1")
        self.assertIn(str(found.question), str(found))
        self.assertIn(found.mend, str(found))
        back = pickle.loads(pickle.dumps(found))
        self.assertEqual((type(back), back.question, back.place), (type(found), found.question, found.place))

    def test_unknown(self) -> None:
        calls = [
            lambda: aspdrupe.read_program(PROGRAM),
            lambda: aspdrupe.test_set(Table(1, RULES), []),
            lambda: aspdrupe.read_line(PROOF),
            lambda: aspdrupe.check(PROGRAM, PROOF),
            lambda: aspdrupe.write_packet(Table(1, RULES), PROOF),
            lambda: aspdrupe.trim(PROGRAM, PROOF),
        ]
        for code in (12, 44, 999, (1 << 32) - 1):
            with mock.patch.dict(_library._FUNCTIONS, {name: lambda *given: code for name in _library._FUNCTIONS}):
                for call in calls:
                    with self.assertRaisesRegex(aspdrupe.UnknownAnswer, f"answered {code}"):
                        call()

    def test_what_is_no_text(self) -> None:
        for text in (5, None, [97], object()):
            with self.assertRaises(TypeError):
                aspdrupe.check(text, PROOF)  # type: ignore[arg-type]
        self.refused(aspdrupe.ProgramRefusal, 2, 1, lambda: aspdrupe.read_program("\ud800\u00e9"))
        with self.assertRaises(ValueError):
            aspdrupe.check(PROGRAM, PROOF, store=-1)


class Rooms(Services):
    def test_words_that_a_proof_adds(self) -> None:
        for proof, words in [
            (b"", 0),
            (PROOF, 21),
            ("a 1 0\nd 1 0\n", 3),
            ("e 3 0\ne 4 1 -2 3 0\n", 3 + 18),
            ("b 3 0\nb 4 1 0\nl 1 2 0\n", 3 + 8 + 5),
            ("l 1 0", 3),
            ("b\n\nb 3 0\n", 0),
            ("a 1 0\nnoise\na 1 0\n", 3),
        ]:
            self.assertEqual(aspdrupe.store_for(proof), words, proof)

    def test_memory(self) -> None:
        found = [aspdrupe.memory_for(words) for words in (0, 1, 8, 9, 16_384)]
        self.assertEqual(found, [49_287, 49_312, 49_312, 49_337, 100_487])

    def test_stores_grow(self) -> None:
        """A program and a proof that need more words than the store has at first, for each service with a store."""
        names = "".join(f"e {name}{inputs.span(name - 20, name - 1)} 0\n" for name in range(22, 400))
        proof = "".join(f"e {name} 0\n" for name in range(2, 22)) + names
        proof += "b 999 -1 0\nc 999 1 0\ns 1 999 0\na 1 0\na 0\n"
        self.assertGreater(aspdrupe.store_for(proof), 2 * 16_384)
        # 20 lines of 3 words, and 158 of 103: the next does not fit.
        self.refused(aspdrupe.ProofRefusal, 34, 179, lambda: aspdrupe.check(PROGRAM, proof, store=16_384))
        self.assertTrue(aspdrupe.check(PROGRAM, proof))
        self.assertTrue(aspdrupe.check_long(PROGRAM, proof))
        self.assertEqual(aspdrupe.merge_tree(PROGRAM, [0], [proof]), proof.encode())
        self.assertTrue(aspdrupe.check(PROGRAM, aspdrupe.merge_halves(PROGRAM, 1, proof, FORBIDDEN)))
        self.refused(aspdrupe.MergeRefusal, 57, None, lambda: aspdrupe.merge_tree(PROGRAM, [0], [proof], store=16_384))

    def test_loops_grow(self) -> None:
        """More external bodies than an `l` line is first reckoned with."""
        rules = "".join(f"1 0 1 1 0 1 {atom}\n" for atom in range(1, 101))
        bodies = "".join(f"b {200 + atom} {atom} 0\n" for atom in range(2, 101))
        proof = bodies + "l 1 0\n" * 50
        verdict = aspdrupe.check_long(f"asp 1 0 0\n{rules}0\n", proof)
        self.assertEqual((verdict.steps, verdict.inconsistent), (149, False))

    def test_stacks(self) -> None:
        """Each service that the header names a stack for is called with that stack."""
        header = dict(re.findall(r"#define ASPDRUPE_(\w*STACK) (\d+)", inputs.HEADER.read_text()))
        for name, call in [
            ("STACK", lambda: aspdrupe.check(PROGRAM, PROOF)),
            ("STACK", lambda: aspdrupe.check_long(PROGRAM, PROOF)),
            ("MERGE_STACK", lambda: aspdrupe.merge_halves(PROGRAM, 1, DEMANDED, FORBIDDEN)),
            ("TRIM_STACK", lambda: aspdrupe.trim(PROGRAM, PROOF)),
            ("CHEAPEST_STACK", lambda: aspdrupe.check_cheapest(EITHER, [1], {1: 3, 2: 5}, DEAR)),
            ("TREE_STACK", lambda: aspdrupe.merge_tree(PROGRAM, [0], [PROOF])),
            ("STACK", lambda: aspdrupe.split_sums(PROGRAM, 2)),
        ]:
            with mock.patch.object(_library, "_in_thread", wraps=_library._in_thread) as threads:
                call()
            self.assertEqual([seen.args[0] for seen in threads.call_args_list], [int(header[name])], name)
