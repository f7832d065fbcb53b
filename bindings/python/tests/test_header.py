"""The worked cases of the header's tests, bindings/c/stack.c and bindings/c/example.c."""
from __future__ import annotations

import unittest
from pathlib import Path
from typing import Callable

import aspdrupe
import inputs
from inputs import PACKET, RULES, TEXT, WORDS

EXAMPLES = Path(__file__).resolve().parents[3] / "examples"


class Cases(unittest.TestCase):
    """What a call answers, or the line of its refusal."""

    def refused(self, line: str, call: Callable[[], object]) -> None:
        with self.assertRaises(aspdrupe.Refusal) as caught:
            call()
        self.assertEqual(str(caught.exception).split(":")[0], f"refused {line}")


class Readers(Cases):
    def test_programs(self) -> None:
        for text, atoms, rules in [
            (inputs.full()[0], 8, RULES),
            (inputs.big(), 1_063, 190),
            (inputs.wide()[0], 128, 3),
            (inputs.weights()[0], 13, inputs.WEIGHT_RULES),
        ]:
            for table in (WORDS, None):
                read = aspdrupe.read_program(text, table=table)
                self.assertEqual((read.atoms, read.rules), (atoms, rules))
        self.refused("program 55 2", lambda: aspdrupe.read_program(inputs.weights()[2]))
        self.refused("program 2 1", lambda: aspdrupe.read_program(inputs.NEWLINES))

    def test_sets(self) -> None:
        # Against their order: the least model takes as many rounds as there are rules.
        chain = [word for atom in range(RULES, 1, -1) for word in (0, 1, 0, 1, atom, atom - 1)] + [0, 1, 0, 0, 1]
        whole = range(1, RULES + 1)
        said = aspdrupe.test_set(aspdrupe.Table(RULES, chain), whole)
        self.assertEqual(said, aspdrupe.SetAnswer(None, None, tuple(whole)))
        self.assertTrue(aspdrupe.test_set(inputs.weights()[0], [13]))

    def test_lines(self) -> None:
        line = aspdrupe.read_line(inputs.wide()[1])
        self.assertEqual(line, aspdrupe.Line("b", (130, *range(65, 129)), 229))
        self.refused("proof 23", lambda: aspdrupe.read_line(inputs.LONG_LINE))


class Checks(Cases):
    def test_both_checks(self) -> None:
        wide, full, weights = inputs.wide(), inputs.full(), inputs.weights()[:2]
        for program, proof, line in [
            (inputs.ONE_RULE, inputs.chain(), "inconsistent 1 1 2205 4006"),
            (*wide, "open 128 3 8 134"),
            (*full, f"open 8 {RULES} 7178 12"),
            (*weights, f"open 13 {inputs.WEIGHT_RULES} 16 149"),
        ]:
            for check in (aspdrupe.check, aspdrupe.check_long):
                self.assertEqual(str(check(program, proof, table=WORDS, store=WORDS)), line)
                self.assertEqual(str(check(program, proof)), line)
        for check in (aspdrupe.check, aspdrupe.check_long):
            self.refused("proof 23 1", lambda: check(inputs.ONE_RULE, inputs.LONG_LINE))
            self.refused("program 2 1", lambda: check(inputs.NEWLINES, inputs.NEWLINES))

    def test_long(self) -> None:
        proof = inputs.chain() + "d 2 0\n" * inputs.IDLE
        line = f"inconsistent 1 1 {2_205 + inputs.IDLE} 4006"
        self.assertEqual(str(aspdrupe.check_long(inputs.ONE_RULE, proof)), line)
        self.assertEqual(str(aspdrupe.check_long(inputs.ONE_RULE, proof, table=WORDS, store=WORDS)), line)
        swept = aspdrupe.check_long(inputs.ONE_RULE, inputs.chain(), store=WORDS, memory=0)
        self.assertEqual(str(swept), "inconsistent 1 1 2205 4006")
        self.refused("proof 21 0", lambda: aspdrupe.check(inputs.ONE_RULE, proof))


class Packets(Cases):
    def test_written(self) -> None:
        wide, full, weights = inputs.wide(), inputs.full(), inputs.weights()[:2]
        for pair, version, size in [(full, 1, 106_331), (wide, 1, 1_503), (full, 2, 110_427), (weights, 2, None)]:
            packet = aspdrupe.write_packet(*pair, version)
            self.assertEqual(len(packet), size or len(packet))
            read = aspdrupe.read_packet(packet, version)
            self.assertEqual((read.table.words, read.proof), (aspdrupe.read_program(pair[0]).words, pair[1].encode()))
            self.assertEqual(aspdrupe.write_packet(read.table, read.proof, version), packet)
        self.refused("packet 53", lambda: aspdrupe.write_packet(weights[0], inputs.chain(), 1))
        self.refused("packet 53", lambda: aspdrupe.write_packet(full[0], inputs.LONG_LINE, 1))
        self.refused("packet 52", lambda: aspdrupe.write_packet(*full, 1, output=106_330))

    def test_full_table(self) -> None:
        # The table of the header's test has zeros up to its length.
        rules, steps, _ = inputs.weights()
        words = aspdrupe.read_program(rules).words
        lent = aspdrupe.Table(inputs.WEIGHT_RULES, [*words, *[0] * (WORDS - len(words))])
        self.assertEqual(len(aspdrupe.write_packet(lent, steps, 2, output=PACKET)), 65_795)
        self.assertEqual(aspdrupe.write_packet(lent, steps), aspdrupe.write_packet(rules, steps))

    def test_not_read(self) -> None:
        full = aspdrupe.write_packet(*inputs.full(), 1)
        bad = full[:-1] + b"\x80"
        self.refused("packet 53", lambda: aspdrupe.read_packet(bad, 1))
        self.refused("packet 52", lambda: aspdrupe.read_packet(full, 1, proof=65_513))
        self.refused("packet 53", lambda: aspdrupe.packet_up(bad))
        self.refused("packet 52", lambda: aspdrupe.packet_up(full, output=110_426))
        self.refused("packet 51", lambda: aspdrupe.packet_down(full))
        self.refused("packet 61", lambda: aspdrupe.packet_down(aspdrupe.write_packet(*inputs.weights()[:2])))

    def test_moved(self) -> None:
        for pair in (inputs.full(), inputs.wide()):
            old, new = aspdrupe.write_packet(*pair, 1), aspdrupe.write_packet(*pair, 2)
            self.assertEqual((aspdrupe.packet_up(old), aspdrupe.packet_down(new)), (new, old))


class Merges(Cases):
    def test_halves(self) -> None:
        weights, full = inputs.weight_split(), inputs.full_split()
        self.assertEqual(len(aspdrupe.merge_halves(*weights, table=WORDS, store=879, output=861)), 861)
        for split, size in ((weights, 861), (full, 65_200)):
            merged = aspdrupe.merge_halves(*split)
            self.assertEqual(len(merged), size)
            self.assertTrue(aspdrupe.check(split.program, merged))
        self.refused("merge 57", lambda: aspdrupe.merge_halves(*weights[:3], full.second))
        self.refused("merge 58", lambda: aspdrupe.merge_halves(*weights, output=860))
        self.refused("merge 59", lambda: aspdrupe.merge_halves(*weights, store=878))
        many, chain = inputs.weights()[2], inputs.chain()
        self.refused("program 55 2", lambda: aspdrupe.merge_halves(many, 1, chain, chain))

    def test_trees(self) -> None:
        weights, full, proof = inputs.weight_split().program, inputs.full_split().program, inputs.weight_half(13)
        ends = [proof] * 7
        small = [inputs.full_proof(59, TEXT - 4_000), *[inputs.SMALL_END] * 6]
        one = inputs.full_proof(65, TEXT - 400)
        lent = aspdrupe.merge_tree(weights, inputs.tree(1), ends, table=WORDS, store=1_338, output=1_789)
        for program, tree, proofs, size in [
            (weights, inputs.tree(1), ends, 1_789),
            (full, inputs.tree(2), small, 64_340),
            (full, [0], [one], 65_433),
        ]:
            merged = aspdrupe.merge_tree(program, tree, proofs)
            self.assertEqual(len(merged), size)
            self.assertTrue(aspdrupe.check(program, merged))
        self.assertEqual(lent, aspdrupe.merge_tree(weights, inputs.tree(1), ends))
        open_end = [*small[:6], small[6] + "d 0\n"]
        self.refused("merge 57", lambda: aspdrupe.merge_tree(full, inputs.tree(2), open_end))
        self.refused("merge 58", lambda: aspdrupe.merge_tree(weights, inputs.tree(1), ends, output=1_788))
        self.refused("merge 59", lambda: aspdrupe.merge_tree(weights, inputs.tree(1), ends, store=1_337))
        self.refused("merge 64", lambda: aspdrupe.merge_tree(full, inputs.tree(2)[:-1], small))
        self.refused("program 55 2", lambda: aspdrupe.merge_tree(inputs.weights()[2], inputs.tree(2), small))


class Others(Cases):
    def test_trimmed(self) -> None:
        weights, full, proof = inputs.weight_split().program, inputs.full_split().program, inputs.weight_half(13)
        one = inputs.full_proof(65, TEXT - 400)
        self.assertEqual(len(aspdrupe.trim(weights, proof, table=WORDS, store=WORDS)), 143)
        self.assertEqual(aspdrupe.trim(full, one), inputs.SMALL_END.encode())
        self.refused("trim 60", lambda: aspdrupe.trim(weights, proof + "d 0\n"))
        self.refused("trim 60", lambda: aspdrupe.trim(full, one, store=35))
        self.refused("trim 60", lambda: aspdrupe.trim(inputs.ONE_RULE, inputs.LONG_LINE.ljust(TEXT + 1, "\0")))
        self.refused("program 55 2", lambda: aspdrupe.trim(inputs.weights()[2], inputs.chain()))

    def test_cheapest(self) -> None:
        rules, steps, many = inputs.weights()
        dear, long = inputs.certificates()
        costs, full = inputs.WEIGHT_COSTS, inputs.full()[0]
        self.assertEqual(aspdrupe.check_cheapest(rules, [13], costs, dear), 6)
        self.assertEqual(aspdrupe.check_cheapest(full, [], inputs.FULL_COSTS, long), 8)
        self.assertEqual(aspdrupe.check_cheapest(rules, [13], costs[:12], inputs.LONG_LINE), 0)
        self.refused("cheapest 42", lambda: aspdrupe.check_cheapest(full, [13], inputs.FULL_COSTS, long))
        self.refused("cheapest 62", lambda: aspdrupe.check_cheapest(full, [], inputs.FULL_COSTS[:-1], long))
        self.refused("cheapest 63", lambda: aspdrupe.check_cheapest(rules, [], costs, dear))
        self.refused("cheapest 63", lambda: aspdrupe.check_cheapest(rules, [13], costs, steps))
        self.refused("cheapest 63", lambda: aspdrupe.check_cheapest(rules, [13], costs, dear, store=99))
        self.refused("program 55 2", lambda: aspdrupe.check_cheapest(many, [13], costs, inputs.chain()))

    def test_examples(self) -> None:
        """What `verdict` says of each example, and the packet of the one that bindings/c/run packs."""
        for folder in sorted(path.parent for path in EXAMPLES.glob("*/case.aspif")):
            texts = ((folder / "case.aspif").read_bytes(), (folder / "case.drupe").read_bytes())
            line = (folder / "expected").read_text().strip()
            with self.subTest(folder.name):
                for check in (aspdrupe.check, aspdrupe.check_long):
                    if line.startswith("refused "):
                        self.refused(line[8:], lambda: check(*texts))
                    else:
                        self.assertEqual(str(check(*texts)), line)
        folder = EXAMPLES / "starred-1"
        packet = aspdrupe.write_packet((folder / "case.aspif").read_bytes(), (folder / "case.drupe").read_bytes())
        self.assertEqual((len(packet), len(aspdrupe.packet_down(packet))), (61, 57))
