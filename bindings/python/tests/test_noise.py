"""Noise for every service, and services called from many threads."""
from __future__ import annotations

import random
import threading
import time
import unittest
from concurrent.futures import ThreadPoolExecutor
from typing import Callable, List

import aspdrupe
import inputs

MILLION = 1_000_000
PROGRAM, PROOF = inputs.ONE_RULE.encode(), b"b 2 -1 0\nc 2 1 0\ns 1 2 0\na 1 0\na 0\n"


def services(program: bytes, proof: bytes, numbers: List[int]) -> List[Callable[[], object]]:
    """A call of each service."""
    table = aspdrupe.Table(len(numbers), numbers)
    return [
        lambda: aspdrupe.read_program(program),
        lambda: aspdrupe.test_set(program, numbers),
        lambda: aspdrupe.test_set(table, numbers),
        lambda: aspdrupe.read_line(proof, numbers[0]),
        lambda: aspdrupe.check(program, proof),
        lambda: aspdrupe.check_long(program, proof),
        lambda: aspdrupe.write_packet(program, proof, 1),
        lambda: aspdrupe.write_packet(table, proof, 2),
        lambda: aspdrupe.read_packet(program, 1),
        lambda: aspdrupe.read_packet(proof, 2),
        lambda: aspdrupe.packet_up(proof),
        lambda: aspdrupe.packet_down(proof),
        lambda: aspdrupe.merge_halves(program, numbers[0], proof, proof),
        lambda: aspdrupe.merge_tree(program, numbers, [proof] * 2),
        lambda: aspdrupe.trim(program, proof),
        lambda: aspdrupe.check_cheapest(program, numbers, numbers, proof),
    ]


class Noise(unittest.TestCase):
    def refused(self, calls: List[Callable[[], object]]) -> None:
        for place, call in enumerate(calls):
            with self.subTest(place), self.assertRaises(aspdrupe.Refusal):
                call()

    def test_a_million_bytes(self) -> None:
        noise = random.Random(1).randbytes(MILLION)
        self.refused(services(noise, noise, list(noise[:9])))
        self.refused(services(PROGRAM, noise, list(noise[:9]))[2:])
        for at in range(0, MILLION, 50_000):
            part = noise[at : at + 50_000]
            self.refused(services(part, part, list(part[:9])))

    def test_marks_and_headers_before_noise(self) -> None:
        noise = random.Random(2).randbytes(2_000)
        for version in (1, 2):
            with self.assertRaises(aspdrupe.PacketRefusal):
                aspdrupe.read_packet(b"RVP" + bytes([version, 0]) + noise, version)
        with self.assertRaises(aspdrupe.ProgramRefusal):
            aspdrupe.read_program(b"asp 1 0 0\n" + noise)
        with self.assertRaises(aspdrupe.ProofRefusal):
            aspdrupe.check(PROGRAM, PROOF + noise)

    def test_noise_of_lines(self) -> None:
        """Lines of the right letters and numbers, of which few are good steps: both checks say the same."""
        chance = random.Random(3)

        def line() -> str:
            numbers = [str(chance.randint(-3, 4)) for _ in range(chance.randint(0, 3))]
            return " ".join([chance.choice("abcdels"), *numbers, "0"])

        for _ in range(500):
            proof = "\n".join(["b 2 -1 0", *(line() for _ in range(chance.randint(1, 8))), ""])
            short, long = (self.said(lambda: check(PROGRAM, proof)) for check in (aspdrupe.check, aspdrupe.check_long))
            self.assertEqual(short, long)

    def said(self, call: Callable[[], object]) -> str:
        try:
            return str(call())
        except aspdrupe.Refusal as refusal:
            return str(refusal)


class Threads(unittest.TestCase):
    def all_services(self, _: int) -> List[str]:
        rules, steps, _many = inputs.weights()
        split, full = inputs.weight_split(), inputs.full()
        packet = aspdrupe.write_packet(*full, 1)
        calls: List[Callable[[], object]] = [
            lambda: aspdrupe.read_program(rules),
            lambda: aspdrupe.test_set(rules, [13]),
            lambda: aspdrupe.read_line(steps),
            lambda: aspdrupe.check(rules, steps),
            lambda: aspdrupe.check_long(inputs.ONE_RULE, inputs.chain()),
            lambda: aspdrupe.read_packet(aspdrupe.packet_down(aspdrupe.packet_up(packet)), 1),
            lambda: aspdrupe.merge_halves(*split),
            lambda: aspdrupe.merge_tree(split.program, inputs.tree(1), [inputs.weight_half(13)] * 7),
            lambda: aspdrupe.trim(split.program, inputs.weight_half(13)),
            lambda: aspdrupe.check_cheapest(rules, [13], inputs.WEIGHT_COSTS, inputs.certificates()[0]),
        ]
        return [str(call()) for call in calls]

    def test_eight_at_once(self) -> None:
        expected = self.all_services(0)
        with ThreadPoolExecutor(8) as pool:
            found = list(pool.map(self.all_services, range(16)))
        self.assertEqual(found, [expected] * 16)
        self.assertEqual(threading.stack_size(), 0)

    def test_from_a_thread_with_little_stack(self) -> None:
        """A check does not take the caller's stack."""
        threading.stack_size(256 << 10)
        self.addCleanup(threading.stack_size, 0)
        found: List[str] = []
        thread = threading.Thread(target=lambda: found.append(str(aspdrupe.check(inputs.ONE_RULE, inputs.chain()))))
        thread.start()
        thread.join()
        self.assertEqual((found, threading.stack_size()), (["inconsistent 1 1 2205 4006"], 256 << 10))

    def test_the_lock_is_let_go(self) -> None:
        """While a call works, others run: with the lock held this thread would count once or twice."""
        thread = threading.Thread(target=lambda: aspdrupe.trim(inputs.ONE_RULE, inputs.chain()))
        thread.start()
        count = 0
        while thread.is_alive():
            time.sleep(0.001)
            count += 1
        self.assertGreater(count, 20)
