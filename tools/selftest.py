#!/usr/bin/env python3
"""Tests of the tools.

Each part of the model is compared with brute force and the checker tried with damaged answers; the table of cases is read
back, and the generated tickets have every outcome.
"""

import itertools
import random
import re
import unittest
from collections import Counter
from collections.abc import Iterator
from contextlib import redirect_stdout
from dataclasses import dataclass
from fractions import Fraction
from io import BytesIO, StringIO
from typing import BinaryIO

import cases
import model
import outside
from cases import CODES, SAMPLE
from model import Cards, Chain, Granted, Pair, Refused

SAMPLE_ANSWER = b"""(leg 0 (0 1) 3 (UYVY NV12 v210))
(leg 1 (1 0) none)
(end)
"""


# Fronts of lines.

NUMBER = rb"(?:0|[1-9][0-9]{0,6})"
LINES = {
    "bay": re.compile(rb"\(bay (?:delay|depth|both) " + NUMBER + rb"\)\n"),
    "format": re.compile(rb"\(format " + NUMBER + rb" [0-9A-Za-z]{4}\)\n"),
    "delay card": re.compile(rb"\(card \(" + NUMBER + b" " + NUMBER + rb"\) (?!-0\))-?" + NUMBER + rb"(?:\.5)?\)\n"),
    "depth card": re.compile(rb"\(card \(" + NUMBER + b" " + NUMBER + rb"\) (?:" + NUMBER + rb"|-[1-9][0-9]{0,6})\)\n"),
    "both card": re.compile(
        rb"\(card \(" + NUMBER + b" " + NUMBER + rb"\) \((?!-0 )-?" + NUMBER + rb"(?:\.5)? (?:" + NUMBER + rb"|-[1-9][0-9]{0,6})\)\)\n"
    ),
    "leg": re.compile(rb"\(leg \(" + NUMBER + b" " + NUMBER + rb"\)\)\n"),
    "end": re.compile(rb"\(end\)\n"),
}
STAGES = [
    (model.FIRST_LINE, ["bay"]),
    (model.FORMAT_DUE, ["format"]),
    (model.CARDS_OR_LEGS["delay"], ["delay card", "leg", "end"]),
    (model.CARDS_OR_LEGS["depth"], ["depth card", "leg", "end"]),
    (model.CARDS_OR_LEGS["both"], ["both card", "leg", "end"]),
    (model.ONLY_LEGS, ["leg", "end"]),
]
# Some end of these makes a whole line of each front of one.
SAMPLES = [b"(bay delay 1)\n", b"(bay depth 1)\n", b"(bay both 1)\n", b"(format 1 aaaa)\n", b"(card (1 1) 1)\n", b"(card (1 1) 1.5)\n"]
SAMPLES += [b"(card (1 1) (1 1))\n", b"(card (1 1) (1.5 1))\n", b"(leg (1 1))\n", b"(end)\n"]
BACKS = [line[k:] for line in SAMPLES for k in range(len(line) + 1)]


def fits_by_force(names: list[str], front: bytes) -> bool:
    return any(LINES[name].fullmatch(front + back) for name in names for back in BACKS)


def witnesses(lines: model.Strings) -> list[bytes]:
    """A front for each set of strings that may be left after one."""
    found = {model.Front.of(lines): b""}
    todo = list(found)
    for front in todo:
        for byte in range(256):
            longer = front.with_byte(byte)
            if longer is not None and longer not in found:
                found[longer] = found[front] + bytes([byte])
                todo.append(longer)
    return list(found.values())


class Fronts(unittest.TestCase):
    def test_every_next_byte(self) -> None:
        for lines, names in STAGES:
            for front in witnesses(lines):
                for byte in range(256):
                    longer = front + bytes([byte])
                    self.assertEqual(model.fits(lines, longer), fits_by_force(names, longer), longer)

    def test_random_lines(self) -> None:
        rng = random.Random(1)
        alphabet = b"()-.5 \n\r\0019azAZ"
        for _ in range(3000):
            lines, names = rng.choice(STAGES)
            front = bytearray(rng.choice(SAMPLES))
            for _ in range(rng.randrange(4)):
                place = rng.randrange(len(front))
                front[place : place + rng.randrange(2)] = bytes(rng.choices(alphabet, k=rng.randrange(3)))
            for k in range(len(front) + 1):
                self.assertEqual(model.fits(lines, front[:k]), fits_by_force(names, bytes(front[:k])), front[:k])

    def test_corners(self) -> None:
        first, formats, cards, deep, both, legs = (lines for lines, _ in STAGES)
        for lines, good, bad in [
            (first, b"(bay de", b"(bay dez"),
            (first, b"(bay del", b"(bay dea"),
            (first, b"(bay depth 0", b"(bay depth 00"),
            (first, b"(bay delay 1234567", b"(bay delay 12345678"),
            (first, b"(bay delay ", b"(bay delay -"),
            (formats, b"(format 0 aZ09", b"(format 0 aZ09a"),
            (formats, b"(format 0 aZ0", b"(format 0 aZ0)"),
            (cards, b"(card (0 1) -0", b"(card (0 1) -0)"),
            (cards, b"(card (0 1) -0", b"(card (0 1) -01"),
            (cards, b"(card (0 1) -0.", b"(card (0 1) -0.0"),
            (cards, b"(card (0 1) -0.5)", b"(card (0 1) -0.50"),
            (cards, b"(card (0 1) 0.5)", b"(card (0 1) .5"),
            (cards, b"(card (0 1) 12.5)", b"(card (0 1) 12.5."),
            (cards, b"(card (0 1) 1234567.5", b"(card (0 1) 12345678"),
            (cards, b"(card (0", b"(card (0."),
            (deep, b"(card (0 1) -", b"(card (0 1) -0"),
            (deep, b"(card (0 1) 8", b"(card (0 1) 8."),
            (deep, b"(card (0 1) -1", b"(card (0 1) -1."),
            (both, b"(card (0 1) (-0.5 ", b"(card (0 1) (-0 "),
            (both, b"(card (0 1) (3 8", b"(card (0 1) (3  8"),
            (both, b"(card (0 1) (3 8)", b"(card (0 1) (3 8."),
            (both, b"(card (0 1) (3 8))\n", b"(card (0 1) (3 8)\n"),
            (both, b"(card (0 1) (", b"(card (0 1) 3"),
            (cards, b"(card (0 1) 3", b"(card (0 1) ("),
            (cards, b"(card (0 1) -1234567", b"(card (0 1) -12345678"),
            (cards, b"(card (0 1) 0", b"(card (0 1) 0\r"),
            (cards, b"(leg (0 1))", b"(leg (0 1))\0"),
            (cards, b"(", b"(b"),
            (legs, b"(", b"(c"),
            (legs, b"(e", b"(l)"),
        ]:
            self.assertTrue(model.fits(lines, good), good)
            self.assertFalse(model.fits(lines, bad), bad)


# Costs, loops and chains.


def chains_by_force(n: int, cards: Cards, ends: Pair) -> Iterator[Chain]:
    if ends[0] == ends[1]:
        yield (ends[0],)
        return
    inner = [f for f in range(n) if f not in ends]
    for count in range(n - 1):
        for middle in itertools.permutations(inner, count):
            chain = (ends[0], *middle, ends[1])
            if all(pair in cards for pair in zip(chain, chain[1:])):
                yield chain


def loops_by_force(n: int, cards: Cards) -> Iterator[Chain]:
    for count in range(2, n + 1):
        for front in itertools.permutations(range(n), count):
            loop = (*front, front[0])
            if all(pair in cards for pair in zip(loop, loop[1:])):
                yield loop


def costs_of(cards: Cards, chain: Chain) -> list[model.Cost]:
    return [cards[pair] for pair in zip(chain, chain[1:])]


def random_cards(rng: random.Random, kind: str, n: int) -> Cards:
    density = rng.random()
    pairs = [pair for pair in itertools.permutations(range(n), 2) if rng.random() < density]
    rng.shuffle(pairs)
    most = rng.choice([1, 2, 16])
    if kind == "depth":
        return {pair: rng.randint(1, most) for pair in pairs}
    if kind == "both":
        return {pair: (delay, rng.randint(1, most)) for pair, delay in random_cards(rng, "delay", n).items()}
    height = [rng.randint(-5, 5) for _ in range(n)]
    slack = rng.choice([0, 1, 3])
    lowest = rng.choice([0, -1])
    step = rng.choice([1, Fraction(1, 2)])
    return {(a, b): step * (rng.randint(lowest, slack) + height[b] - height[a]) for a, b in pairs}


def total(kind: str, costs: list[model.Cost]) -> model.Cost:
    """The costs of a walk's cards in one."""
    if kind == "both":
        return sum(cost[0] for cost in costs), min((cost[1] for cost in costs), default=255)
    return sum(costs) if kind == "delay" else min(costs, default=255)


def rank(kind: str, cost: model.Cost) -> model.Cost:
    """A number, or two, by which costs are ordered, the best lowest."""
    return {"delay": lambda: cost, "depth": lambda: -cost, "both": lambda: (cost[0], -cost[1])}[kind]()


def gains_by_force(kind: str, n: int, cards: Cards) -> bool:
    return any(rank(kind, total(kind, costs_of(cards, loop))) < rank(kind, model.UNIT[kind]) for loop in loops_by_force(n, cards))


def random_ticket(rng: random.Random, most_formats: int, most_legs: int) -> bytes:
    kind = rng.choice(["delay", "depth", "both"])
    n = rng.randint(2, most_formats)
    cards = random_cards(rng, kind, n)
    legs = [rng.choice(list(itertools.product(range(n), repeat=2))) for _ in range(rng.randint(1, most_legs))]
    return model.ticket_text(kind, CODES[:n], [(a, b, cost) for (a, b), cost in cards.items()], legs)


class Costs(unittest.TestCase):
    def test_against_brute_force(self) -> None:
        rng = random.Random(2)
        seen: Counter[str] = Counter()
        for _ in range(3000):
            kind = rng.choice(["delay", "depth", "both"])
            n = rng.randint(2, 6)
            cards = random_cards(rng, kind, n)
            gaining = gains_by_force(kind, n, cards)
            self.assertEqual(kind != "depth" and model.gains(n, model.delays(kind, cards)), gaining, cards)
            seen[f"{kind} {gaining}"] += 1
            if gaining:
                continue
            start = rng.randrange(n)
            least = model.least_costs(kind, n, cards, start)
            self.assertEqual(least[start], model.UNIT[kind], cards)
            for end in set(range(n)) - {start}:
                costs = [total(kind, costs_of(cards, chain)) for chain in chains_by_force(n, cards, (start, end))]
                self.assertEqual(least[end], min(costs, key=lambda cost: rank(kind, cost)) if costs else None, cards)
        self.assertGreater(min(seen.values()), 200)

    def test_long_loops(self) -> None:
        ring = [*range(1, 64), 0]
        for last, gaining in (63, False), (62 + Fraction(1, 2), True), (62, True):
            cards = {(a, b): -1 for a, b in enumerate(ring)} | {(63, 0): last}
            self.assertEqual(model.gains(64, cards), gaining)
            self.assertEqual(model.gains(64, dict(reversed(cards.items()))), gaining)
        cards = {(a, a + 1): -1_000_000 for a in reversed(range(63))}
        self.assertEqual(model.least_costs("delay", 64, cards, 0)[63], -63_000_000)


# Judging.


def refusal(ticket: bytes) -> tuple[str, int, int, int] | None:
    judged = model.judge(ticket)
    return (judged.layer, judged.number, judged.part, judged.byte) if isinstance(judged, Refused) else None


class Judging(unittest.TestCase):
    def test_sample(self) -> None:
        self.assertEqual(model.answers(SAMPLE), [SAMPLE_ANSWER])
        judged = model.judge(SAMPLE)
        self.assertIsInstance(judged, Granted)
        self.assertEqual((judged.kind, judged.n, judged.codes), ("delay", 3, [b"UYVY", b"v210", b"NV12"]))
        self.assertEqual(judged.cards, {(0, 1): 4, (0, 2): 6, (2, 1): -3})
        self.assertEqual((judged.legs, judged.costs), ([(0, 1), (1, 0)], [3, None]))

    def test_truncations(self) -> None:
        for k in range(len(SAMPLE)):
            self.assertEqual(refusal(SAMPLE[:k]), ("ticket", 2, 0, k))

    def test_changed_lines(self) -> None:
        for old, new, expected in [
            (b"delay 3", b"delay 1", ("ticket", 3, 0, 11)),
            (b"delay 3", b"delay 65", ("ticket", 3, 0, 11)),
            (b"delay 3)", b"delay 1x", ("ticket", 2, 0, 12)),
            (b"delay 3", b"delay 2", ("ticket", 2, 0, 47)),
            (b"delay 3", b"delay 4", ("ticket", 2, 0, 63)),
            (b"format 1", b"format 2", ("ticket", 3, 0, 38)),
            (b"format 1", b"format 0", ("ticket", 3, 0, 38)),
            (b"format 1 v210", b"format 2 UYVY", ("ticket", 3, 0, 38)),
            (b"v210", b"UYVY", ("ticket", 4, 0, 40)),
            (b"v210", b"UYVy", None),
            (b"(0 1) 4", b"(3 3) 1000001", ("register", 11, 0, 62)),
            (b"(0 1) 4", b"(0 9999999) 4", ("register", 11, 1, 62)),
            (b"(0 1) 4", b"(1 1) 1000001", ("register", 12, 1, 62)),
            (b"(0 1) 4", b"(0 1) 1000001", ("register", 13, 2, 62)),
            (b"(0 1) 4", b"(0 1) -1000000", None),
            (b"(0 1) 4", b"(0 1) -0", ("ticket", 2, 0, 76)),
            (b"(0 1) 4", b"(0 1) -0.5", None),
            (b"(0 1) 4", b"(0 1) 4.5", None),
            (b"(0 1) 4", b"(0 1) 4.0", ("ticket", 2, 0, 76)),
            (b"(0 1) 4", b"(0 1) 4.", ("ticket", 2, 0, 76)),
            (b"(0 1) 4", b"(0 1) .5", ("ticket", 2, 0, 74)),
            (b"(0 1) 4", b"(0 1) 4.50", ("ticket", 2, 0, 77)),
            (b"(0 1) 4", b"(0 1) 999999.5", None),
            (b"(0 1) 4", b"(0 1) 1000000.5", ("register", 13, 2, 62)),
            (b"(0 1) 4", b"(0 1) -1000000.5", ("register", 13, 2, 62)),
            (b"(0 1) 4", b"(0.5 1) 4", ("ticket", 2, 0, 70)),
            (b"delay 3", b"delay 3.5", ("ticket", 2, 0, 12)),
            (b"(0 2) 6", b"(1 0) -5", ("bay", 26, 0, 133)),
            (b"(leg (0 1))", b"(leg (0 3))", ("bay", 11, 1, 108)),
            (b"(leg (0 1))", b"(leg (3 3))", ("bay", 11, 0, 108)),
            (b"(leg (1 0))", b"(card (1 0) 1)", ("ticket", 2, 0, 121)),
            (b"(leg (0 1))\n(leg (1 0))\n", b"", ("bay", 25, 0, 108)),
            (b"(end)\n", b"(end)\n\n", ("ticket", 2, 0, 138)),
        ]:
            self.assertIn(old, SAMPLE)
            self.assertEqual(refusal(SAMPLE.replace(old, new, 1)), expected, (old, new))

    def test_sizes(self) -> None:
        fill = b"(card (0 1) 4)\n" * 3000
        cut = SAMPLE.index(b"(leg")
        self.assertEqual(refusal(SAMPLE[:cut] + fill), ("ticket", 1, 0, 32768))
        self.assertEqual(refusal(b"x" * 32769), ("ticket", 1, 0, 32768))
        self.assertEqual(refusal(b"x" * 32768), ("ticket", 2, 0, 0))
        self.assertEqual(refusal((SAMPLE[:cut] + fill)[:32768]), ("ticket", 2, 0, 32768))

    def test_limits(self) -> None:
        codes = [f"F{k:03}" for k in range(64)]
        pairs = list(itertools.permutations(range(64), 2))
        full = [(*pair, 1) for pair in pairs[:512]]
        front = len(model.ticket_text("delay", codes, full, [])) - len(b"(end)\n")
        self.assertIsNone(refusal(model.ticket_text("delay", codes, [*full, full[0]], [(0, 1)])))
        more = (*pairs[512], 1)
        self.assertEqual(refusal(model.ticket_text("delay", codes, [*full, more], [(0, 1)])), ("register", 23, 0, front))
        legs = [(0, 1)] * 33
        front = len(model.ticket_text("delay", codes, [], legs[:32])) - len(b"(end)\n")
        self.assertIsNone(refusal(model.ticket_text("delay", codes, [], legs[:32])))
        self.assertEqual(refusal(model.ticket_text("delay", codes, [], legs)), ("bay", 24, 0, front))

    def test_written_costs(self) -> None:
        """Every number of half lines near 0 and near the bounds is written in one way, and read back."""
        for half_lines in [*range(-30, 31), *range(-2_000_003, -1_999_997), *range(1_999_997, 2_000_004)]:
            cost = Fraction(half_lines, 2)
            sign, lines, half = "-" * (half_lines < 0), abs(half_lines) // 2, ".5" * (half_lines % 2)
            self.assertEqual(model.cost_text(cost), f"{sign}{lines}{half}")
            self.assertEqual(model.cost_of([model.cost_text(cost).encode()]), cost)
            got = refusal(model.ticket_text("delay", CODES[:2], [(0, 1, cost)], [(0, 1)]))
            self.assertEqual(got, None if abs(half_lines) <= 2_000_000 else ("register", 13, 2, 46), half_lines)
        for word in "-0", "8.5", "8.", "-0.5":
            ticket = model.ticket_text("depth", CODES[:2], [(0, 1, 77)], [(0, 1)]).replace(b"77", word.encode())
            self.assertEqual(refusal(ticket), ("ticket", 2, 0, 59), word)
        self.assertEqual(model.cost_text((Fraction(25, 2), 8)), "(12.5 8)")
        self.assertEqual(model.cost_text(model.UNIT["both"]), "(0 255)")

    def test_costs_of_two_parts(self) -> None:
        for cost, expected in [
            ("(3 8)", None), ("(-0.5 16)", None), ("(1000000 1)", None), ("(3 0)", ("register", 13, 2, 45)),
            ("(3 17)", ("register", 13, 2, 45)), ("(3 256)", ("register", 13, 2, 45)), ("(3 -1)", ("register", 13, 2, 45)),
            ("(1000000.5 8)", ("register", 13, 2, 45)), ("3", ("ticket", 2, 0, 57)), ("(3", ("ticket", 2, 0, 59)), ("(3  8)", ("ticket", 2, 0, 60)),
            ("(3 8", ("ticket", 2, 0, 62)), ("(8.5 -0)", ("ticket", 2, 0, 63)), ("(3 8.5)", ("ticket", 2, 0, 61)), ("(-0 8)", ("ticket", 2, 0, 60)),
        ]:  # fmt: skip
            ticket = model.ticket_text("both", CODES[:2], [(0, 1, (7, 7))], [(0, 1)]).replace(b"(7 7)", cost.encode())
            self.assertEqual(refusal(ticket), expected, cost)

    def test_depths(self) -> None:
        for depth in -9999999, -1, 0, 1, 16, 17, 255, 256, 257, 9999999:
            got = refusal(model.ticket_text("depth", CODES[:2], [(0, 1, depth)], [(0, 1)]))
            self.assertEqual(got, None if depth in (1, 16) else ("register", 13, 2, 46), depth)


# Answers.


def agree_by_force(chains: list[Chain | None]) -> bool:
    """Whether any two that end alike and share a format have the same bytes after it."""
    known = [bytes(chain) for chain in chains if chain is not None]
    return all(
        first.split(bytes([f]))[1] == second.split(bytes([f]))[1]
        for first, second in itertools.combinations(known, 2)
        if first[-1] == second[-1]
        for f in set(first) & set(second)
    )


def answers_by_force(granted: Granted) -> set[bytes]:
    options: list[list[Chain | None]] = []
    for ends, cost in zip(granted.legs, granted.costs):
        chains = chains_by_force(granted.n, granted.cards, ends)
        least = [chain for chain in chains if total(granted.kind, costs_of(granted.cards, chain)) == cost]
        options.append(least or [None])
    return {model.granted_text(granted, chains) for chains in itertools.product(*options) if agree_by_force(list(chains))}


def damaged(rng: random.Random, output: bytes) -> bytes:
    """The output with one small change."""
    place = rng.randrange(len(output))
    lines = output.splitlines(keepends=True)
    words = re.split(rb"([ ()\n])", output)
    match rng.randrange(7):
        case 0:
            return output[:place] + bytes([rng.randrange(256)]) + output[place + 1 :]
        case 1:
            return output[:place] + output[place + 1 :]
        case 2:
            return output[:place] + output[place : place + 1] + output[place:]
        case 3:
            return b"".join(rng.sample(lines, len(lines)))
        case 4:
            return output + rng.choice(lines)
        case 5:
            return output[:place]
        case _:
            words[rng.randrange(len(words))] = rng.choice(words)
            return b"".join(words)


class Answers(unittest.TestCase):
    def test_all_are_listed(self) -> None:
        rng = random.Random(3)
        seen: Counter[str] = Counter()
        for _ in range(1500):
            ticket = random_ticket(rng, 5, 3)
            judged = model.judge(ticket)
            if isinstance(judged, Granted):
                expected = answers_by_force(judged)
                seen["one" if len(expected) == 1 else "some"] += 1
            else:
                self.assertEqual(judged.number, 26)
                seen["loop"] += 1
                plan = model.read(ticket)
                loops = [loop for loop in loops_by_force(plan.n, plan.cards) if model.walk_cost("delay", model.delays(plan.kind, plan.cards), loop) < 0]
                expected = {model.refusal_text(judged) + model.loop_text(plan.codes, loop) for loop in loops}
            got = model.answers(ticket, most=100_000, steps=1_000_000)
            self.assertEqual(len(got), len(set(got)))
            self.assertEqual(set(got), expected, ticket)
        self.assertGreater(min(seen.values()), 100)

    def test_only_these_are_right(self) -> None:
        rng = random.Random(4)
        wrong = 0
        for _ in range(600):
            ticket = random_ticket(rng, 5, 3)
            if rng.random() < 0.1:
                ticket = ticket[: rng.randrange(len(ticket))]
            right = model.answers(ticket, most=100_000, steps=1_000_000)
            for output in rng.sample(right, min(len(right), 5)):
                self.assertIsNone(model.check_answer(ticket, output))
                for _ in range(15):
                    other = damaged(rng, output)
                    fine = model.check_answer(ticket, other) is None
                    self.assertEqual(fine, other in right, (ticket, other))
                    wrong += not fine
        self.assertGreater(wrong, 5000)

    def test_chains_that_part(self) -> None:
        """Two ways of one cost: two legs to one end must take the same, legs to other ends need not."""
        cards = [(0, 1, 1), (1, 3, 1), (0, 2, 1), (2, 3, 1)]
        ticket = model.ticket_text("delay", CODES[:4], cards, [(0, 3), (0, 3)])
        one, two = b"(UYVY v210 YUY2)", b"(UYVY NV12 YUY2)"
        for first, second, fine in (one, one, True), (two, two, True), (one, two, False), (two, one, False):
            output = b"(leg 0 (0 3) 2 " + first + b")\n(leg 1 (0 3) 2 " + second + b")\n(end)\n"
            self.assertEqual(model.check_answer(ticket, output) is None, fine)
            self.assertEqual(output in model.answers(ticket), fine)

    def test_loops(self) -> None:
        cards = [(0, 1, 2), (1, 2, -4), (2, 0, 1)]
        ticket = model.ticket_text("delay", CODES[:3], cards, [(0, 1)])
        front = model.refusal_text(Refused("bay", 26, 0, ticket.index(b"(end)")))
        for codes, fine in [
            (b"UYVY v210 NV12 UYVY", True),
            (b"v210 NV12 UYVY v210", True),
            (b"UYVY v210 NV12", False),
            (b"UYVY NV12 v210 UYVY", False),
            (b"UYVY v210 NV12 UYVY v210 NV12 UYVY", False),
            (b"UYVY", False),
            (b"UYVY UYVY", False),
            (b"", False),
        ]:
            output = front + b"(loop (" + codes + b"))\n"
            self.assertEqual(model.check_answer(ticket, output) is None, fine, codes)
        self.assertIsNotNone(model.check_answer(ticket, front))
        self.assertEqual(len(model.answers(ticket)), 3)

    def test_loop_of_no_delay(self) -> None:
        """Beside a loop that gains, one that sums to 0 is no answer."""
        cards = [(0, 1, -1), (1, 0, 0), (1, 2, 1), (2, 1, -1)]
        ticket = model.ticket_text("delay", CODES[:3], cards, [(0, 1)])
        front = model.refusal_text(Refused("bay", 26, 0, ticket.index(b"(end)")))
        self.assertIsNone(model.check_answer(ticket, front + b"(loop (UYVY v210 UYVY))\n"))
        self.assertIsNotNone(model.check_answer(ticket, front + b"(loop (NV12 v210 NV12))\n"))

    def test_other_ends(self) -> None:
        """A chain of the right cost between other formats is no answer."""
        ticket = model.ticket_text("delay", CODES[:4], [(0, 1, 1), (0, 2, 1), (3, 1, 1)], [(0, 1)])
        for codes, fine in (b"UYVY v210", True), (b"UYVY NV12", False), (b"YUY2 v210", False), (b"UYVY", False):
            output = b"(leg 0 (0 1) 1 (" + codes + b"))\n(end)\n"
            self.assertEqual(model.check_answer(ticket, output) is None, fine, codes)

    def test_equal_ends(self) -> None:
        """The chain is the format alone, at the unit, also where a loop of that cost begins there."""
        for kind, there, back, unit in ("delay", 1, -1, 0), ("depth", 16, 16, 255):
            ticket = model.ticket_text(kind, CODES[:3], [(0, 1, there), (1, 0, back)], [(0, 0)])
            right = b"(leg 0 (0 0) %d (UYVY))\n(end)\n" % unit
            self.assertEqual(model.answers(ticket), [right])
            for wrong in b"%d (UYVY UYVY)" % unit, b"%d (UYVY v210 UYVY)" % unit, b"%d (v210)" % unit, b"16 (UYVY)", b"none":
                self.assertIsNotNone(model.check_answer(ticket, b"(leg 0 (0 0) " + wrong + b")\n(end)\n"), wrong)

    def test_too_many(self) -> None:
        cards = [(a, b, 0) for a, b in itertools.permutations(range(6), 2)]
        with self.assertRaises(model.TooMany):
            model.answers(model.ticket_text("delay", CODES[:6], cards, [(0, 1)]))


# The table.


@dataclass
class Record:
    """The base of a record, its words, and its answers."""

    base: bytes
    words: list[str]
    answers: list[bytes]

    def tickets(self) -> Iterator[bytes]:
        match self.words:
            case ["whole"]:
                yield self.base
            case ["cut", length]:
                yield self.base[: int(length)]
            case ["set", place, low, high]:
                at = int(place)
                for value in range(int(low), int(high) + 1):
                    yield self.base[:at] + bytes([value]) + self.base[at + 1 :]
            case _:
                raise ValueError(self.words)


def read_table(table: BinaryIO) -> Iterator[Record]:
    def raw(length: str) -> bytes:
        found = table.read(int(length) + 1)
        if len(found) != int(length) + 1 or not found.endswith(b"\n"):
            raise ValueError(length)
        return found[:-1]

    base, record = b"", None
    while (words := table.readline().decode().split()) != ["end"]:
        if words[0] == "answer":
            record.answers.append(raw(words[1]))
            continue
        if record is not None:
            yield record
        record = None if words[0] == "base" else Record(base, words, [])
        if words[0] == "base":
            base = raw(words[1])
    if record is not None:
        yield record


class CaseTable(unittest.TestCase):
    def test_read_back(self) -> None:
        out = BytesIO()
        written = cases.write_table(out)
        out.seek(0)
        records = list(read_table(out))
        self.assertEqual(out.read(), b"")
        self.assertLess(written.size, 400_000)
        changed: Counter[bytes] = Counter()
        for record in records:
            tickets = list(record.tickets())
            self.assertGreater(len(record.answers), 0)
            for ticket in tickets[:1] + tickets[1:][-1:]:
                for answer in record.answers:
                    self.assertIsNone(model.check_answer(ticket, answer))
                self.assertEqual(set(model.answers(ticket)), set(record.answers))
            if record.base == SAMPLE:
                changed.update(tickets)
        expected = {SAMPLE[:k] for k in range(len(SAMPLE) + 1)}
        expected |= {SAMPLE[:k] + bytes([v]) + SAMPLE[k + 1 :] for k in range(len(SAMPLE)) for v in range(256)}
        self.assertEqual(set(changed), expected)
        self.assertEqual(max(changed.values()), 1)
        self.assertEqual(sum(len(list(record.tickets())) for record in records), written.cases)


# Generated tickets.


class Generated(unittest.TestCase):
    def test_same_again(self) -> None:
        for index in range(200):
            self.assertEqual(outside.make_ticket(7, index), outside.make_ticket(7, index))
        self.assertNotEqual(outside.make_ticket(7, 0), outside.make_ticket(8, 0))

    def test_all_outcomes(self) -> None:
        judged = [model.judge(outside.make_ticket(1, index)) for index in range(3000)]
        numbers = Counter(verdict.number for verdict in judged if isinstance(verdict, Refused))
        self.assertEqual(set(numbers), {1, 2, 3, 4, 11, 12, 13, 23, 24, 25, 26})
        self.assertGreater(len(judged) - numbers.total(), 1200)

    def test_wrong_program(self) -> None:
        with redirect_stdout(StringIO()) as printed:
            status = outside.check_all("/bin/cat", 1, range(10))
        self.assertEqual(status, 1)
        self.assertIn("seed 1, index 0", printed.getvalue())


if __name__ == "__main__":
    unittest.main()
