#!/usr/bin/env python3
"""Writes the table of cases to standard output: tickets, and for each every answer that is right by the model.

    base LEN      then LEN bytes and a line end: the ticket that the records after it speak of
    whole         the case is the base
    cut K         the case is the first K bytes of the base
    set P LOW HIGH
                  a case for each value from LOW to HIGH: the base with that value for its byte at place P
    answer LEN    then LEN bytes and a line end: a right answer to the cases of the record before
    end           after the last record

The base's own byte at P is never among the values of a set. All bytes of the table are printable or line ends; other
bytes come into a ticket by a set.
"""

import itertools
import sys
from collections.abc import Iterable, Iterator
from fractions import Fraction
from typing import BinaryIO

from model import Cost, Pair, answers, ticket_text

SAMPLE = b"""(bay delay 3)
(format 0 UYVY)
(format 1 v210)
(format 2 NV12)
(card (0 1) 4)
(card (0 2) 6)
(card (2 1) -3)
(leg (0 1))
(leg (1 0))
(end)
"""

CODES = ["UYVY", "v210", "NV12", "YUY2", "P010", "I420", "Y42B", "A444"]
HALF = Fraction(1, 2)
Entry = tuple[int, int, Cost]


class Table:
    """Writes records, with the answers that the model gives."""

    def __init__(self, out: BinaryIO) -> None:
        self.out = out
        self.ticket = b""
        self.bases: set[bytes] = set()
        self.cases = self.answers = self.size = 0

    def write(self, record: bytes) -> None:
        if not all(byte == 10 or 32 <= byte < 127 for byte in record):
            raise ValueError(record)
        self.out.write(record)
        self.size += len(record)

    def base(self, ticket: bytes) -> None:
        if ticket in self.bases:
            raise ValueError(ticket)
        self.bases.add(ticket)
        self.ticket = ticket
        self.write(b"base %d\n" % len(ticket) + ticket + b"\n")

    def record(self, head: str, right: list[bytes], cases: int) -> None:
        self.write(head.encode() + b"\n")
        for answer in right:
            self.write(b"answer %d\n" % len(answer) + answer + b"\n")
        self.cases += cases
        self.answers += len(right)

    def whole(self) -> None:
        self.record("whole", answers(self.ticket), 1)

    def cut(self, length: int) -> None:
        self.record(f"cut {length}", answers(self.ticket[:length]), 1)

    def sweep(self, place: int, low: int = 0, high: int = 255) -> None:
        """A case for each value in the range but the byte that stands there, in runs of the same answers."""
        run: list[int] = []
        right: list[bytes] = []
        for value in range(low, high + 1):
            found = [] if value == self.ticket[place] else sorted(answers(self.changed(place, value)))
            if found != right:
                self.set(place, run, right)
                run, right = [], found
            if found:
                run.append(value)
        self.set(place, run, right)

    def set(self, place: int, run: list[int], right: list[bytes]) -> None:
        if run:
            self.record(f"set {place} {run[0]} {run[-1]}", right, len(run))

    def changed(self, place: int, value: int) -> bytes:
        return self.ticket[:place] + bytes([value]) + self.ticket[place + 1 :]

    def end(self) -> None:
        self.write(b"end\n")

    # Often used together.

    def alone(self, ticket: bytes) -> None:
        self.base(ticket)
        self.whole()

    def sweep_in(self, part: bytes, offset: int, low: int = 0, high: int = 255) -> None:
        """A sweep of the byte so far into the last place where the part stands."""
        self.sweep(self.ticket.rindex(part) + offset, low, high)


def ticket(kind: str, n: int, cards: Iterable[Entry], legs: Iterable[Pair]) -> bytes:
    codes = CODES[:n] if n <= len(CODES) else [f"F{k:03}" for k in range(n)]
    return ticket_text(kind, codes, cards, legs)


def sample(table: Table) -> None:
    table.alone(SAMPLE)
    for length in range(len(SAMPLE)):
        table.cut(length)
    for place in range(len(SAMPLE)):
        table.sweep(place)


def first_lines(table: Table) -> None:
    table.alone(b"")
    table.base(b"(bay delay 64)\n")
    table.whole()
    for place in 11, 12, 13, 14:
        table.sweep(place)
    table.base(b"(bay depth 2)\n")
    table.whole()
    for place in range(8, 14):
        table.sweep(place)
    for line in [
        "(bay delay 1)\nx", "(bay depth 1)", "(bay delay 1", "(bay delay 0)\n", "(bay delay 9999999)\n", "(bay delay 65",
        "(bay delay 00)\n", "(bay delay 02)\n", "(bay delay 12345678)\n", "(bay delay 00000002)\n", "(bay delay -2)\n",
        "(bay delay )\n", "(bay delay)\n", "(bay  delay 2)\n", "(bay delay  2)\n", "(bay delay 2 )\n", "( bay delay 2)\n",
        " (bay delay 2)\n", "\n(bay delay 2)\n", "(bay Delay 2)\n", "(bay delays 2)\n", "(bay dept 2)\n", "(BAY delay 2)\n",
        "bay delay 2\n", "(bay 2 delay)\n", "(bay delay 2))\n", "(bay delay 2)\n\n", "(format 0 UYVY)\n", "(end)\n",
    ]:  # fmt: skip
        table.alone(line.encode())


def numbers(table: Table) -> None:
    """Every number of the sample in forms that are refused, some only by a call."""
    fields = [(b"delay ", b"3"), (b"format ", b"0"), (b"card (", b"0"), (b"card (0 ", b"1"), (b"card (0 1) ", b"4")]
    fields += [(b"card (2 1) ", b"-3"), (b"leg (", b"0"), (b"leg (0 ", b"1")]
    forms = ["", "00", "01", "-0", "-1", "--1", "+1", "1.0", " 1", "1000000", "9999999", "12345678"]
    for (front, number), form in itertools.product(fields, forms):
        table.alone(SAMPLE.replace(front + number, front + form.encode(), 1))


def lines(table: Table) -> None:
    """Lines of the sample left out, doubled, swapped and put elsewhere, and what stands after a line."""
    rows = SAMPLE.splitlines(keepends=True)
    for k in range(len(rows)):
        table.alone(b"".join(rows[:k] + rows[k + 1 :]))
        table.alone(b"".join(rows[: k + 1] + rows[k:]))
        if k > 0:
            table.alone(b"".join([*rows[: k - 1], rows[k], rows[k - 1], *rows[k + 1 :]]))
    for row, k in itertools.product([rows[0], b"(format 3 P010)\n", rows[4], rows[7], rows[9], b"\n"], range(len(rows) + 1)):
        if row not in rows[max(k - 1, 0) : k + 1]:
            table.alone(b"".join([*rows[:k], row, *rows[k:]]))
    for k in range(1, len(rows) + 1):
        table.base(b"".join(rows[:k]).removesuffix(b"\n") + b"_\n" + b"".join(rows[k:]))
        table.sweep_in(b"_", 0)
    table.base(SAMPLE + b"_")
    table.sweep(len(SAMPLE))
    table.base(b"_" + SAMPLE)
    table.sweep(0)


def codes(table: Table) -> None:
    for names in [
        ["UYVY", "UYVY"], ["UYVY", "UYVZ"], ["UYVY", "VYVY"], ["UYVY", "UYvY"], ["UYVY", "uYVY"], ["0000", "0001"],
        ["0000", "0000"], ["aZ09", "zA90"], ["abc", "abcd"], ["abcde", "abcd"], ["ab d", "abcd"], ["ab-d", "abcd"],
        ["UYVY", "v210", "UYVY"], ["UYVY", "v210", "v210"], ["UYVY", "v210", "V210"], ["none", "loop"], ["1000", "1001", "100O"],
    ]:  # fmt: skip
        table.alone(ticket_text("delay", names, [(0, 1, 1)], [(0, 1)]))
    # a number out of order, with and without a code that was used
    for number, code in (0, "NV12"), (1, "UYVY"), (2, "UYVY"), (2, "v210"), (3, "NV12"), (9999999, "NV12"):
        table.alone(SAMPLE.replace(b"2 NV12", f"{number} {code}".encode()))


def costs(table: Table) -> None:
    for cost in 1000000, -1000000, 999999, -999999, 9999999, -9999999, 0, 1, -1:
        table.base(ticket("delay", 2, [(0, 1, cost)], [(0, 1)]))
        table.whole()
        if abs(cost) == 1000000:
            table.sweep_in(b"00)", 1)
            table.sweep_in(b"1000000", 0)
    for cost in 1, 15, 16, 17, 0, -1, -16, 255, 256, 257, 272, -255, 511, 65537, 65552, 9999999, -9999999:
        table.base(ticket("depth", 2, [(0, 1, cost)], [(0, 1)]))
        table.whole()
        if cost == 16:
            table.sweep_in(b"16)", 0)
            table.sweep_in(b"16)", 1)


def half_lines(table: Table) -> None:
    """Delays with a point, in every form and at every bound; a point in every other number; and routes on odd numbers of half
    lines."""
    forms = [
        "-0", "-01", "-0.", "-0.5", "-0.50", "-00.5", "-0.0", "-.5", "-", "-.", "--0.5", "+0.5", "0.", "0.5", "0.0", "0.6", "0.05",
        "00.5", "01.5", ".5", ".", "5.", "5.6", "5.4", "5.50", "5.55", "5.5-", "5.-5", "5. 5", "5 .5", "5,5", "12.5", "12.5.5", "12..5",
        "-12.5", "-1.5", "1.5 ", "9999999.5", "-9999999.5", "10000000", "10000000.5", "-10000000", "999999.5", "-999999.5",
        "1000000", "-1000000", "1000000.5", "-1000000.5", "1000001", "-1000001",
    ]  # fmt: skip
    for form in forms:
        if form not in ("1000000", "-1000000"):
            table.alone(ticket("delay", 2, [(0, 1, 77)], [(0, 1)]).replace(b"77", form.encode()))
        table.alone(ticket("depth", 2, [(0, 1, 77)], [(0, 1)]).replace(b"77", form.encode()))
    # what may stand at each place of a delay, and the text's end there
    for kind, front in itertools.product(["delay", "depth"], ["-", "-0", "0", "5", "-5", "-0.", "5.", "-0.5", "5.5", "9999999.5"]):
        table.base(ticket(kind, 2, [(0, 1, 77)], [(0, 1)]).replace(b"77", front.encode() + b"_"))
        table.cut(table.ticket.index(b"_"))
        table.sweep_in(b"_", 0)
    # a point in any other number
    for old, form in itertools.product([b"delay 3", b"format 1", b"(card (0", b"(card (2 1", b"(leg (1", b"(leg (0 1"], [".5", "."]):
        table.alone(SAMPLE.replace(old, old + form.encode(), 1))
    table.alone(SAMPLE.replace(b"delay 3", b"delay .5"))
    table.alone(SAMPLE.replace(b"delay 3", b"depth 3.5"))
    # which cause is found first
    for start, end in (2, 2), (0, 2), (1, 1):
        table.alone(ticket("delay", 2, [(start, end, 1_000_000 + HALF)], [(0, 1)]))
    # loops that gain half a line, and that gain nothing
    for last in 1, 1 + HALF, 2:
        table.alone(ticket("delay", 3, [(0, 1, 2 + HALF), (1, 2, -4), (2, 0, last)], [(0, 1), (1, 0), (2, 1)]))
    for there, back in (HALF, -HALF), (-HALF, HALF), (-HALF, 0), (0, -HALF), (-1000000, 999999 + HALF), (1000000, -999999 - HALF):
        table.alone(ticket("delay", 2, [(0, 1, there), (1, 0, back)], [(0, 1), (1, 0)]))
    # half a line decides, and halves come to whole lines
    table.alone(ticket("delay", 3, [(0, 1, 1), (1, 2, HALF), (0, 2, 1)], [(0, 2)]))
    table.alone(ticket("delay", 3, [(0, 1, HALF), (1, 2, HALF), (0, 2, 1)], [(0, 2), (0, 2)]))
    table.alone(ticket("delay", 3, [(0, 1, HALF), (1, 2, HALF), (0, 2, 1 + HALF)], [(0, 2)]))
    table.alone(ticket("delay", 3, [(0, 1, HALF), (1, 2, -1), (0, 2, 0)], [(0, 2)]))
    table.alone(ticket("delay", 3, [(0, 1, 3 + HALF), (1, 2, -3), (2, 0, -HALF)], [(0, 2), (2, 1), (1, 0)]))
    table.alone(ticket("delay", 2, [(0, 1, 7), (0, 1, HALF), (1, 0, HALF), (1, 0, -HALF)], [(0, 1), (1, 0)]))
    table.alone(ticket("delay", 8, [(a, b, cost * HALF) for a, b, cost in house()], [(4, 2), (4, 6)]))
    order = shuffled(64)
    for cost in 999999 + HALF, HALF - 999999, HALF, -HALF:
        table.alone(ticket("delay", 64, [(a, b, cost) for a, b in zip(order, order[1:])], [(order[0], order[-1]), (order[1], order[-1])]))


def both(table: Table) -> None:
    """Costs of two parts: every byte of one, forms of each part, and routes in which the second part decides."""
    table.base(ticket("both", 3, [(0, 1, (3, 8)), (0, 2, (1 + HALF, 10)), (2, 1, (1 + HALF, 9))], [(0, 1), (1, 0), (2, 2)]))
    table.whole()
    for word in b"both", b"(3 8)":
        start = table.ticket.index(word)
        for place in range(start - 1, start + len(word) + 2):
            table.cut(place)
            table.sweep(place)
    lines = ["-0", "0", "0.5", "-0.5", "-12.5", "12.5", "5.", "5.6", ".5", "01", "", "12345678", "1000000", "1000000.5", "-1000000", "9999999.5"]
    bits = ["0", "1", "16", "17", "255", "256", "-1", "-0", "8.5", "8.", "08", "", "12345678", "9999999"]
    made = ticket("both", 2, [(0, 1, (77, 7))], [(0, 1)])
    for form in [f"({first} 7)" for first in lines] + [f"(3 {second})" for second in bits] + [
        "3 8", "(3 8", "3 8)", "(3  8)", "( 3 8)", "(3 8 )", "(3,8)", "(3-8)", "(3)", "(3 8 8)", "((3 8))", "()", "(8.5 3)", "(-1000000 16)",
    ]:  # fmt: skip
        table.alone(made.replace(b"(77 7)", form.encode()))
    # a cost of the wrong kind, and kinds that are none
    for kind, cost in ("delay", (3, 8)), ("depth", (3, 8)), ("both", 3):
        table.alone(ticket(kind, 2, [(0, 1, cost)], [(0, 1)]))
    for kind in "bot", "boths", "bott", "Both", "b", "beth", "dboth", "botth":
        table.alone(ticket(kind, 2, [], [(0, 1)]))
    # which cause is found first
    for start, end, cost in (2, 2, (1000001, 17)), (0, 2, (0, 0)), (1, 1, (0, 0)), (0, 1, (1000001, 8)), (0, 1, (1000001, 0)):
        table.alone(ticket("both", 2, [(start, end, cost)], [(0, 1)]))
    # of equal delays the deeper one; a smaller delay before any depth
    table.alone(ticket("both", 4, [(0, 1, (1, 8)), (1, 3, (2, 16)), (0, 2, (2, 10)), (2, 3, (1, 12))], [(0, 3)]))
    table.alone(ticket("both", 4, [(0, 1, (1, 8)), (1, 3, (2, 16)), (0, 2, (2, 10)), (2, 3, (1, 12)), (0, 3, (2, 1))], [(0, 3)]))
    table.alone(ticket("both", 4, [(0, 1, (1, 8)), (1, 3, (2, 10)), (0, 2, (2, 8)), (2, 3, (1, 12))], [(0, 3), (1, 3), (0, 3)]))
    # loops without gain, by which a delay ties, and one that gains half a line however deep it is
    for there, back in (0, 0), (2, -2), (HALF, -HALF):
        loop = [(0, 1, (there, 8)), (1, 0, (back, 12))]
        table.alone(ticket("both", 3, [*loop, (0, 2, (5, 10)), (1, 2, (5 + back, 10))], [(0, 2), (1, 2), (0, 0)]))
        table.alone(ticket("both", 4, [*loop, (0, 2, (5, 6)), (1, 2, (5 + back, 10)), (2, 3, (0, 9))], [(0, 3), (1, 3), (0, 2), (2, 3)]))
    table.alone(ticket("both", 4, [(0, 1, (0, 9)), (1, 0, (0, 9)), (1, 2, (0, 9)), (2, 0, (0, 16)), (0, 3, (5, 8)), (2, 3, (5, 12))], [(0, 3), (1, 3), (2, 3)]))
    table.alone(ticket("both", 3, [(0, 1, (HALF, 16)), (1, 0, (-1, 16))], [(2, 2)]))
    table.alone(ticket("both", 3, [(0, 1, (0, 16)), (1, 0, (0, 16))], [(2, 2), (0, 1), (1, 0)]))
    # a card that is entered again, and the house table with depths that fall with the number of the format
    table.alone(ticket("both", 2, [(0, 1, (3, 8)), (0, 1, (3, 10)), (1, 0, (-1, 8)), (1, 0, (-1, 9))], [(0, 1), (1, 0)]))
    table.alone(ticket("both", 8, [(a, b, (cost, 16 - b)) for a, b, cost in house()], [(4, 2), (4, 6), (4, 4)]))
    table.alone(ticket("both", 8, [(a, b, (cost * HALF, 1 + b)) for a, b, cost in house()], [(4, 2), (4, 6), (6, 4)]))
    order = shuffled(64)
    for cost in (1000000, 16), (-1000000, 1), (HALF, 9):
        table.alone(ticket("both", 64, [(a, b, cost) for a, b in zip(order, order[1:])], [(order[0], order[-1]), (order[1], order[-1]), (order[-1], order[0])]))


def ends(table: Table) -> None:
    """Which cause is found first."""
    for kind, start, end, cost in [
        ("delay", 3, 3, 1000001), ("delay", 0, 3, 1000001), ("delay", 3, 0, 1000001), ("delay", 1, 1, 1000001), ("depth", 3, 3, 17),
        ("depth", 2, 2, 0), ("depth", 0, 3, 256), ("delay", 256, 1, 0), ("delay", 1, 258, 0), ("delay", 65536, 65537, 0),
    ]:  # fmt: skip
        table.alone(ticket(kind, 3, [(start, end, cost)], [(0, 1)]))
    for leg in (3, 3), (3, 0), (0, 3), (1, 1), (0, 0), (2, 2), (256, 1), (1, 256), (65536, 65537):
        table.alone(ticket("delay", 3, [(0, 1, -1), (1, 0, 0)], [leg]))
    table.alone(ticket("delay", 3, [(0, 1, -1), (1, 0, 0)], []))
    table.alone(ticket("delay", 3, [(0, 1, -1), (1, 0, 0)], []) + b"(end)\n")
    table.alone(ticket("delay", 3, [(0, 1, -1), (1, 0, 0)], [(0, 2)]) + b"\n")
    table.alone(ticket("delay", 3, [], []))
    table.alone(ticket("depth", 3, [(0, 1, 16)], []))


def equal_ends(table: Table) -> None:
    """Legs from a format to itself, beside others that end there, by other cards and by loops that gain nothing."""
    for kind, cost in ("delay", 7), ("depth", 9):
        table.alone(ticket(kind, 3, [(0, 2, cost), (2, 0, cost)], [(2, 2)]))
        table.alone(ticket(kind, 3, [(0, 1, cost), (1, 2, cost)], [(2, 2), (0, 2), (1, 1), (2, 0)]))
        table.alone(ticket(kind, 3, [(0, 1, cost), (1, 2, cost)], [(0, 2), (1, 2), (2, 2)]))
    for there, back in (0, 0), (-3, 3), (3, -4):
        table.alone(ticket("delay", 3, [(0, 1, there), (1, 0, back)], [(0, 0)]))
        table.alone(ticket("delay", 3, [(0, 1, there), (1, 0, back)], [(0, 0), (1, 0), (0, 1), (1, 1)]))
    table.alone(ticket("delay", 8, house(), [(4, 4), (4, 2), (4, 6), (6, 6)]))
    table.alone(ticket("delay", 3, [(0, 1, 3), (1, 0, -4)], [(2, 2)]))
    table.base(ticket("depth", 2, [], [(1, 1)]))
    table.whole()
    table.sweep_in(b"(1 1)", 1)
    table.sweep_in(b"(1 1)", 3)


def many_legs(table: Table) -> None:
    legs = list(itertools.permutations(range(6), 2))
    legs += legs[:3]
    cards = [(0, 1, 1), (1, 2, -2), (2, 3, 3), (3, 4, -4), (4, 0, 5)]
    table.alone(ticket("delay", 6, cards, legs[:31]))
    table.alone(ticket("delay", 6, cards, legs[:32]))
    table.base(ticket("delay", 6, cards, legs[:32] + [(1, 0)]))
    table.whole()
    table.sweep_in(b"(1 0))", 1)
    table.sweep_in(b"(1 0))", 3)
    table.alone(ticket("depth", 6, [], [(5, 4)] * 33 + [(0, 0)]))


def many_cards(table: Table) -> None:
    """512 pairs, one of them entered again, and then another pair."""
    pairs = list(itertools.permutations(range(24), 2))
    cards = [(a, b, 1 if b == a + 1 else 1000) for a, b in pairs[:512]]
    table.base(ticket("delay", 24, [*cards, (0, 1, 2), (23, 5, 1000000)], [(0, 22), (21, 22)]))
    table.whole()
    table.sweep_in(b"(23 5)", 1)
    table.sweep_in(b"(23 5)", 2)
    table.sweep_in(b"(23 5)", 4)
    table.sweep_in(b"1000000", 6)
    table.sweep_in(b"1000000", 0)


def shuffled(n: int) -> list[int]:
    """The numbers below n in another order, 0 first; n and 23 share no factor."""
    return [k * 23 % n for k in range(n)]


def long_chains(table: Table) -> None:
    order = shuffled(64)
    steps = list(zip(order, order[1:]))
    legs = [(order[0], order[-1]), (order[-1], order[0]), (order[31], order[32]), (order[1], order[-1])]
    for kind, cost in ("delay", 1000000), ("delay", -1000000), ("depth", 16):
        table.alone(ticket(kind, 64, [(a, b, cost) for a, b in steps], legs))
    up = [(k, k + 1, -1) for k in range(63)]
    table.alone(ticket("delay", 64, [*up, (63, 0, 63)], [(0, 63), (63, 62), (5, 4), (63, 63)]))
    table.alone(ticket("delay", 64, [*reversed(up), (63, 0, 63)], [(63, 0), (1, 0)]))
    # a loop through all of 12 formats gains when its last card is a line cheaper
    ring = list(zip(shuffled(12), shuffled(12)[1:] + [0]))
    table.base(ticket("delay", 12, [(a, b, -2) for a, b in ring[:-1]] + [(*ring[-1], 22)], [(3, 2)]))
    table.whole()
    table.sweep_in(b"22)", 1, 48, 57)


HOUSE = """\
 .  4  1  5  .  .  4  .
-1  .  .  .  .  2  1  .
 1  .  .  .  .  .  .  .
-1  .  .  .  2  2  .  .
 .  .  . -1  .  .  .  .
 .  0  .  1  .  .  .  .
 2  .  .  .  .  .  .  0
 .  .  .  .  7  .  0  .
"""


def house() -> list[Entry]:
    rows = [line.split() for line in HOUSE.splitlines()]
    return [(a, b, int(cost)) for a, row in enumerate(rows) for b, cost in enumerate(row) if cost != "."]


def loops_and_ties(table: Table) -> None:
    for last in 1, 2, 3:
        table.alone(ticket("delay", 3, [(0, 1, 2), (1, 2, -4), (2, 0, last)], [(0, 1)]))
        table.alone(ticket("delay", 3, [(0, 1, 2), (1, 2, -4), (2, 0, last)], [(0, 2), (1, 0), (2, 1)]))
    table.alone(ticket("delay", 3, [(0, 1, 0), (1, 0, 0), (0, 2, 5)], [(0, 2), (1, 2)]))
    table.alone(ticket("delay", 3, [(0, 1, 0), (1, 0, 0), (0, 2, 5), (1, 2, 5)], [(0, 2), (1, 2)]))
    table.alone(ticket("delay", 4, [(2, 3, -1), (3, 2, 0)], [(0, 1)]))
    table.alone(ticket("delay", 4, [(0, 1, 1), (2, 3, -1), (3, 2, 1)], [(0, 1), (2, 3), (3, 2)]))
    table.alone(ticket("delay", 2, [(0, 1, -1000000), (1, 0, 999999)], [(0, 1)]))
    table.alone(ticket("delay", 2, [(0, 1, -1000000), (1, 0, 1000000)], [(0, 1), (1, 0)]))
    table.alone(ticket("depth", 3, [(0, 1, 10), (1, 2, 8), (0, 2, 6)], [(0, 2)]))
    table.alone(ticket("depth", 3, [(0, 1, 10), (1, 2, 8), (0, 2, 8)], [(0, 2), (1, 2), (0, 1)]))
    table.alone(ticket("depth", 4, [(0, 1, 1), (1, 0, 16), (1, 2, 16), (2, 1, 16), (2, 3, 2)], [(0, 3), (1, 3), (3, 0)]))
    # two ways of one cost; from where two chains to one end meet they go on alike
    square = [(0, 1, 1), (1, 3, 1), (0, 2, 1), (2, 3, 1)]
    table.alone(ticket("delay", 4, square, [(0, 3), (0, 3)]))
    table.alone(ticket("delay", 5, [*square, (4, 0, 0)], [(4, 3), (0, 3), (1, 3)]))
    table.alone(ticket("delay", 5, [*square, (3, 4, -1)], [(0, 3), (0, 4)]))
    table.alone(ticket("depth", 4, square, [(0, 3), (0, 3)]))
    table.alone(ticket("delay", 4, [(0, 2, 1), (0, 3, 1), (2, 1, 1), (3, 0, -1)], [(0, 1)]))
    table.alone(ticket("depth", 4, [(1, 2, 2), (1, 3, 1), (2, 0, 1), (3, 1, 2)], [(1, 0)]))
    zeros = [(a, b, 0) for a, b in itertools.permutations(range(4), 2)]
    table.alone(ticket("delay", 4, zeros, [(0, 3)]))
    table.alone(ticket("delay", 4, zeros, [(0, 3), (1, 3)]))
    table.alone(ticket("delay", 8, house(), [(4, 2), (4, 6)]))
    table.alone(ticket("delay", 8, [card for card in house() if 0 not in card[:2]], [(4, 2), (4, 6)]))


def again(table: Table) -> None:
    """Cards that are entered more than once: the last counts."""
    table.alone(ticket("delay", 3, [(0, 1, 1), (0, 2, 9), (0, 1, 5), (2, 1, -5)], [(0, 1)]))
    table.alone(ticket("delay", 3, [(0, 1, 5), (0, 2, 9), (0, 1, 1), (2, 1, -5)], [(0, 1)]))
    table.alone(ticket("delay", 2, [(0, 1, -1), (1, 0, 0), (0, 1, 0)], [(0, 1)]))
    table.alone(ticket("delay", 2, [(0, 1, 0), (1, 0, 0), (0, 1, -1)], [(1, 0)]))
    table.alone(ticket("delay", 2, [(0, 1, 7)] * 40, [(0, 1), (1, 0)]))
    table.alone(ticket("depth", 3, [(0, 1, 9), (0, 2, 4), (2, 1, 4), (0, 1, 3)], [(0, 1)]))


def filling(size: int, shortest: int, pairs: list[Pair]) -> Iterator[Entry]:
    """Cards between formats of one digit whose lines take that many bytes, about `shortest` each."""
    count = size // shortest
    for k in range(count):
        width = size * (k + 1) // count - size * k // count - len("(card (0 1) )\n")
        yield (*pairs[k % len(pairs)], 10 ** (width - 1) + k % 7)


def of_size(size: int, kind: str, n: int, cards: list[Entry], legs: list[Pair]) -> bytes:
    """A ticket of that size, whose cards are entered again and again before they get their costs."""
    pairs = [(a, b) for a, b, _ in cards if max(a, b) < 10]
    missing = size - len(ticket(kind, n, cards, legs))
    made = ticket(kind, n, [*filling(missing, 18 if kind == "delay" else 15, pairs), *cards], legs)
    if len(made) != size:
        raise ValueError(size)
    return made


def sizes(table: Table) -> None:
    row = [(k, k + 1, 1 - k % 3) for k in range(63)]
    dear = [(a, b, 1000) for a, b in itertools.permutations(range(64), 2) if b != a + 1][: 512 - 63]
    table.base(of_size(32767, "delay", 64, [*dear, *row, (0, 1, 1)], [(k, 63 - k) for k in range(32)]))
    table.whole()
    table.cut(32766)
    table.sweep(0)
    table.sweep_in(b"(card (0 1)", 7, ord("8"), ord("9"))  # the 513th pair
    table.sweep(32766)
    cards = [(0, 1, 4), (0, 2, 6), (2, 1, -3)]
    table.base(of_size(32768, "delay", 3, cards, [(0, 1), (1, 0)]) + b"\n")
    table.whole()
    table.cut(32768)
    table.cut(32767)
    table.cut(16384)
    table.sweep(0)
    table.sweep(11)
    table.sweep(32767)
    table.sweep(32768)
    table.base(of_size(32769, "depth", 2, [(0, 1, 10), (1, 0, 8)], [(0, 1), (1, 0)]))
    table.whole()
    table.cut(32768)
    table.cut(32767)
    table.sweep(0)
    table.sweep(32768)


def write_table(out: BinaryIO) -> Table:
    table = Table(out)
    for part in (
        sample, first_lines, numbers, lines, codes, costs, half_lines, both, ends, equal_ends, many_legs, many_cards, long_chains, loops_and_ties, again, sizes,
    ):  # fmt: skip
        part(table)
    table.end()
    return table


def main() -> None:
    table = write_table(sys.stdout.buffer)
    print(f"{len(table.bases)} bases, {table.cases} cases, {table.answers} answers, {table.size} bytes", file=sys.stderr)


if __name__ == "__main__":
    main()
