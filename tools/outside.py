#!/usr/bin/env python3
"""Runs the program on generated tickets and checks every answer by the model.

    python3 tools/outside.py --count 5000

The ticket with an index depends on the seed and the index alone. At the first wrong answer the seed, the index and the
ticket are printed, and the status is 1; `--only INDEX` runs that ticket again, and with `--print` writes it out instead.
"""

from __future__ import annotations

import argparse
import itertools
import os
import random
import re
import string
import subprocess
import sys
import tempfile
from collections import Counter
from collections.abc import Callable
from dataclasses import dataclass
from fractions import Fraction
from pathlib import Path
from random import Random
from typing import BinaryIO

from model import LARGEST_DELAY, LARGEST_DEPTH, LONGEST, MOST_CARDS, MOST_LEGS, Cost, Pair, check_answer, ticket_text

ROOT = Path(__file__).resolve().parent.parent
PROGRAM = ROOT / "crates/route/out/route"

SECONDS = 20
Entry = tuple[int, int, Cost]
KINDS = ["delay", "depth", "both"]
HALF = Fraction(1, 2)


# Tickets that follow the rules.


def draw_size(rng: Random) -> int:
    low, high = rng.choices([(2, 4), (5, 8), (9, 20), (21, 63), (64, 64)], [50, 40, 7, 1, 2])[0]
    return rng.randint(low, high)


def draw_codes(rng: Random, n: int) -> list[str]:
    """Different codes; often they differ in one sign, or in a letter's case."""
    few = rng.choice(["aA", "01", "xyz", "bB8", string.ascii_letters + string.digits])
    codes: dict[str, None] = {}
    while len(codes) < n:
        signs = few if len(few) ** 4 >= 2 * n else string.ascii_letters + string.digits
        codes["".join(rng.choices(signs, k=4))] = None
    return list(codes)


def sparse(rng: Random, n: int) -> list[Pair]:
    return [tuple(rng.sample(range(n), 2)) for _ in range(rng.randint(0, 3 * n))]


def dense(rng: Random, n: int) -> list[Pair]:
    chance = rng.uniform(0.3, 0.9)
    return [pair for pair in itertools.permutations(range(n), 2) if rng.random() < chance]


def complete(rng: Random, n: int) -> list[Pair]:
    return list(itertools.permutations(range(n), 2))


def path(rng: Random, n: int) -> list[Pair]:
    """A way through all formats, and a few cards beside it."""
    order = rng.sample(range(n), n)
    return list(zip(order, order[1:])) + sparse(rng, n)[: rng.randrange(4)]


def ring(rng: Random, n: int) -> list[Pair]:
    order = rng.sample(range(n), n)
    return list(zip(order, order[1:] + order[:1])) + sparse(rng, n)[: rng.randrange(4)]


def layers(rng: Random, n: int) -> list[Pair]:
    """Groups of formats, with cards from each format of a group to each of the next."""
    width = rng.randint(2, 4)
    order = rng.sample(range(n), n)
    groups = [order[k : k + width] for k in range(0, n, width)]
    return [pair for group, following in zip(groups, groups[1:]) for pair in itertools.product(group, following)]


def islands(rng: Random, n: int) -> list[Pair]:
    """Two halves without a card between them."""
    order = rng.sample(range(n), n)
    place = {f: k < n // 2 for k, f in enumerate(order)}
    return [(a, b) for a, b in dense(rng, n) if place[a] == place[b]]


def star(rng: Random, n: int) -> list[Pair]:
    hub = rng.randrange(n)
    return [pair for f in range(n) if f != hub for pair in ((f, hub), (hub, f)) if rng.random() < 0.8]


SHAPES = [sparse, dense, complete, path, ring, layers, islands, star]


def level(rng: Random, n: int, pairs: list[Pair]) -> list[int]:
    """Delays without a loop that gains: each at least the climb from end to end. Where it is just that, many ways tie."""
    spread = rng.choice([0, 2, 9, 400_000])
    height = [rng.randint(-spread, spread) for _ in range(n)]
    slack = rng.choice([[0], [0, 0, 0, 1], [0, 1, 2], [0, 5, 100_000]])
    return [rng.choice(slack) + height[b] - height[a] for a, b in pairs]


def lowered(rng: Random, n: int, pairs: list[Pair]) -> list[int]:
    """As level, but one card is a line cheaper."""
    costs = level(rng, n, pairs)
    if costs:
        costs[rng.randrange(len(costs))] -= 1
    return costs


def free_delays(rng: Random, n: int, pairs: list[Pair]) -> list[int]:
    low, high = rng.choice([(0, 0), (0, 2), (1, 9), (-1, 9), (-3, 20), (-LARGEST_DELAY, LARGEST_DELAY)])
    return [rng.randint(low, high) for _ in pairs]


def extreme_delays(rng: Random, n: int, pairs: list[Pair]) -> list[Cost]:
    some = rng.choice([[LARGEST_DELAY], [-LARGEST_DELAY], [LARGEST_DELAY, LARGEST_DELAY - HALF], [-LARGEST_DELAY, LARGEST_DELAY, HALF]])
    return [rng.choice(some) for _ in pairs]


def balanced(rng: Random, n: int, pairs: list[Pair]) -> list[int]:
    """All cards alike but one, which makes up for n - 1 of them, or for a little more or less."""
    if not pairs:
        return []
    step = rng.choice([-1, -7, 1, -15_000])
    costs = [step] * len(pairs)
    costs[rng.randrange(len(pairs))] = step * (1 - n) + rng.randint(-1, 1)
    return costs


def depths(rng: Random, n: int, pairs: list[Pair]) -> list[int]:
    some = rng.choice([[8, 10], [1, LARGEST_DEPTH], [LARGEST_DEPTH], range(1, LARGEST_DEPTH + 1), [6, 8, 10, 12]])
    return [rng.choice(some) for _ in pairs]


DELAYS = [level, level, level, lowered, free_delays, extreme_delays, balanced]


def draw_delays(rng: Random, n: int, pairs: list[Pair]) -> list[Cost]:
    costs = rng.choice(DELAYS)(rng, n, pairs)
    if rng.random() < 0.5:
        return [cost * HALF if 2 * cost == int(2 * cost) and abs(cost) < LARGEST_DELAY else cost for cost in costs]
    return costs


def draw_costs(rng: Random, kind: str, n: int, pairs: list[Pair]) -> list[Cost]:
    match kind:
        case "delay":
            return draw_delays(rng, n, pairs)
        case "depth":
            return depths(rng, n, pairs)
        case _:
            return list(zip(draw_delays(rng, n, pairs), depths(rng, n, pairs)))


def any_cost(rng: Random, kind: str) -> Cost:
    depth = rng.randint(1, LARGEST_DEPTH)
    return (rng.randint(1, LARGEST_DEPTH), depth) if kind == "both" else depth


def draw_cards(rng: Random, kind: str, n: int) -> list[Entry]:
    """Standing pairs with their costs, now and then entered with another cost before."""
    pairs = list(dict.fromkeys(rng.choice(SHAPES)(rng, n)))
    rng.shuffle(pairs)
    pairs = pairs[: MOST_CARDS + (rng.random() < 0.2)]
    cards = [(a, b, cost) for (a, b), cost in zip(pairs, draw_costs(rng, kind, n, pairs))]
    if cards and rng.random() < 0.2:
        early = [(a, b, any_cost(rng, kind)) for a, b, _ in rng.choices(cards, k=rng.randint(1, 5))]
        cards = early + cards if rng.random() < 0.5 else cards + early
    return cards


def draw_legs(rng: Random, n: int) -> list[Pair]:
    count = rng.choices([rng.randint(1, 6), rng.randint(7, 31), MOST_LEGS, MOST_LEGS + 1, 0], [70, 15, 10, 1, 1])[0]
    every = list(itertools.product(range(n), repeat=2))
    end = rng.randrange(n)
    match rng.randrange(3):
        case 0:
            every = [pair for pair in every if pair[1] == end]
        case 1:
            every = rng.sample(every, min(len(every), 3))
    return rng.choices(every, k=count)


def whole(rng: Random) -> bytes:
    kind = rng.choices(KINDS, [3, 1, 2])[0]
    n = draw_size(rng)
    return ticket_text(kind, draw_codes(rng, n), draw_cards(rng, kind, n), draw_legs(rng, n))


# Tickets with damage.

NUMBERS = ["0", "1", "2", "3", "8", "9", "15", "16", "17", "63", "64", "65", "127", "128", "255", "256", "257", "272"]
NUMBERS += ["511", "512", "999999", "1000000", "1000001", "4194304", "9999998", "9999999", "10000000", "12345678"]
NUMBERS += ["4294967296", "4294967297", "18446744073709551616", "00", "01", "007"]
SIGNED = NUMBERS + ["-" + number for number in NUMBERS] + ["-", "--1", "+1", ""]
HALVES = ["0.5", "1.5", "12.5", "999999.5", "1000000.5", "9999999.5", "10000000.5", "00.5", ".5", ".", "5.", "5.6", "5.50", "0.0", "1.5.5"]
SIGNED += HALVES + ["-" + number for number in HALVES]
SIGNS = b"()-. \n\r\t\0" + (string.ascii_letters + string.digits).encode()


def truncated(rng: Random, ticket: bytes) -> bytes:
    return ticket[: rng.randrange(len(ticket))]


def cut_near_the_end(rng: Random, ticket: bytes) -> bytes:
    return ticket[: -rng.randint(1, 9)]


def replaced(rng: Random, ticket: bytes) -> bytes:
    place = rng.randrange(len(ticket))
    value = rng.choice(SIGNS) if rng.random() < 0.7 else rng.randrange(256)
    return ticket[:place] + bytes([value]) + ticket[place + 1 :]


def flipped(rng: Random, ticket: bytes) -> bytes:
    place = rng.randrange(len(ticket))
    return ticket[:place] + bytes([ticket[place] ^ 1 << rng.randrange(8)]) + ticket[place + 1 :]


def inserted(rng: Random, ticket: bytes) -> bytes:
    place = rng.randint(0, len(ticket))
    return ticket[:place] + bytes(rng.choices(SIGNS, k=rng.randint(1, 3))) + ticket[place:]


def deleted(rng: Random, ticket: bytes) -> bytes:
    place = rng.randrange(len(ticket))
    return ticket[:place] + ticket[place + rng.randint(1, 3) :]


def lines_swapped(rng: Random, ticket: bytes) -> bytes:
    lines = ticket.splitlines(keepends=True)
    one, two = rng.choices(range(len(lines)), k=2)
    lines[one], lines[two] = lines[two], lines[one]
    return b"".join(lines)


def line_doubled(rng: Random, ticket: bytes) -> bytes:
    lines = ticket.splitlines(keepends=True)
    lines.insert(rng.randint(0, len(lines)), rng.choice(lines))
    return b"".join(lines)


def line_dropped(rng: Random, ticket: bytes) -> bytes:
    lines = ticket.splitlines(keepends=True)
    del lines[rng.randrange(len(lines))]
    return b"".join(lines)


def other_size(rng: Random, ticket: bytes) -> bytes:
    n = rng.choice([0, 1, 2, 3, 63, 64, 65, 66, 100, 256, 258, 65538, 9999999])
    return re.sub(rb" [0-9]+\)", b" %d)" % n, ticket, count=1)


def other_number(rng: Random, ticket: bytes) -> bytes:
    """One number of the ticket is another one."""
    chosen = rng.choice(list(re.finditer(rb"-?\b[0-9]+\b", ticket)))
    return ticket[: chosen.start()] + rng.choice(SIGNED).encode() + ticket[chosen.end() :]


def other_cost(rng: Random, ticket: bytes) -> bytes:
    chosen = rng.choice(list(re.finditer(rb"-?[0-9.]+(?=\)\)?\n\((?:card|leg|end)| [0-9]+\)\)\n)", ticket)))
    return ticket[: chosen.start()] + rng.choice(SIGNED).encode() + ticket[chosen.end() :]


def code_used_again(rng: Random, ticket: bytes) -> bytes:
    found = re.findall(rb"\(format [0-9]+ (\w{4})\)", ticket)
    one, two = rng.sample(found, 2)
    return ticket.replace(b" " + two + b")", b" " + one + b")", 1)


def with_returns(rng: Random, ticket: bytes) -> bytes:
    return ticket.replace(b"\n", b"\r\n", rng.choice([-1, 1, 2]))


def with_more(rng: Random, ticket: bytes) -> bytes:
    return ticket + rng.choice([b"\n", b" ", b"\0", b"(end)\n", b"(", b"x" * 100, ticket])


DAMAGES: list[Callable[[Random, bytes], bytes]] = [
    truncated, cut_near_the_end, replaced, replaced, replaced, flipped, inserted, deleted, lines_swapped, line_doubled, line_dropped,
    other_size, other_number, other_number, other_cost, other_cost, code_used_again, with_returns, with_more,
]  # fmt: skip


def damaged(rng: Random) -> bytes:
    ticket = whole(rng)
    for _ in range(rng.choice([1, 1, 1, 2, 5])):
        try:
            ticket = rng.choice(DAMAGES)(rng, ticket)
        except (IndexError, ValueError):
            pass  # the ticket has too little left for this damage
    return ticket


# Hostile tickets.


def noise(rng: Random) -> bytes:
    length = rng.choice([0, 1, rng.randrange(30), rng.randrange(400)])
    return rng.randbytes(length) if rng.random() < 0.3 else bytes(rng.choices(SIGNS, k=length))


def soup(rng: Random) -> bytes:
    """Words of the grammar in any order."""
    words = ["(", ")", " ", "\n", "bay", "format", "card", "leg", "end", *KINDS, "UYVY", "(bay ", "(end)\n", "0", "1", "-1", ".5"]
    return "".join(rng.choices(words, k=rng.randrange(40))).encode()


def number(rng: Random, most: int) -> str:
    """Mostly a small number, so that lines get further."""
    return str(rng.randrange(most)) if rng.random() < 0.96 else rng.choice(SIGNED)


def loose_cost(rng: Random, kind: str) -> str:
    delay, depth = number(rng, 17) + rng.choice(["", "", "", ".5"]), number(rng, 17)
    kind = kind if rng.random() < 0.97 else rng.choice(KINDS)
    return {"delay": delay, "depth": depth, "both": f"({delay} {depth})"}[kind]


def loose_line(rng: Random, n: int, kind: str, word: str, due: int) -> str:
    ends = f"({number(rng, n)} {number(rng, n)})"
    match word:
        case "format":
            k = str(due) if rng.random() < 0.99 else number(rng, n)
            return f"(format {k} {rng.choice('aB')}{rng.choice('01')}{due:02})"
        case "card":
            return f"(card {ends} {loose_cost(rng, kind)})"
        case "leg":
            return f"(leg {ends})"
        case "end":
            return "(end)"
        case _:
            return f"(bay {rng.choice(KINDS)} {number(rng, 9)})"


def loose(rng: Random) -> bytes:
    """Lines in about the right order, with numbers that need not do."""
    n = rng.randint(2, 5)
    kind = rng.choice(KINDS)
    lines = [f"(bay {kind} {n})"]
    lines += [loose_line(rng, n, kind, "format", k) for k in range(n + (rng.random() < 0.02) - (rng.random() < 0.02))]
    lines += [loose_line(rng, n, kind, "card", 0) for _ in range(rng.randrange(6))]
    lines += [loose_line(rng, n, kind, "leg", 0) for _ in range(rng.randrange(4))]
    if rng.random() < 0.2:
        word = rng.choice(["bay", "format", "card", "leg", "end"])
        lines.insert(rng.randint(0, len(lines)), loose_line(rng, n, kind, word, rng.randrange(n)))
    return "".join(line + "\n" for line in lines + ["(end)"]).encode()


def good_front(rng: Random) -> bytes:
    """The front of a good ticket, and then noise."""
    return truncated(rng, whole(rng)) + noise(rng)


HOSTILE = [noise, soup, loose, loose, loose, loose, good_front]


def hostile(rng: Random) -> bytes:
    return rng.choice(HOSTILE)(rng)


# Tickets about as long as may be, and longer.


def sized(rng: Random) -> bytes:
    """Cards entered again and again, up to a size near the largest."""
    size = rng.choice([LONGEST - 2, LONGEST - 1, LONGEST, LONGEST + 1, LONGEST + 2, LONGEST + rng.randrange(60_000)])
    n = rng.randint(2, 9)
    pairs = list(itertools.permutations(range(n), 2))
    legs = rng.choices(pairs, k=rng.randint(1, MOST_LEGS))
    codes = draw_codes(rng, n)
    missing = size - len(ticket_text("delay", codes, [], legs))
    count = missing // 18
    cards = []
    for k in range(count):
        width = missing * (k + 1) // count - missing * k // count - len("(card (0 1) )\n")
        cards.append((*rng.choice(pairs), rng.randrange(10 ** (width - 1), 10**width)))
    ticket = ticket_text("delay", codes, cards, legs)
    match rng.randrange(4):
        case 0:
            return rng.choice(DAMAGES)(rng, ticket)
        case 1:
            return ticket[:LONGEST] + bytes(rng.choices(SIGNS, k=rng.randrange(4)))
        case _:
            return ticket


def make_ticket(seed: int, index: int) -> bytes:
    rng = random.Random(f"{seed} {index}")
    return rng.choices([whole, damaged, hostile, sized], [60, 25, 14.5, 0.5])[0](rng)


# Running the program.


@dataclass
class Run:
    status: int
    output: bytes
    errors: bytes
    read: int


class Runner:
    """Runs the program with a ticket as its standard input: a file, or now and then a pipe that is filled in pieces."""

    def __init__(self, program: str) -> None:
        self.program = program
        self.input, self.output, self.errors = (tempfile.TemporaryFile() for _ in range(3))

    def __enter__(self) -> Runner:
        return self

    def __exit__(self, *_: object) -> None:
        for file in self.input, self.output, self.errors:
            file.close()

    def run(self, ticket: bytes, pieces: int) -> Run:
        for file in self.input, self.output, self.errors:
            file.seek(0)
            file.truncate()
        if pieces == 0:
            self.input.write(ticket)
            self.input.seek(0)
        source: BinaryIO | int = subprocess.PIPE if pieces else self.input
        with subprocess.Popen([self.program], stdin=source, stdout=self.output, stderr=self.errors) as process:
            if process.stdin is not None:
                self.feed(process.stdin, ticket, pieces)
            try:
                status = process.wait(SECONDS)
            except subprocess.TimeoutExpired:
                process.kill()
                raise
        read = 0 if pieces else os.lseek(self.input.fileno(), 0, os.SEEK_CUR)
        self.output.seek(0)
        self.errors.seek(0)
        return Run(status, self.output.read(), self.errors.read(), read)

    def feed(self, pipe: BinaryIO, ticket: bytes, pieces: int) -> None:
        size = len(ticket) // pieces + 1
        try:
            with pipe:
                for start in range(0, len(ticket), size):
                    pipe.write(ticket[start : start + size])
                    pipe.flush()
        except BrokenPipeError:
            pass  # the program need not read to the end


class Wrong(Exception):
    """What is wrong with a run."""


def answer(runner: Runner, index: int, ticket: bytes) -> bytes:
    """What the program prints, if it is right."""
    try:
        run = runner.run(ticket, pieces=1 + index % 5 if index % 8 == 0 else 0)
    except subprocess.TimeoutExpired:
        raise Wrong(f"no end within {SECONDS} seconds") from None
    if run.status != 0 or run.errors:
        raise Wrong(f"status {run.status}, and on standard error {run.errors!r}")
    if run.read > LONGEST + 1:
        raise Wrong(f"{run.read} bytes read")
    wrong = check_answer(ticket, run.output)
    if wrong is not None:
        raise Wrong(wrong)
    return run.output


def outcome(output: bytes) -> int:
    """The number of a refusal, or 0."""
    words = output.split()
    return int(words[2]) if words[0] == b"(refused" else 0


def check_all(program: str, seed: int, indices: range) -> int:
    seen: Counter[int] = Counter()
    with Runner(program) as runner:
        for index in indices:
            ticket = make_ticket(seed, index)
            try:
                seen[outcome(answer(runner, index, ticket))] += 1
            except Wrong as wrong:
                print(f"wrong: seed {seed}, index {index}: {wrong}\n{ticket!r}")
                return 1
    refused = ", ".join(f"{number}: {seen[number]}" for number in sorted(seen) if number)
    print(f"{len(indices)} tickets answered rightly: {seen[0]} granted; refused {refused or 'none'}")
    return 0


def build() -> None:
    """Proves and builds the program, and runs it once."""
    print("the program is proved and built first, which takes some minutes", file=sys.stderr)
    with (ROOT / "tickets/sample.ticket").open("rb") as ticket:
        subprocess.run(["rt", "run"], cwd=ROOT / "crates/route", stdin=ticket, stdout=subprocess.DEVNULL, check=True)


def main() -> int:
    parser = argparse.ArgumentParser(description="Runs the program on generated tickets and checks every answer.")
    parser.add_argument("--program", default=str(PROGRAM))
    parser.add_argument("--count", type=int, default=5000, help="how many tickets")
    parser.add_argument("--seed", type=int, default=1)
    parser.add_argument("--only", type=int, metavar="INDEX", help="one ticket")
    parser.add_argument("--print", action="store_true", help="write the ticket of --only to standard output, and do not run it")
    given = parser.parse_args()
    if given.print:
        if given.only is None:
            parser.error("--print needs --only")
        sys.stdout.buffer.write(make_ticket(given.seed, given.only))
        return 0
    if given.program == str(PROGRAM) and not PROGRAM.exists():
        build()
    if not os.access(given.program, os.X_OK):
        parser.error(f"no program {given.program}")
    indices = range(given.count) if given.only is None else range(given.only, given.only + 1)
    return check_all(given.program, given.seed, indices)


if __name__ == "__main__":
    sys.exit(main())
