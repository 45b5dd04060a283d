#!/usr/bin/env python3
"""A model of tickets: how a ticket is judged, and which answers to it are right.

It shares no code with the product and goes about things in another way. Lines are matched by taking derivatives of the
set of allowed lines; least costs come from rounds of relaxation; chains are listed by search. A delay is a number of lines, with
halves as exact fractions; a cost of the kind both is a delay and a depth.

    judge(ticket)                 Granted, or Refused
    check_answer(ticket, output)  what is wrong with the output, or None
    answers(ticket)               every right output, where they are few

Run as a program it prints a right output for the ticket on standard input.
"""

from __future__ import annotations

import sys
from collections.abc import Iterable, Iterator
from dataclasses import dataclass, field
from fractions import Fraction
from functools import reduce
from io import BytesIO

LONGEST = 32_768
FEWEST_FORMATS, MOST_FORMATS = 2, 64
MOST_CARDS = 512
MOST_LEGS = 32
LARGEST_DELAY = 1_000_000
LARGEST_DEPTH = 16
UNIT = {"delay": 0, "depth": 255, "both": (0, 255)}

Pair = tuple[int, int]
Part = int | Fraction
Cost = Part | tuple[Part, Part]
Cards = dict[Pair, Cost]
Chain = tuple[int, ...]


# Sets of byte strings. A set without any string is always NOTHING, so that it is known by comparison.


class Strings:
    """A set of byte strings."""


@dataclass(frozen=True)
class OneOf(Strings):
    """The strings of one byte out of some."""

    choices: frozenset[int]


@dataclass(frozen=True)
class Then(Strings):
    """A string of the first set, followed by one of the second."""

    first: Strings
    second: Strings


@dataclass(frozen=True)
class Either(Strings):
    """The strings of all the options together."""

    options: frozenset[Strings]


@dataclass(frozen=True)
class Blank(Strings):
    """The string without bytes, alone."""


NOTHING = Either(frozenset())
BLANK = Blank()


def then(*parts: Strings) -> Strings:
    def two(second: Strings, first: Strings) -> Strings:
        if first == NOTHING or second == NOTHING:
            return NOTHING
        if first == BLANK:
            return second
        return first if second == BLANK else Then(first, second)

    return reduce(two, reversed(parts), BLANK)


def either(*options: Strings) -> Strings:
    flat: set[Strings] = set()
    for option in options:
        flat |= option.options if isinstance(option, Either) else {option}
    return flat.pop() if len(flat) == 1 else Either(frozenset(flat))


def text(letters: str) -> Strings:
    return then(*(OneOf(frozenset([byte])) for byte in letters.encode()))


def one_of(letters: str) -> Strings:
    return OneOf(frozenset(letters.encode()))


def at_most(count: int, part: Strings) -> Strings:
    return either(BLANK, then(part, at_most(count - 1, part))) if count else BLANK


def has_blank(strings: Strings) -> bool:
    match strings:
        case Blank():
            return True
        case Then(first, second):
            return has_blank(first) and has_blank(second)
        case Either(options):
            return any(map(has_blank, options))
        case _:
            return False


def after(byte: int, strings: Strings) -> Strings:
    """What is left of those strings that begin with the byte."""
    match strings:
        case OneOf(choices):
            return BLANK if byte in choices else NOTHING
        case Then(first, second):
            inside = then(after(byte, first), second)
            return either(inside, after(byte, second)) if has_blank(first) else inside
        case Either(options):
            return either(*(after(byte, option) for option in options))
        case _:
            return NOTHING


# The lines of a ticket.

LETTERS = "abcdefghijklmnopqrstuvwxyz"
DIGITS = "0123456789"
POSITIVE = then(one_of(DIGITS[1:]), at_most(6, one_of(DIGITS)))
NUMBER = either(text("0"), POSITIVE)
BITS = either(NUMBER, then(text("-"), POSITIVE))
LINES = either(NUMBER, then(text("-"), POSITIVE), then(either(BLANK, text("-")), NUMBER, text(".5")))
BOTH = then(text("("), LINES, text(" "), BITS, text(")"))
COSTS = {"delay": LINES, "depth": BITS, "both": BOTH}
SIGN = one_of(LETTERS + LETTERS.upper() + DIGITS)
CODE = then(SIGN, SIGN, SIGN, SIGN)
ENDS = then(text("("), NUMBER, text(" "), NUMBER, text(")"))

BAY = then(text("(bay "), either(*map(text, COSTS)), text(" "), NUMBER, text(")\n"))
FORMAT = then(text("(format "), NUMBER, text(" "), CODE, text(")\n"))
CARDS = {kind: then(text("(card "), ENDS, text(" "), cost, text(")\n")) for kind, cost in COSTS.items()}
LEG = then(text("(leg "), ENDS, text(")\n"))
END = text("(end)\n")

FIRST_LINE = BAY
FORMAT_DUE = FORMAT
CARDS_OR_LEGS = {kind: either(card, LEG, END) for kind, card in CARDS.items()}
ONLY_LEGS = either(LEG, END)


class Front:
    """Bytes that some allowed line begins with, known by what may follow them."""

    known: dict[Strings, Front] = {}

    def __init__(self, rest: Strings) -> None:
        self.rest = rest
        self.whole = has_blank(rest)
        self.steps: dict[int, Front | None] = {}

    @classmethod
    def of(cls, rest: Strings) -> Front:
        if rest not in cls.known:
            cls.known[rest] = Front(rest)
        return cls.known[rest]

    def with_byte(self, byte: int) -> Front | None:
        """The front that is longer by the byte, if it fits."""
        if byte not in self.steps:
            rest = after(byte, self.rest)
            self.steps[byte] = None if rest == NOTHING else Front.of(rest)
        return self.steps[byte]


def fits(lines: Strings, front: bytes) -> bool:
    """Whether one of the lines begins so."""
    at = Front.of(lines)
    for byte in front:
        longer = at.with_byte(byte)
        if longer is None:
            return False
        at = longer
    return True


# Judging a ticket.


@dataclass(frozen=True)
class Refused:
    layer: str
    number: int
    part: int
    byte: int


@dataclass(frozen=True)
class Granted:
    kind: str
    n: int
    codes: list[bytes]
    cards: Cards
    legs: list[Pair]
    costs: list[Cost | None]


class Refusal(Exception):
    """Ends the judgement."""

    def __init__(self, layer: str, number: int, part: int, byte: int) -> None:
        super().__init__(layer, number, part, byte)
        self.refused = Refused(layer, number, part, byte)


@dataclass
class Plan:
    """What the lines so far have said."""

    kind: str = ""
    n: int = 0
    codes: list[bytes] = field(default_factory=list)
    cards: Cards = field(default_factory=dict)
    legs: list[Pair] = field(default_factory=list)
    ended: bool = False
    end_line: int = 0

    def lines(self) -> Strings:
        """The lines that are allowed next."""
        if not self.kind:
            return FIRST_LINE
        if len(self.codes) < self.n:
            return FORMAT_DUE
        return ONLY_LEGS if self.legs else CARDS_OR_LEGS[self.kind]

    def take(self, line: bytes, place: int) -> None:
        """Takes a whole allowed line that begins at the place."""
        word, *rest = line.translate(None, b"()\n").split(b" ")
        match word, rest:
            case b"bay", [kind, n]:
                self.take_bay(kind.decode(), int(n), place + line.rindex(b" ") + 1)
            case b"format", [number, code]:
                if int(number) != len(self.codes):
                    raise Refusal("ticket", 3, 0, place + line.index(b" ") + 1)
                if code in self.codes:
                    raise Refusal("ticket", 4, 0, place + line.rindex(b" ") + 1)
                self.codes.append(code)
            case b"card", [start, end, *cost]:
                self.enter((int(start), int(end)), cost_of(cost), place)
            case b"leg", [start, end]:
                self.book((int(start), int(end)), place)
            case _:
                self.ended, self.end_line = True, place

    def take_bay(self, kind: str, n: int, place: int) -> None:
        if not FEWEST_FORMATS <= n <= MOST_FORMATS:
            raise Refusal("ticket", 3, 0, place)
        self.kind, self.n = kind, n

    def judge_ends(self, ends: Pair, layer: str, place: int) -> None:
        for part in 0, 1:
            if ends[part] >= self.n:
                raise Refusal(layer, 11, part, place)

    def enter(self, ends: Pair, cost: Cost, place: int) -> None:
        self.judge_ends(ends, "register", place)
        if ends[0] == ends[1]:
            raise Refusal("register", 12, 1, place)
        if not admitted(self.kind, cost):
            raise Refusal("register", 13, 2, place)
        if ends not in self.cards and len(self.cards) == MOST_CARDS:
            raise Refusal("register", 23, 0, place)
        self.cards[ends] = cost

    def book(self, ends: Pair, place: int) -> None:
        self.judge_ends(ends, "bay", place)
        if len(self.legs) == MOST_LEGS:
            raise Refusal("bay", 24, 0, place)
        self.legs.append(ends)


def cost_of(words: list[bytes]) -> Cost:
    """The cost that is written in one word, or in two."""
    parts = tuple(Fraction(word.decode()) for word in words)
    return parts if len(parts) == 2 else parts[0]


def cost_text(cost: Cost) -> str:
    """How a cost is written: as a whole number, as one and a half, or both parts in brackets."""
    if isinstance(cost, tuple):
        return "(" + " ".join(map(cost_text, cost)) + ")"
    return str(int(cost)) if cost == int(cost) else str(float(cost))


def admitted(kind: str, cost: Cost) -> bool:
    if kind == "both":
        return admitted("delay", cost[0]) and admitted("depth", cost[1])
    return abs(cost) <= LARGEST_DELAY if kind == "delay" else 1 <= cost <= LARGEST_DEPTH


def line_end(lines: Strings, ticket: bytes, start: int) -> int:
    """The place after the line that begins at the start."""
    front = Front.of(lines)
    for place in range(start, len(ticket)):
        longer = front.with_byte(ticket[place])
        if longer is None:
            raise Refusal("ticket", 2, 0, place)
        if longer.whole:
            return place + 1
        front = longer
    raise Refusal("ticket", 2, 0, len(ticket))


def read(ticket: bytes) -> Plan:
    """All lines, without the route at the end."""
    if len(ticket) > LONGEST:
        raise Refusal("ticket", 1, 0, LONGEST)
    plan = Plan()
    place = 0
    while not plan.ended:
        end = line_end(plan.lines(), ticket, place)
        plan.take(ticket[place:end], place)
        place = end
    if place < len(ticket):
        raise Refusal("ticket", 2, 0, place)
    return plan


def route(plan: Plan) -> list[Cost | None]:
    """The least cost of each leg."""
    if not plan.legs:
        raise Refusal("bay", 25, 0, plan.end_line)
    if plan.kind != "depth" and gains(plan.n, delays(plan.kind, plan.cards)):
        raise Refusal("bay", 26, 0, plan.end_line)
    least = {start: least_costs(plan.kind, plan.n, plan.cards, start) for start, _ in plan.legs}
    return [least[start][end] for start, end in plan.legs]


def judge(ticket: bytes) -> Granted | Refused:
    try:
        plan = read(ticket)
        costs = route(plan)
    except Refusal as refusal:
        return refusal.refused
    return Granted(plan.kind, plan.n, plan.codes, plan.cards, plan.legs, costs)


# Least costs by rounds of relaxation.


def delays(kind: str, cards: Cards) -> Cards:
    """The cards with their delays alone."""
    return {pair: cost[0] for pair, cost in cards.items()} if kind == "both" else cards


def gains(n: int, cards: Cards) -> bool:
    """Whether the delays of some loop sum below 0: relaxing from every format at once does not come to rest."""
    best = [0] * n
    for _ in range(n):
        calm = True
        for (start, end), delay in cards.items():
            if best[start] + delay < best[end]:
                best[end] = best[start] + delay
                calm = False
        if calm:
            return False
    return True


def combined(kind: str, first: Cost, second: Cost) -> Cost:
    if kind == "both":
        return first[0] + second[0], min(first[1], second[1])
    return first + second if kind == "delay" else min(first, second)


def undercuts(kind: str, first: Cost, second: Cost) -> bool:
    if kind == "both":
        return first[0] < second[0] or first[0] == second[0] and first[1] > second[1]
    return first < second if kind == "delay" else first > second


def least_costs(kind: str, n: int, cards: Cards, start: int) -> list[Cost | None]:
    """The least cost of a walk from the start to each format, the unit for the start itself; no loop gains."""
    best: list[Cost | None] = [None] * n
    best[start] = UNIT[kind]
    for _ in range(n):
        calm = True
        for (here, there), cost in cards.items():
            if best[here] is None:
                continue
            reached = combined(kind, best[here], cost)
            if best[there] is None or undercuts(kind, reached, best[there]):
                best[there] = reached
                calm = False
        if calm:
            break
    return best


def walk_cost(kind: str, cards: Cards, walk: Chain) -> Cost | None:
    """The cost of a list of formats, None where it is no walk."""
    pairs = list(zip(walk, walk[1:]))
    if not walk or any(pair not in cards for pair in pairs):
        return None
    return reduce(lambda cost, pair: combined(kind, cost, cards[pair]), pairs, UNIT[kind])


# Writing.


def refusal_text(refused: Refused) -> bytes:
    return f"(refused {refused.layer} {refused.number} {refused.part} {refused.byte})\n".encode()


def codes_text(codes: list[bytes], formats: Chain) -> bytes:
    return b"(" + b" ".join(codes[f] for f in formats) + b")"


def loop_text(codes: list[bytes], loop: Chain) -> bytes:
    return b"(loop " + codes_text(codes, loop) + b")\n"


def leg_front(number: int, ends: Pair) -> bytes:
    return f"(leg {number} ({ends[0]} {ends[1]}) ".encode()


def leg_text(granted: Granted, number: int, chain: Chain | None) -> bytes:
    front = leg_front(number, granted.legs[number])
    if chain is None:
        return front + b"none)\n"
    return front + cost_text(granted.costs[number]).encode() + b" " + codes_text(granted.codes, chain) + b")\n"


def granted_text(granted: Granted, chains: Iterable[Chain | None]) -> bytes:
    return b"".join(leg_text(granted, k, chain) for k, chain in enumerate(chains)) + b"(end)\n"


def ticket_text(kind: str, codes: list[str], cards: Iterable[tuple[int, int, Cost]], legs: Iterable[Pair]) -> bytes:
    lines = [f"(bay {kind} {len(codes)})"]
    lines += [f"(format {k} {code})" for k, code in enumerate(codes)]
    lines += [f"(card ({start} {end}) {cost_text(cost)})" for start, end, cost in cards]
    lines += [f"(leg ({start} {end}))" for start, end in legs]
    return "".join(line + "\n" for line in lines + ["(end)"]).encode()


# Checking an output.


def check_answer(ticket: bytes, output: bytes) -> str | None:
    """What is wrong with the output, or None."""
    judged = judge(ticket)
    if isinstance(judged, Granted):
        return check_granted(judged, output)
    expected = refusal_text(judged)
    if judged.number != 26:
        return None if output == expected else f"{output!r} for {expected!r}"
    if not output.startswith(expected):
        return f"{output!r} does not begin with {expected!r}"
    return check_loop(read(ticket), output.removeprefix(expected))


def formats_of(codes: list[bytes], words: bytes) -> Chain | None:
    """The formats of codes with a space between any two."""
    numbers = {code: number for number, code in enumerate(codes)}
    formats = [numbers.get(word) for word in words.split(b" ")]
    return None if None in formats else tuple(formats)


def between(line: bytes, front: bytes, back: bytes) -> bytes | None:
    """What the line has between the two."""
    if len(line) < len(front) + len(back) or not (line.startswith(front) and line.endswith(back)):
        return None
    return line[len(front) : len(line) - len(back)]


def check_loop(plan: Plan, line: bytes) -> str | None:
    words = between(line, b"(loop (", b"))\n")
    if words is None:
        return f"{line!r} is no loop line"
    loop = formats_of(plan.codes, words)
    if loop is None:
        return f"{line!r} has a word that is no code of the ticket"
    if len(loop) < 3 or loop[0] != loop[-1] or len(set(loop)) != len(loop) - 1:
        return f"{line!r} is no loop"
    cost = walk_cost(plan.kind, plan.cards, loop)
    if cost is None:
        return f"{line!r} uses a card that does not stand"
    return None if undercuts(plan.kind, cost, UNIT[plan.kind]) else f"{line!r} costs {cost_text(cost)}"


def check_granted(granted: Granted, output: bytes) -> str | None:
    lines = BytesIO(output).readlines()
    if len(lines) != len(granted.legs) + 1:
        return f"{len(lines)} lines for {len(granted.legs)} legs"
    if lines[-1] != b"(end)\n":
        return f"{lines[-1]!r} at the end"
    onward: dict[int, dict[int, int]] = {}
    for number, line in enumerate(lines[:-1]):
        wrong = check_leg(granted, number, line, onward.setdefault(granted.legs[number][1], {}))
        if wrong is not None:
            return wrong
    return None


def check_leg(granted: Granted, number: int, line: bytes, onward: dict[int, int]) -> str | None:
    """Checks one line; onward has the next format of each that chains to the same end have passed."""
    ends, cost = granted.legs[number], granted.costs[number]
    if cost is None:
        return None if line == leg_text(granted, number, None) else f"{line!r} where no walk leads from end to end"
    words = between(line, leg_front(number, ends) + cost_text(cost).encode() + b" (", b"))\n")
    if words is None:
        return f"{line!r} is no line of leg {number} with ends {ends} and least cost {cost}"
    chain = formats_of(granted.codes, words)
    if chain is None:
        return f"{line!r} has a word that is no code of the ticket"
    if (chain[0], chain[-1]) != ends:
        return f"{line!r} has other ends than the leg"
    if len(set(chain)) != len(chain):
        return f"{line!r} passes a format twice"
    if walk_cost(granted.kind, granted.cards, chain) != cost:
        return f"{line!r} is no walk of that cost"
    for here, there in zip(chain, chain[1:]):
        if onward.setdefault(here, there) != there:
            return f"{line!r} goes another way on from format {here} than an earlier chain with the same end"
    return None


# Every right output.


class TooMany(Exception):
    """There are more right outputs than are listed, or the search for them takes too long."""


class Budget:
    def __init__(self, steps: int) -> None:
        self.steps = steps

    def spend(self) -> None:
        self.steps -= 1
        if self.steps < 0:
            raise TooMany


def paths(follow: dict[int, list[int]], front: Chain, end: int, budget: Budget) -> Iterator[Chain]:
    """The ways on from the front to the end that pass no format twice; the end may be the first format."""
    budget.spend()
    for there in follow.get(front[-1], []):
        if there == end:
            yield (*front, there)
        elif there not in front:
            yield from paths(follow, (*front, there), end, budget)


def followers(pairs: Iterable[Pair]) -> dict[int, list[int]]:
    follow: dict[int, list[int]] = {}
    for start, end in pairs:
        follow.setdefault(start, []).append(end)
    return follow


def least_chains(granted: Granted, number: int, budget: Budget) -> list[Chain | None]:
    """The chains of least cost of a leg; the None that stands for no chain, where no walk leads there."""
    (start, end), cost = granted.legs[number], granted.costs[number]
    if cost is None:
        return [None]
    if start == end:
        return [(start,)]
    return list(paths(followers(tight(granted, end, cost)), (start,), end, budget))


def tight(granted: Granted, end: int, cost: Cost) -> list[Pair]:
    """The cards that chains of that least cost are made of, when they lead to the end."""
    if granted.kind == "depth":
        return [pair for pair, depth in granted.cards.items() if depth >= cost]
    cards = delays(granted.kind, granted.cards)
    left = least_costs("delay", granted.n, {(there, here): delay for (here, there), delay in cards.items()}, end)
    soon = [(a, b) for (a, b), delay in cards.items() if left[b] is not None and left[a] == delay + left[b]]
    return [pair for pair in soon if granted.kind == "delay" or granted.cards[pair][1] >= cost[1]]


def agree(first: Chain | None, second: Chain | None) -> bool:
    """Whether the two, if they end in the same format, are the same from wherever they meet."""
    if first is None or second is None or first[-1] != second[-1]:
        return True
    return all(first[first.index(f) :] == second[second.index(f) :] for f in first if f in second)


def choices(options: list[list[Chain | None]], chosen: list[Chain | None], budget: Budget) -> Iterator[list[Chain | None]]:
    """One option for each leg, so that all agree."""
    budget.spend()
    if len(chosen) == len(options):
        yield chosen
        return
    for chain in options[len(chosen)]:
        if all(agree(chain, other) for other in chosen):
            yield from choices(options, [*chosen, chain], budget)


def gaining_loops(plan: Plan, budget: Budget) -> Iterator[Chain]:
    """Every loop that undercuts the unit, from each of its formats."""
    follow = followers(plan.cards)
    for start in range(plan.n):
        for loop in paths(follow, (start,), start, budget):
            if undercuts(plan.kind, walk_cost(plan.kind, plan.cards, loop), UNIT[plan.kind]):
                yield loop


def right_outputs(ticket: bytes, budget: Budget) -> Iterator[bytes]:
    judged = judge(ticket)
    if isinstance(judged, Granted):
        options = [least_chains(judged, number, budget) for number in range(len(judged.legs))]
        for chains in choices(options, [], budget):
            yield granted_text(judged, chains)
    elif judged.number == 26:
        plan = read(ticket)
        for loop in gaining_loops(plan, budget):
            yield refusal_text(judged) + loop_text(plan.codes, loop)
    else:
        yield refusal_text(judged)


def answers(ticket: bytes, most: int = 64, steps: int = 100_000) -> list[bytes]:
    """Every right output, each once; TooMany where there are more than `most`."""
    found: list[bytes] = []
    for output in right_outputs(ticket, Budget(steps)):
        found.append(output)
        if len(found) > most:
            raise TooMany
    return found


def main() -> None:
    try:
        output = next(right_outputs(sys.stdin.buffer.read(LONGEST + 1), Budget(1_000_000)))
    except TooMany:
        sys.exit("too many chains cost the same")
    sys.stdout.buffer.write(output)


if __name__ == "__main__":
    main()
