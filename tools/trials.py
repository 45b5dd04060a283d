#!/usr/bin/env python3
"""Prints what the program trials must print, from a model of its own: a dict of cards, and routes and forks by brute force. Delays are
in half lines."""

import itertools

MASK = 0xFFFFFFFF


class Dice:
    def __init__(self, seed):
        self.state = seed

    def below(self, n):
        self.state = (self.state * 1664525 + 1013904223) & MASK
        return (self.state >> 16) % n if n else 0

    def number(self, low, count):
        return low + self.below(count)


# Registers.


class Model:
    """A dict of cards, a number of places, formats that are barred, whether all is sealed, and whether cards are turned round."""

    def __init__(self, n, places, sealed=False):
        self.n = min(max(n, 2), 64)
        self.places = places
        self.sealed = sealed
        self.cards = {}
        self.barred = set()
        self.turned = False

    def pair(self, a, b):
        return (b, a) if self.turned else (a, b)

    def ends(self, a, b):
        if a >= self.n:
            return "11.0"
        if b >= self.n:
            return "11.1"
        return "12.1" if a == b else None

    def is_sealed(self, a, b):
        return self.sealed or a in self.barred or b in self.barred

    def enter(self, a, b, cost):
        if refused := self.ends(a, b):
            return refused
        if abs(cost) > 2000000:
            return "13.2"
        if self.is_sealed(a, b):
            return "21.0"
        pair = self.pair(a, b)
        if pair not in self.cards and len(self.cards) == self.places:
            return "23.0"
        self.cards[pair] = cost
        return "ok"

    def withdraw(self, a, b):
        if refused := self.ends(a, b):
            return refused
        if self.is_sealed(a, b):
            return "21.0"
        if self.cards.pop(self.pair(a, b), None) is None:
            return "22.0"
        return "ok"

    def card(self, a, b):
        if self.ends(a, b) or self.is_sealed(a, b):
            return "-"
        return self.cards.get(self.pair(a, b), "-")


BOUNDS = [2000000, 2000001, -2000000, -2000001, 2**31 - 1, -(2**31)]


def half_lines(dice):
    choice = dice.below(12)
    return BOUNDS[choice] if choice < 6 else dice.number(-9, 19)


def end(dice, n):
    return dice.below(n + 2) if dice.below(8) == 0 else dice.below(n)


def call(model, dice):
    sort = dice.below(4)
    a = end(dice, model.n)
    b = end(dice, model.n)
    cost = half_lines(dice)
    if sort < 2:
        return f"enter {a} {b} {cost} {model.enter(a, b, cost)}"
    if sort == 2:
        return f"withdraw {a} {b} {model.withdraw(a, b)}"
    return f"card {a} {b} {model.card(a, b)}"


def play(name, model, dice, calls):
    print(f"{name}:")
    checksum = 2166136261
    for i in range(calls):
        line = call(model, dice)
        for byte in line.encode():
            checksum = ((checksum ^ byte) * 16777619) & MASK
        if i % 10 == 9:
            print(f"{line} #{checksum}")


def play_all(name, model, dice):
    play(name, model, dice, 400)
    model.barred = {2}
    play("under a bar", model, dice, 150)
    model.barred = {2, 0, 4, 63}
    play("under two bars", model, dice, 100)
    model.turned = True
    play("turned round", model, dice, 100)
    model.barred = {2, 0, 4, 63, 3}
    play("turned round under a bar", model, dice, 50)
    model.barred = set()
    model.turned = False
    play("bare again", model, dice, 50)


def play_registers():
    dice = Dice(1)
    play_all("matrix", Model(5, 20), dice)
    play_all("list", Model(5, 6), dice)
    for n, code in (5, "16.1"), (1, "16.0"), (65, "16.0"):
        print(f"matrix of {n} in 24 places: {code}")
        play("calls on it", Model(n, 0, sealed=True), dice, 50)
    for n, code in (5, "16.1"), (1, "16.0"):
        print(f"list of {n} without entries: {code}")
        play("calls on it", Model(n, 0, sealed=True), dice, 50)


# Routes.


def has_gaining_loop(n, cards):
    """Rounds of relaxation from every format at once still improve after n rounds."""
    dist = [0] * n
    for _ in range(n):
        changed = False
        for (a, b), cost in cards.items():
            if dist[a] + cost < dist[b]:
                dist[b] = dist[a] + cost
                changed = True
        if not changed:
            return False
    return True


def gaining_loop_by_force(n, cards):
    """The same from every order of every choice of formats."""
    for count in range(2, n + 1):
        for order in itertools.permutations(range(n), count):
            pairs = list(zip(order, order[1:] + order[:1]))
            if all(pair in cards for pair in pairs) and sum(cards[pair] for pair in pairs) < 0:
                return True
    return False


def chains_by_force(n, cards, start, end):
    """Every chain from start to end, as (cards' costs, formats)."""
    if start == end:
        yield [], (start,)
        return
    others = [f for f in range(n) if f not in (start, end)]
    for count in range(n - 1):
        for inner in itertools.permutations(others, count):
            chain = (start,) + inner + (end,)
            pairs = list(zip(chain, chain[1:]))
            if all(pair in cards for pair in pairs):
                yield [cards[pair] for pair in pairs], chain


def least_delays(n, cards, start):
    """Rounds of relaxation from one format."""
    dist = {start: 0}
    for _ in range(n):
        for (a, b), cost in cards.items():
            if a in dist and dist[a] + cost < dist.get(b, 10**12):
                dist[b] = dist[a] + cost
    return dist


def reached(cards, start, bits):
    """The formats that cards of so many bits lead to."""
    seen, todo = {start}, [start]
    while todo:
        here = todo.pop()
        for (a, b), depth in cards.items():
            if a == here and depth >= bits and b not in seen:
                seen.add(b)
                todo.append(b)
    return seen


def least(kind, n, cards, start, end):
    if kind == "delay":
        return least_delays(n, cards, start).get(end)
    if start == end:
        return 255
    for bits in range(16, 0, -1):
        if end in reached(cards, start, bits):
            return bits
    return None


def best_by_force(kind, n, cards, start, end):
    """The best cost, and the chains that have it."""
    combined, better = (sum, min) if kind == "delay" else (lambda costs: min(costs, default=255), max)
    found = [(combined(costs), chain) for costs, chain in chains_by_force(n, cards, start, end)]
    if not found:
        return None, []
    best = better(cost for cost, _ in found)
    return best, [chain for cost, chain in found if cost == best]


def is_loop(kind, n, cards):
    if kind == "depth":
        return False
    answer = has_gaining_loop(n, cards)
    if n <= 7:
        assert answer == gaining_loop_by_force(n, cards)
    return answer


def route(kind, n, cards, legs, known=None):
    """The line after the name. `known` are the only chains there are at the least cost, where n is too large for force."""
    if is_loop(kind, n, cards):
        return " loop"
    text = ""
    for k, (start, end) in enumerate(legs):
        cost = least(kind, n, cards, start, end)
        if n <= 7:
            best, chains = best_by_force(kind, n, cards, start, end)
            assert best == cost
        text += " none" if cost is None else f" {cost}"
        if known is not None and cost is not None:
            if n <= 7:
                assert len(chains) == 1
                chain = chains[0]
            else:
                chain = known[k]
            text += " by " + " ".join(map(str, chain)) + ";"
    return text


def count_rows(n, cards):
    """The pairs of a format and a higher one from which cards by way of lower formats lead to it, found one by one."""
    into = {f: [a for a, b in cards if b == f] for f in range(n)}
    count = 0
    for h in range(n):
        seen, todo = set(), [h]
        while todo:
            for a in into[todo.pop()]:
                if a not in seen:
                    seen.add(a)
                    if a < h:
                        todo.append(a)
        count += len([s for s in seen if s > h])
    return count


def rows(kind, n, cards):
    return "bay 26.0" if is_loop(kind, n, cards) else str(count_rows(n, cards))


def without(cards, barred):
    return {pair: cost for pair, cost in cards.items() if barred not in pair}


def one(name, text, kind, n, cards):
    print(f"{name}:{text}")
    print(f"  rows: {rows(kind, n, cards)}")
    print(f"  rows under a bar: {rows(kind, n, without(cards, 1))}")


def both(name, text, kind, n, cards):
    one(f"{name}, matrix", text, kind, n, cards)
    one(f"{name}, list", text, kind, n, cards)


def turned(cards):
    return {(b, a): cost for (a, b), cost in cards.items()}


def draw(kind, dice, spread):
    return dice.below(spread + 10) - spread if kind == "delay" else dice.number(1, 4 * spread + 4)


def trial(kind, number, dice):
    n = 2 + dice.below(6)
    density = 1 + dice.below(6)
    spread = dice.below(4)
    cards = {}
    for a in range(n):
        for b in range(n):
            if a != b and dice.below(6) < density:
                cards[a, b] = draw(kind, dice, spread)
    legs = []
    for _ in range(1 + dice.below(5)):
        a = dice.below(n)
        legs.append((a, dice.below(n)))
    text = route(kind, n, cards, legs)
    both(f"{kind} {number}", text, kind, n, cards)
    # The cards were entered turned round into a register that turns them once more: the pairs are as the route sees them.
    one(f"{kind} {number}, from the outputs", text, kind, n, turned(cards))


def trials():
    dice = Dice(7)
    for number in range(30):
        trial("delay", number, dice)
        trial("depth", number, dice)


# Fixed cases.


def show(name, kind, n, cards, legs, known=()):
    both(name, route(kind, n, cards, legs, known), kind, n, cards)


def complete(along, elsewhere):
    return {(a, b): along if b == a + 1 else elsewhere for a in range(64) for b in range(64) if a != b}


def up(start, end):
    return tuple(range(start, end + 1))


def fixed_cases():
    show("a tie with a loop of delays", "delay", 4, {(0, 2): 1, (0, 3): 1, (2, 1): 1, (3, 0): -1}, [(0, 1)])
    show("a tie with a loop of depths", "depth", 4, {(1, 2): 2, (1, 3): 1, (2, 0): 1, (3, 1): 2}, [(1, 0)])
    show("a loop of no delay", "delay", 3, {(0, 1): 0, (1, 0): 0, (0, 2): 5}, [(0, 2), (1, 2)])
    show("legs with equal ends at a loop of no delay", "delay", 3, {(0, 1): 0, (1, 0): 0, (0, 2): 5}, [(0, 0), (1, 0), (2, 2)])
    show("a leg with equal ends beside another", "depth", 3, {(0, 1): 10, (1, 2): 8}, [(2, 2), (0, 2)])
    show("a loop away from a leg with equal ends", "delay", 4, {(2, 3): -1, (3, 2): 0}, [(0, 0)])
    show("a loop away from the leg", "delay", 4, {(0, 1): 1, (2, 3): -1, (3, 2): 0}, [(0, 1)])
    show("a loop of three that gains", "delay", 3, {(0, 1): 2, (1, 2): -4, (2, 0): 1}, [(0, 2)])
    show("a loop of three that does not", "delay", 3, {(0, 1): 2, (1, 2): -4, (2, 0): 2}, [(0, 2), (1, 0), (2, 1)])
    show("a loop beside one of no delay", "delay", 3, {(0, 2): -1, (1, 2): -1, (2, 0): 1, (2, 1): 0}, [(0, 1)])
    show("a deeper detour", "depth", 3, {(0, 1): 10, (1, 2): 8, (0, 2): 6}, [(0, 2)])
    show("two formats", "delay", 2, {(0, 1): 2000000}, [(0, 1), (1, 0)])
    show("two formats in a loop", "delay", 2, {(0, 1): 2000000, (1, 0): -2000000}, [(0, 1), (1, 0)])
    show("no card", "delay", 2, {}, [(1, 0)])
    show("one card", "depth", 2, {(1, 0): 16}, [(1, 0), (0, 1)])
    # Only the way by every next format is without a card of the dearer sort; back to 0 every card is dear.
    show("a long way round", "delay", 64, complete(0, 1), [(0, 63), (63, 0), (60, 63)], [up(0, 63), (63, 0), up(60, 63)])
    show("a loop of most formats", "delay", 64, complete(-2000000, 2000000), [(0, 63)])
    show("a long deep way", "depth", 64, complete(16, 15), [(0, 63), (5, 9)], [up(0, 63), up(5, 9)])
    print("no legs: bay 25.0")
    print("book 3 0: bay 11.0")
    print("book 0 3: bay 11.1")
    print("book 3 3: bay 11.0")
    print("book 1 1: 0")
    print("leg 33: bay 24.0")
    print("short table: bay 15.0")
    print("short costs: bay 15.1")
    print("short chains: bay 15.2")
    print("all legs: 32")
    print("strike 0: bay 14.0")
    print("book 2 1: 0")
    print("show 1: bay 14.0")
    print("withdraw 0 1: register 22.0")
    print("enter 0 1 2000001: register 13.2")
    notes()
    fork_refusals()


def notes():
    # A card of the leg; a refused change; no card; a way of two cards.
    for note in "2 formats", "no chain", "3 formats":
        print("leg 0 2 1: open")
        print("route: 2")
        print(f"leg 0 2 1: {note}")
        if note == "2 formats":
            print("leg 0 2 1: 2 formats")
    print("leg 0 0 1: 2 formats")
    print("show: bay 14.0")


def fork_refusals():
    print("fork 3 3 3: bay 11.0")
    print("fork 0 3 3: bay 11.1")
    print("fork 0 0 3: bay 11.2")
    print("fork in a short table: bay 15.0")
    print("fork with no cost: bay 15.1")
    print("fork with short chains: bay 15.2")
    # A card to one output alone; one to each of them, at a total of 12 half lines; a loop that gains.
    print("fork 0 1 2: bay 27.0")
    print("fork 0 2 1: bay 27.0")
    print("fork 0 1 2: 0 at 12")
    print("fork 2 2 2: 2 at 0")
    print("fork 0 1 2: bay 26.0")


# The delays of the house table, a row for each format as the first of a pair.
HOUSE = """\
- 4 1 5 - - 4 -
-1 - - - - 2 1 -
1 - - - - - - -
-1 - - - 2 2 - -
- - - -1 - - - -
- 0 - 1 - - - -
2 - - - - - - 0
- - - - 7 - 0 -
"""


def house_rows():
    lines = [line.split() for line in HOUSE.splitlines()]
    cards = {(a, b): int(word) for a, line in enumerate(lines) for b, word in enumerate(line) if word != "-"}
    print("the house table:")
    print(f"  rows: {rows('delay', 8, cards)}")
    for barred in range(8):
        print(f"  rows under a bar: {rows('delay', 8, without(cards, barred))}")
    print(f"  rows turned round: {rows('delay', 8, turned(cards))}")
    print("  rows in a short table: bay 15.0")


def short_memory():
    # A ticket's refusals for want of memory: the register's at its first line, the route's at its end line.
    lines = ["(bay delay 2)", "(format 0 UYVY)", "(format 1 v210)", "(card (0 1) 4)", "(leg (0 1))", "(leg (1 0))", "(end)"]
    end = sum(len(line) + 1 for line in lines[:-1])
    print("ticket with room: 2 legs\nsheets written")
    print("an entry less: register 16.1 at 0\nsheets as found")
    for part, what in enumerate(("cell", "cost", "byte")):
        print(f"a {what} less: bay 15.{part} at {end}\nsheets as found")


# House tables of a customer's: 64 numbers in half lines, row by row, with NO for no card.

NO = -(2**31)
OWN = [NO if word == "-" else 2 * int(word) for line in HOUSE.splitlines() for word in line.split()]
BOUNDS_AND_MORE = [1, NO, 2000000, 2000001, -2000000, -2000001, 2**31 - 1, NO + 1]


def cards_of(numbers):
    return {divmod(index, 8): number for index, number in enumerate(numbers) if number != NO}


def check(numbers, room):
    if len(numbers) != 64 or room != 64:
        return "register 28.64"
    for index, number in enumerate(numbers):
        if number != NO and (index % 9 == 0 or abs(number) > 2000000):
            return f"register 28.{index}"
    return "register 29.0" if has_gaining_loop(8, cards_of(numbers)) else "passes"


def but(numbers, index, number):
    return numbers[:index] + [number] + numbers[index + 1 :]


def leg_cost(cards, start, end):
    cost = least_delays(8, cards, start).get(end)
    return "none" if cost is None else str(cost)


def drawn(dice):
    density = dice.below(5) + 1
    low = dice.number(-2, 3)
    numbers = [NO] * 64
    for index in range(64):
        if index % 9 != 0 and dice.below(8) < density:
            numbers[index] = dice.number(low, 12)
    if dice.below(10) == 0:
        numbers[17] = 2000001
    return numbers


def drawn_tables():
    dice = Dice(11)
    for k in range(60):
        numbers = drawn(dice)
        told = check(numbers, 64)
        cards = cards_of(numbers) if told == "passes" else {}
        line = f"table {k}: {told}"
        for _ in range(2):
            start, end, barred = dice.below(8), dice.below(8), dice.below(8)
            few = without(cards, barred)
            for some in cards, few, without(turned(few), 1):
                line += " " + leg_cost(some, start, end)
        print(line)


def customer_tables():
    for index in range(64):
        print(f"index {index}: " + " ".join(check(but(OWN, index, number), 64) for number in BOUNDS_AND_MORE))
    tables = [], OWN[:63], OWN, OWN + [NO], but(OWN, 0, 0), but(OWN, 62, -1)
    for room in 0, 63, 64, 65:
        print(f"room {room}: " + " ".join(check(numbers, room) for numbers in tables))
    for room in 0, 63, 64, 65:
        print(f"our own in {room}: {check(OWN, room)}")
    two = but(but(OWN, 63, 0), 17, 2000001)
    print(f"two at fault: {check(two, 64)} {check(but(two, 62, -1), 64)}")
    drawn_tables()
    print(f"legs over a place of 64 and of 63: {leg_cost(cards_of(OWN), 0, 1)} none")


# Forks among other calls. A bay is a model of a register and a list of legs.


def seen(model):
    """The cards as they look from above."""
    pairs = itertools.product(range(model.n), repeat=2)
    return {(a, b): card for a, b in pairs if a != b and (card := model.card(a, b)) != "-"}


def fork(kind, n, cards, start, first, second):
    """The least total that three least costs come to, and the lowest format by way of which they do; or none."""
    sign, combined = (1, sum) if kind == "delay" else (-1, min)
    found = []
    for split in range(n):
        parts = [least(kind, n, cards, *ends) for ends in ((start, split), (split, first), (split, second))]
        if None not in parts:
            found.append((sign * combined(parts), split))
    best = min(found, default=None)
    if n <= 4:
        assert best == fork_by_force(kind, n, cards, start, first, second)
    return best and (sign * best[0], best[1])


def fork_by_force(kind, n, cards, start, first, second):
    """The same of any three chains that meet in a format, with the sign turned for depths."""
    sign, combined = (1, sum) if kind == "delay" else (-1, lambda costs: min(costs, default=255))
    found = []
    for split in range(n):
        chains = [chains_by_force(n, cards, *ends) for ends in ((start, split), (split, first), (split, second))]
        for ways in itertools.product(*chains):
            found.append((sign * combined([cost for costs, _ in ways for cost in costs]), split))
    return min(found, default=None)


def fork_text(kind, model, start, first, second):
    for part, format in enumerate((start, first, second)):
        if format >= model.n:
            return f"bay 11.{part}"
    cards = seen(model)
    if is_loop(kind, model.n, cards):
        return "loop"
    found = fork(kind, model.n, cards, start, first, second)
    return "{} by {}".format(*found) if found else "bay 27.0"


def change_text(answer):
    return "done" if answer == "ok" else f"register {answer}"


def call_text(kind, model, legs, call):
    """What a call is answered; the model and the legs are then as it leaves them."""
    sort, *args = call
    if sort == "enter":
        return change_text(model.enter(*args))
    if sort == "withdraw":
        return change_text(model.withdraw(*args))
    if sort == "book":
        outside = [part for part, format in enumerate(args) if format >= model.n]
        if outside:
            return f"bay 11.{outside[0]}"
        legs.append(tuple(args))
        return str(len(legs) - 1)
    if sort in ("strike", "show"):
        if args[0] >= len(legs):
            return "bay 14.0"
        if sort == "show":
            return "{} {}".format(*legs[args[0]])
        del legs[args[0]]
        return "done"
    if sort == "route":
        return route(kind, model.n, seen(model), legs).strip() if legs else "bay 25.0"
    return fork_text(kind, model, *args)


def draw_call(kind, dice, n, spread):
    sort = dice.below(12)
    a, b, c = end(dice, n), end(dice, n), end(dice, n)
    cost = draw(kind, dice, spread)
    if sort < 2:
        return "enter", a, b, cost
    if sort == 2:
        return "withdraw", a, b
    if sort < 5:
        return "book", a, b
    if sort < 7:
        return ("strike", "show")[sort - 5], a
    return ("route",) if sort < 9 else ("fork", a, b, c)


def drawn_cards(kind, dice, n):
    density = 1 + dice.below(6)
    spread = dice.below(4)
    for a in range(n):
        for b in range(n):
            if a != b and dice.below(6) < density:
                yield a, b, draw(kind, dice, spread)


def play_calls(name, kind, model, calls):
    print(f"{name}:")
    legs = []
    for call in calls:
        print("  " + " ".join(map(str, call)) + ": " + call_text(kind, model, legs, call))
    print("  in a list: alike")


def fork_trial(kind, number, dice):
    n = 3 + dice.below(4)
    calls = [("enter", *card) for card in drawn_cards(kind, dice, n)]
    spread = dice.below(4)
    calls += [draw_call(kind, dice, n, spread) for _ in range(14)]
    name = f"forks of {kind}s {number}"
    play_calls(f"{name}, matrix", kind, Model(n, n * (n - 1)), calls)
    play_calls(f"{name}, list", kind, Model(n, 9), calls)
    barred = Model(n, n * (n - 1))
    barred.barred = {1}
    play_calls(f"{name}, under a bar", kind, barred, calls)
    turned_round = Model(n, 9)
    turned_round.turned = True
    play_calls(f"{name}, from the outputs", kind, turned_round, calls)


def fork_trials():
    dice = Dice(35)
    for number in range(4):
        fork_trial("delay", number, dice)
        fork_trial("depth", number, dice)


play_registers()
trials()
fixed_cases()
house_rows()
short_memory()
customer_tables()
fork_trials()
