#!/usr/bin/env python3
"""Runs the built `grouter climb` on drawn designs with drawn certificates, and looks at all that it writes with plain counting.

    tests/program/drawn_climbs.py [COUNT [SEED [GROUTER]]]

By hand, outside the gate: 200 designs take some minutes. Without words it draws 200 designs from seed 1, and takes the program that
`rt run` left in crates/grouter/out. A certificate is that of `route`, with a budget or without, or one with drawn prices, with
prices of 0, or with a bound that is too low. Of each it asks, for 1, 2, .. turns, that

- the report is two lines, and NEW is CERT but for the bound, the prices of the edges and that of the wirelength;
- the bound is that of the design at the prices of NEW, by a plain Dreyfus and Wagner, and not below that of CERT;
- `judge` says yes to ROUTES and NEW;
- turn 0 has the prices of CERT, and turn 1 those of the loads of ROUTES; neither shows more than what is answered, nor as much
  where it comes before;
- a further turn changes nothing, or is answered itself, with a greater bound;
- four turns are the default, and climbing on from NEW changes nothing.

Half of the designs have no edges along y and one layer. There each net has one set, so all turns are worked out, and the answer is
the first of greatest bound among all of them. It prints a line for each design that fails, then how often each turn was answered,
and fails where one design failed."""

import heapq
import os
import random
import sys
import tempfile
from fractions import Fraction

from drawn_edits import FEW, PRICES, Design, blocks_of, done, least_weight, rows_text, run, set_of, write
from drawn_reroutes import TOP, read, same

KINDS = ["routed", "routed", "budget", "budget", "drawn", "drawn budget", "zero", "low"]
MOST_TURNS = 6
LINES = ["nets", "forced", "overflow", "wirelength", "peak", "bound"]


class Certificate:
    """What a text states, line by line, in the form that is written."""

    def __init__(self, text):
        lines = text.split("\n")
        self.version = lines[0]
        self.stated = dict(line.split(" ") for line in lines[1:7])
        same("the names of the lines", list(self.stated), LINES)
        self.most, self.piece = None, None
        if lines[7].startswith("budget "):
            self.most, self.piece = map(int, lines.pop(7).split(" ")[1:])
        same("the version", self.version, f"grouter certificate {1 if self.most is None else 2}")
        self.prices = [int(line) for line in lines[8:-1]]
        same("how many prices there are", lines[7], f"prices {len(self.prices)}")
        same("the text", self.text(), text)

    def text(self):
        budget = [] if self.most is None else [f"budget {self.most} {self.piece}"]
        lines = [self.version] + [f"{name} {self.stated[name]}" for name in LINES] + budget
        return "\n".join(lines + [f"prices {len(self.prices)}"] + list(map(str, self.prices))) + "\n"

    def bound(self):
        return None if self.stated["bound"] == "none" else Fraction(self.stated["bound"])

    def with_prices(self, prices, piece, bound):
        """The text of this certificate with other prices and another bound."""
        other = Certificate(self.text())
        other.prices, other.piece = prices, piece
        other.stated["bound"] = fraction_text(bound)
        return other.text()


def fraction_text(fraction):
    return "none" if fraction is None else f"{fraction.numerator}/{fraction.denominator}"


def is_greater(bound, other):
    """Whether a bound is greater; none is below every bound."""
    return bound is not None and (other is None or bound > other)


class Bounds:
    """The open edges of a design, the prices of loads, and the bounds at prices, each by plain counting."""

    def __init__(self, design):
        self.design = design
        self.opened = [piece for piece in design.pieces if piece[3] != "via" and design.capacity(piece) > 0]
        self.known = {}

    def prices_of(self, loads, wirelength, most):
        """The prices of the open edges and that of the wirelength: P[255 - (top - index)] with the index 8 load / capacity."""
        index = [8 * loads.get(edge, 0) // self.design.capacity(edge) for edge in self.opened]
        of_budget = [] if most is None else [8 * wirelength // most]
        top = max(index + of_budget, default=0)
        price = lambda own: PRICES[max(0, 255 - (top - own))]
        return list(map(price, index)), price(of_budget[0]) if of_budget else None

    def bound(self, prices, piece, most):
        """The bound of the design: the sum of the net bounds by what the capacities cost."""
        asked = tuple(prices), piece, most
        if asked not in self.known:
            self.known[asked] = self.counted_bound(*asked)
        return self.known[asked]

    def counted_bound(self, prices, piece, most):
        own = dict(zip(self.opened, prices))
        of_capacities = sum(price * self.design.capacity(edge) for edge, price in own.items()) + (piece or 0) * (most or 0)
        if of_capacities == 0:
            return None
        return Fraction(sum(self.net_bound(net, own, piece or 0) for net in self.design.nets), of_capacities)

    def net_bound(self, net, prices, piece):
        _, _, width, pins = net
        terminals, (choked, _) = self.design.terminals(pins), self.design.over(pins)
        if len(terminals) < 2:
            return 0
        near, _ = self.design.grounds[choked]
        costs = {p: piece + (prices[p] * self.design.demand(width, p[2]) if p in prices else 0) for p in self.design.pieces}
        if len(terminals) <= FEW:
            return least_weight(near, costs, terminals)
        halves = sum(to_nearest(near, costs, terminals, place) // 2 for place in range(len(terminals)))
        return max(least_weight(near, costs, spread(terminals)), halves)


def spread(terminals):
    """The first terminal, and then each time the one farthest from those before, the earliest of several, five in all."""
    apart = lambda one, other: sum(abs(a - b) for a, b in zip(one, other))
    chosen = terminals[:1]
    while len(chosen) < FEW:
        chosen.append(max(terminals, key=lambda terminal: min(apart(terminal, before) for before in chosen)))
    return chosen


def to_nearest(near, costs, terminals, place):
    """The least cost between the terminal at a place and another one."""
    goals, numbers = set(terminals) - {terminals[place]}, {terminals[place]: 0}
    waiting, settled = [(0, terminals[place])], set()
    while True:
        number, vertex = heapq.heappop(waiting)
        if vertex in goals:
            return number
        if vertex not in settled:
            settled.add(vertex)
            for other, piece in near[vertex]:
                if number + costs[piece] < numbers.get(other, float("inf")):
                    numbers[other] = number + costs[piece]
                    heapq.heappush(waiting, (numbers[other], other))


class Climbing:
    """A drawn design with routes and a certificate, in a folder, and the program."""

    def __init__(self, kind, rows, rng, room, grouter):
        self.rng, self.grouter, self.rows = rng, grouter, rows
        self.design_file, self.routes, self.given, self.new, self.newer = (os.path.join(room, name)
                                                                           for name in ["in.gr", "routes", "cert", "new", "newer"])
        if rows:
            write(self.design_file, rows_text(rng))
        else:
            done(grouter, "make", self.design_file, "--seed", str(rng.randrange(2**64)), "--cols", str(rng.randint(2, 8)), "--rows",
                 str(rng.randint(2, 8)), "--layers", str(rng.randint(2, 4)), "--nets", str(rng.choice([1, 4, 10, 20])))
        self.design = Design(read(self.design_file))
        self.bounds = Bounds(self.design)
        words = ["--phases", str(rng.randint(1, 2)), "--rounds", "0", "--seed", str(rng.randrange(2**64))]
        if "budget" in kind:
            words += ["--budget", str(rng.choice([1, rng.randint(1, 400), rng.randint(1, 400), 2**42]))]
        done(grouter, "route", self.design_file, self.routes, self.given, *words)
        self.cert = Certificate(read(self.given))
        if kind in ("drawn", "drawn budget", "zero", "low"):
            self.change_certificate(kind)
        self.count_routes()

    def change_certificate(self, kind):
        """Other prices, and a bound that they show or that is below it."""
        cert, greatest = self.cert, self.rng.choice([1, 7, 12758, 32768])
        if kind != "low":
            one = lambda: 0 if kind == "zero" else self.rng.choice([0, greatest, self.rng.randint(0, greatest)])
            cert.prices = [one() for _ in cert.prices]
            cert.piece = None if cert.most is None else one()
        shown = self.bounds.bound(cert.prices, cert.piece, cert.most)
        if kind == "low" or shown is None or self.rng.random() < 0.5:
            shown = None if cert.stated["bound"] == "none" else (shown or 0) * Fraction(self.rng.randint(0, 3), 3)
        cert.stated["bound"] = fraction_text(None if shown is None else Fraction(shown))
        write(self.given, cert.text())

    def count_routes(self):
        blocks = blocks_of(read(self.routes))
        sets = list(map(set_of, blocks))
        self.loads, self.wirelength = self.design.loads(self.design.nets, sets), sum(map(len, sets))
        if self.rng.random() < 0.5:
            self.rng.shuffle(blocks)
            write(self.routes, "".join(blocks))

    def candidate(self, number):
        """The prices of a candidate, that of the wirelength, and the bound. From number 2 on, where each net has but one set."""
        cert = self.cert
        if number == 0:
            prices, piece = cert.prices, cert.piece
        else:
            loads = {edge: number * load for edge, load in self.loads.items()}
            prices, piece = self.bounds.prices_of(loads, number * self.wirelength, cert.most)
        return prices, piece, self.bounds.bound(prices, piece, cert.most)

    def climb(self, cert, to, *words):
        """The turn that is answered, and the text of the new certificate."""
        status, said = run(self.grouter, "climb", self.design_file, self.routes, cert, to, *words)
        same(f"the status of climb, which said {said!r}", status, 0)
        text = read(to)
        lines = said.splitlines(True)
        same("the lines of the report", len(lines), 2)
        turn = int(lines[0].split()[1])
        same("the report", said, f"turn {turn}\nbound {Certificate(text).stated['bound']}\n")
        os.remove(to)
        return turn, text

    def look_at(self, turns, turn, text, candidates):
        """Compares an answer with the candidates that are worked out."""
        new = Certificate(text)
        same("whether there is such a turn", 0 <= turn <= turns, True)
        same("what is stated of the routes", text, self.cert.with_prices(new.prices, new.piece, new.bound()))
        same("the bound at the new prices", new.bound(), self.bounds.bound(new.prices, new.piece, new.most))
        same("whether the bound is below that of CERT", is_greater(self.cert.bound(), new.bound()), False)
        for number, (prices, piece, bound) in enumerate(candidates[:turns + 1]):
            if number == turn:
                same(f"the prices of turn {turn}", (new.prices, new.piece), (prices, piece))
            same(f"whether turn {number} has a greater bound than turn {turn}", is_greater(bound, new.bound()), False)
            if number < turn:
                same(f"whether turn {number} has a bound as great as turn {turn}", is_greater(new.bound(), bound), True)
        if turn > 0:
            all_prices = new.prices + ([] if new.piece is None else [new.piece])
            same("whether the prices are those of the table", set(all_prices) <= set(PRICES), True)
            same("the greatest price", max(all_prices, default=PRICES[-1]), PRICES[-1])

    def look_at_verdict(self, text):
        """`judge` says yes, and names the bound."""
        write(self.new, text)
        status, said = run(self.grouter, "judge", self.design_file, self.routes, self.new)
        same("the status of judge", status, 0)
        lines, new = said.splitlines(), Certificate(text)
        same("the verdict", (lines[0], lines[7:]), ("yes", [f"bound {new.stated['bound']}"] + ([] if new.most is None else [f"budget {new.most}"])))

    def try_all(self):
        """Tries all numbers of turns. Answers the last turn that was answered."""
        candidates = [self.candidate(number) for number in range(MOST_TURNS + 1 if self.rows else 2)]
        before = None
        for turns in range(1, self.rng.randint(4, MOST_TURNS) + 1):
            turn, text = self.climb(self.given, self.new, "--turns", str(turns))
            self.look_at(turns, turn, text, candidates)
            if before not in (None, (turn, text)):
                same("the turn that is new", turn, turns)
                same("whether its bound is greater", is_greater(Certificate(text).bound(), Certificate(before[1]).bound()), True)
            before = turn, text
            if turns == 4:
                same("the answer without a number of turns", self.climb(self.given, self.new), before)
        self.look_at_verdict(text)
        same("the answer from NEW", self.climb(self.new, self.newer, "--turns", str(turns)), (0, text))
        os.remove(self.new)
        return turn


def main(count=200, seed=1, grouter=f"{TOP}/crates/grouter/out/grouter"):
    answered, failed = {}, 0
    for number in range(int(count)):
        kind, rows = KINDS[number % len(KINDS)], number // len(KINDS) % 2 == 1
        with tempfile.TemporaryDirectory() as room:
            try:
                turn = Climbing(kind, rows, random.Random(f"{seed} {number}"), room, grouter).try_all()
                answered[turn] = answered.get(turn, 0) + 1
            except AssertionError as fault:
                failed += 1
                print(f"FAILED: design {number}, {kind}{', rows' if rows else ''}: {fault}")
    print("answered: " + ", ".join(f"turn {turn} of {times}" for turn, times in sorted(answered.items())) + f"; {failed} failed")
    return 1 if failed else 0


if __name__ == "__main__":
    sys.exit(main(*sys.argv[1:]))
