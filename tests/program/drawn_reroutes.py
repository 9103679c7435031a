#!/usr/bin/env python3
"""Runs the built `reroute` on drawn designs, and looks at all that it writes with plain counting.

    tests/program/drawn_reroutes.py [--room] [--instructions] [COUNT [SEED [REROUTE [GROUTER]]]]

By hand, outside the gate: 200 designs take some minutes. Without words it draws 200 designs from seed 1, and takes the programs
that `rt run` left in crates/*/out. Of each design it asks that

- `judge` says yes to the new routes, with a certificate that prices no edge;
- `measure` names the overflow and the wirelength of the report;
- a count of the text alone, edge by edge, comes to the same;
- four workers write the same bytes as one;
- rerouted from poor routes, and from its own result with another seed, the routes are not worse, and the report names the given
  overflow and wirelength.

Designs are drawn with widths from 1 to 4, choked edges and nets that are forced over them, one layer, one row, nets of many pins,
and 16 layers. Most have so little room that nets are routed again in many rounds. With --room they are larger, and an edge has room
for eight times what the nets need on average, so that what the kinds alone cost shows. It prints a line for each design that
fails, then how the processor time is spread: for each piece of wirelength, for designs that end without overflow, for the others, and for
all; and for each piece in each turn, since a run goes through the nets once for their first sets, in up to 60 rounds and in up
to ten passes. With --instructions `valgrind` counts those of one more run, which no other work on the machine changes, and they are
told in place of the time, in thousands. Of each it prints the mean and the greatest by kind of design and over all, and whether
none is above twice the mean. It fails where one design failed."""

import math
import os
import random
import re
import resource
import subprocess
import sys
import tempfile
from concurrent.futures import ThreadPoolExecutor

TOP = os.path.dirname(os.path.dirname(os.path.dirname(os.path.abspath(__file__))))
KINDS = ["plain", "widths", "choked", "one_layer", "one_row", "many_pins", "layers"]
# a design with fewer pieces says nothing of the time for each
FEWEST_PIECES = 1000
# the turns of a run beside its rounds: the first sets, and the most passes of descent
OTHER_TURNS = 11
# how many times what its nets need on average an edge of a design with room has
ROOM = 8


class Design:
    """A drawn design, with what a count of loads needs."""

    def __init__(self, kind, rng):
        self.cols, self.rows, layers = rng.randint(16, 40), rng.randint(16, 40), rng.randint(2, 6)
        if kind == "one_layer":
            layers = 1
        if kind == "one_row":
            self.cols, self.rows, layers = rng.randint(60, 300), 1, rng.randint(1, 3)
        if kind == "layers":
            layers = 16
        self.layers = layers
        self.both = kind in ("one_layer", "one_row")
        self.set_level(rng.choice([8, 16, 24]))
        self.draw_wires(kind, rng)
        self.capacities = {}
        self.nets = self.draw_nets(kind, rng, rng.randint(40, 250))
        self.draw_adjustments(kind, rng)

    def set_level(self, level):
        self.along_x = [level if self.both or l % 2 == 0 else 0 for l in range(self.layers)]
        self.along_y = [level if self.both or l % 2 == 1 else 0 for l in range(self.layers)]

    def draw_wires(self, kind, rng):
        wide = kind == "widths"
        self.widths = [rng.randint(1, 3) if wide else 1 for _ in range(self.layers)]
        self.spacings = [rng.randint(0, 2) if wide else 1 for _ in range(self.layers)]

    def draw_nets(self, kind, rng, count):
        nets = []
        for net in range(count):
            width = rng.randint(1, 4) if kind == "widths" else 1
            pins = rng.choice([2, 2, 2, 3, 3, 4, 5, 8, 15])
            reach = rng.choice([4, 8, 40])
            if kind == "many_pins" and net < 2:
                pins, reach = rng.randint(300, 1500), 400
            col, row = rng.randrange(self.cols), rng.randrange(self.rows)
            places = []
            for _ in range(pins):
                x = min(max(col + rng.randint(-reach, reach), 0), self.cols - 1)
                y = min(max(row + rng.randint(-reach, reach), 0), self.rows - 1)
                places.append((x, y, 1 if rng.random() < 0.8 else rng.randint(1, self.layers)))
            nets.append((net, width, places))
        return nets

    def draw_adjustments(self, kind, rng):
        self.adjusted = []
        share = {"choked": 0.3, "plain": 0.02}.get(kind, 0.05)
        for layer in range(self.layers):
            for row in range(self.rows):
                for col in range(self.cols):
                    for axis in "xy":
                        if rng.random() < share:
                            self.adjust(col, row, layer, axis, rng.choice([0, 0, 2, 4]) if kind == "choked" else rng.choice([0, 2, 4]))

    def adjust(self, col, row, layer, axis, level):
        to = (col + 1, row) if axis == "x" else (col, row + 1)
        table = self.along_x if axis == "x" else self.along_y
        if table[layer] > 0 and to[0] < self.cols and to[1] < self.rows:
            self.capacities[(col, row, layer, axis)] = level
            self.adjusted.append((col, row, layer + 1, to[0], to[1], layer + 1, level))

    def capacity(self, edge):
        return self.capacities.get(edge, (self.along_x if edge[3] == "x" else self.along_y)[edge[2]])

    def text(self):
        rows = [f"grid {self.cols} {self.rows} {self.layers}"]
        for name, numbers in [("vertical capacity", self.along_y), ("horizontal capacity", self.along_x),
                              ("minimum width", self.widths), ("minimum spacing", self.spacings), ("via spacing", [1] * self.layers)]:
            rows.append(name + " " + " ".join(map(str, numbers)))
        rows += ["0 0 10 10", "", f"num net {len(self.nets)}"]
        for net, width, places in self.nets:
            rows.append(f"n{net} {net} {len(places)} {width}")
            rows += [f"{10 * x + 5} {10 * y + 5} {layer}" for x, y, layer in places]
        rows.append(str(len(self.adjusted)))
        rows += [" ".join(map(str, adjusted)) for adjusted in self.adjusted]
        return "\n".join(rows) + "\n"

    def certificate(self, measured):
        """The certificate of measured routes that prices no edge."""
        edges = [(col, row, layer, axis) for layer in range(self.layers) for row in range(self.rows) for col in range(self.cols)
                 for axis in "xy" if (col + 1 < self.cols if axis == "x" else row + 1 < self.rows)]
        prices = sum(1 for edge in edges if self.capacity(edge) > 0)
        said = [f"{name} {measured[name][0]}" for name in ("nets", "forced", "overflow", "wirelength", "peak")]
        return "\n".join(["grouter certificate 1", *said, "bound 0/1", f"prices {prices}"] + ["0"] * prices) + "\n"

    def count(self, routes):
        """The overflow and the wirelength of a text of routes, edge by edge."""
        loads, pieces, net, own = {}, 0, None, set()
        for line in routes.split("\n"):
            if line == "!":
                pieces += len(own)
                for piece in own:
                    if piece[3] != "via":
                        layer = piece[2]
                        demand = max(self.nets[net][1], self.widths[layer]) + self.spacings[layer]
                        loads[piece] = loads.get(piece, 0) + demand
                own = set()
            elif line.startswith("("):
                own |= pieces_of(line)
            elif line:
                net = int(line.split()[1])
        return sum(max(0, load - self.capacity(edge)) for edge, load in loads.items()), pieces


class RoomyDesign(Design):
    """A larger design, whose edges have room for its nets."""

    def __init__(self, kind, rng):
        self.cols, self.rows, layers = rng.randint(40, 100), rng.randint(40, 100), rng.randint(2, 6)
        if kind == "one_row":
            self.cols, self.rows, layers = rng.randint(1000, 4000), 1, rng.randint(1, 3)
        self.layers = {"one_layer": 1, "layers": 16}.get(kind, layers)
        self.both = kind in ("one_layer", "one_row")
        self.draw_wires(kind, rng)
        self.nets = self.draw_nets(kind, rng, rng.randint(1000, 4000))
        self.level = self.level_for(kind)
        self.set_level(self.level)
        self.capacities = {}
        self.draw_adjustments(kind, rng)

    def level_for(self, kind):
        """ROOM times what the nets need of an edge on average, and at least four times what the widest needs."""
        widest = max(4 if kind == "widths" else 1, *self.widths) + max(self.spacings)
        needed = 0
        for _, width, places in self.nets:
            spans = sum(max(at) - min(at) for at in list(zip(*places))[:2])
            needed += (max(width, *self.widths) + max(self.spacings)) * max(1.0, math.sqrt(len(places)) / 2) * spans
        edges = self.cols * self.rows * self.layers * (2 if self.both else 1)
        return max(math.ceil(ROOM * needed / edges), 4 * widest)

    def draw_adjustments(self, kind, rng):
        """Three edges of a hundred have half of the room. In a design with choked edges these have none, and neither have those round
        the first net's first tile."""
        self.adjusted = []
        level = 0 if kind == "choked" else self.level // 2
        edges = [(col, row, layer, axis) for layer in range(self.layers) for row in range(self.rows) for col in range(self.cols)
                 for axis in "xy" if rng.random() < 0.03]
        if kind == "choked":
            col, row = self.nets[0][2][0][:2]
            sides = [(col, row, "x"), (col, row, "y"), (col - 1, row, "x"), (col, row - 1, "y")]
            edges += [(c, r, layer, axis) for layer in range(self.layers) for c, r, axis in sides if c >= 0 and r >= 0]
        for col, row, layer, axis in dict.fromkeys(edges):
            self.adjust(col, row, layer, axis, level)


def pieces_of(segment):
    """The edges and vias of a segment: the tile and the layer that each goes from, and its axis."""
    ends = [tuple(map(int, end.split(","))) for end in segment[1:-1].split(")-(")]
    (x, y, l), (to_x, to_y, to_l) = sorted(((x - 5) // 10, (y - 5) // 10, layer - 1) for x, y, layer in ends)
    return ({(c, y, l, "x") for c in range(x, to_x)} | {(x, r, l, "y") for r in range(y, to_y)} | {(x, y, k, "via") for k in range(l, to_l)})


def run(*words):
    """The lines that a program says, as names with their numbers, and the processor seconds that it took."""
    before = resource.getrusage(resource.RUSAGE_CHILDREN)
    said = subprocess.run(words, capture_output=True, text=True)
    after = resource.getrusage(resource.RUSAGE_CHILDREN)
    if said.returncode != 0:
        raise AssertionError(f"status {said.returncode} of {' '.join(words)}: {said.stdout}{said.stderr}")
    report = {line.split()[0]: line.split()[1:] for line in said.stdout.splitlines()}
    return report, after.ru_utime - before.ru_utime


def read(path):
    with open(path, encoding="ascii") as file:
        return file.read()


def same(what, found, wanted):
    if found != wanted:
        raise AssertionError(f"{what}: {found}, and not {wanted}")


def totals(report):
    return int(report["overflow"][0]), int(report["wirelength"][0])


def instructions(*words):
    """How many instructions a program takes."""
    counted = subprocess.run(["valgrind", "--tool=cachegrind", "--cache-sim=no", "--cachegrind-out-file=/dev/null", *words],
                             capture_output=True, text=True, check=True).stderr
    return int(re.search(r"I +refs: +([0-9,]+)", counted)[1].replace(",", ""))


def try_design(design, room, reroute, grouter, counts):
    """Tries one design. Answers the overflow and the wirelength of the run from none, its processor seconds, the lesser of two
    runs, or with `counts` its instructions in thousand millions, its rounds, and how many nets are forced."""
    here = lambda name: os.path.join(room, name)
    with open(here("in.gr"), "w", encoding="ascii") as file:
        file.write(design.text())
    report, seconds = run(reroute, here("in.gr"), here("new"))
    counted = design.count(read(here("new")))
    same("the report", totals(report), counted)
    measured, _ = run(grouter, "measure", here("in.gr"), here("new"))
    same("measure", totals(measured), counted)
    with open(here("cert"), "w", encoding="ascii") as file:
        file.write(design.certificate(measured))
    run(grouter, "judge", here("in.gr"), here("new"), here("cert"))
    run(reroute, here("in.gr"), here("four"), "--workers", "4")
    same("the bytes of four workers", read(here("four")) == read(here("new")), True)
    run(reroute, here("in.gr"), here("poor"), "--rounds", "0", "--passes", "0")
    for given in ["poor", "new"]:
        before = design.count(read(here(given)))
        again, _ = run(reroute, here("in.gr"), here(given), here("again"), "--seed", "7")
        after = design.count(read(here("again")))
        same(f"given {given}", (int(again["given"][0]), int(again["given"][1])), before)
        same(f"the report from {given}", totals(again), after)
        same(f"measure from {given}", totals(run(grouter, "measure", here("in.gr"), here("again"))[0]), after)
        same(f"{after} is no worse than {before}", after <= before, True)
        os.remove(here("again"))
    for name in ["new", "cert", "four", "poor"]:
        os.remove(here(name))
    if counts:
        cost = 1e-9 * instructions(reroute, here("in.gr"), here("new"))
    else:
        cost = min(seconds, run(reroute, here("in.gr"), here("new"))[1])
    os.remove(here("new"))
    return counted, cost, int(report["rounds"][0]), int(report["forced"][0])


def print_rates(name, rates):
    """Says how a rate is spread over some designs, by kind and over all, and whether none is above twice the mean."""
    if not rates:
        return
    mean = sum(rate for rate, _, _ in rates) / len(rates)
    print(f"{name}, of designs with {FEWEST_PIECES} pieces and more:")
    for kind in [*KINDS, "all"]:
        found = [rate for rate, _, of in rates if kind in (of, "all")]
        if found:
            print(f"  {kind:10} {len(found):4} designs, mean {sum(found) / len(found):8.3f}, greatest {max(found):8.3f}")
    above = sorted(((rate, number, kind) for rate, number, kind in rates if rate > 2 * mean), reverse=True)
    slowest = ", ".join(f"{rate:.2f} ({number}, {kind})" for rate, number, kind in above[:5])
    print("  none is above twice the mean over all" if not above else f"  {len(above)} are above twice the mean over all: {slowest}")


def built(name):
    return f"{TOP}/crates/{name}/out/{name}"


def tried(number, draw, seed, reroute, grouter, counts):
    """What came of one drawn design: its kind, and what `try_design` answers, or the fault that it has."""
    kind = KINDS[number % len(KINDS)]
    design = draw(kind, random.Random(f"{seed} {number}"))
    with tempfile.TemporaryDirectory() as room:
        try:
            return number, kind, try_design(design, room, reroute, grouter, counts)
        except AssertionError as fault:
            return number, kind, fault


def main(*words):
    draw = RoomyDesign if "--room" in words else Design
    counts = "--instructions" in words
    unit = "thousand instructions" if counts else "microseconds"
    words = [word for word in words if not word.startswith("--")]
    count, seed, reroute, grouter = [*words, *[200, 1, built("reroute"), built("grouter")][len(words):]]
    failed, forced, fitting, overfull, turns = 0, 0, [], [], []
    # what is counted doesn't depend on what runs beside it, and what is timed does
    with ThreadPoolExecutor(os.cpu_count() if counts else 1) as pool:
        for number, kind, found in pool.map(lambda it: tried(it, draw, seed, reroute, grouter, counts), range(int(count))):
            if isinstance(found, AssertionError):
                failed += 1
                print(f"FAILED: design {number}, {kind}: {found}")
                continue
            (overflow, pieces), cost, rounds, over = found
            forced += over
            if pieces >= FEWEST_PIECES:
                rate = 1e6 * cost / pieces
                (overfull if overflow else fitting).append((rate, number, kind))
                turns.append((rate / (rounds + OTHER_TURNS), number, kind))
    print(f"{int(count) - failed} designs passed, {failed} failed; {forced} nets were forced")
    print_rates(f"{unit} for each piece, without overflow", fitting)
    print_rates(f"{unit} for each piece, with overflow", overfull)
    print_rates(f"{unit} for each piece", fitting + overfull)
    print_rates(f"{unit} for each piece in each turn", turns)
    return 1 if failed else 0


if __name__ == "__main__":
    sys.exit(main(*sys.argv[1:]))
