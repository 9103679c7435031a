#!/usr/bin/env python3
"""Runs the built `grouter eco` on drawn edits of drawn routed designs, and looks at all that it writes with plain counting.

    tests/program/drawn_edits.py [COUNT [SEED [GROUTER [REROUTE]]]]

By hand, outside the gate: 200 runs take some minutes. Without words it draws 200 runs from seed 1, and takes the programs that
`rt run` left in crates/*/out. Of each run it asks, for the first edit alone, then the first two, and so on, that

- the report is that of a plain count of the edited design and of the routes in OUT;
- nets that no edit names have the block that they had, byte for byte, and OUT has a block for each net in order;
- the net that the edit names is joined on its ground, and with up to five terminals its set has the least weight at the prices of
  all other nets' loads, by a plain Dreyfus and Wagner;
- `measure` says the same of OUT on the text of the edited design, which is written here;
- `edits 0` writes the routes as they were written, also where their blocks come in another order;
- the edit that has to be refused is, with number, place and field, and then there is no OUT.

Most runs end with a refused edit, for each of 62 to 65, 67 and 68, or with a text that is none (61). 66 is tried once, with 2^24
pins. It prints a line for each run that fails, then how many of each kind passed, and fails where one failed."""

import heapq
import os
import random
import subprocess
import sys
import tempfile
from fractions import Fraction

from drawn_reroutes import TOP, pieces_of, read, same

SCALE, PRICES = 16, [1]
while len(PRICES) < 256:
    PRICES.append(PRICES[-1] + PRICES[-1] // 40 + 1)
CHOKED_WEIGHT = 2**38
FEW = 5
MOST_DEMAND = 1023
ENDS = [None, 62, 63, 64, 65, 67, 68, 61]
NAMES = ["!", "(1,1,1)", "drop", "edits", "7", "."]


class Design:
    """A design as its text says it, with what a plain count needs. A net is a tuple of name, id, width and pins."""

    def __init__(self, text):
        words = iter(text.split())
        number = lambda: int(next(words))
        numbers = lambda count: [number() for _ in range(count)]
        skip = lambda count: [next(words) for _ in range(count)]
        skip(1)
        self.cols, self.rows, self.layers = numbers(3)
        tables = []
        for _ in range(5):
            skip(2)
            tables.append(numbers(self.layers))
        self.along_y, self.along_x, self.widths, self.spacings, self.vias = tables
        self.left, self.low, self.width, self.height = numbers(4)
        skip(2)
        self.nets = []
        for _ in range(number()):
            name, ident, count, width = next(words), number(), number(), number()
            self.nets.append((name, ident, width, [tuple(numbers(3)) for _ in range(count)]))
        self.adjustments = [numbers(7) for _ in range(number())]
        self.levels = {}
        for c, r, layer, d, s, other, level in self.adjustments:
            if layer == other:
                self.levels[(min(c, d), min(r, s), layer - 1, "x" if c != d else "y")] = level
        self.pieces = [piece for layer in range(self.layers) for row in range(self.rows) for col in range(self.cols)
                       for piece in self.pieces_from(col, row, layer)]
        self.grounds = [self.ground(False), self.ground(True)]

    def pieces_from(self, col, row, layer):
        if col + 1 < self.cols:
            yield col, row, layer, "x"
        if row + 1 < self.rows:
            yield col, row, layer, "y"
        if layer + 1 < self.layers:
            yield col, row, layer, "via"

    def first_capacity(self, edge):
        return (self.along_x if edge[3] == "x" else self.along_y)[edge[2]]

    def capacity(self, edge):
        return self.levels.get(edge, self.first_capacity(edge))

    def allows(self, piece, choked):
        return piece[3] == "via" or self.capacity(piece) > 0 or choked and self.first_capacity(piece) > 0

    def ground(self, choked):
        """The neighbours of each vertex by pieces of the ground, and a number that vertices have in common which these join."""
        near = {(c, r, l): [] for l in range(self.layers) for r in range(self.rows) for c in range(self.cols)}
        for piece in self.pieces:
            if self.allows(piece, choked):
                one, other = ends_of(piece)
                near[one].append((other, piece))
                near[other].append((one, piece))
        return near, components(near)

    def demand(self, width, layer):
        return max(width, self.widths[layer]) + self.spacings[layer]

    def outside(self, pin):
        return not (self.left <= pin[0] <= self.left + self.cols * self.width
                    and self.low <= pin[1] <= self.low + self.rows * self.height)

    def terminals(self, pins):
        """The vertices of pins, without repeats."""
        place = lambda pin: (min((pin[0] - self.left) // self.width, self.cols - 1), min((pin[1] - self.low) // self.height, self.rows - 1),
                             pin[2] - 1)
        return list(dict.fromkeys(map(place, pins)))

    def over(self, pins):
        """Whether the ground of a net with these pins has choked edges; or the first terminal that no ground joins."""
        terminals = self.terminals(pins)
        for choked in (False, True):
            _, numbers = self.grounds[choked]
            apart = [i for i, t in enumerate(terminals) if numbers[t] != numbers[terminals[0]]]
            if not apart:
                return choked, None
        return None, apart[0]

    def text(self, nets):
        """The text of this design with other nets."""
        rows = [f"grid {self.cols} {self.rows} {self.layers}"]
        for name, table in [("vertical capacity", self.along_y), ("horizontal capacity", self.along_x), ("minimum width", self.widths),
                            ("minimum spacing", self.spacings), ("via spacing", self.vias)]:
            rows.append(" ".join(map(str, [name] + table)))
        rows += [f"{self.left} {self.low} {self.width} {self.height}", f"num net {len(nets)}"]
        for name, ident, width, pins in nets:
            rows.append(f"{name} {ident} {len(pins)} {width}")
            rows += [" ".join(map(str, pin)) for pin in pins]
        rows += [str(len(self.adjustments))] + [" ".join(map(str, adjusted)) for adjusted in self.adjustments]
        return "\n".join(rows) + "\n"

    # ---- edits: ("drop", id), ("add", name, id, width, pins), ("change", id, width, pins)

    def refusal(self, nets, edit):
        """The lowest number that refuses the edit, and its field or none; or none."""
        ident = edit[2] if edit[0] == "add" else edit[1]
        there = any(net[1] == ident for net in nets)
        if edit[0] != "add" and not there:
            return 62, ident
        if edit[0] == "add" and there:
            return 63, ident
        if edit[0] == "drop":
            return None
        width, pins = edit[-2:]
        for number, wrong in [(64, self.outside), (65, lambda pin: not 1 <= pin[2] <= self.layers)]:
            for place, pin in enumerate(pins):
                if wrong(pin):
                    return number, place
        others = [net for net in nets if net[1] != ident]
        if len(others) + 1 > 2**22 or sum(len(self.terminals(net[3])) for net in others) + len(pins) > 2**24:
            return 66, None
        if width + max(self.spacings) > MOST_DEMAND:
            return 67, None
        _, apart = self.over(pins)
        return None if apart is None else (68, apart)

    # ---- counts of routes: for each net its set of pieces

    def loads(self, nets, sets):
        loads = {}
        for (_, _, width, _), own in zip(nets, sets):
            for piece in own:
                if piece[3] != "via":
                    loads[piece] = loads.get(piece, 0) + self.demand(width, piece[2])
        return loads

    def report(self, nets, sets):
        """The numbers of a report, without those of kept and routed nets."""
        loads = self.loads(nets, sets)
        opened = [piece for piece in self.pieces if piece[3] != "via" and self.capacity(piece) > 0]
        peak = max((Fraction(loads.get(edge, 0), self.capacity(edge)) for edge in opened), default=None)
        return {"nets": str(len(nets)), "forced": str(sum(self.over(net[3])[0] for net in nets)),
                "overflow": str(sum(max(0, load - self.capacity(edge)) for edge, load in loads.items())),
                "wirelength": str(sum(map(len, sets))), "peak": "none" if peak is None else f"{peak.numerator}/{peak.denominator}"}

    def weights(self, loads, width):
        """What each piece weighs for a net of this width at the prices of the loads."""
        index = lambda edge: 8 * SCALE * loads.get(edge, 0) // self.capacity(edge)
        opened = {piece: index(piece) for piece in self.pieces if piece[3] != "via" and self.capacity(piece) > 0}
        top = max(opened.values(), default=0)
        weigh = lambda piece: (4 * PRICES[max(0, 255 - top + opened[piece])] * self.demand(width, piece[2]) + 1 if piece in opened
                               else 1 if piece[3] == "via" else CHOKED_WEIGHT)
        return {piece: weigh(piece) for piece in self.pieces}


def ends_of(piece):
    col, row, layer, axis = piece
    return (col, row, layer), (col + (axis == "x"), row + (axis == "y"), layer + (axis == "via"))


def components(near):
    numbers = {}
    for begin in near:
        if begin not in numbers:
            numbers[begin], waiting = len(numbers), [begin]
            while waiting:
                vertex = waiting.pop()
                for other, _ in near[vertex]:
                    if other not in numbers:
                        numbers[other] = numbers[begin]
                        waiting.append(other)
    return numbers


def least_weight(near, weights, terminals):
    """The least weight of pieces that join the terminals (Dreyfus and Wagner)."""
    *others, root = terminals
    rows = {}
    for mask in range(1, 1 << len(others)):
        row = {}
        if mask & (mask - 1) == 0:
            row[others[mask.bit_length() - 1]] = 0
        part = (mask - 1) & mask
        while part:
            for vertex, number in rows[part].items():
                rest = rows[mask ^ part].get(vertex)
                if rest is not None and number + rest < row.get(vertex, float("inf")):
                    row[vertex] = number + rest
            part = (part - 1) & mask
        waiting = [(number, vertex) for vertex, number in row.items()]
        heapq.heapify(waiting)
        while waiting:
            number, vertex = heapq.heappop(waiting)
            if number == row[vertex]:
                for other, piece in near[vertex]:
                    if number + weights[piece] < row.get(other, float("inf")):
                        row[other] = number + weights[piece]
                        heapq.heappush(waiting, (row[other], other))
        rows[mask] = row
    return rows[(1 << len(others)) - 1][root]


# ---- what edits make


def edited(nets, edit):
    """The nets behind an edit, and the place of the one that it names among them, or before for a drop."""
    if edit[0] == "add":
        return nets + [edit[1:]], len(nets)
    place = [net[1] for net in nets].index(edit[1])
    new = [] if edit[0] == "drop" else [(nets[place][0],) + edit[1:]]
    return nets[:place] + new + nets[place + 1:], place


def edit_words(edit):
    if edit[0] == "drop":
        return ["drop", edit[1]]
    head = ["add", edit[1], edit[2]] if edit[0] == "add" else ["change", edit[1]]
    return head + [len(edit[-1]), edit[-2]] + [number for pin in edit[-1] for number in pin]


def edits_text(edits, rng):
    """A text of edits, with drawn blanks."""
    words = ["edits", len(edits)] + [word for edit in edits for word in edit_words(edit)]
    text = rng.choice(["", "", "\n"])
    for word in words:
        spelt = str(word)
        if isinstance(word, int) and rng.random() < 0.1:
            spelt = ("-0" if word < 0 else rng.choice(["+", "0", "+00"])) + str(abs(word))
        text += spelt + rng.choice([" ", " ", "\n", "\t", "\r\n", "  "])
    return text if rng.random() < 0.5 else text.rstrip()


def spoilt_text(edits, rng):
    """A text that is none of edits, and the place of the first token that is none of the form."""
    words = ["edits", len(edits)] + [word for edit in edits for word in edit_words(edit)]
    # names are strings behind `add`
    fixed = [i for i, word in enumerate(words) if isinstance(word, int) or not (i and words[i - 1] == "add" and isinstance(words[i], str))]
    where, kind = rng.choice(fixed), rng.choice(["cut", "more", "other", "other", "far"])
    if kind == "cut":
        words = words[:where]
    elif kind == "more":
        where, words = len(words), words + [rng.choice(["drop", "0", "!"])]
    elif kind == "other":
        words[where] = rng.choice(["x", "+", "1.0", "Drop", "0x1"])
    else:
        words[where] = 2**40 + 1 if isinstance(words[where], int) else "-1"
    text, at = "", None
    for i, word in enumerate(words):
        at = len(text) if i == where else at
        text += str(word) + rng.choice([" ", "\n", "\r\n"])
    return text, len(text) if at is None else at


def drawn_pin(design, rng, row):
    y = design.low + (rng.randint(0, design.rows * design.height) if row is None else row * design.height + rng.randrange(design.height))
    return design.left + rng.randint(0, design.cols * design.width), y, rng.randint(1, design.layers)


def spoil_pins(design, rng, pins, end):
    """Puts pins outside, or on no layer, as the end wants them, and sometimes both."""
    for number in {64: [64, 65], 65: [65]}.get(end, []):
        for _ in range(rng.randint(1, 2) if number == end else rng.randint(0, 1)):
            place = rng.randrange(len(pins))
            x, y, layer = pins[place]
            across, up = design.cols * design.width, design.rows * design.height
            pins[place] = ((x, y, rng.choice([0, -3, design.layers + 1])) if number == 65 else
                           rng.choice([(design.left - 1, y, layer), (design.left + across + 1, y, layer), (x, design.low - 2**40, layer),
                                       (x, design.low + up + 1, layer)]))


def drawn_edit(design, nets, rng, end):
    """An edit that is refused for this number, or made where there is none."""
    while True:
        ids = [net[1] for net in nets]
        known, fresh = rng.choice(ids) if ids else 0, rng.choice([rng.randint(0, 400), rng.randint(0, 2**32 - 1)])
        kind = rng.choice(["drop", "add", "change", "change"] if end in (None, 62) else ["add", "change"])
        row = rng.randrange(design.rows) if design.layers == 1 and end != 68 else None
        pins = [drawn_pin(design, rng, row) for _ in range(rng.choice([0, 1, 2, 2, 2, 3, 4, 5, 7]))]
        if pins:
            spoil_pins(design, rng, pins, end)
        width = MOST_DEMAND if end == 67 or end in (62, 63, 64, 65) and rng.random() < 0.3 else rng.choice([0, 1, 1, 1, 2, 4])
        if kind == "add":
            name = rng.choice(NAMES) if rng.random() < 0.2 else f"e{fresh}"
            edit = ("add", name, known if end == 63 else fresh, width, pins)
        else:
            edit = (kind, fresh if end == 62 else known) + ((width, pins) if kind == "change" else ())
        refused = design.refusal(nets, edit)
        if (refused[0] if refused else None) == end:
            return edit


# ---- runs


def run(*words):
    """The status of a program, and what it says."""
    said = subprocess.run(words, capture_output=True, text=True)
    same("what is said on standard error", said.stderr, "")
    return said.returncode, said.stdout


def done(*words):
    status, said = run(*words)
    same(f"the status of {words[1]}, which said {said!r}", status, 0)
    return {line.split()[0]: line.split()[1] for line in said.splitlines()}


def write(path, text):
    with open(path, "w", encoding="ascii", newline="") as file:
        file.write(text)


def blocks_of(text):
    """The blocks of a text of routes, each as it stands there."""
    blocks, own = [], ""
    for line in text.splitlines(True):
        own += line
        if line == "!\n":
            blocks.append(own)
            own = ""
    same("what stands behind the last block", own, "")
    return blocks


def set_of(block):
    lines = block.splitlines()[1:-1]
    pieces = [piece for line in lines for piece in pieces_of(line)]
    same("pieces that are named twice", len(pieces), len(set(pieces)))
    return set(pieces)


def rows_text(rng):
    """A design of one layer without edges along y, so that nets of two rows can't be joined."""
    cols, rows, level = rng.randint(4, 14), rng.randint(2, 6), rng.choice([4, 8])
    nets = []
    for net in range(rng.randint(3, 20)):
        y = 10 * rng.randrange(rows) + rng.randrange(10)
        nets.append((f"n{net}", 3 * net, rng.randint(0, 2), [(rng.randint(0, 10 * cols), y, 1) for _ in range(rng.randint(1, 4))]))
    adjusted = [(c, r, 1, c + 1, r, 1, rng.choice([0, 2, 8])) for c in range(cols - 1) for r in range(rows) if rng.random() < 0.2]
    lines = [f"grid {cols} {rows} 1", "vertical capacity 0", f"horizontal capacity {level}", f"minimum width {rng.randint(0, 2)}",
             f"minimum spacing {rng.randint(1, 3)}", "via spacing 1", "0 0 10 10", f"num net {len(nets)}"]
    for name, ident, width, pins in nets:
        lines += [f"{name} {ident} {len(pins)} {width}"] + [f"{x} {y} {layer}" for x, y, layer in pins]
    lines += [str(len(adjusted))] + [" ".join(map(str, one)) for one in adjusted]
    return "\n".join(lines) + "\n"


class Run:
    """A routed design that is drawn, in a folder, and the programs."""

    def __init__(self, rng, end, room, grouter, reroute):
        self.rng, self.grouter = rng, grouter
        self.design_file, self.routes, self.edits, self.out, self.text = (os.path.join(room, name) for name in
                                                                          ["in.gr", "routes", "edits", "out", "edited.gr"])
        if end == 68 or rng.random() < 0.2:
            write(self.design_file, rows_text(rng))
            done(reroute, self.design_file, self.routes)
        else:
            done(grouter, "make", self.design_file, "--seed", str(rng.randrange(2**64)), "--cols", str(rng.randint(2, 16)), "--rows",
                 str(rng.randint(2, 16)), "--layers", str(rng.randint(2, 5)), "--nets", str(rng.choice([1, 5, 20, 60])))
            if rng.random() < 0.5:
                done(reroute, self.design_file, self.routes)
            else:
                done(grouter, "route", self.design_file, self.routes, os.path.join(room, "cert"), "--phases", "2", "--rounds", "1")
        self.design = Design(read(self.design_file))
        self.blocks = blocks_of(read(self.routes))
        if rng.random() < 0.5:
            mixed = [block.replace("\n", " 77\n", 1) for block in self.blocks]
            rng.shuffle(mixed)
            write(self.routes, "".join(mixed))

    def eco(self, text):
        write(self.edits, text)
        return run(self.grouter, "eco", self.design_file, self.routes, self.edits, self.out)

    def refused(self, text, status, line):
        same("the refusal", self.eco(text), (status, line + "\n"))
        same("whether there is an OUT", os.path.exists(self.out), False)

    def edited_blocks(self, edits, nets):
        """The blocks that come of edits which are made, and the report of their run, both compared with plain counts."""
        status, said = self.eco(edits_text(edits, self.rng))
        same(f"the status behind {said!r}", status, 0)
        blocks = blocks_of(read(self.out))
        same("the heads of the blocks", [block.split("\n")[0] for block in blocks], [f"{net[0]} {net[1]}" for net in nets])
        named = {edit[-3] for edit in edits if edit[0] != "drop"}
        wanted = self.design.report(nets, [set_of(block) for block in blocks])
        routed = sum(net[1] in named for net in nets)
        lines = [f"{name} {wanted[name]}" for name in ["nets", "forced"]] + [f"kept {len(nets) - routed}", f"routed {routed}"]
        lines += [f"{name} {wanted[name]}" for name in ["overflow", "wirelength", "peak"]]
        same("the report", said.splitlines(), lines)
        write(self.text, self.design.text(nets))
        same("measure", done(self.grouter, "measure", self.text, self.out), dict(wanted, beyond="0"))
        os.remove(self.out)
        return blocks

    def look_at_step(self, old_nets, old_blocks, edit, nets, blocks):
        """Compares the routes behind an edit with those before it."""
        _, place = edited(old_nets, edit)
        others = old_blocks[:place] + old_blocks[place + 1:]
        at_others = old_nets[:place] + old_nets[place + 1:]
        if edit[0] == "drop":
            same("the blocks of all others", blocks, others)
            return
        same("the blocks of all others", blocks[:place] + blocks[place + 1:], others)
        _, _, width, pins = nets[place]
        own, terminals, (choked, _) = set_of(blocks[place]), self.design.terminals(pins), self.design.over(pins)
        near, _ = self.design.grounds[choked]
        same("pieces beyond the ground", [piece for piece in own if not self.design.allows(piece, choked)], [])
        joined = components({vertex: [(other, piece) for other, piece in links if piece in own] for vertex, links in near.items()})
        same("how many parts of the net are apart", len({joined[terminal] for terminal in terminals}), min(1, len(terminals)))
        if len(terminals) <= FEW:
            weights = self.design.weights(self.design.loads(at_others, map(set_of, others)), width)
            least = least_weight(near, weights, terminals) if len(terminals) > 1 else 0
            same("the weight of the new set", sum(weights[piece] for piece in own), least)

    def try_all(self, end):
        design, rng, edits, nets, blocks = self.design, self.rng, [], self.design.nets, self.blocks
        same("the routes behind no edits", self.edited_blocks([], nets), blocks)
        for _ in range(rng.randint(0, 8)):
            edits.append(drawn_edit(design, nets, rng, None))
            old, (nets, _) = nets, edited(nets, edits[-1])
            now = self.edited_blocks(edits, nets)
            self.look_at_step(old, blocks, edits[-1], nets, now)
            blocks = now
        if end == 61:
            text, at = spoilt_text(edits, rng)
            self.refused(text, 4, f"refused 4 61 {at}")
        elif end is not None and (nets or end != 63):
            refused = drawn_edit(design, nets, rng, end)
            number, field = design.refusal(nets, refused)
            later = [drawn_edit(design, nets, rng, None) for _ in range(rng.randint(0, 2))]
            self.refused(edits_text(edits + [refused] + later, rng), 9,
                         f"refused 9 {number} {len(edits)}" + ("" if field is None else f" {field}"))


def try_limit(room, grouter, reroute):
    """An edit of 2^24 pins, behind another."""
    one = Run(random.Random("limit"), 68, room, grouter, reroute)
    pins = 2**24
    one.refused(f"edits 2 change {one.design.nets[0][1]} 0 1 add e 4294967295 {pins} 1\n" + "5 5 1\n" * pins, 9, "refused 9 66 1")


def main(count=200, seed=1, grouter=f"{TOP}/crates/grouter/out/grouter", reroute=f"{TOP}/crates/reroute/out/reroute"):
    passed, failed = {}, 0
    runs = [(f"run {number}", ENDS[number % len(ENDS)], random.Random(f"{seed} {number}")) for number in range(int(count))]
    for name, end, rng in runs + [("the limit", 66, None)]:
        with tempfile.TemporaryDirectory() as room:
            try:
                if end == 66:
                    try_limit(room, grouter, reroute)
                else:
                    Run(rng, end, room, grouter, reroute).try_all(end)
                passed[end] = passed.get(end, 0) + 1
            except AssertionError as fault:
                failed += 1
                print(f"FAILED: {name}, which is to end with {end}: {fault}")
    print("passed: " + ", ".join(f"{number} " + (f"refused for {end}" if end else "made") for end, number in passed.items()) + f"; {failed} failed")
    return 1 if failed else 0


if __name__ == "__main__":
    sys.exit(main(*sys.argv[1:]))
