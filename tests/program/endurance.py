#!/usr/bin/env python3
"""Routes drawn designs by eight workers, one after another for some minutes, and asks the judge of each.

    tests/program/endurance.py MINUTES [WORKERS [SEED [GROUTER]]]

By hand, outside the gate, for as long as MINUTES says; the run that is under way then is ended. Without further words it takes 8
workers, a seed by the clock, and the program that `rt ci` left in crates/grouter/out. The same seed draws the same designs and
options; with several workers the routes differ all the same.

Of three designs one comes from `grouter make`, one is of the kinds that drawn_reroutes.py draws, and one is drawn here, with up to
200 by 200 tiles, 8 layers and 20,000 nets. `route` gets drawn numbers of phases and rounds, a seed, and for every third design a
budget about the sum of the half perimeters of the nets' boxes. It is asked that

- `route` and `judge` end with status 0, by no signal and within TIMEOUT seconds each, and say nothing on standard error;
- the verdict is yes, and forced nets, overflow, wirelength, peak, bound and budget of both reports are the same;
- `measure` names the same overflow, wirelength and (without a budget) peak.

Each minute it prints how many designs and nets were routed, and at the end one line. Where something of this fails, design, routes,
certificate and the words are kept in a folder that it names, and it goes on; it fails where one failed."""

import os
import random
import shutil
import subprocess
import sys
import tempfile
import time

from drawn_reroutes import KINDS, TOP, Design

TIMEOUT = 900
SIDES = [12, 24, 48, 96, 140, 200]
MOST_NETS = 20000


class Great(Design):
    """A drawn design of any size. Its nets are short, some are long, and a few have many pins."""

    def __init__(self, rng):
        self.cols, self.rows = rng.choice(SIDES), rng.choice(SIDES)
        self.layers = rng.randint(2, 8)
        level = rng.choice([6, 10, 20, 40])
        self.along_x = [level if layer % 2 == 0 else 0 for layer in range(self.layers)]
        self.along_y = [level if layer % 2 == 1 else 0 for layer in range(self.layers)]
        wide = rng.random() < 0.5
        self.widths = [rng.randint(1, 3) if wide else 1 for _ in range(self.layers)]
        self.spacings = [rng.randint(1, 2) if wide else 1 for _ in range(self.layers)]
        self.capacities, self.adjusted = {}, []
        tiles = self.cols * self.rows
        self.nets = [self.draw_net(net, wide, rng) for net in range(min(MOST_NETS, rng.randint(tiles // 8, tiles)))]
        for _ in range(rng.randint(0, tiles // 8)):
            self.adjust(rng.randrange(self.cols), rng.randrange(self.rows), rng.randrange(self.layers), rng.choice("xy"),
                        rng.choice([0, 0, level // 2, level]))

    def draw_net(self, net, wide, rng):
        width = rng.randint(1, 4) if wide else 1
        pins, reach = rng.choice([2, 2, 2, 2, 3, 3, 4, 5, 6, 9]), rng.choice([2, 4, 8, 8, 16])
        if rng.random() < 0.002:
            pins, reach = rng.randint(20, 200), max(self.cols, self.rows)
        col, row = rng.randrange(self.cols), rng.randrange(self.rows)
        near = lambda at, most: min(max(at + rng.randint(-reach, reach), 0), most - 1)
        return net, width, [(near(col, self.cols), near(row, self.rows), 1 if rng.random() < 0.9 else rng.randint(1, self.layers))
                            for _ in range(pins)]


class Failed(Exception):
    pass


def run(words, end):
    """What a program said, as names with their fields; or none where the time came to its end."""
    try:
        ended = subprocess.run(words, stdin=subprocess.DEVNULL, capture_output=True, text=True, errors="replace",
                               timeout=min(TIMEOUT, max(end - time.monotonic(), 1)))
    except subprocess.TimeoutExpired as late:
        if time.monotonic() >= end:
            return None
        raise Failed(f"it ran for more than {TIMEOUT} s") from late
    if ended.returncode != 0 or ended.stderr:
        raise Failed(f"status {ended.returncode} of {words[1]}: {ended.stdout[:200]}{ended.stderr[:200]}".strip())
    return {line.split()[0]: line.split()[1:] for line in ended.stdout.splitlines()}


def draw(number, rng, grouter, path):
    """Writes a design. Answers what it is, how many nets it has, and the sum of the half perimeters of their boxes, about."""
    kind = number % 3
    if kind == 0:
        cols, rows, layers = rng.randint(2, 120), rng.randint(2, 120), rng.randint(2, 8)
        nets = rng.randint(0, min(cols * rows, MOST_NETS))
        seed = rng.randrange(2**64)
        subprocess.run([grouter, "make", path, "--seed", str(seed), "--cols", str(cols), "--rows", str(rows), "--layers", str(layers),
                        "--nets", str(nets)], check=True, stdout=subprocess.DEVNULL)
        return f"make {seed} {cols} {rows} {layers}", nets, nets * (cols + rows) // 2
    design = Great(rng) if kind == 1 else Design(rng.choice(KINDS), rng)
    with open(path, "w", encoding="ascii") as text:
        text.write(design.text())
    span = lambda places, axis: max(place[axis] for place in places) - min(place[axis] for place in places)
    boxes = sum(span(places, axis) for _, _, places in design.nets for axis in (0, 1))
    return f"{design.cols} {design.rows} {design.layers}", len(design.nets), boxes


def options(number, rng, workers, boxes):
    words = ["--workers", str(workers), "--phases", str(rng.choice([1, 1, 2, 3, 4, 4, 8])), "--rounds", str(rng.choice([0, 1, 2, 4, 4, 8])),
             "--seed", str(rng.randrange(2**64))]
    if number % 9 in (0, 4, 8):
        words += ["--budget", str(max(1, int(boxes * rng.choice([0.5, 1, 1.2, 2]))))]
    return words


def try_one(grouter, words, files, end):
    """Routes and judges. Answers whether there was time for it."""
    design, routes, cert = files
    routed = run([grouter, "route", *files, *words], end)
    if routed is None:
        return False
    judged = run([grouter, "judge", *files], end)
    if judged is None:
        return False
    measured = run([grouter, "measure", design, routes], end)
    if measured is None:
        return False
    if "yes" not in judged:
        raise Failed(f"the verdict is no yes: {judged}")
    names = ["nets", "forced", "overflow", "wirelength", "peak", "bound", "budget"]
    pick = lambda report, which: [(name, report.get(name)) for name in which]
    for report, which in [(judged, names), (measured, names[:4] + ["peak"] * ("--budget" not in words))]:
        if pick(report, which) != pick(routed, which):
            raise Failed(f"other numbers: {pick(report, which)}, and not {pick(routed, which)}")
    return True


def main(minutes, workers="8", seed=None, grouter=f"{TOP}/crates/grouter/out/grouter"):
    seed = int(time.time()) if seed is None else int(seed)
    begin = time.monotonic()
    end = begin + 60 * float(minutes)
    told, yes, failed, all_nets, most = 0, 0, 0, 0, 0
    sums = lambda: f"{yes + failed} designs with {all_nets} nets, the greatest of {most}: {yes} yes, {failed} failed"
    print(f"seed {seed}, {workers} workers", flush=True)
    number = 0
    with tempfile.TemporaryDirectory() as room:
        files = [os.path.join(room, name) for name in ("in.gr", "routes", "cert")]
        while time.monotonic() < end:
            rng = random.Random(f"{seed} {number}")
            what, nets, boxes = draw(number, rng, grouter, files[0])
            words = options(number, rng, workers, boxes)
            try:
                if not try_one(grouter, words, files, end):
                    break
                yes += 1
            except Failed as fault:
                failed += 1
                kept = tempfile.mkdtemp(prefix=f"endurance_{seed}_{number}_")
                for file in filter(os.path.exists, files):
                    shutil.copy(file, kept)
                with open(os.path.join(kept, "words"), "w", encoding="utf-8") as text:
                    print("route in.gr routes cert", *words, file=text)
                    print(fault, file=text)
                print(f"FAILED: design {number} ({what}): {' '.join(words)}: {fault}; kept in {kept}", flush=True)
            all_nets, most = all_nets + nets, max(most, nets)
            number += 1
            passed = int((time.monotonic() - begin) // 60)
            if passed > told:
                told = passed
                print(f"{passed} min: {sums()}", flush=True)
            for file in filter(os.path.exists, files):
                os.remove(file)
    print(f"{(time.monotonic() - begin) / 60:.1f} min, seed {seed}, {workers} workers: {sums()}")
    return 1 if failed or not yes else 0


if __name__ == "__main__":
    if len(sys.argv) < 2:
        sys.exit(__doc__)
    sys.exit(main(*sys.argv[1:]))
