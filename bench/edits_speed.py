#!/usr/bin/env python3
"""Times `measure`, and `eco` on drawn edits, for a design and routes of it.

    bench/edits_speed.py DESIGN ROUTES [--counts N ..] [--runs N] [--reach N] [--seed N] [--grouter PROGRAM]

The edits are of drawn nets, a third each drops, adds and changes. A changed net gets its own pins, moved together by up to
--reach tiles (3) along each axis, and an added net the pins of a drawn net, moved so; pins stay on the grid. No edit is refused
where the design has layers with edges along x and along y, since closed edges and vias then join all tiles. It prints a line of a table for no edits and for each of --counts (1000 and
10000): the user seconds of `measure` and of `eco`, each the least of --runs (3), their ratio, and the memory of `eco`.
"""
import argparse
import os
import random
import tempfile

from change_design import read
from runs import accepted, built

class Edits:
    """Draws edits of a design's nets, one after another."""

    def __init__(self, path, reach):
        heading, nets, _ = read(path)
        cols, rows = map(int, heading[0][1:3])
        self.left, self.low, self.width, self.height = map(int, heading[6])
        self.right, self.top = self.left + cols * self.width, self.low + rows * self.height
        self.reach = reach
        self.nets = [(int(head[1]), int(head[3]), [tuple(map(int, pin)) for pin in pins]) for head, pins in nets]
        self.fresh = max(ident for ident, _, _ in self.nets) + 1

    def moved(self, pins):
        """The pins, moved together and kept on the grid."""
        by_x, by_y = (random.randint(-self.reach, self.reach) * size for size in (self.width, self.height))
        return [(min(max(x + by_x, self.left), self.right), min(max(y + by_y, self.low), self.top), layer) for x, y, layer in pins]

    def wired(self, width, pins):
        return f'{len(pins)} {width}' + ''.join(f'\n{x} {y} {layer}' for x, y, layer in pins)

    def next(self):
        """The text of an edit, after which the list has changed."""
        place, kind = random.randrange(len(self.nets)), random.choice(('drop', 'add', 'change'))
        ident, width, pins = self.nets[place]
        if kind == 'drop' and len(self.nets) > 1:
            self.nets[place] = self.nets[-1]
            self.nets.pop()
            return f'drop {ident}'
        pins = self.moved(pins)
        if kind == 'change':
            self.nets[place] = ident, width, pins
            return f'change {ident} {self.wired(width, pins)}'
        self.nets.append((self.fresh, width, pins))
        self.fresh += 1
        return f'add e{self.fresh - 1} {self.fresh - 1} {self.wired(width, pins)}'


def timed(runs, *words):
    """The least user seconds of some runs, and the memory of the last in MiB."""
    done = [accepted(*words) for _ in range(runs)]
    return min(one.user for one in done), done[-1].memory


def main():
    words = argparse.ArgumentParser(description=__doc__, formatter_class=argparse.RawDescriptionHelpFormatter)
    words.add_argument('design')
    words.add_argument('routes')
    words.add_argument('--counts', nargs='+', type=int, default=[1000, 10000])
    words.add_argument('--runs', type=int, default=3)
    words.add_argument('--reach', type=int, default=3)
    words.add_argument('--seed', type=int, default=1)
    words.add_argument('--grouter', default=built('grouter'))
    asked = words.parse_args()
    measured, _ = timed(asked.runs, asked.grouter, 'measure', asked.design, asked.routes)
    with tempfile.TemporaryDirectory() as room:
        edits, out = os.path.join(room, 'edits'), os.path.join(room, 'routes')
        for count in [0] + asked.counts:
            random.seed(asked.seed)
            drawn = Edits(asked.design, asked.reach)
            with open(edits, 'w') as text:
                print('edits', count, file=text)
                for _ in range(count):
                    print(drawn.next(), file=text)
            edited, memory = timed(asked.runs, asked.grouter, 'eco', asked.design, asked.routes, edits, out)
            print(f'| {os.path.basename(asked.design)} | {count:,} | {measured:.2f} | {edited:.2f} | {edited / measured:.1f} | {memory:.0f} |')


if __name__ == '__main__':
    main()
