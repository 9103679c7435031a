#!/usr/bin/env python3
"""Writes a design with other nets, to measure what these cost.

    bench/change_design.py IN OUT [--widths LOW HIGH] [--least W] [--merge K] [--forced K] [--seed N]

--widths draws the width of each net from LOW to HIGH. --least sets the minimum width of all layers. --merge makes one net of
the pins of K that stand behind one another. --forced takes the capacity of all edges at the first tile of K nets, spread over
the list, so that these can't do without closed edges. The design keeps everything else.
"""
import argparse
import random


def read(path):
    """The lines of the heading, the nets as lists of a head and pins, and the adjustments."""
    with open(path) as text:
        lines = [line.split() for line in text]
    lines = [words for words in lines if words]
    begin = next(i for i, words in enumerate(lines) if words[0] == 'num')
    count, at, nets = int(lines[begin][2]), begin + 1, []
    for _ in range(count):
        pins = int(lines[at][2])
        nets.append((lines[at], lines[at + 1:at + 1 + pins]))
        at += 1 + pins
    adjusted = int(lines[at][0]) if at < len(lines) else 0
    return lines[:begin], nets, lines[at + 1:at + 1 + adjusted]


def merged(nets, count):
    """One net of each so many; pins that stand in one place stay as they are."""
    for i in range(0, len(nets), count):
        pins = [pin for _, own in nets[i:i + count] for pin in own]
        head = nets[i][0]
        yield [head[0], head[1], str(len(pins)), head[3]], pins


def closed(heading, nets, count):
    """Adjustments that take the capacity of all edges at a tile of some nets."""
    cols, rows, layers = map(int, heading[0][1:4])
    along = {'x': list(map(int, heading[2][2:])), 'y': list(map(int, heading[1][2:]))}
    left, low, width, height = map(int, heading[6])
    for k in range(count):
        x, y = map(int, nets[len(nets) * (2 * k + 1) // (2 * count)][1][0][:2])
        col, row = (x - left) // width, (y - low) // height
        for layer in range(layers):
            for a, b in ((-1, 0), (1, 0), (0, -1), (0, 1)):
                c, r = col + a, row + b
                if 0 <= c < cols and 0 <= r < rows and along['x' if a else 'y'][layer] > 0:
                    yield [col, row, layer + 1, c, r, layer + 1, 0]


def main():
    words = argparse.ArgumentParser(description=__doc__, formatter_class=argparse.RawDescriptionHelpFormatter)
    words.add_argument('design')
    words.add_argument('out')
    words.add_argument('--widths', nargs=2, type=int)
    words.add_argument('--least', type=int)
    words.add_argument('--merge', type=int, default=1)
    words.add_argument('--forced', type=int, default=0)
    words.add_argument('--seed', type=int, default=1)
    asked = words.parse_args()
    random.seed(asked.seed)
    heading, nets, adjustments = read(asked.design)
    nets = list(merged(nets, asked.merge))
    if asked.widths:
        nets = [(head[:3] + [str(random.randint(*asked.widths))], pins) for head, pins in nets]
    if asked.least:
        heading[3] = heading[3][:2] + [str(asked.least)] * len(heading[3][2:])
    adjustments += closed(heading, nets, asked.forced)
    with open(asked.out, 'w') as out:
        for words in heading + [['num', 'net', len(nets)]]:
            print(*words, file=out)
        for head, pins in nets:
            print(*head, file=out)
            for pin in pins:
                print(*pin, file=out)
        print(len(adjustments), file=out)
        for adjustment in adjustments:
            print(*adjustment, file=out)


if __name__ == '__main__':
    main()
