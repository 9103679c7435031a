#!/usr/bin/env python3
"""Measures what hostile texts of routes cost `measure`.

    bench/hostile_texts.py [--only KIND ..] [--megabytes N] [--grouter PROGRAM]

Each kind is a text of --megabytes (128) for a design of as many nets on 324 by 324 tiles and 6 layers, whose odd layers have edges
along x and whose even ones along y. All blocks have the same segments, which name as many pieces as they can:

    lines      every line of three layers along x and of three along y, and stacks that join them
    stacks     a stack through all layers at each tile, and lines that join them
    scattered  every second edge of each row and each column on its own, in no order, and the lines
    edges      all edges one by one, in no order, and the stacks that join them
    stairs     a staircase of single steps on two layers, and lines that join it with the pins
    repeated   one segment again and again, and the lines

`measure` runs twice on each: on the whole text, and on one with a wrong last byte, which is refused there, so that it is read and not
judged. A line of the table gives segments and megabytes, processor seconds of reading alone and of the whole, their quotient, and
the memory of the whole in MiB.
"""
import argparse
import os
import random
import tempfile

from runs import built, run

TILES, LAYERS = 324, 6
ENDS = (0, TILES - 1)


def at(col, row, layer):
    return f'({10 * col + 5},{10 * row + 5},{layer + 1})'


def segment(one, other):
    return f'{at(*one)}-{at(*other)}\n'


def is_along_x(layer):
    return layer % 2 == 0


def edges_of(layer):
    """The edges of a layer, one by one, each as the two tiles that it joins."""
    for line in range(TILES):
        for step in range(TILES - 1):
            yield ((step, line), (step + 1, line)) if is_along_x(layer) else ((line, step), (line, step + 1))


def lines(layers=range(LAYERS)):
    for layer in layers:
        for line in range(TILES):
            yield segment((0, line, layer), (TILES - 1, line, layer)) if is_along_x(layer) else \
                segment((line, 0, layer), (line, TILES - 1, layer))


def stacks(tiles, layers=LAYERS):
    for col, row in tiles:
        yield segment((col, row, 0), (col, row, layers - 1))


def joining(layers=LAYERS):
    """Stacks in the first column and the first row, which join all lines."""
    return stacks([*((0, row) for row in range(TILES)), *((col, 0) for col in range(1, TILES))], layers)


def in_no_order(segments):
    found = list(segments)
    random.Random(1).shuffle(found)
    return found


def all_edges():
    for layer in range(LAYERS):
        for one, other in edges_of(layer):
            yield segment((*one, layer), (*other, layer))


def every_second_edge():
    for layer in range(LAYERS):
        for number, (one, other) in enumerate(edges_of(layer)):
            if number % 2 == 0:
                yield segment((*one, layer), (*other, layer))


def stairs():
    for step in range(TILES - 1):
        yield segment((step, step, 0), (step + 1, step, 0))
        yield segment((step + 1, step, 0), (step + 1, step, 1))
        yield segment((step + 1, step, 1), (step + 1, step + 1, 1))
        yield segment((step + 1, step + 1, 1), (step + 1, step + 1, 0))


KINDS = {
    'lines': lambda: [*lines(), *joining()],
    'stacks': lambda: [*lines((0, 1)), *stacks((col, row) for row in range(TILES) for col in range(TILES))],
    'scattered': lambda: [*in_no_order(every_second_edge()), *lines(), *joining()],
    'edges': lambda: [*in_no_order(all_edges()), *joining()],
    'stairs': lambda: [*lines((0, 1)), *joining(2), *stairs()],
    'repeated': lambda: [*lines(), *joining(), *400_000 * [segment((0, 0, 0), (TILES - 1, 0, 0))]],
}


def design_of(nets):
    """The text of a design whose nets have their pins on the lowest layer, in opposite corners of the grid."""
    capacities = ['1000' if is_along_x(layer) else '0' for layer in range(LAYERS)]
    ones = ' '.join(LAYERS * ['1'])
    first, last = (10 * tile + 5 for tile in ENDS)
    return '\n'.join([
        f'grid {TILES} {TILES} {LAYERS}', 'vertical capacity ' + ' '.join(capacities[1:] + capacities[:1]),
        'horizontal capacity ' + ' '.join(capacities), f'minimum width {ones}', f'minimum spacing {ones}', f'via spacing {ones}',
        '0 0 10 10', f'num net {nets}', *(f'n{net} {net} 2 1\n{first} {first} 1\n{last} {last} 1' for net in range(nets)), '0\n'])


def measured(grouter, design, nets, body, end):
    """Runs `measure` on routes in which each net has a block of the same segments; the last block ends with this."""
    def parts():
        for net in range(nets):
            yield f'n{net} {net}\n'.encode() + body + (b'!\n' if net + 1 < nets else end)
    return run(grouter, 'measure', design, '/dev/stdin', parts=parts())


def main():
    words = argparse.ArgumentParser(description=__doc__, formatter_class=argparse.RawDescriptionHelpFormatter)
    words.add_argument('--only', nargs='+', choices=KINDS, default=list(KINDS))
    words.add_argument('--megabytes', type=int, default=128)
    words.add_argument('--grouter', default=built('grouter'))
    asked = words.parse_args()
    print('| Text | Blocks | Segments (millions) | MB | Read | Judged whole | Times | Memory (MiB) |\n|---|---|---|---|---|---|---|---|')
    with tempfile.TemporaryDirectory() as room:
        for kind in asked.only:
            segments = KINDS[kind]()
            body = ''.join(segments).encode()
            nets = max(1, asked.megabytes * 1_000_000 // len(body))
            design = os.path.join(room, 'design')
            with open(design, 'w', encoding='ascii') as file:
                file.write(design_of(nets))
            read, whole = (measured(asked.grouter, design, nets, body, end) for end in (b'?\n', b'!\n'))
            assert whole.status == 0 and read.status not in (0, 8), (whole.said, read.said)
            print(f'| {kind} | {nets:,} | {nets * len(segments) / 1e6:.1f} | {nets * len(body) / 1e6:.0f} | {read.processor:.2f} '
                  f'| {whole.processor:.2f} | {whole.processor / read.processor:.1f} | {whole.memory:.0f} |', flush=True)


if __name__ == '__main__':
    main()
