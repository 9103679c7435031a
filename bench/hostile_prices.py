#!/usr/bin/env python3
"""Writes a certificate with other prices, to measure what these cost `judge`.

    bench/hostile_prices.py DESIGN CERT OUT KIND [--seed N]

CERT is a certificate of the design's routes. OUT states a bound of 0, which no prices refuse, so `judge` says yes to it where
it does to CERT. KIND is one of those listed below; `all` prints their names.
"""
import argparse
import random

MOST = 32768


def open_edges(path):
    """The open edges in rising order of number: column, row, layer and whether they lead along x."""
    with open(path) as text:
        lines = [line.split() for line in text]
    lines = [words for words in lines if words]
    cols, rows, layers = map(int, lines[0][1:4])
    along = [list(map(int, lines[2][2:])), list(map(int, lines[1][2:]))]
    begin = next(i for i, words in enumerate(lines) if words[0] == 'num')
    at = begin + 1
    for _ in range(int(lines[begin][2])):
        at += 1 + int(lines[at][2])
    level = {}
    for words in lines[at + 1:] if at < len(lines) else []:
        c, r, l, d, s, _, capacity = map(int, words)
        level[min(c, d), min(r, s), l - 1, 0 if c != d else 1] = capacity
    edges = []
    for layer in range(layers):
        for row in range(rows):
            for col in range(cols):
                for axis in (0, 1):
                    inside = col + 1 < cols if axis == 0 else row + 1 < rows
                    if inside and level.get((col, row, layer, axis), along[axis][layer]) > 0:
                        edges.append((col, row, layer, axis == 0))
    return edges


# how each kind prices an edge, by its number among the open ones and where it stands; and the price of the wirelength
KINDS = {
    'route': None,
    'none': (lambda i, count, edge: 0, 0),
    'one': (lambda i, count, edge: MOST if i == count // 2 else 0, 0),
    'drawn': (lambda i, count, edge: random.randint(0, MOST), 0),
    'drawn_ends': (lambda i, count, edge: random.choice((0, MOST)), 0),
    'drawn_few': (lambda i, count, edge: random.choice((0, 0, 0, 0, 0, 0, 0, MOST)), 0),
    'checkerboard': (lambda i, count, edge: MOST if (edge[0] + edge[1]) % 2 else 0, 0),
    'blocks': (lambda i, count, edge: MOST if (edge[0] // 8 + edge[1] // 8) % 2 else 1, 0),
    'stripes': (lambda i, count, edge: MOST if (edge[1] if edge[3] else edge[0]) % 4 != edge[2] % 4 else 0, 0),
    'low_layers': (lambda i, count, edge: MOST if edge[2] < 2 else 0, 0),
    'rising': (lambda i, count, edge: 1 + i * (MOST - 1) // count, 0),
    'fences': (lambda i, count, edge: MOST if edge[0] % 16 == 0 and edge[3] else 1, 0),
    'budget_cheap': (lambda i, count, edge: i % 2, 1),
    'budget_alone': (lambda i, count, edge: 0, MOST),
    'budget_drawn': (lambda i, count, edge: random.randint(0, MOST), 1),
    'budget_both': (lambda i, count, edge: random.randint(0, MOST), MOST // 8),
}


def main():
    words = argparse.ArgumentParser(description=__doc__, formatter_class=argparse.RawDescriptionHelpFormatter)
    words.add_argument('design')
    words.add_argument('cert')
    words.add_argument('out')
    words.add_argument('kind')
    words.add_argument('--seed', type=int, default=1)
    asked = words.parse_args()
    if asked.kind == 'all':
        print(*KINDS)
        return
    random.seed(asked.seed)
    with open(asked.cert) as text:
        lines = [line.split() for line in text]
    facts = {words[0]: words[1] for words in lines[1:] if len(words) > 1}
    begin = next(i for i, words in enumerate(lines) if words[0] == 'prices')
    prices = [int(words[0]) for words in lines[begin + 1:]]
    budget = facts.get('budget')
    per_piece = next((words[2] for words in lines if words[0] == 'budget'), 0)
    if KINDS[asked.kind]:
        price, per_piece = KINDS[asked.kind]
        edges = open_edges(asked.design)
        assert len(edges) == len(prices), 'the certificate is not of this design'
        prices = [price(i, len(edges), edge) for i, edge in enumerate(edges)]
    if per_piece and not budget:
        budget = 2 * int(facts['wirelength'])
    with open(asked.out, 'w') as out:
        print('grouter certificate', 2 if budget else 1, file=out)
        for name in ('nets', 'forced', 'overflow', 'wirelength', 'peak'):
            print(name, facts[name], file=out)
        print('bound 0/1', file=out)
        if budget:
            print('budget', budget, per_piece, file=out)
        print('prices', len(prices), file=out)
        print(*prices, sep='\n', file=out)


main()
