#!/usr/bin/env python3
"""Draws designs, runs the programs on them, and prints tables of what they cost and what they answer.

    bench/designs.py SIZE .. [--kinds easy hard] [--seeds N ..] [--only RUN ..] [--workers N] [--shares X ..] [--keep FOLDER]
                     [--plain FOLDER]

SIZE is one that bench/draw_design.rs names, which `rustc` compiles first. Each design goes through the runs listed below, in their
order; `--only` leaves out all but some, and those whose texts a later one reads have to be among them. Every text that a run writes
is judged or measured by a later one. --workers is how many threads `route` and `reroute` take (4). The runs with a budget get each of
--shares (0.9) times the wirelength that `route` came to. --plain names a build that bench/plain_build.py prepared, whose programs run
in place of those that the gate built.

Designs, texts and results go to a folder that is removed, unless --keep names one: a run that this folder has the results of isn't
made again, so what was stopped can be led on, and designs can be added.

A line of the first table gives overflow, wirelength and bound, as far as the run answers them, seconds on the clock and of the
processor in user mode, and the memory in MiB; a run that ends with a status other than 0 says so. The second table has a line for each
design. Where designs have different numbers of nets, a last table tells how the seconds of the processor grow with these: by which
power of them, by the least squares of the logarithms.
"""
import argparse
import json
import os
import subprocess
import tempfile
from dataclasses import asdict
from fractions import Fraction
from statistics import linear_regression
from math import log

from runs import TOP, Run, built, run

# of each run the program and its words: D is the design, N the workers, B a budget, and other names in capitals are texts of the folder
RUNS = {
    'route': ('grouter', 'route', 'D', 'ROUTES', 'CERT', '--workers', 'N'),
    'judge': ('grouter', 'judge', 'D', 'ROUTES', 'CERT'),
    'measure': ('grouter', 'measure', 'D', 'ROUTES'),
    'climb': ('grouter', 'climb', 'D', 'ROUTES', 'CERT', 'CLIMBED'),
    'unavoidable': ('unavoidable', 'D', 'ROUTES', 'CERT', 'PROVED'),
    'judge proved': ('grouter', 'judge', 'D', 'ROUTES', 'PROVED'),
    'guide': ('grouter', 'guide', 'D', 'ROUTES', 'GUIDES'),
    'congestion_map': ('congestion_map', 'D', 'ROUTES', 'PICTURE'),
    'congestion_map cells': ('congestion_map', 'D', 'ROUTES', 'CELLS'),
    'route budget': ('grouter', 'route', 'D', 'WITHIN', 'PRICED', '--workers', 'N', '--budget', 'B'),
    'judge budget': ('grouter', 'judge', 'D', 'WITHIN', 'PRICED'),
    'reroute none': ('reroute', 'D', 'REROUTED', '--workers', 'N'),
    'measure rerouted': ('grouter', 'measure', 'D', 'REROUTED'),
    'unavoidable rerouted': ('unavoidable', 'D', 'REROUTED', 'SHOWN'),
    'judge rerouted': ('grouter', 'judge', 'D', 'REROUTED', 'SHOWN'),
    'guide rerouted': ('grouter', 'guide', 'D', 'REROUTED', 'GUIDED'),
    'congestion_map rerouted': ('congestion_map', 'D', 'REROUTED', 'DRAWN'),
    'reroute routes': ('reroute', 'D', 'ROUTES', 'BETTER', '--workers', 'N'),
    'measure better': ('grouter', 'measure', 'D', 'BETTER'),
}
ENDINGS = {'PICTURE': '.svg', 'DRAWN': '.svg', 'CELLS': '.csv'}
TEXTS = {word for words in RUNS.values() for word in words if word.isupper() and len(word) > 1}
# the programs whose growth is told, and the run of each
GROWING = ('route', 'judge', 'measure', 'reroute none', 'unavoidable rerouted')
# of the line of a design: what a cell tells, and of which run
CELLS = {
    'Overflow of `route`': ('route', 'overflow'), 'Wirelength': ('route', 'wirelength'), 'Bound': ('route', 'bound'),
    'Clock (s)': ('route', 'clock'), '`judge`': ('judge', 'user'), '`measure`': ('measure', 'user'),
    'Overflow of `reroute`': ('reroute none', 'overflow'), 'Wirelength of it': ('reroute none', 'wirelength'),
    'Clock of it (s)': ('reroute none', 'clock'), 'Overflow that none avoids': ('unavoidable rerouted', 'overflow'),
    'Bound of it': ('unavoidable rerouted', 'bound'), '`unavoidable`': ('unavoidable rerouted', 'user'),
}


def words_of(name, stands, plain):
    """The words of a run, whose program is that of a plain build where there is one."""
    program, *words = RUNS[name]
    return [f'{plain}/target/release/{program}' if plain else built(program), *(stands.get(word, word) for word in words)]


def bound_of(said):
    bound = said.get('bound', '')
    return f'{float(Fraction(bound)):.3f}' if '/' in bound else bound


def line_of(design, name, done):
    said = done.named() if done.status == 0 else {}
    answers = [said.get('overflow', ''), said.get('wirelength', ''), bound_of(said)]
    failed = '' if done.status == 0 else f' (status {done.status})'
    return f'| {design} | {name}{failed} | {" | ".join(answers)} | {done.clock:.1f} | {done.user:.1f} | {done.memory:.0f} |'


def cell_of(done, what):
    """What a cell tells of a run: nothing where it wasn't made or has no such answer."""
    if done is None or done.status != 0:
        return ''
    if what in ('clock', 'user'):
        return f'{getattr(done, what):.1f}'
    return bound_of(done.named()) if what == 'bound' else done.named().get(what, '')


def summary(table):
    """A line for each design, whose seconds are those in user mode where nothing else is said."""
    yield '| Design | ' + ' | '.join(CELLS) + ' |'
    yield '|---' * (len(CELLS) + 1) + '|'
    for name, runs in table.items():
        yield f'| {name} | ' + ' | '.join(cell_of(runs.get(run), what) for run, what in CELLS.values()) + ' |'


def growth(table, nets):
    """A line for each program whose seconds grow with the number of nets."""
    yield '| Run | Designs | Power of the nets |\n|---|---|---|'
    for name in GROWING:
        points = [(log(nets[design]), log(max(runs[name].user, 0.01))) for design, runs in table.items()
                  if name in runs and runs[name].status == 0]
        if len({x for x, _ in points}) > 1:
            yield f'| {name} | {len(points)} | {linear_regression(*zip(*points)).slope:.2f} |'


def nets_of(design):
    """How many nets a design has."""
    with open(design, encoding='ascii') as file:
        return next(int(line.split()[2]) for line in file if line.startswith('num net'))


class Bench:
    """The runs of a folder, with their results."""

    def __init__(self, room, asked):
        self.room, self.asked, self.file = room, asked, os.path.join(room, 'results.json')
        self.draw = os.path.join(room, 'draw_design')
        self.kept = {}
        if os.path.exists(self.file):
            with open(self.file, encoding='ascii') as file:
                self.kept = json.load(file)

    def drawn(self, size, kind, seed):
        """The path of a design, which is drawn where the folder hasn't got it."""
        design = os.path.join(self.room, f'{size}-{kind}-{seed}.gr')
        if not os.path.exists(design):
            subprocess.run([self.draw, size, design, f'--{kind}', '--seed', str(seed)], check=True)
        return design

    def done(self, name, one, words):
        """The result of a run, which is made where the folder hasn't got it."""
        runs = self.kept.setdefault(name, {})
        if one not in runs:
            runs[one] = asdict(run(*words))
            with open(self.file, 'w', encoding='ascii') as file:
                json.dump(self.kept, file, indent=1)
        return Run(**runs[one])

    def runs_of(self, name, design):
        """The runs of a design, by their names, of those with a budget one for each share."""
        # a text that a run will write goes first, since some programs refuse a file that is there
        stands = {'D': design, 'N': str(self.asked.workers)}
        stands |= {text: f'{design[:-3]}-{text.lower()}{ENDINGS.get(text, "")}' for text in TEXTS}
        for one in self.asked.only:
            for share in self.asked.shares if one.endswith('budget') else [None]:
                called = one if share is None else f'{one} {share}'
                if share is not None:
                    routed = Run(**self.kept[name]['route']).named()
                    stands |= {'B': str(int(share * int(routed['wirelength'])))}
                    stands |= {text: f'{design[:-3]}-{text.lower()}-{share}' for text in ('WITHIN', 'PRICED')}
                yield called, self.done(name, called, words_of(one, stands, self.asked.plain))


def main():
    words = argparse.ArgumentParser(description=__doc__, formatter_class=argparse.RawDescriptionHelpFormatter)
    words.add_argument('sizes', nargs='+', metavar='SIZE')
    words.add_argument('--kinds', nargs='+', choices=('easy', 'hard'), default=['easy', 'hard'])
    words.add_argument('--seeds', nargs='+', type=int, default=[1])
    words.add_argument('--only', nargs='+', choices=RUNS, default=list(RUNS))
    words.add_argument('--workers', type=int, default=4)
    words.add_argument('--shares', nargs='+', type=float, default=[0.9])
    words.add_argument('--keep')
    words.add_argument('--plain')
    asked = words.parse_args()
    with tempfile.TemporaryDirectory() as removed:
        room = asked.keep or removed
        os.makedirs(room, exist_ok=True)
        bench = Bench(room, asked)
        subprocess.run(['rustc', '-O', f'{TOP}/bench/draw_design.rs', '-o', bench.draw], check=True)
        table, nets = {}, {}
        print('| Design | Run | Overflow | Wirelength | Bound | Clock (s) | Processor (s) | Memory (MiB) |\n|---|---|---|---|---|---|---|---|')
        for size, kind, seed in ((size, kind, seed) for size in asked.sizes for kind in asked.kinds for seed in asked.seeds):
            name, design = f'{size}, {kind}, {seed}', bench.drawn(size, kind, seed)
            nets[name], table[name] = nets_of(design), {}
            for one, done in bench.runs_of(name, design):
                table[name][one] = done
                print(line_of(name, one, done), flush=True)
        print('', *summary(table), sep='\n')
        if len(set(nets.values())) > 1:
            print('', *growth(table, nets), sep='\n')


if __name__ == '__main__':
    main()
