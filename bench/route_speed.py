#!/usr/bin/env python3
"""Times `grouter route` on designs: whole runs, a phase alone, and the judge, beside another router where one is named.

    bench/route_speed.py DESIGN .. [--workers N ..] [--times N] [--phases] [--judge] [--beside PROGRAM] [--plain FOLDER]

`grouter route DESIGN ROUTES CERT` runs with each number of --workers (1), --times times (1), each beside the others in turn. PROGRAM is
called as `PROGRAM DESIGN --phases 4 --rounds 4`, and has one thread. It prints a line of a table for each: overflow and wirelength, and
of the run with the least seconds those on the clock and of the processor in user mode, and its memory in MiB.

With --phases a line more for each number of workers tells what a phase takes: runs of six phases and of two, without repair, differ by
four. With --judge a line tells what `judge` takes for the routes and the certificate of the first number of workers. --plain names a
build that bench/plain_build.py prepared, whose programs run in place of those that the gate built.
"""
import argparse
import os
import tempfile

from runs import accepted, built

DEFAULTS = ('--phases', '4', '--rounds', '4')


def least(runs):
    return min(runs, key=lambda done: done.user)


class Bench:
    """The runs on one design, whose texts go to a folder."""

    def __init__(self, asked, design, room):
        self.asked, self.design, self.room = asked, design, room
        self.program = f'{asked.plain}/target/release/grouter' if asked.plain else built('grouter')

    def texts(self, workers):
        return os.path.join(self.room, f'{workers}.routes'), os.path.join(self.room, f'{workers}.cert')

    def routed(self, workers, *options):
        return accepted(self.program, 'route', self.design, *self.texts(workers), '--workers', str(workers), *options)

    def whole(self):
        """Whole runs of each kind, in turn."""
        runs = {}
        for _ in range(self.asked.times):
            for workers in self.asked.workers:
                runs.setdefault(f'route, {workers}', []).append(self.routed(workers))
            if self.asked.beside:
                name = os.path.basename(self.asked.beside)
                runs.setdefault(name, []).append(accepted(self.asked.beside, self.design, *DEFAULTS))
        return runs

    def judged(self):
        """The judge of what the first number of workers wrote last."""
        return [accepted(self.program, 'judge', self.design, *self.texts(self.asked.workers[0])) for _ in range(self.asked.times)]

    def phase(self, workers):
        """What a phase takes, on the clock and of the processor."""
        few, many = ([self.routed(workers, '--phases', str(phases), '--rounds', '0') for _ in range(self.asked.times)] for phases in (2, 6))
        clock = min(done.clock for done in many) - min(done.clock for done in few)
        return clock / 4, (least(many).user - least(few).user) / 4

    def lines(self):
        """The lines of the table."""
        for name, runs in self.whole().items():
            one, said = least(runs), runs[-1].named()
            yield name, said.get('overflow', ''), said.get('wirelength', ''), f'{one.clock:.1f}', f'{one.user:.1f}', f'{one.memory:.0f}'
        if self.asked.judge:
            one = least(self.judged())
            yield 'judge', '', '', f'{one.clock:.1f}', f'{one.user:.1f}', f'{one.memory:.0f}'
        if self.asked.phases:
            for workers in self.asked.workers:
                clock, user = self.phase(workers)
                yield f'a phase, {workers}', '', '', f'{clock:.2f}', f'{user:.2f}', ''


def main():
    words = argparse.ArgumentParser(description=__doc__, formatter_class=argparse.RawDescriptionHelpFormatter)
    words.add_argument('designs', nargs='+', metavar='DESIGN')
    words.add_argument('--workers', nargs='+', type=int, default=[1])
    words.add_argument('--times', type=int, default=1)
    words.add_argument('--phases', action='store_true')
    words.add_argument('--judge', action='store_true')
    words.add_argument('--beside', metavar='PROGRAM')
    words.add_argument('--plain', metavar='FOLDER')
    asked = words.parse_args()
    print('| Design | Run | Overflow | Wirelength | Clock (s) | Processor (s) | Memory (MiB) |\n|---|---|---|---|---|---|---|')
    for design in asked.designs:
        with tempfile.TemporaryDirectory() as room:
            for line in Bench(asked, design, room).lines():
                print(f'| {os.path.basename(design)} | {" | ".join(line)} |', flush=True)


if __name__ == '__main__':
    main()
