#!/usr/bin/env python3
"""Routes a design, and times `climb` and `unavoidable` on its routes and its certificate.

    bench/climb_speed.py DESIGN [--turns N ..] [--route WORD ..] [--keep FOLDER] [--grouter PROGRAM] [--unavoidable PROGRAM]

`route` runs with its default options, or with those behind --route, which come last and have a `+` for each `--` (`--route +budget
850000 +workers 4`). Then come `climb` with each number of --turns (4 and 16) and `unavoidable`, each from the certificate of
`route`, and `judge` has to say yes to each new certificate. Routes and certificate go to a folder that is removed, unless --keep
names one. It prints a line of a table for each run: the turn that is answered, the bound, the seconds on the clock, those of the
processor in user mode, and the memory.
"""
import argparse
import os
import tempfile
from fractions import Fraction

from runs import accepted, built


def timed(*words):
    """What a run says, as names with their values, and its seconds and memory as the ends of a line."""
    done = accepted(*words)
    return done.named(), f'{done.clock:.1f} | {done.user:.1f} | {done.memory:.0f}'


def shown(bound):
    return bound if bound == 'none' else f'{float(Fraction(bound)):.3f}'


def main():
    words = argparse.ArgumentParser(description=__doc__, formatter_class=argparse.RawDescriptionHelpFormatter)
    words.add_argument('design')
    words.add_argument('--turns', nargs='+', type=int, default=[4, 16])
    words.add_argument('--grouter', default=built('grouter'))
    words.add_argument('--unavoidable', default=built('unavoidable'))
    words.add_argument('--route', nargs='*', default=[])
    words.add_argument('--keep')
    asked = words.parse_args()
    options = ['--' + word[1:] if word.startswith('+') else word for word in asked.route]
    with tempfile.TemporaryDirectory() as removed:
        room = asked.keep or removed
        os.makedirs(room, exist_ok=True)
        routes, cert, new = (os.path.join(room, name) for name in ('routes', 'cert', 'new'))
        files = asked.design, routes, cert, new
        runs = [('route', (asked.grouter, 'route', *files[:3], *options))]
        runs += [(f'climb, {turns} turns', (asked.grouter, 'climb', *files, '--turns', str(turns))) for turns in asked.turns]
        runs += [('unavoidable', (asked.unavoidable, *files))]
        for name, run in runs:
            named, used = timed(*run)
            print(f'| {os.path.basename(asked.design)} | {name} | {named.get("turn", "")} | {shown(named["bound"])} | {used} |', flush=True)
            if name != 'route':
                timed(asked.grouter, 'judge', asked.design, routes, new)
                os.remove(new)


if __name__ == '__main__':
    main()
