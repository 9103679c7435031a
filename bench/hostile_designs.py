#!/usr/bin/env python3
"""Measures what widths, forced nets and hostile prices cost, beside the same design without them.

    bench/hostile_designs.py DESIGN [--workers N] [--only KIND ..] [--seconds N] [--plain FOLDER]

The first table has the design as it is, with widths drawn from 1 to 4, and with all edges closed at one net's pin, so that some nets
are forced. `route` takes one phase and no rounds with --workers threads (1); `judge` and `unavoidable` have its routes. The second
table has what `judge` takes under other prices of the first routes, of each kind of bench/hostile_prices.py, or of --only. A run of
`judge` is ended after --seconds on the clock (300). Seconds are on the clock and of the processor in user mode. --plain names a build
that bench/plain_build.py prepared, whose programs run in place of those that the gate built.
"""
import argparse
import os
import subprocess
import sys
import tempfile

from runs import TOP, accepted, built, run

CHANGES = {'as it is': None, 'widths from 1 to 4': ('--widths', '1', '4'), 'one pin closed in': ('--forced', '1')}
# the status of `timeout` where it ended a run
ENDED = 124


def script(name, *words):
    """What a script of this folder says."""
    return subprocess.run([sys.executable, f'{TOP}/bench/{name}.py', *words], check=True, stdout=subprocess.PIPE, text=True).stdout


def seconds(done):
    return f'{done.clock:.1f}, {done.user:.1f}'


def line_of(name, design, room, workers, program):
    """The line of a design: what it costs to route it, to judge the routes, and to show what can't be avoided."""
    routes, cert, proved = (os.path.join(room, text) for text in ('routes', 'cert', 'proved'))
    for text in filter(os.path.exists, (routes, cert, proved)):
        os.remove(text)
    routed = accepted(program('grouter'), 'route', design, routes, cert, '--phases', '1', '--rounds', '0', '--workers', str(workers))
    judged = accepted(program('grouter'), 'judge', design, routes, cert)
    shown = accepted(program('unavoidable'), design, routes, cert, proved)
    forced = routed.named()['forced']
    return f'| {name} | {forced} | {seconds(routed)} | {seconds(judged)} | {seconds(shown)} |'


def main():
    words = argparse.ArgumentParser(description=__doc__, formatter_class=argparse.RawDescriptionHelpFormatter)
    words.add_argument('design')
    words.add_argument('--workers', type=int, default=1)
    words.add_argument('--only', nargs='*')
    words.add_argument('--seconds', type=int, default=300)
    words.add_argument('--plain')
    asked = words.parse_args()
    program = (lambda name: f'{asked.plain}/target/release/{name}') if asked.plain else built
    with tempfile.TemporaryDirectory() as room:
        print('| Design | Forced | `route`, one phase | `judge` | `unavoidable` |\n|---|---|---|---|---|')
        changed = os.path.join(room, 'changed.gr')
        # the design as it is comes last, so its routes and certificate stay for the second table
        for name, change in [*CHANGES.items()][::-1]:
            if change:
                script('change_design', asked.design, changed, *change)
            print(line_of(name, changed if change else asked.design, room, asked.workers, program), flush=True)
        print('\n| Prices | `judge` |\n|---|---|')
        cert = os.path.join(room, 'hostile')
        kinds = script('hostile_prices', asked.design, cert, cert, 'all').split() if asked.only is None else asked.only
        for kind in kinds:
            script('hostile_prices', asked.design, os.path.join(room, 'cert'), cert, kind)
            judged = run('timeout', str(asked.seconds), program('grouter'), 'judge', asked.design, os.path.join(room, 'routes'), cert)
            assert judged.status in (0, ENDED), judged
            print(f'| {kind} | {"ended after " if judged.status == ENDED else ""}{seconds(judged)} |', flush=True)


if __name__ == '__main__':
    main()
