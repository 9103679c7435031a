#!/usr/bin/env python3
"""Times `reroute` on designs, beside another router where one is named.

    bench/reroute_speed.py DESIGN .. [--workers N ..] [--times N] [--at-once N] [--options WORD ..] [--beside PROGRAM] [--routes ROUTES]

`reroute DESIGN NEW` runs from none with each number of --workers (1), or `reroute DESIGN ROUTES NEW` where --routes names routes, with
the words behind --options (a `+` for each `--`). PROGRAM is called as `PROGRAM DESIGN none NEW`, or with the routes in place of `none`.
All run in turn, --times times (1). It prints a line of a table for each: overflow and wirelength, as `measure` counts them, and of the
run with the least seconds those on the clock and of the processor in user mode, and its memory in MiB. It fails where two runs of
`reroute` write different bytes.

Processors of a virtual machine are slower where others work beside them, so several workers can't be as many times as fast as one that
runs alone. With --at-once N a last line tells the mean of N runs with one worker each that are started at once.
"""
import argparse
import os
import tempfile
from concurrent.futures import ThreadPoolExecutor
from statistics import mean

from runs import accepted, built


def read(path):
    with open(path, 'rb') as file:
        return file.read()


def least(runs):
    return min(runs, key=lambda done: done.user)


def time_at_once(asked, design, room):
    """Runs with one worker each, all at once."""
    def one(number):
        return accepted(built('reroute'), design, *asked.given, os.path.join(room, f'copy-{number}'), *asked.options)
    with ThreadPoolExecutor(asked.at_once) as pool:
        return list(pool.map(one, range(asked.at_once)))


def time_all(asked, design, room):
    """The runs of each program on a design, and the routes that each writes."""
    given, options = asked.given, asked.options
    calls = {f'reroute, {count}': (built('reroute'), design, *given, os.path.join(room, f'new-{count}'), *options, '--workers', str(count))
             for count in asked.workers}
    new = {name: os.path.join(room, f'new-{count}') for name, count in zip(calls, asked.workers)}
    if asked.beside:
        name = os.path.basename(asked.beside)
        new[name] = os.path.join(room, 'beside')
        calls[name] = (asked.beside, design, *(given or ['none']), new[name])
    runs = {name: [] for name in calls}
    for _ in range(asked.times):
        for name, call in calls.items():
            if os.path.exists(new[name]):
                os.remove(new[name])
            runs[name].append(accepted(*call))
    return runs, new


def main():
    words = argparse.ArgumentParser(description=__doc__, formatter_class=argparse.RawDescriptionHelpFormatter)
    words.add_argument('designs', nargs='+', metavar='DESIGN')
    words.add_argument('--workers', nargs='+', type=int, default=[1])
    words.add_argument('--times', type=int, default=1)
    words.add_argument('--at-once', type=int, default=0, metavar='N')
    words.add_argument('--options', nargs='*', default=[])
    words.add_argument('--beside', metavar='PROGRAM')
    words.add_argument('--routes')
    asked = words.parse_args()
    asked.given = [asked.routes] if asked.routes else []
    asked.options = ['--' + word[1:] if word.startswith('+') else word for word in asked.options]
    print('| Design | Run | Overflow | Wirelength | Clock (s) | Processor (s) | Memory (MiB) |\n|---|---|---|---|---|---|---|')
    for design in asked.designs:
        with tempfile.TemporaryDirectory() as room:
            runs, new = time_all(asked, design, room)
            for name, done in runs.items():
                said = accepted(built('grouter'), 'measure', design, new[name]).named()
                one = least(done)
                print(f'| {os.path.basename(design)} | {name} | {said["overflow"]} | {said["wirelength"]} | {one.clock:.2f} | {one.user:.2f} | '
                      f'{one.memory:.0f} |', flush=True)
            if asked.at_once:
                done = time_at_once(asked, design, room)
                print(f'| {os.path.basename(design)} | {len(done)} at once | | | {mean(it.clock for it in done):.2f} | '
                      f'{mean(it.user for it in done):.2f} | {mean(it.memory for it in done):.0f} |', flush=True)
            assert len({read(new[f'reroute, {count}']) for count in asked.workers}) == 1, f'{design}: other bytes with other workers'


if __name__ == '__main__':
    main()
