#!/usr/bin/env python3
"""Counts what `route` does, stage by stage, in a build of its plain sources.

    bench/plain_counts.py CHECKOUT FOLDER DESIGN [WORD ..]
    bench/plain_counts.py CHECKOUT FOLDER --instructions DESIGN [WORD ..]
    bench/plain_counts.py CHECKOUT FOLDER --instructions judge DESIGN ROUTES CERT

Writes the plain sources of CHECKOUT to FOLDER as bench/plain_build.py does, adds the tallies named below, builds and runs
`plain_route DESIGN --timing WORD ..`. As it ends, each worker's part of a phase or round says what it took of the processor and on
the clock. Behind the seconds of each stage stand

- changes of one load in the lists of prices, and renewals of all prices with their mean time;
- the mean time of every second reading of all loads, and that of a plain copy of the words before each of the others;
- vertices taken out of searches, by the type of the bound that leads them, or by a name.

With --instructions nothing is added, and `valgrind` counts the instructions of a run, which no other work on the machine changes; where a
command stands there, of `grouter` with these words. These runs are of one thread, but for that of `route` with --workers.

Counting takes some nanoseconds a vertex, and the copies count in the seconds of stages and parts. CHECKOUT may be an earlier commit,
if its sources have the same functions.
"""
import argparse
import os
import re
import subprocess

from runs import COMMANDS, plain_words

HERE = os.path.dirname(os.path.abspath(__file__))
ONCE = 'static TALLY: std::tally::Tally = std::tally::Tally::new("{}"); TALLY.once();'
TIMED = 'static TALLY: std::tally::Tally = std::tally::Tally::new("{}"); let _timed = TALLY.timed();'
# by crate and file: the text behind which something is added, and what
ADDED = (
    ('edge_prices/kept_prices', r'fn set_load\(&mut self[^)]*\)\s*\{\n', ONCE.format('changes of one load')),
    ('edge_prices/kept_prices', r'fn renew\(&mut self\)\s*\{\n\s*if !self\.stale \{\n\s*return;\n\s*\}\n', TIMED.format('renewals of all prices')),
    ('price_workers/reading', r'fn read_all\([^)]*\)\s*\{\n', 'let _timed = std::tally::reading(table.table.shared.words());'),
    ('routing_passes/workers', r'if last - first == 1 \{\n', 'let _timed = std::tally::part(first);'),
    ('label_search/search', r'fn advance<[^{]*\{\n', 'std::tally::taken(core::any::type_name::<B>());'),
    ('dijkstra_steiner/search', r'(?=let from = row\.take\(\);)', 'std::tally::taken("masks at tiles");'),
    ('shortest_paths/nearest', r'(?=let at = row\.take\(\);)', 'std::tally::taken("nearest terminal");'),
    ('shortest_paths/led_search', r'(?=Some\(self\.row\.take\(\)\))', 'std::tally::taken("led search, step by step");'),
)
# what the added lines look into
OPENED = (('load_table/table', 'pub(crate) table: Table', 'pub table: Table'),)


def path_of(folder, place):
    crate, file = place.split('/')
    return os.path.join(folder, 'crates', crate, 'src', f'{file}.rs')


def add_tallies(folder):
    for place, before, line in ADDED:
        path = path_of(folder, place)
        text, found = re.subn(before, lambda match: f'{match.group()}{line}\n', open(path).read(), count=1)
        if not found:
            print(f'not counted here: {line}')
        with open(path, 'w') as out:
            out.write(text)
    for place, closed, opened in OPENED:
        path = path_of(folder, place)
        text = open(path).read()
        with open(path, 'w') as out:
            out.write(text.replace(closed, opened))


def count_instructions(run):
    """Prints what a run says, and how many instructions it takes."""
    words = ['valgrind', '--tool=cachegrind', '--cache-sim=no', '--cachegrind-out-file=/dev/null', *run]
    done = subprocess.run(words, check=True, capture_output=True, text=True, env=os.environ | {'PLAIN_THREADS': '1'})
    print(f'{done.stdout}instructions: {re.search(r"I +refs: +([0-9,]+)", done.stderr)[1]}')


def main():
    words = argparse.ArgumentParser(description=__doc__, formatter_class=argparse.RawDescriptionHelpFormatter)
    words.add_argument('checkout')
    words.add_argument('folder')
    words.add_argument('--instructions', action='store_true')
    words.add_argument('first', metavar='DESIGN')
    words.add_argument('words', nargs=argparse.REMAINDER)
    asked = words.parse_args()
    if asked.first in COMMANDS and not asked.instructions:
        words.error('stages are counted of plain_route alone: a command goes with --instructions')
    subprocess.run([os.path.join(HERE, 'plain_build.py'), asked.checkout, asked.folder], check=True)
    if not asked.instructions:
        add_tallies(asked.folder)
    package = 'grouter' if asked.first in COMMANDS else 'plain_programs'
    subprocess.run(['cargo', 'build', '-q', '--release', '--offline', '-p', package], cwd=asked.folder, check=True)
    run = plain_words(asked.folder, asked.first, asked.words)
    if asked.instructions:
        count_instructions(run)
        return
    said = subprocess.run(run, check=True, capture_output=True, text=True).stdout
    print(re.sub(r'\b\w+::', '', said), end='')


if __name__ == '__main__':
    main()
