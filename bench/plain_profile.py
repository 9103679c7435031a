#!/usr/bin/env python3
"""Tells where the processor time of a program goes, by samples of `perf`.

    bench/plain_profile.py CHECKOUT FOLDER DESIGN [WORD ..]
    bench/plain_profile.py CHECKOUT FOLDER judge DESIGN ROUTES CERT

Writes the plain sources of CHECKOUT to FOLDER as bench/plain_build.py does, keeps the functions named below out of line, builds
and runs `plain_route DESIGN --timing WORD ..`, or `grouter` with the command that stands there, by one thread. It prints which share of
the samples lies in each function, with what it calls. A function inside another one that is named is printed below it.
"""
import argparse
import collections
import os
import re
import subprocess

from runs import plain_words

HERE = os.path.dirname(os.path.abspath(__file__))
# what a function may be for, by its types, the first of which counts
KINDS = {'RowFamily': 'on the grid', 'GoalBound': 'on the grid', 'FlatWeights': 'between tiles', 'TileCosts': 'between tiles of a class'}
# by crate and file, the functions that are told apart
NAMED = {
    'command_runs/sources': ['read_grounded'],
    'sharing_phases/sharing': ['share'],
    'ripup_repair/repairing': ['repair'],
    'dual_bound/design_bound': ['bound'],
    'price_workers/reading': ['read_all'],
    'price_workers/loads': ['put_tree', 'take_tree'],
    'edge_prices/kept_prices': ['renew'],
    'steiner_exact/least_path': ['least_path'],
    'steiner_exact/trees': ['least_of_several', 'least_over_tiles', 'least_led', 'least_with_balls', 'least_by_boxes'],
    'steiner_exact/guess': ['tree_guess'],
    'steiner_exact/root_search': ['least_at_root'],
    'steiner_exact/reading': ['read_tree'],
    'shortest_paths/labels': ['pruned', 'distance_past', 'path_to', 'distance_from_any'],
    'steiner_span/spanning': ['spanning_tree'],
    'steiner_span/grow': ['grow_tree'],
    'steiner_span/way_back': ['way_back'],
    'lower_bound/class_bounds': ['least_cost', 'sum_of_halves', 'bound_of_many'],
    'lower_bound/halves': ['sum_of_halves'],
    'lower_bound/kept_halves': ['sum_of_kept_halves'],
    'lower_bound/spread': ['choose'],
    'least_weights/least': ['least_by_landmarks', 'distance_by'],
    'landmarks/landmarks': ['renew'],
    'dijkstra_steiner/search': ['least_over_masks'],
    'judge_cli/judged_files': ['read_blocks', 'read_certificate'],
    'route_judge/routes': ['measure_routes'],
    'dual_bound/class_order': ['nets_by_class'],
}


def keep_out_of_line(folder):
    for place, functions in NAMED.items():
        crate, file = place.split('/')
        path = os.path.join(folder, 'crates', crate, 'src', f'{file}.rs')
        text = open(path).read()
        for function in functions:
            text = re.sub(rf'^( *)((?:pub(?:\(crate\))? )?fn {function}\b)', r'\1#[inline(never)]\n\1\2', text, flags=re.M)
        with open(path, 'w') as out:
            out.write(text)


def plain_name(symbol):
    """A symbol without what it is generic over."""
    symbol, before = re.sub(r'^<(\S+?)(?:<.*>)?(?: as \S+)?>', r'\1', symbol), None
    while symbol != before:
        symbol, before = re.sub(r'(::)?<[^<>]*>', '', symbol), symbol
    return symbol


def label(symbol):
    """The named function that a symbol is, or None."""
    parts = plain_name(symbol).split('::')
    for place, functions in NAMED.items():
        crate = place.split('/')[0]
        if parts[0] == crate and parts[-1] in functions:
            return f'{crate}::{parts[-1]}' + next((f' ({KINDS[kind]})' for kind in KINDS if kind in symbol), '')
    return None


def count_samples(script):
    totals = collections.Counter()
    for sample in script.split('\n\n'):
        symbols = [re.sub(r'^\s*[0-9a-f]+ (.*?)(\+0x[0-9a-f]+)? \(.*$', r'\1', line) for line in sample.splitlines()[1:]]
        path = []
        for symbol in reversed(symbols):
            name = label(symbol)
            if name and name not in path:
                path.append(name)
        if symbols:
            for end in range(len(path) + 1):
                totals[tuple(path[:end])] += 1
    return totals


def show(totals, path=(), depth=0):
    below = sorted((found for found in totals if len(found) == len(path) + 1 and found[:len(path)] == path), key=lambda found: -totals[found])
    for found in below:
        print(f'{100 * totals[found] / totals[()]:6.1f} %  {"    " * depth}{found[-1]}')
        show(totals, found, depth + 1)
    rest = totals[path] - sum(totals[found] for found in below)
    if below and rest * 1000 > totals[()]:
        print(f'{100 * rest / totals[()]:6.1f} %  {"    " * depth}else')


def show_leaves(script):
    leaves = collections.Counter()
    for sample in script.split('\n\n'):
        if len(lines := sample.splitlines()) > 1:
            leaves[plain_name(re.sub(r'^\s*[0-9a-f]+ (.*?)(\+0x[0-9a-f]+)? \(.*$', r'\1', lines[1]))] += 1
    for name, count in leaves.most_common(16):
        print(f'{100 * count / sum(leaves.values()):6.1f} %  {name}')


def main():
    words = argparse.ArgumentParser(description=__doc__, formatter_class=argparse.RawDescriptionHelpFormatter)
    words.add_argument('checkout')
    words.add_argument('folder')
    words.add_argument('first', metavar='DESIGN')
    words.add_argument('words', nargs=argparse.REMAINDER)
    asked = words.parse_args()
    subprocess.run([os.path.join(HERE, 'plain_build.py'), asked.checkout, asked.folder], check=True)
    keep_out_of_line(asked.folder)
    flags = {'RUSTFLAGS': '-C force-frame-pointers=yes -C symbol-mangling-version=v0', 'PLAIN_THREADS': '1'}
    subprocess.run(['cargo', 'build', '-q', '--release', '--offline'], cwd=asked.folder, check=True, env=os.environ | flags)
    data = os.path.join(asked.folder, 'perf.data')
    run = ['perf', 'record', '-q', '-F', '199', '--call-graph', 'fp', '-o', data, *plain_words(asked.folder, asked.first, asked.words)]
    subprocess.run(run, check=True, env=os.environ | flags)
    script = subprocess.run(['perf', 'script', '-i', data, '-F', 'comm,ip,sym,dso'], check=True, capture_output=True, text=True).stdout
    totals = count_samples(script)
    print(f'{totals[()]} samples, by stage:')
    show(totals)
    print('the functions in which they lie themselves, whoever calls them:')
    show_leaves(script)


if __name__ == '__main__':
    main()
