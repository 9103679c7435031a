#!/usr/bin/env python3
"""Tells what proving each function of a crate costs in processor seconds.

    bench/function_costs.py CRATE [--test] [--least SECONDS]

Runs `rt check --jobs 1` in crates/CRATE, with --test for its tests too, from nothing unless the checker has kept something of this
checkout, and watches the files of modules that the checker writes as it ends each. A line tells a function and the processor seconds
between the module before and its own ones, summed up; functions below --least (1) have none. What a function's callers needed ahead
of it counts as its own, and the first one has the start of the process. A crate whose libraries below aren't proved takes longer.
"""
import argparse
import collections
import os
import re
import subprocess
import sys
import time

from runs import TOP

TICK = os.sysconf('SC_CLK_TCK')
# the last parts of a module's name that don't name a function
PARTS = re.compile(r'\.(Symbol|Key|Code|Mir|Lts|Tie|Proof|Statement|Met|TheLink|Given|Goals|Invariants|Answers|Auto\w*|Steps\w*)$')


def seconds_of(process):
    """The processor seconds of a process and of all below it so far."""
    try:
        with open(f'/proc/{process}/stat', encoding='utf-8') as file:
            fields = file.read().rpartition(')')[2].split()
        with open(f'/proc/{process}/task/{process}/children', encoding='utf-8') as file:
            below = file.read().split()
    except OSError:
        return 0
    return sum(map(int, fields[11:15])) / TICK + sum(map(seconds_of, below))


def modules_since(folder, begin, seen):
    """The modules that were written since then and are not among those seen, in the order of writing."""
    found = []
    for at, _, files in os.walk(folder):
        for name in files:
            path = os.path.join(at, name)
            if name.endswith('.oantt') and path not in seen and os.path.exists(path) and os.stat(path).st_mtime >= begin:
                seen.add(path)
                found.append((os.stat(path).st_mtime, name.removesuffix('.oantt')))
    return [name for _, name in sorted(found)]


def function_of(module, crate):
    """The function that a module belongs to."""
    name = re.sub(rf'^Rattle-{crate}(-(proofs|specs)(\.contracts)?)?\.?', '', module)
    while (shorter := PARTS.sub('', name)) != name:
        name = shorter
    return name.removesuffix('+run') or 'the crate'


def main():
    words = argparse.ArgumentParser(description=__doc__, formatter_class=argparse.RawDescriptionHelpFormatter)
    words.add_argument('crate')
    words.add_argument('--test', action='store_true')
    words.add_argument('--least', type=float, default=1)
    asked = words.parse_args()
    folder = os.path.join(TOP, 'crates', asked.crate)
    begin, before, seen, costs = time.time(), 0, set(), collections.Counter()
    check = subprocess.Popen(['rt', 'check', '--jobs', '1', *['--test'] * asked.test], cwd=folder, stdout=subprocess.DEVNULL)
    while check.poll() is None:
        now = max(seconds_of(check.pid), before)
        modules = modules_since(os.path.join(folder, 'out', 'incremental'), begin, seen)
        for module in modules:
            costs[function_of(module, asked.crate)] += (now - before) / len(modules)
        before = now if modules else before
        time.sleep(0.1)
    for name, cost in costs.most_common():
        if cost >= asked.least:
            print(f'{cost:7.1f}  {name}')
    print(f'{sum(costs.values()):7.1f}  all')
    sys.exit(check.returncode)


if __name__ == '__main__':
    main()
