#!/usr/bin/env python3
"""Tells what the gate costs in processor seconds, by crate.

    bench/gate_cost.py [WORD ..]

Runs `rt ci WORD ..` at the top of this checkout, or of a clone of it from which it is called, and samples the processes below it
once a second. With the word --anew all is proved from nothing. Behind the gate's own lines it prints a table: for each crate what
proving it took, its tests and its edits, and in the end what all processes took by the system's own count. What ran for less than
a second between two samples is in that count alone.

A processor of a virtual machine is slower where its neighbours work, and its seconds count for less. So a small loop is timed too,
before the gate starts and every few seconds beside it, and the last line says how many seconds the gate would have taken if the
loop had always taken as little as it did at best.
"""
import collections
import os
import re
import resource
import subprocess
import sys
import time

TICK = os.sysconf('SC_CLK_TCK')
# so many steps has the loop that tells the pace of a processor, so many runs of it come before the gate, and one in so many seconds
STEPS, RUNS, APART = 1_500_000, 40, 10
NAME = re.compile(r'--crate-name\0([^\0]+)')
KINDS = ('proving', 'tests', 'edits')


def read(path):
    """What a file of /proc says, or nothing where its process is gone."""
    try:
        with open(path, encoding='utf-8', errors='replace') as file:
            return file.read()
    except OSError:
        return ''


def processes():
    """Of each process its number, its parent's, when it started and the processor seconds that it took so far."""
    for number in filter(str.isdigit, os.listdir('/proc')):
        fields = read(f'/proc/{number}/stat').rpartition(')')[2].split()
        if fields:
            yield int(number), int(fields[1]), fields[19], (int(fields[11]) + int(fields[12])) / TICK


def purpose(number):
    """Which crate a process proves, and what for, if it does."""
    words = read(f'/proc/{number}/cmdline')
    name = NAME.search(words)
    if not name:
        return None
    parts = words.split('\0')
    is_edit = 'check' in parts[1:2] and 'src/main.rt' not in parts
    kind = 'tests' if '--test' in parts else 'edits' if is_edit else 'proving'
    return name[1], kind


def pace():
    """The processor seconds of a small loop."""
    begin, total = time.process_time(), 0
    for step in range(STEPS):
        total += step & 7
    return time.process_time() - begin


def sampled(gate, taken, paces):
    """Adds to `taken` what the processes below the gate took since the last sample, and to `paces` what the loop took meanwhile."""
    seen, purposes, due = {}, {}, 0
    while gate.poll() is None:
        parents = {number: (parent, start, seconds) for number, parent, start, seconds in processes()}
        below = {gate.pid}
        for number in sorted(parents):
            if parents[number][0] in below:
                below.add(number)
        for number in below & parents.keys():
            parent, start, seconds = parents[number]
            key = number, start
            if key not in purposes:
                purposes[key] = purpose(number) or purposes.get((parent, parents.get(parent, (0, ''))[1]))
            if purposes[key]:
                taken[purposes[key]] += seconds - seen.get(key, 0)
            seen[key] = seconds
        if time.time() >= due:
            paces.append(pace())
            due = time.time() + APART
        time.sleep(1)


def main():
    taken = collections.Counter()
    least = min(pace() for _ in range(RUNS))
    begin, paces = time.time(), []
    gate = subprocess.Popen(['rt', 'ci', *sys.argv[1:]])
    sampled(gate, taken, paces)
    used = resource.getrusage(resource.RUSAGE_CHILDREN)
    print('| Crate | Proving it | Its tests | Its edits |\n|---|---|---|---|')
    for crate in sorted({crate for crate, _ in taken}):
        print(f'| `{crate}` | ' + ' | '.join(f'{taken[crate, kind]:.0f}' for kind in KINDS) + ' |')
    print('| sampled | ' + ' | '.join(f'{sum(taken[it] for it in taken if it[1] == kind):.0f}' for kind in KINDS) + ' |')
    whole = used.ru_utime + used.ru_stime
    print(f'{whole:.0f} processor seconds, {(time.time() - begin) / 60:.0f} minutes on the clock')
    slower = sum(paces) / len(paces) / min(least, *paces)
    print(f'the loop took {slower:.2f} times as long as at best: {whole / slower:.0f} seconds of an undisturbed processor')
    sys.exit(gate.returncode)


if __name__ == '__main__':
    main()
