#!/usr/bin/env python3
"""Tells what `route` keeps in memory, stage by stage, in a build of its plain sources.

    bench/plain_memory.py CHECKOUT FOLDER DESIGN [WORD ..]

Writes the plain sources of CHECKOUT to FOLDER as bench/plain_build.py does, with an allocator that counts, builds and runs
`plain_route DESIGN --timing WORD ..`. Behind the seconds of each stage stands how much lists held when they held most in it, and of
which items: lists of 128 KiB and more (*large*) have pages of their own, and *small* ones lie in the heap. Types with less than half a
percent are left out, and what is noted may be 256 KiB below the most. What is no list of the sources is that of the libraries, as the
words of a table.

A list counts with all the room that it asked for, though the system gives memory to what is written alone: so beside it stands the
greatest memory of the process so far, with 16 bytes a list that the count itself takes. CHECKOUT may be an earlier commit, if
bench/plain_programs can be built with it.
"""
import argparse
import os
import re
import subprocess

from runs import plain_words

HERE = os.path.dirname(os.path.abspath(__file__))
# calls of lists that may take memory, by their names
TAKING = (
    'with_capacity', 'from_values', 'from_array', 'insert', 'reserve', 'reserve_exact', 'append', 'extend', 'resize_with', 'resize', 'clone',
    'from_elem', 'from_slice', 'extend_from_slice', 'extend_from_within', 'to_list',
)


def write(path, text):
    with open(path, 'w') as out:
        out.write(text)


def count_lists(folder):
    sources = os.path.join(folder, 'stand_ins', 'plain_std', 'src')
    lists, root, tally = (os.path.join(sources, name) for name in ('vec.rs', 'lib.rs', 'tally.rs'))
    text = re.sub(rf'\bfn (?:{"|".join(TAKING)})\b[^\n]*\{{\n', r'\g<0>let _taking = crate::lists::taking::<T>();\n', open(lists).read())
    full = 'let _taking = (self.0.len() == self.0.capacity()).then(crate::lists::taking::<T>);'
    write(lists, re.sub(r'\bfn push\([^{]*\{\n', rf'\g<0>{full}\n', text))
    write(root, open(root).read() + '\n#[global_allocator]\nstatic LISTS: lists::Counted = lists::Counted;\n')
    write(tally, open(tally).read().replace('pub fn tell() {\n', 'pub fn tell() {\n    crate::lists::tell();\n'))


def main():
    words = argparse.ArgumentParser(description=__doc__, formatter_class=argparse.RawDescriptionHelpFormatter)
    words.add_argument('checkout')
    words.add_argument('folder')
    words.add_argument('design')
    words.add_argument('words', nargs=argparse.REMAINDER)
    asked = words.parse_args()
    subprocess.run([os.path.join(HERE, 'plain_build.py'), asked.checkout, asked.folder], check=True)
    count_lists(asked.folder)
    subprocess.run(['cargo', 'build', '-q', '--release', '--offline', '-p', 'plain_programs'], cwd=asked.folder, check=True)
    run = plain_words(asked.folder, asked.design, asked.words)
    subprocess.run(run, check=True, env=dict(os.environ, MALLOC_MMAP_THRESHOLD_='131072'))


if __name__ == '__main__':
    main()
