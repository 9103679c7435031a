#!/usr/bin/env python3
"""Writes the sources of the programs as plain Rust, which cargo builds without a proof.

    bench/plain_build.py CHECKOUT FOLDER

FOLDER gets a cargo workspace: each crate of CHECKOUT with its contracts and ghost items left out, the crates of bench/plain_std,
which stand in for std and the ports that the crates use, and the programs of bench/plain_programs. Files that would stay the same
are not written, so that a later build compiles only what changed. What is built has no checks of memory: it ends where there is
none. Its figures are those of the same algorithms, compiled by rustc.
"""
import argparse
import os
import re
import shutil

HERE = os.path.dirname(os.path.abspath(__file__))
# crates that stand in for what the toolchain offers, by the names that the sources have for them
STAND_INS = ('plain_std', 'rayon', 'rand_core', 'rand_chacha', 'itoa', 'atomic_table', 'clap')
PROGRAMS = ('grouter', 'reroute', 'unavoidable', 'congestion_map')
PRELUDE = '#[allow(unused_imports)]\nuse std::prelude::*;\n'
ALLOWED = '#![no_std]\n#![allow(warnings)]\nextern crate plain_std as std;\n'
PROFILE = """
[profile.release]
opt-level = 3
debug = 1
panic = "abort"
lto = "fat"
codegen-units = 1

[profile.quick]
inherits = "release"
lto = false
codegen-units = 16
"""
WORD = re.compile(r'[A-Za-z_][A-Za-z_0-9]*')
SKIPPED = re.compile(r'\s+|//[^\n]*|/\*.*?\*/', re.S)
TEXT = re.compile(r'b?"(?:[^"\\]|\\.)*"|b?r(#*)".*?"\1', re.S)
LETTER = re.compile(r"b?'(?:[^'\\\n]|\\(?:[nrt0\\'\"]|x[0-9a-fA-F]{2}|u\{[0-9a-fA-F]+\}))'")


def behind_braces(text, at):
    """The place behind the braces that open here. Between them is no Rust: braces alone count."""
    depth = 0
    while True:
        depth += {'{': 1, '}': -1}.get(text[at], 0)
        at += 1
        if depth == 0:
            return at


def behind_ghost(text, at):
    """The place behind a ghost item or field: behind its `;` or `,`, or before the brace that ends its struct."""
    while text[at] not in ';,}':
        at = behind_braces(text, at) if text[at] == '{' else at + 1
    return at if text[at] == '}' else at + 1


def behind_clause(text, at):
    """The place behind a clause whose keyword ended here, or None where no clause stands here."""
    found = re.compile(r"\*?\s*(?:[A-Za-z_][A-Za-z_0-9]*\s*)?\{").match(text, at)
    return behind_braces(text, found.end() - 1) if found else None


def without_visibility(written):
    """What was written, without a `pub` at its end."""
    while written and written[-1].isspace():
        written.pop()
    left = re.sub(r'\bpub(\((crate|super)\))?$', '', ''.join(written[-4:]))
    return written[:-4] + [left]


def stripped(text):
    """A source without contracts and ghost items."""
    written, at = [], 0
    while at < len(text):
        for kept in (SKIPPED, TEXT, LETTER):
            if found := kept.match(text, at):
                written.append(found.group())
                at = found.end()
                break
        else:
            word = WORD.match(text, at)
            if not word:
                written.append(text[at])
                at += 1
            elif word.group() == 'ghost':
                written = without_visibility(written)
                at = behind_ghost(text, word.end())
            elif word.group() in ('requires', 'ensures') and (behind := behind_clause(text, word.end())):
                while written and written[-1].isspace():
                    written.pop()
                written.append(' ')
                at = behind
            else:
                written.append(word.group())
                at = word.end()
    return ''.join(written)


def display_arm(name, message, fields):
    names = re.findall(r'\{(\w+)', message)
    if fields.startswith('('):
        return f'            {name}(value, ..) => ::core::write!(f, "{message.replace("{0}", "{value}")}"),\n'
    taken = f' {{ {", ".join(names + [".."])} }}' if fields.startswith('{') else ''
    return f'            {name}{taken} => ::core::write!(f, "{message}"),\n'


def error_impl(text, at):
    """What `thiserror` would make of the type that is declared here."""
    kind, name = re.compile(r'(?:[^\n]*\n)*?pub (enum|struct) (\w+)').match(text, at).groups()
    head = text[at:text.index(f'pub {kind} {name}', at)]
    rest = text[text.index(f'pub {kind} {name}', at) + len(f'pub {kind} {name}'):].lstrip()
    arms = ''
    if kind == 'struct':
        arms = display_arm(name, re.search(r'#\[error\("(.*?)"\)\]', head).group(1), rest[0])
    else:
        for message, variant, fields in re.findall(r'#\[error\("(.*?)"\)\]\s*(\w+)\s*([({,])', rest[:rest.index('\n}')] + ','):
            arms += display_arm(f'{name}::{variant}', message, fields)
    return (f'\nimpl ::core::fmt::Display for {name} {{\n'
            f'    fn fmt(&self, f: &mut ::core::fmt::Formatter<\'_>) -> ::core::fmt::Result {{\n'
            f'        match self {{\n{arms}        }}\n    }}\n}}\n\nimpl ::core::error::Error for {name} {{}}\n')


def derived(text):
    """The source without derives that rustc does not know, and with what `thiserror` would make."""
    more = ''.join(error_impl(text, found.end()) for found in re.finditer(r'#\[derive\([^)]*\bError\)\]\n', text))
    text = re.sub(r'#\[derive\(([^)]*)\)\]', known_derives, text)
    text = re.sub(r'^\s*#\[error\(".*?"\)\]\n', '', text, flags=re.M)
    return re.sub(r'^use thiserror::Error;\n', '', text, flags=re.M) + more


def known_derives(found):
    names = [name for name in re.split(r',\s*', found.group(1)) if name not in ('Drop', 'Error')]
    return f'#[derive({", ".join(names)})]'


def with_prelude(text, root):
    """The source with the names that each module has, behind its own head."""
    head = re.match(r'(?:[ \t]*(?://![^\n]*)?\n|#!\[[^\]]*\]\n)*', text).group()
    inner = re.sub(r'#!\[tactic[^\]]*\]\n', '', head)
    return inner + (ALLOWED if root else '') + PRELUDE + text[len(head):]


def renamed(text):
    """The source with names of Rust where the toolchain's mean something else."""
    text = text.replace('.to_vec(', '.to_list(')
    return text.replace('fn fmt<W: fmt::Write>(&self, f: &mut fmt::Formatter<W>)', "fn fmt(&self, f: &mut fmt::Formatter<'_>)")


def plain_source(text, root):
    """A Rattle source as plain Rust."""
    text = derived(stripped(text))
    text = re.sub(r'#\[tactic\((?:[^\[\]]|\[[^\]]*\])*?\)\]', '', text)
    if root and 'fn main(rt: HostRuntime)' in text:
        text = text.replace('fn main(rt: HostRuntime)', 'fn main_with(rt: HostRuntime)')
        text += '\nfn main() -> ExitCode {\n    main_with(HostRuntime)\n}\n'
    return with_prelude(renamed(text), root)


def write(path, text):
    """Writes a file, unless it has this text."""
    if os.path.exists(path) and open(path).read() == text:
        return
    os.makedirs(os.path.dirname(path), exist_ok=True)
    with open(path, 'w') as file:
        file.write(text)


def crates_of(checkout):
    """The crates behind the programs, with those that they stand on: all but tests."""
    listed = open(os.path.join(checkout, 'crates.txt')).read().split('# Tests')[0]
    lines = [line.split(':') for line in listed.splitlines() if line and not line.startswith('#')]
    return {name: below.split() for name, below in lines}


def manifest(name, below):
    ports = set(STAND_INS) - {'plain_std'}
    paths = {'plain_std': '../../stand_ins/plain_std'}
    paths |= {port: f'../../stand_ins/{port}' for port in below if port in ports}
    paths |= {crate: f'../{crate}' for crate in below if crate not in ports and crate != 'thiserror'}
    lines = ''.join(f'{crate} = {{ path = "{path}" }}\n' for crate, path in sorted(paths.items()))
    return f'[package]\nname = "{name}"\nversion = "0.0.0"\nedition = "2024"\n\n[dependencies]\n{lines}'


def write_crate(checkout, folder, name, below):
    source = os.path.join(checkout, 'crates', name, 'src')
    target = os.path.join(folder, 'crates', name)
    write(os.path.join(target, 'Cargo.toml'), manifest(name, below))
    for place, _, files in os.walk(source):
        for file in (file for file in files if file.endswith('.rt')):
            inside = os.path.relpath(os.path.join(place, file), source)
            text = open(os.path.join(place, file)).read()
            root = inside in ('lib.rt', 'main.rt')
            write(os.path.join(target, 'src', inside[:-3] + '.rs'), plain_source(text, root))


def copy_tree(source, target):
    for place, _, files in os.walk(source):
        for file in files:
            path = os.path.join(place, file)
            write(os.path.join(target, os.path.relpath(path, source)), open(path).read())


def main():
    words = argparse.ArgumentParser(description=__doc__, formatter_class=argparse.RawDescriptionHelpFormatter)
    words.add_argument('checkout')
    words.add_argument('folder')
    asked = words.parse_args()
    crates = crates_of(asked.checkout)
    for old in os.listdir(os.path.join(asked.folder, 'crates')) if os.path.isdir(os.path.join(asked.folder, 'crates')) else ():
        if old not in crates:
            shutil.rmtree(os.path.join(asked.folder, 'crates', old))
    for name, below in crates.items():
        write_crate(asked.checkout, asked.folder, name, below)
    copy_tree(os.path.join(HERE, 'plain_std'), os.path.join(asked.folder, 'stand_ins'))
    copy_tree(os.path.join(HERE, 'plain_programs'), os.path.join(asked.folder, 'programs'))
    members = ', '.join(f'"{member}"' for member in ['programs'] + [f'crates/{program}' for program in PROGRAMS])
    write(os.path.join(asked.folder, 'Cargo.toml'), f'[workspace]\nresolver = "3"\nmembers = [{members}]\n{PROFILE}')


if __name__ == '__main__':
    main()
