#!/usr/bin/env python3
"""Writes crates/lopresnik_c/src/lib.rt: an export for C of each public function of the library lopresnik, with the same clauses.

  exports.py            writes it (rt fmt lays it out)
  exports.py --check    fails where the exports that stand in the tree are others, in whatever layout

A crate is a library or a static library, and no crate can depend on a static one: so the functions stand in crates/lopresnik, and each export only calls one of them.
"""
import os
import re
import subprocess
import sys

ROOT = os.path.dirname(os.path.dirname(os.path.abspath(__file__)))
FROM = [f'{ROOT}/crates/lopresnik/src/{name}.rt' for name in ('lib', 'writing')]
TO = f'{ROOT}/crates/lopresnik_c/src/lib.rt'
HEAD = '''// The static library for C: each function exports that of the library lopresnik, with the same clauses. tools/exports.py writes this file.
#![tactic(auto)]

'''


def appears(name, text):
    """The text has the name, or the sign of an operator."""
    sign = re.fullmatch('◌(.+)◌', name)
    return sign[1] in text if sign else re.search(r"(?<![\w.'])" + re.escape(name) + r"(?![\w'])", text) is not None


def functions(text):
    """Each public function: the comment above it, its head up to the body, its name and its parameters' names."""
    for found in re.finditer(r'((?:^//[^\n]*\n)+)^pub fn (lopresnik_\w+)\(([^)]*)\)(.*?)^\{$', text, re.M | re.S):
        comment, name, parameters, rest = found.groups()
        yield comment, name, parameters, rest, re.findall(r'(\w+):', parameters)


def written():
    texts = []
    for path in FROM:
        with open(path, encoding='utf-8') as file:
            texts.append(file.read())
    items = []
    for text in texts:
        for comment, name, parameters, rest, words in functions(text):
            items.append(f'{comment}#[unsafe(no_mangle)]\npub extern "C" fn {name}({parameters}){rest}{{\n    lopresnik::{name}({", ".join(words)})\n}}\n')
    body = '\n'.join(items)
    ghosts, plain = {}, []
    for line in '\n'.join(texts).split('\n'):
        found = re.fullmatch(r'ghost use (\S+)\.\{(.*)\};', line)
        for name in found[2].split(', ') if found else []:
            if appears(name, body) and name not in ghosts.setdefault(found[1], []):
                ghosts[found[1]].append(name)
    for module, names in re.findall(r'^use (\w+)::\{?([\w\s,]+)\}?;', '\n'.join(texts), re.M):
        names = [name for name in re.findall(r'\w+', names) if appears(name, body)]
        plain += [f'use {module}::{{{", ".join(names)}}};'] if names else []
    own = [name for name in re.findall(r'^pub struct (\w+)', texts[0], re.M) if appears(name, body)]
    plain = sorted([*plain, f'use lopresnik::{{{", ".join(own)}}};'])
    lines = [f'ghost use {module}.{{{", ".join(names)}}};' for module, names in ghosts.items() if names]
    return HEAD + '\n'.join(lines) + '\n\n' + '\n'.join(plain) + '\n\n' + body


def flat(text):
    """The text whatever its layout."""
    return re.sub(r',?\s*([)\]}])', r'\1', re.sub(r'([(\[{])\s*', r'\1', re.sub(r'\s+', ' ', text))).strip()


def main():
    if sys.argv[1:] not in ([], ['--check']):
        sys.exit('usage: tools/exports.py [--check]')
    text = written()
    if '--check' in sys.argv:
        with open(TO, encoding='utf-8') as file:
            if flat(file.read()) != flat(text):
                sys.exit('exports.py: crates/lopresnik_c/src/lib.rt has other exports than crates/lopresnik: run tools/exports.py')
        return
    os.makedirs(os.path.dirname(TO), exist_ok=True)
    with open(TO, 'w', encoding='utf-8') as file:
        file.write(text)
    subprocess.run(['rt', 'fmt'], cwd=f'{ROOT}/crates/lopresnik_c', check=True)


main()
