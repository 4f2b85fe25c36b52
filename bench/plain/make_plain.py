#!/usr/bin/env python3
"""make_plain.py CHECKOUT OUT: plain Rust of the search of a checkout, as one crate at OUT/src/main.rs.

Each crate that `search_workers` stands on becomes a module; clauses, ghost items and tactics are
stripped; what stands for the library of Rattle (`std::alloc`, `std::collections`, ..) is rstd.rs, and
what reads a problem and searches is harness.rs.
"""
import os, re, shutil, sys

HERE = os.path.dirname(os.path.abspath(__file__))
TARGETS = ['search_workers']
LIBRARIES = {'serde_json', 'thiserror'}
# Files that only print or read texts, and are left out.
LEFT_OUT = {('solution_verifier', 'text')}


def crates_below(source):
    deps = {}
    for line in open(f'{source}/crates.txt'):
        line = line.split('#')[0].strip()
        if line:
            name, words = line.split(':', 1)
            deps[name.split()[0]] = words.split()
    order = []

    def add(name):
        if name in LIBRARIES or name in order:
            return
        for dep in deps[name]:
            add(dep)
        order.append(name)

    for target in TARGETS:
        add(target)
    return order


def strip_comments(text):
    """Takes comments out; leaves strings as they are."""
    out, i = [], 0
    while i < len(text):
        c = text[i]
        if text.startswith('//', i):
            while i < len(text) and text[i] != '\n':
                i += 1
        elif c == '"':
            j = skip_string(text, i)
            out.append(text[i:j])
            i = j
        elif c == "'" and (m := re.compile(r"'(\\.[^']*|[^'\\])'").match(text, i)):
            out.append(m.group(0))
            i = m.end()
        else:
            out.append(c)
            i += 1
    return ''.join(out)


def skip_string(text, i):
    j = i + 1
    while text[j] != '"':
        j += 2 if text[j] == '\\' else 1
    return j + 1


def skip_braces(text, i):
    """The place behind the brace that closes the one at i."""
    depth = 0
    while True:
        c = text[i]
        if c == '"':
            i = skip_string(text, i)
            continue
        if c == "'" and (m := re.compile(r"'(\\.[^']*|[^'\\])'").match(text, i)):
            i = m.end()
            continue
        if c == '{':
            depth += 1
        elif c == '}':
            depth -= 1
            if depth == 0:
                return i + 1
        i += 1


CLAUSE = re.compile(r'(?<![\w.])(requires|ensures|invariant|decreases)\b\*?(\s+\w+)?\s*(?=\{)')
GHOST = re.compile(r'(?<![\w.])(?:pub(?:\([a-z]+\))?\s+)?ghost\s+')


def strip_clauses(text):
    out, i = [], 0
    while True:
        m = CLAUSE.search(text, i)
        if not m:
            break
        out.append(text[i:m.start()])
        i = skip_braces(text, m.end())
    out.append(text[i:])
    return ''.join(out)


def strip_ghosts(text):
    out, i = [], 0
    while True:
        m = GHOST.search(text, i)
        if not m:
            break
        out.append(text[i:m.start()])
        j = m.end()
        while text[j] not in ';,{':
            j += 1
        if text[j] == '{':
            j = skip_braces(text, j)
            while text[j] in ' \n':
                j += 1
            if text[j] in ';,':
                j += 1
        else:
            j += 1
        i = j
    out.append(text[i:])
    return ''.join(out)


def strip_blocks(text, head):
    """Takes out each item that a pattern heads, with its braces."""
    out, i = [], 0
    pattern = re.compile(head)
    while True:
        m = pattern.search(text, i)
        if not m:
            break
        out.append(text[i:m.start()])
        j = m.end()
        while text[j] != '{':
            j += 1
        i = skip_braces(text, j)
    out.append(text[i:])
    return ''.join(out)


def strip_attributes(text):
    text = re.sub(r'#!?\[(tactic|error)\b[^\]]*\]\s*', '', text)

    def derive(m):
        names = [n.strip() for n in m.group(1).split(',')]
        names = [n for n in names if n and n not in ('Drop', 'Error')]
        return f'#[derive({", ".join(names)})]' if names else ''

    return re.sub(r'#\[derive\(([^)]*)\)\]', derive, text)


def plain(text, crate, crates):
    text = strip_comments(text)
    text = strip_ghosts(text)
    text = strip_clauses(text)
    text = strip_attributes(text)
    text = strip_blocks(text, r'#\[cfg\(test\)\]\s*(pub )?mod \w+\s*(?=\{)')
    text = re.sub(r'#\[cfg\(test\)\]\s*mod \w+;', '', text)
    text = strip_blocks(text, r'#\[test\]\s*(#\[[^\]]*\]\s*)*fn ')
    text = strip_blocks(text, r'\bimpl(<[^{]*?>)? (fmt::Display|Display|Error|Model|fmt::Debug) for ')
    text = re.sub(r'use thiserror::[^;]*;', '', text)
    text = re.sub(r'\bcrate::', f'crate::{crate}::', text)
    for name in crates:
        text = re.sub(rf'(?<![\w:]){name}::', f'crate::{name}::', text)
    text = re.sub(r'(?<![\w:])std::(alloc|marker|sync::ledger|collections|process|test|error)::',
                  r'crate::rstd::\1::', text)
    text = text.replace('.to_vec(alloc)', '.to_vec_by(alloc)')
    text = re.sub(r'pub\(in crate::\w+::', 'pub(in crate::', text)
    return text


def main():
    source, out = sys.argv[1:3]
    crates = crates_below(source)
    shutil.rmtree(f'{out}/src', ignore_errors=True)
    os.makedirs(f'{out}/src')
    for crate in crates:
        top = f'{source}/crates/{crate}/src'
        for folder, _, files in os.walk(top):
            for file in files:
                if not file.endswith('.rt'):
                    continue
                inside = os.path.relpath(os.path.join(folder, file), top)[:-3]
                if (crate, inside) in LEFT_OUT:
                    continue
                text = plain(open(os.path.join(folder, file)).read(), crate, crates)
                for other, left in LEFT_OUT:
                    if other == crate:
                        text = re.sub(rf'\b(pub )?mod {left};', '', text)
                text = '#[allow(unused_imports)]\nuse crate::rstd::prelude::*;\n' + text
                name = 'mod' if inside == 'lib' else inside
                path = f'{out}/src/{crate}/{name}.rs'
                os.makedirs(os.path.dirname(path), exist_ok=True)
                open(path, 'w').write(re.sub(r'\n(\s*\n)+', '\n\n', text))
    shutil.copy(f'{HERE}/rstd.rs', f'{out}/src/rstd.rs')
    shutil.copy(f'{HERE}/harness.rs', f'{out}/src/harness.rs')
    with open(f'{out}/src/main.rs', 'w') as main_file:
        main_file.write('#![allow(dead_code, unused, drop_bounds, non_snake_case)]\n#[macro_use]\nmod rstd;\n')
        for crate in crates:
            main_file.write(f'mod {crate};\n')
        main_file.write('mod harness;\nfn main() {\n    harness::main()\n}\n')


main()
