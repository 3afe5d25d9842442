#!/usr/bin/env python3
"""Respells the repository's own definitions and lemmas: functions, lemmas and fields in snake case, types and facts in
upper camel case, promises in the words of tools/names.txt. Run once, at the top, behind the toolchain's port.py.

usage: respell.py [--dry]

names.txt has a line for each name that the rule alone does not give; '#' starts a comment:
    OLD NEW              wherever a definition of this repository has the name OLD
    CRATE:OLD NEW        only the name that the crate defines, in its own files and where it is imported
    PATH OLD NEW         only in that file
A camelCase function becomes snake_case, a Dashed-Fact becomes UpperCamel; the dashes of lemmas stay. A name that the code
has too stays, and so does one whose new spelling some definition has; both are printed.
"""
import pathlib
import re
import sys

DRY = '--dry' in sys.argv
TOP = pathlib.Path(__file__).resolve().parent.parent
NAME = r"[^\s(){}.,;:@\"⌜⌝λ∥]+"
DEFINED = re.compile(rf"^\s*(?:abbrev |unfoldable )*(?:pub )?(?:record |data |abbrev |unfoldable )*({NAME})\s+(?::|\{{|\()", re.M)
FIELD = re.compile(rf"^\s*pub ({NAME}) :", re.M)
IMPORT = re.compile(r"use Rattle\.(\w+)\.(?:specs|proofs)(?:\.\w+)*\.\{([^}]*)\}")


def read_table():
    everywhere, of_crate, in_file = {}, [], []
    for line in (TOP / 'tools' / 'names.txt').read_text().split('\n'):
        words = line.split('#')[0].split()
        if len(words) == 3:
            in_file.append(words)
        elif len(words) == 2 and ':' in words[0]:
            of_crate.append(words[0].split(':') + words[1:])
        elif len(words) == 2:
            everywhere[words[0]] = words[1]
    return everywhere, of_crate, in_file


def by_rule(name):
    def snake(word):
        return re.sub(r"(?<=[a-z0-9])([A-Z])", lambda m: '_' + m.group(1).lower(), word)
    if re.fullmatch(r"[A-Z][\w']*(?:-[\w']+)+", name):
        return ''.join(w[:1].upper() + w[1:] for w in name.split('-'))
    if re.fullmatch(r"[a-z][\w']*", name) and re.search(r"[a-z0-9][A-Z]", name):
        return snake(name)
    if '-' in name and name[0].islower() and re.search(r"[a-z0-9][A-Z]", name):
        return '-'.join(w if w[:1].isupper() else snake(w) for w in name.split('-'))
    return name


def pattern(names):
    # a name of a module within a path stays, as in specs.Laws.{..}
    return re.compile('|'.join(
        rf"(?<![\w'-]){re.escape(d)}(?![\w'-])" + (rf"(?!(?<=\.{re.escape(d)})\.)" if d[0].isupper() else '')
        for d in sorted(names, key=len, reverse=True)))


def turn(path, text, new):
    """The text with the names of `new` turned, in code, and in comments where no plain word can be meant."""
    if not new:
        return text
    fit, mark, lines = pattern(new), '--' if path.suffix == '.antt' else '//', []
    for line in text.split('\n'):
        if re.match(r'\s*(?:pub )?mod |file: ', line):
            lines.append(line)
            continue
        code, sep, note = line.partition(mark) if path.suffix != '.edit' else (line, '', '')
        lines.append(fit.sub(lambda m: new[m.group(0)], code) + sep + fit.sub(
            lambda m: new[m.group(0)] if re.search(r'-|[a-z][A-Z]', m.group(0)) else m.group(0), note))
    return '\n'.join(lines)


def crate_of(path):
    return path.relative_to(TOP / 'crates').parts[0]


def knows(path, text, crate, name):
    """Whether the name, in this file, is the crate's: defined in the file, or imported from the crate."""
    for m in IMPORT.finditer(text):
        if m.group(1) == crate and name in [w.split(' as ')[0].strip() for w in m.group(2).split(',')]:
            return True
    return crate_of(path) == crate and path.suffix == '.antt' and any(m.group(1) == name for m in DEFINED.finditer(text))


def move_modules():
    """A module's name begins with a capital: handshake's specs/laws."""
    specs = TOP / 'crates' / 'handshake' / 'specs'
    if not (specs / 'laws').is_dir():
        return
    (specs / 'laws').rename(specs / 'Laws')
    (specs / 'laws.antt').rename(specs / 'Laws.antt')
    for p in sorted((TOP / 'crates').rglob('*')):
        if p.suffix in ('.rt', '.antt', '.edit') and 'out' not in p.parts:
            t = p.read_text()
            u = re.sub(r'Rattle\.handshake\.specs\.laws\b', 'Rattle.handshake.specs.Laws', t)
            if p == specs / 'Lib.antt':
                u = u.replace('mod laws', 'mod Laws')
            if u != t:
                p.write_text(u)
    print('handshake: specs/laws -> specs/Laws')


def main():
    everywhere, of_crate, in_file = read_table()
    files = sorted(p for p in (TOP / 'crates').rglob('*') if p.suffix in ('.rt', '.antt', '.edit') and 'out' not in p.parts)
    before = {p: p.read_text() for p in files}
    text = dict(before)

    for place, old, to in in_file:
        p = TOP / place
        if not re.search(rf"(?<![\w'-]){re.escape(old)}(?![\w'-])", text[p]):
            print(f'not there: {place}: {old}')
        text[p] = re.sub(rf"(?<![\w'.-]){re.escape(old)}(?![\w'-])", to, text[p])
        print(f'{place}: {old} -> {to}')
    for crate, old, to in of_crate:
        mine = [p for p in files if p.suffix != '.edit' and knows(p, text[p], crate, old)]
        for p in files:
            m = re.search(r'^file: (.*)$', text[p], re.M) if p.suffix == '.edit' else None
            if m and TOP / 'crates' / crate_of(p) / m.group(1).strip() in mine:
                mine.append(p)
        for p in mine:
            text[p] = turn(p, text[p], {old: to})
        print(f'{crate}: {old} -> {to}, {len(mine)} files' if mine else f'no definition: {crate}:{old}')

    defs, code = set(), set()
    for p, t in text.items():
        if p.suffix == '.antt':
            defs |= {m.group(1) for m in DEFINED.finditer(t)} | {m.group(1) for m in FIELD.finditer(t)}
        elif p.suffix == '.rt':
            t = re.sub(r"//.*", "", t)
            code |= set(re.findall(r"\b(?:fn|struct|enum|trait|const|type|mod|let(?: mut)?)\s+(\w+)", t))
            code |= set(re.findall(r"^\s+(?:pub(?:\(crate\))? )?(\w+)(?::|,|\(|$)", t, re.M))
            code |= set(re.findall(r"::(\w+)", t))
    new, taken = {}, {}
    for d in sorted(defs):
        n = everywhere.get(d) or by_rule(d)
        if n == d:
            continue
        if d in code:
            print(f'left: {d} is a name of the code too')
        elif n in defs and n not in everywhere and by_rule(n) == n:
            print(f'left: {d}: {n} is there already')
        elif n in taken:
            print(f'left: {d}: {n} is {taken[n]} already')
        else:
            new[d], taken[n] = n, d
    for d in everywhere:
        if d not in defs:
            print(f'no definition: {d}')
    for p in files:
        text[p] = turn(p, text[p], new)
    for d, n in sorted(new.items()):
        print(f'{d} -> {n}')
    changed = [p for p in files if text[p] != before[p]]
    if not DRY:
        for p in changed:
            p.write_text(text[p])
        move_modules()
    print(f'{len(new)} names, {len(changed)} files')


main()
