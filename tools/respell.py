#!/usr/bin/env python3
"""Brings the repository's own definitions and lemmas to the spelling of the toolchain's library, once, after its port.py.

usage: tools/respell.py [ROOT] [--list]     rewrites the files below ROOT (this repository, if left out); --list only prints the names

Values, constructors, fields and lemmas get snake case (`wordOutcome` becomes `word_outcome`); a dash stays only where it joins two names of
definitions (`length-states`), and is an underscore elsewhere (`gives-refused` becomes `gives_refused`). Types and modules keep their names,
and so does everything in src/ but what its contracts and `ghost use` lines cite. Names that would fall together keep the dash of the lemma.
"""
import glob
import os
import re
import sys

DECLARED = re.compile(r'^ *(?:(?:pub|abbrev|unfoldable) )*([^\s:(){}.,=]+) (?:\{[^}\n]*\} )*:(?![:\w])(.*)$', re.M)
BLOCK = re.compile(r'^(?:pub )?(data|record)(?: pub)? (\S+)[^\n]*(?:\n +[^\n]*)*?\bwhere\n((?:(?:  .*)?\n)*)', re.M)
MEMBER = re.compile(r'^  (?:pub )?([^\s:(){}.]+(?: [^\s:(){}.]+)*) :', re.M)
TOKEN = re.compile(r'"(?:[^"\\]|\\.)*"|--[^\n]*|//[^\n]*|[^\s(){}\[\].,;"`|@]+')
# names of the library that a lemma's name may join
LIBRARY = {'length', 'append', 'take', 'drop', 'map', 'replicate', 'max', 'min', 'reverse', 'cond', 'set', 'get_or'}
ROOM = {(('lines', 'vocabularies'), 'all_small'): 'small_there'}
# what the generated statements name: not ours to spell
MADE = re.compile(r'^(tie|spec|close|statement)$')


def antt(root):
    for pattern in ('crates/*/specs/**/*.antt', 'crates/*/proofs/**/*.antt'):
        yield from sorted(glob.glob(os.path.join(root, pattern), recursive=True))


def declared(root):
    """The declared names, and which of them are members (fields and constructors)."""
    names, members = {}, set()
    for path in antt(root):
        text = open(path, encoding='utf-8').read()
        walk = path.endswith('/Proof.antt')
        for m in DECLARED.finditer(text):
            if walk and ('tie.' in m[2] or 'statement' in m[2]):
                continue
            names.setdefault(m[1], path)
        for m in BLOCK.finditer(text):
            names.setdefault(m[2], path)
            for it in MEMBER.finditer(m[3]):
                for name in it[1].split():
                    if name != 'pub':
                        names.setdefault(name, path)
                        members.add(name)
    return names, members


def imported(root):
    """Names that some file takes from the toolchain's libraries."""
    found = set()
    for path in antt(root):
        for m in re.finditer(r'^use (?!Rattle\.(?!std\.|core\.))[^\n{]*\{([^}]*)\}', open(path, encoding='utf-8').read(), re.M):
            for it in m[1].split(','):
                found.add(it.split(' as ')[-1].strip())
    return found


def snake(word):
    if not word or word[0].isupper():
        return word
    return re.sub(r'(?<=[a-z0-9])([A-Z])', lambda m: '_' + m[1].lower(), word)


def spelled(name, known):
    parts = name.split('-')
    out = snake(parts[0])
    for before, after in zip(parts, parts[1:]):
        joined = '-' if before in known and after in known and not after.isdigit() else '_'
        out += joined + snake(after)
    return out


def renamings(root):
    names, members = declared(root)
    theirs = imported(root)
    known = {n for n in names if '-' not in n and n not in members and len(n) > 3} | LIBRARY
    out, said = {}, []
    for name in sorted(names):
        if not re.search(r'[a-z0-9][A-Z]|-', name) or name[0].isupper() or MADE.match(name):
            continue
        if not re.match(r'^[A-Za-z]', name):
            continue
        new = spelled(name, known)
        if new == name:
            continue
        if name in theirs:
            said.append(f'kept, as the library has that name too: {name}')
            continue
        out[name] = new
    # a lemma that would have a definition's name
    for name, new in list(out.items()):
        if '-' in name and (new in names or any(other != name and it == new for other, it in out.items())):
            out[name] = new + '_lem'
    taken = {}
    for name, new in list(out.items()):
        if new in names or new in theirs:
            said.append(f'falls together with a name that is there: {name} {new} ({names.get(new)}; {names[name]})')
        if new in taken:
            said.append(f'two fall together: {name} and {taken[new]} to {new}')
        taken[new] = name
    return out, members, said


def turned(text, names, members):
    def one(m):
        word = m[0]
        if word.startswith('"'):
            return word
        if word.startswith('--') or word.startswith('//'):
            return re.sub(r'`([^`\s]+)`', lambda q: '`' + names.get(q[1], q[1]) + '`', word)
        if word not in names:
            return word
        start = m.start()
        if start and text[start - 1] == '.':
            before = re.search(r'([^\s(){}\[\],;"`]*)\.$', text[:start])
            last = before[1].split('.')[-1] if before else ''
            if not (last[:1].isupper()) and word not in members:
                return word
        return names[word]
    return TOKEN.sub(one, text)


def rewrite(path, change):
    with open(path, encoding='utf-8') as f:
        text = f.read()
    new = change(text)
    if new != text:
        with open(path, 'w', encoding='utf-8') as f:
            f.write(new)


def make_room(root):
    """Fields that would stand beside a definition of the same name in one file get another name first."""
    for (crates, old), new in ROOM.items():
        for crate in crates:
            for path in (it for it in antt(root) if f'/crates/{crate}/' in it):
                rewrite(path, lambda text: re.sub(r'(?<![\w-])' + old + r'(?![\w-])', new, text))


def main():
    words = [w for w in sys.argv[1:] if not w.startswith('--')]
    root = words[0] if words else os.path.dirname(os.path.dirname(os.path.realpath(__file__)))
    if '--list' not in sys.argv and os.path.exists(os.path.join(root, 'docs/PORT.md')):
        sys.exit('respell: docs/PORT.md is there, so this was done: a second run would take the new names apart')
    names, members, said = renamings(root)
    if '--list' in sys.argv:
        for old, new in names.items():
            print(old, new)
        print('\n'.join(said))
        return
    make_room(root)
    files = list(antt(root)) + sorted(glob.glob(os.path.join(root, 'crates/*/src/**/*.rt'), recursive=True))
    for path in files:
        text = open(path, encoding='utf-8').read()
        new = turned(text, names, members)
        # a local variable of the new name in a file that cites the old one could be taken for it
        for old, name in names.items():
            if re.search(r'(?<![\w\'-])' + re.escape(old) + r'(?![\w\'-])', text) and re.search(r'(?<![\w\'.-])' + re.escape(name) + r'(?![\w\'-])', text):
                said.append(f'look: {path}: {name} stood there beside {old}')
        if new != text:
            with open(path, 'w', encoding='utf-8') as f:
                f.write(new)
    for path in sorted(glob.glob(os.path.join(root, 'crates/*/must-fail/*.edit')) + glob.glob(os.path.join(root, 'tools/wrong/*/*.edit'))):
        rewrite(path, lambda text: re.sub(r'^(old:|new:)(.*)$', lambda m: m[1] + turned(m[2], names, members), text, flags=re.M))
    for path in sorted(glob.glob(os.path.join(root, '*.md')) + glob.glob(os.path.join(root, 'docs/**/*.md'), recursive=True)):
        rewrite(path, lambda text: re.sub(r'`([^`\n]+)`', lambda m: '`' + turned(m[1], names, members) + '`', text))
    print('\n'.join(said))
    print(f'{len(names)} names')


if __name__ == '__main__':
    main()
