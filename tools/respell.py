#!/usr/bin/env python3
"""Respells the names of this repository's own definitions and lemmas: words in snake case, facts and types in camel case.

usage: tools/respell.py [--anyway]     at the top of the repository, once, after /opt/rattle/port/port.py

A name with a dash that a file of specs/ or proofs/ defines (a definition, a lemma, a label, a constructor, a parameter of a
module or a helper under `where`) is written with underscores, or, if it begins with a capital, in camel case. Names of the
library, names that Rattle makes (goals, steps, `c.loop-i`), Rust's own names, strings and comments keep their spelling.
It stops, lists them, and changes nothing, where two names would fall together in one file. With --anyway it goes on: that list
was read, and held only definitions that now have the name of the Rust function that they are the meaning of, and constructors
with the name of a label, which are told apart by where they stand.
"""
import collections
import glob
import re
import sys

NAME = r"[^\s(){}\[\].,;:\"«»|@=]+"
TOKEN = re.compile(r"(?<![^\s(){}\[\].,;:\"«»|@=])" + NAME)
DEFINES = re.compile(r"^(\s*(?:[|(] ?)?)((?:pub |abbrev |unfoldable |ruleset |macro )*)(?:(?:data|record) )?(" + NAME + r")((?: \S+)*?) ?(?:\(.*\) ?|\{.*\} ?)*:(?!\S)")
BINDS = re.compile(r"(?:let|[({]) ?(" + NAME + r"(?: " + NAME + r")*) ?:(?!\S)|let (" + NAME + r")(?: [^=]*)? =|λ (?:\()?(" + NAME + r")")

CLAUSE = re.compile(r"^\s*(?:pub )?(" + NAME + r")((?: " + NAME + r")+) =(?!\S)")


def files():
    own = sorted(glob.glob('crates/*/specs/**/*.antt', recursive=True) + glob.glob('crates/*/proofs/**/*.antt', recursive=True))
    return own, sorted(glob.glob('crates/*/src/**/*.rt', recursive=True))


def is_ours(name):
    """A name with a dash between letters, digits or signs of a name."""
    return re.fullmatch(r"[A-Za-z0-9_'ℕ]+(?:-[A-Za-z0-9_'ℕ]+)+", name) is not None


def respelled(name):
    if name[0].isupper():
        return ''.join(part[:1].upper() + part[1:] for part in name.split('-'))
    return name.replace('-', '_')


def library(texts):
    """Names with a dash that the files take from the library, and names of goals."""
    out = set()
    for text in texts.values():
        for m in re.finditer(r'use (?!Rattle\.(?:%s)\.)[\w.]+\.\{([^}]*)\}' % '|'.join(crates()), text):
            for part in m.group(1).split(','):
                out.update(part.split(' as '))
        for m in re.finditer(r"(?m)^\s*(?:abbrev )?(?:pub )?(%s) : goal\." % NAME, text):
            out.add(m.group(1))
    return {n.strip() for n in out}


def crates():
    return [line.split(':')[0].strip() for line in open('crates.txt') if line.strip() and line[0] != '#']


def main():
    own, code = files()
    texts = {f: open(f, encoding='utf-8').read() for f in own + code}
    kept = library(texts)
    names = set()
    for f in own + code:
        for line in texts[f].split('\n'):
            if line.lstrip().startswith('--') or (f in code and not line.startswith('ghost use ')):
                continue
            m = DEFINES.match(line)
            if m and 'goal.' not in line:
                names.update(n for n in (m.group(3) + m.group(4)).split() if is_ours(n))
            m = CLAUSE.match(line)
            if m and m.group(1) not in kept:
                names.update(n for n in m.group(2).split() if is_ours(n))
            names.update(n for n in re.findall(r'[\w}] as (%s)' % NAME, line) if is_ours(n))
            for m in BINDS.finditer(line):
                for g in m.groups():
                    names.update(n for n in (g or '').split() if is_ours(n))
    names -= kept
    turned = {n: respelled(n) for n in names}
    clash = collections.Counter(turned.values())
    bad = [n for n in turned if clash[turned[n]] > 1]
    for f, text in texts.items():
        seen = set(TOKEN.findall(text))
        bad += ['%s in %s' % (n, f) for n in turned if n in seen and turned[n] in seen]
    if bad and '--anyway' not in sys.argv:
        print('names that fall together:', *bad, sep='\n    ')
        return 1

    def turn(line, comment):
        head, mark, tail = line, '', ''
        at = line.find(comment)
        if at >= 0:
            head, mark, tail = line[:at], comment, line[at + len(comment):]
            tail = re.sub(r'`([^`]+)`', lambda m: '`' + turned.get(m.group(1), m.group(1)) + '`', tail)

        def one(m):
            name = m.group()
            before = head[:m.start()]
            if name not in turned:
                return name
            if re.search(r'(?:^|[\s(])[cwlg]\.$', before) and re.match(r'(?:if|in|loop|match|returns|then|else)-', name):
                return name
            return turned[name]
        parts = re.split(r'("(?:[^"\\]|\\.)*")', head)
        at, out = 0, []
        for i, part in enumerate(parts):
            if i % 2:
                out.append(part)
            else:
                out.append(TOKEN.sub(lambda m: turned.get(m.group(), m.group()) if not skipped(part, m) else m.group(), part))
        return ''.join(out) + mark + tail

    def skipped(part, m):
        before = part[:m.start()]
        return re.search(r'(?:^|[\s(])[cwlg]\.$', before) and re.match(r'(?:if|in|loop|match|returns|then|else)-', m.group())

    changed = 0
    for f, text in texts.items():
        comment = '--' if f.endswith('.antt') else '//'
        new = '\n'.join(turn(line, comment) for line in text.split('\n'))
        if new != text:
            changed += 1
            open(f, 'w', encoding='utf-8').write(new)
    print('%d names respelled, %d files changed' % (len(turned), changed))
    return 0


if __name__ == '__main__':
    sys.exit(main())
