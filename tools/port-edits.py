#!/usr/bin/env python3
"""Brings the edits of an older state, those that the gate must refuse and those that stand in edits/, to today's spelling.

usage: tools/port-edits.py lay TREE              TREE, a checkout of the older state, gets beside each file that an edit alters a copy with the edit made in it
       (then, in TREE: port.py and tools/respell.py)
       tools/port-edits.py take TREE TOP [FOLDER..]   each edit is written at its place below TOP, drawn from how the copies now differ from their files, where its text
                                                 stands once in TOP's file; what is left to be done by hand is listed

An edit keeps its name, its comment and its meaning. A pair for a file that TOP no longer has, the proof of one function, is dropped and said.
"""
import difflib
import glob
import os
import re
import sys

sys.path.insert(0, os.path.dirname(os.path.realpath(__file__)))
import respell


def edits(tree):
    for f in sorted(glob.glob(os.path.join(tree, 'edits', '*', '*.edit')) + glob.glob(os.path.join(tree, 'weaker', '*', '*.edit')) + glob.glob(os.path.join(tree, 'crates', '*', 'must-fail', '*.edit'))):
        yield f


def crate_of(tree, f):
    parts = os.path.relpath(f, tree).split(os.sep)
    return parts[1]


def read(f):
    """The comment lines, and the pairs as (file, old, new)."""
    head, pairs, file, old = [], [], None, None
    for line in open(f, encoding='utf-8').read().split('\n'):
        if line.startswith('#') and not pairs and old is None and file is None:
            head.append(line)
        elif line.startswith('file: '):
            file = line[6:]
        elif line.startswith('old: '):
            old = line[5:]
        elif line.startswith('new:'):
            pairs.append((file, old, line[5:]))
            old = None
    return head, pairs


def beside(path, n):
    stem, end = os.path.splitext(path)
    return f'{stem}EDIT{n:04d}{end}'


def lay(tree):
    for n, f in enumerate(edits(tree)):
        crate = os.path.join(tree, 'crates', crate_of(tree, f))
        texts = {}
        for file, old, new in read(f)[1]:
            path = os.path.join(crate, file)
            if os.path.basename(path) == 'Proof.antt':
                continue
            text = texts.get(path) or open(path, encoding='utf-8').read()
            if text.count(old) != 1:
                print('does not stand once:', f, file, repr(old))
                continue
            texts[path] = text.replace(old, new)
        for path, text in texts.items():
            open(beside(path, n), 'w', encoding='utf-8').write(text)


def pairs_between(original, changed, text):
    """The pairs, a line each, that make changed of original, and each of whose old texts stands once in the text as the pairs before leave it; None where they cannot be had so."""
    o, m = original.split('\n'), changed.split('\n')
    out = []
    for tag, i, j, k, l in difflib.SequenceMatcher(None, o, m, autojunk=False).get_opcodes():
        if tag == 'equal':
            continue
        olds, news = o[i:j], m[k:l]
        if not olds:
            olds, news = [o[i - 1]], [o[i - 1]] + news
        if len(olds) != len(news):
            # the line that stands once takes all that is new; what goes besides has to stand once too
            at = next((n for n, x in enumerate(olds) if text.count(x.strip()) == 1), 0)
            whole = ' '.join(x.strip() for x in news)
            news = [whole if n == at else '' for n in range(len(olds))]
        out += [(a.strip(), b.strip()) for a, b in zip(olds, news) if a.strip() != b.strip() and a.strip()]
    for which in (original, text):
        made = which
        for a, b in out:
            if made.count(a) != 1:
                return None
            made = made.replace(a, b)
        if which is original and ' '.join(made.split()) != ' '.join(changed.split()):
            return None
    return out


def take(tree, top, folders):
    left = []
    turned = respell.table(tree)[0]
    for n, f in enumerate(edits(tree)):
        at = os.path.relpath(f, tree)
        if folders and not any(at.startswith(x) for x in folders):
            continue
        crate = crate_of(tree, f)
        head, old_pairs = read(f)
        lines, said = [respell.turn_comment(x, turned) for x in head], []
        for file in dict.fromkeys(p[0] for p in old_pairs):
            path = os.path.join(tree, 'crates', crate, file)
            here = os.path.join(top, 'crates', crate, file)
            if not os.path.exists(beside(path, n)):
                said.append(f'{file}: dropped')
                continue
            if not os.path.exists(here):
                said.append(f'{file}: no such file')
                continue
            original, changed = (open(x, encoding='utf-8').read() for x in (path, beside(path, n)))
            text = open(here, encoding='utf-8').read()
            pairs = pairs_between(original, changed, text)
            if pairs is None:
                said.append(f'{file}: by hand')
                pairs = pairs_between(original, changed, original) or [(y, z) for x, y, z in old_pairs if x == file]
            lines.append(f'file: {file}')
            for a, b in pairs:
                lines += [f'old: {a}', f'new: {b}' if b else 'new:']
        to = os.path.join(top, at)
        os.makedirs(os.path.dirname(to), exist_ok=True)
        open(to, 'w', encoding='utf-8').write('\n'.join(lines) + '\n')
        if said:
            left.append((at, said))
    for at, said in left:
        print(at, '; '.join(said))


if __name__ == '__main__':
    if len(sys.argv) == 3 and sys.argv[1] == 'lay':
        lay(sys.argv[2])
    elif len(sys.argv) >= 4 and sys.argv[1] == 'take':
        take(sys.argv[2], sys.argv[3], sys.argv[4:])
    else:
        sys.exit(__doc__)
