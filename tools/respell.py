#!/usr/bin/env python3
"""Brings the names of the repository's own definitions and lemmas to today's spelling: words in snake case, types and modules in camel case, a dash only between two names.

usage: tools/respell.py [--check] [ROOT]      after port.py, once; ROOT is the top of the checkout (default: here)

Beside this script stands respelled.tsv, what the first run settled: an old name, a tab, the new one. A later run, on another state of the repository, keeps to it.

A name turns where an antt file of specs/ or proofs/ declares it: wellMade -> well_made, effectOf01 -> effect_of_01, none-noted -> none_noted, length-padTo -> length-pad_to (both
sides are functions). Names that Rattle makes and names of the library stay; so do functions, types and constants of src/, which have the spelling already. Where two names would fall
together, the definition has the name and the lemma gets `_lem`. In .rt files only clauses and `ghost` items turn; in comments and in .md files only names in code spans, and bare names with a
capital inside. Must-fail edits and what is kept like them are turned by tools/port-edits.py.
"""
import collections
import glob
import os
import re
import sys

WORD = re.compile(r'[^\s(){}.;,@"«»\[\]]+')
DECLARED = re.compile(r'^\s*((?:abbrev |unfoldable |pub )*)((?:[^\s:(){}=,;.λ"@→]+ )+):(?: |$)')
# words that make no name of two functions
SMALL = set('is at in on by of some next then back order more record numbered there here'.split())
# functions of the library that stand on either side of a dash in its own lemmas' names
LIBRARY = set('length take drop append set get_or replicate map reverse min max insert remove sum not and or eqb leb ltb'.split())


def files(root, endings=('.antt',)):
    for folder in sorted(glob.glob(os.path.join(root, 'crates', '*'))):
        for sub in ('specs', 'proofs', 'src'):
            for at, dirs, names in sorted(os.walk(os.path.join(folder, sub))):
                for n in sorted(names):
                    if n.endswith(endings):
                        yield os.path.join(at, n)


def code(line):
    """The line's code and its comment."""
    m = re.search(r'(?:^|(?<=[\s(){};,]))--(?=\s|-|$)', line)
    return (line[:m.start()], line[m.start():]) if m else (line, '')


def snake(word):
    word = re.sub(r'([a-z0-9])([A-Z])', r'\1_\2', word)
    word = re.sub(r'([A-Z])([A-Z][a-z])', r'\1_\2', word)
    word = re.sub(r'([a-z])([0-9])', r'\1_\2', word) if re.search(r'[A-Z_]', word) else word
    return word.lower()


def is_camel(name):
    return bool(re.match(r"[a-z]\w*[A-Z]\w*'*$", name, re.A))


def survey(root):
    declared, foreign = collections.OrderedDict(), set()
    for f in files(root):
        text = open(f, encoding='utf-8').read()
        by_hand = '/proofs/' in f and os.path.basename(f) == 'Proof.antt'
        for m in re.finditer(r'^use ([^\s{]+?)\.\{([^}]*)\}', text, re.M):
            head = m.group(1)
            if not re.match(r'Rattle\.(?!std\b)\w+\.(specs|proofs)', head) or '.declared.' in head or re.search(r'\.(Tie|Lts|Goals|Given|Reads|Statement)$', head):
                foreign.update(w.strip() for w in m.group(2).split(','))
        for w in re.findall(r'\b(?:tie|goal)\.([^\s(){};,.]+)', text):
            foreign.add(w)
            foreign.add(re.sub(r'^Need-', '', w))
        for line in text.split('\n'):
            c, _ = code(line)
            m = DECLARED.match(c)
            if m:
                for w in m.group(2).split():
                    declared.setdefault(w, set()).add(f)
    return declared, foreign


def table(root):
    declared, foreign = survey(root)
    functions = set(LIBRARY)
    for w, at in declared.items():
        if any('/specs/' in f for f in at) and not re.search('-', w) and w[0].islower():
            functions.add(snake(w) if is_camel(w) else w)
    turned = collections.OrderedDict()
    for w in declared:
        if w in foreign:
            continue
        if not (is_camel(w) or '-' in w) or not re.match(r"[a-z][\w'-]*$", w, re.A):
            continue
        parts = [snake(p) if is_camel(p) else p for p in w.split('-')]
        new = parts[0]
        for i, p in enumerate(parts[1:], 1):
            left, right = '_'.join(parts[:i]), '_'.join(parts[i:])
            new += ('-' if left in functions and right in functions and not {left, right, parts[i]} & SMALL else '_') + p
        if new != w:
            turned[w] = new
    # a lemma that would have its function's name gets `_lem`
    back = collections.defaultdict(set)
    for a, b in turned.items():
        back[b].add(a)
    for b, olds in back.items():
        both = olds | ({b} if b in declared and b not in turned else set())
        if len(both) > 1:
            first = sorted(both, key=lambda w: (not any('/specs/' in f for f in declared[w]), not is_camel(w), w != b, w))
            turned[first[0]] = b
            for w in first[1:]:
                turned[w] = b + '_lem'
            if turned[first[0]] == first[0]:
                del turned[first[0]]
    # what an earlier run settled stands
    settled = os.path.join(os.path.dirname(os.path.realpath(__file__)), 'respelled.tsv')
    if os.path.exists(settled):
        for row in open(settled, encoding='utf-8'):
            a, b = row.rstrip('\n').split('\t')
            turned[a] = b
    return turned, declared, foreign


def turn_code(text, turned):
    return WORD.sub(lambda m: turned.get(m.group(0), m.group(0)), text)


def turn_comment(text, turned):
    text = re.sub(r'`([^`\n]*)`', lambda m: '`' + turn_code(m.group(1), turned) + '`', text)
    return WORD.sub(lambda m: turned[m.group(0)] if is_camel(m.group(0)) and m.group(0) in turned else m.group(0), text)


def turn_antt(text, turned):
    out = []
    for line in text.split('\n'):
        c, comment = code(line)
        out.append(turn_code(c, turned) + turn_comment(comment, turned))
    return '\n'.join(out)


def clauses(text):
    """The spans of a .rt file that are antt: clauses, ghost items, and the rest of a `ghost use`."""
    for m in re.finditer(r'ghost use [^;]*;', text):
        yield m.start(), m.end()
    for m in re.finditer(r'\b(?:requires|ensures)\*?(?: \w+)? \{|\bghost(?: \w+)?:? \{', text):
        depth, at = 1, m.end()
        while depth and at < len(text):
            depth += (text[at] == '{') - (text[at] == '}')
            at += 1
        yield m.end(), at


def turn_rt(text, turned):
    spans = sorted(clauses(text))
    out, at = [], 0
    for a, b in spans:
        if a < at:
            continue
        out += [text[at:a], turn_code(text[a:b], turned)]
        at = b
    out.append(text[at:])
    text = ''.join(out)
    return re.sub(r'//[^\n]*', lambda m: turn_comment(m.group(0), turned), text)


def turn_md(text, turned):
    return re.sub(r'`([^`\n]*)`', lambda m: '`' + turn_code(m.group(1), turned) + '`', text)


def look(root, turned, declared):
    back = collections.defaultdict(set)
    for a, b in turned.items():
        back[b].add(a)
    for b, olds in sorted(back.items()):
        both = olds | ({b} if b in declared and b not in turned else set())
        if len(both) > 1:
            where = {w: sorted({f.split('crates/')[1] for f in declared.get(w, [])})[:3] for w in both}
            print('fall together:', b, where)
    new = set(turned.values())
    for f in files(root):
        words = collections.Counter()
        olds = set()
        for line in open(f, encoding='utf-8').read().split('\n'):
            c, _ = code(line)
            for m in WORD.finditer(c):
                behind = m.start() > 0 and c[m.start() - 1] == '.'
                w = m.group(0)
                if w in turned:
                    olds.add(turned[w])
                elif w in new and not behind:
                    words[w] += 1
        for w in sorted(olds & set(words)):
            print('meets a local:', w, f.split('crates/')[1], words[w])


def main():
    args = [a for a in sys.argv[1:] if a != '--check']
    root = args[0] if args else '.'
    turned, declared, foreign = table(root)
    if '--check' in sys.argv:
        look(root, turned, declared)
        print(len(turned), 'names turn')
        return
    changed = 0
    for f in files(root, ('.antt', '.rt')):
        text = open(f, encoding='utf-8').read()
        new = turn_antt(text, turned) if f.endswith('.antt') else turn_rt(text, turned)
        if new != text:
            open(f, 'w', encoding='utf-8').write(new)
            changed += 1
    for f in ['README.md', 'CONTRIBUTING.md'] + sorted(glob.glob(os.path.join(root, 'docs', '**', '*.md'), recursive=True)):
        f = f if os.path.isabs(f) or f.startswith(root) else os.path.join(root, f)
        if not os.path.exists(f):
            continue
        text = open(f, encoding='utf-8').read()
        new = turn_md(text, turned)
        if new != text:
            open(f, 'w', encoding='utf-8').write(new)
            changed += 1
    settled = os.path.join(os.path.dirname(os.path.realpath(__file__)), 'respelled.tsv')
    if not os.path.exists(settled):
        with open(settled, 'w', encoding='utf-8') as out:
            for w in declared:
                if is_camel(w) or '-' in w or w in turned:
                    out.write(w + '\t' + turned.get(w, w) + '\n')
    print(sum(a != b for a, b in turned.items()), 'names turned in', changed, 'files')


if __name__ == '__main__':
    main()
