#!/usr/bin/env python3
"""Turns the names of this repository's own definitions and lemmas to the spelling of today's Rattle: a dash joins two names that stand for
functions, as in range-length, and everything else is joined by an underscore. It was run once, after port.py, at the port of November 2026.

    python3 tools/respell.py [--list]    (at the top; --list prints the pairs of names and writes nothing)

It reads specs/ and proofs/ of every crate, and rewrites .antt files, the clauses and comments of .rt files, and the lines of .edit files.
Names that Rattle makes (goals of a proof by hand) and names of libraries keep their spelling.
"""
import collections
import glob
import os
import re
import sys

TOKEN = r'[^\s(){}\[\],.;:"«»\\`]+'
HEAD = re.compile(r'^(\s*)((?:(?:pub|abbrev|unfoldable)\s+)*)((?:data|record|ruleset)\s+)?(' + TOKEN + r')\s*(?::(?:\s|$)|(?=where\b)|$)')
WORD = re.compile(r'(?<![^\s(){}\[\],.;:"«»\\`])(\.?)(' + TOKEN + r')')
# functions of the libraries by which lemmas here are named
LIBRARY = set('''length map take drop append reverse replicate set sum digits get_or count min max suc pred mod div pow
bit_xor bit_and bit_or nat_abs trailing_zeros leading_zeros'''.split())


def texts(*ends):
    for path in sorted(glob.glob('crates/**/*', recursive=True)):
        if path.endswith(ends) and '/out/' not in path:
            yield path


def read(path):
    with open(path, encoding='utf-8') as f:
        return f.read()


def definitions():
    """The names with a dash that the repository defines, those of them that are fields, and all its functions that are no lemmas."""
    own, fields, functions, made = set(), set(), set(), collections.defaultdict(set)
    for path in texts('.antt'):
        inside = False
        made[path] = set(re.findall(r'(?m)^(' + TOKEN + r')\s*:\s*tie\.', read(path)))
        for line in read(path).split('\n'):
            m = HEAD.match(line)
            if re.match(r'\s*(pub )?record ', line):
                inside = True
            elif line and not line.startswith(' '):
                inside = False
            if not m or line.lstrip().startswith('--'):
                continue
            name = m.group(4)
            if name in ('use', 'module', 'pub', 'mutual', 'unfolding', 'open'):
                continue
            if name in made[path] or path.endswith('/Proof.antt') and name.startswith(('invariant-', 'decreases-')):
                continue
            if path.endswith('/Proof.antt') and name.endswith('-spec'):
                made[path].add(name)
                continue
            if re.search(r'\b(abbrev|unfoldable)\b', m.group(2)) or '/specs/' in path:
                functions.add(name)
            if '-' in name.strip('-') and re.match(r'[^\W\d]', name):
                own.add(name)
                if inside and m.group(1):
                    fields.add(name)
    return own, fields, functions, made


def spelling(name, functions):
    """Today's spelling of a name: parts that are functions are joined by a dash, plain words by an underscore."""
    if name in functions:
        return name.replace('-', '_')
    words, parts, at = name.split('-'), [], 0
    while at < len(words):
        for end in range(len(words), at, -1):
            known = '-'.join(words[at:end])
            if known in functions or known.replace('-', '_') in LIBRARY:
                if end - at < len(words):
                    parts.append((known.replace('-', '_'), True))
                    break
        else:
            parts.append((words[at], False))
            at += 1
            continue
        at = end
    text = parts[0][0]
    for (_, before), (word, known) in zip(parts, parts[1:]):
        text += ('-' if before and known else '_') + word
    return text


def imports(text):
    """Names that a file imports from libraries and not from this repository."""
    found = set()
    for m in re.finditer(r'(?m)^(?:ghost )?use ([\w.\'+-]+)\.\{([^}]*)\}', text):
        root = m.group(1).split('.')
        if root[0] != 'Rattle' or not os.path.isdir('crates/' + root[1]):
            found |= {w.strip() for w in m.group(2).split(',')}
    return found


def turned(text, names, fields, kept, proof):
    def one(m):
        dot, word = m.group(1), m.group(2)
        if word not in names or word in kept:
            return m.group(0)
        if dot and proof and word not in fields:
            return m.group(0)
        return dot + names[word]

    lines = []
    for line in text.split('\n'):
        if re.match(r'use Rattle\.[\w.+-]*\.(Statement|Tie)\b', line):
            lines.append(line)
        else:
            lines.append(WORD.sub(one, line))
    return '\n'.join(lines)


def main():
    own, fields, functions, made = definitions()
    names = {name: spelling(name, functions) for name in own}
    names = {a: b for a, b in names.items() if a != b}
    back = collections.defaultdict(set)
    for a, b in names.items():
        back[b].add(a)
    for b, several in sorted(back.items()):
        if len(several) > 1:
            print('together:', b, sorted(several))
    if '--list' in sys.argv:
        for a, b in sorted(names.items()):
            print(a, b)
        return
    for path in texts('.antt', '.rt', '.edit'):
        text = read(path)
        target = ''
        if path.endswith('.edit'):
            m = re.search(r'(?m)^file: (.*)$', text)
            target = os.path.join(os.path.dirname(path), '..', m.group(1)) if m else ''
            kept = imports(read(target)) if os.path.exists(target) else set()
        else:
            kept = imports(text) | made.get(path, set())
        proof = path.endswith('/Proof.antt')
        if path.endswith('.edit'):
            new = '\n'.join(turned(l, names, fields, kept, target.endswith('/Proof.antt')) if re.match(r'(old|new): ', l) else l for l in text.split('\n'))
        else:
            present = set(w for _, w in WORD.findall(text))
            for a, b in names.items():
                if a in present and a not in kept and b in present and b not in names:
                    print(f'meets: {path}: {a} becomes {b}, which stands there already')
            new = turned(text, names, fields, kept, proof)
        if new != text:
            with open(path, 'w', encoding='utf-8') as f:
                f.write(new)


if __name__ == '__main__':
    main()
