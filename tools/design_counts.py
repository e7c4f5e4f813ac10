#!/usr/bin/env python3
"""Counts the places of docs/DESIGN-PASS.md in crates/*/src: python3 tools/design_counts.py [ROOT] [--list POINT]"""
import glob
import os
import re
import sys

HEAD = re.compile(
    r'(?m)^( *)((?:pub(?:\(\w+\))? )?(?:const )?(?:extern "C" )?fn (\w+)(?:<[^>(]*>)?\(((?:[^()]|\([^()]*\))*)\)[^{;]*?)'
    r'(?=\n? *(?:requires|ensures|where|\{))')
TABLES = ['p2s', 's2pp', 'nsym_list', 'perms', 'n_satom', 'n_patom', 'num_trans']
SCALES = [(r'fc[234]s?', 'FC'), (r'LIMIT[234]', 'LIMIT'), (r'limit[234]', 'limit'), (r'perms[234]\b', 'ORDERS'), (r'_?(second|third|fourth)', 'NTH'),
          (r'(?<=[a-z])[234]\b', 'N'), (r'\b(9|27|81|243)\b', 'SIZE'), (r'(?<=[a-z])(9|27|81|6|24)\b', 'N'), (r'\b[1-8]\b', 'K'),
          (r'\b(u8|u32|u64|usize|i64|f64|bool)\b', 'T'), (r'_(row|column)s?\b', '_LINE'), (r'\s+', ' ')]


def functions(text):
    found = list(HEAD.finditer(text))
    for m in found:
        start = text.find('{\n', m.end())
        while start >= 0 and text[text.rfind('\n', 0, start) + 1:start].strip():
            start = text.find('{\n', start + 1)
        end = text.find('\n' + m.group(1) + '}\n', m.end())
        if end > 0:
            yield m.group(3), m.group(4), text[m.start():end], (text[start:end] if 0 < start < end else '')


def scaled(text):
    for pattern, word in SCALES:
        text = re.sub(pattern, word, text)
    return text


def places(root):
    point = {n: [] for n in range(1, 9)}
    bodies = {}
    for path in sorted(glob.glob(os.path.join(root, 'crates/*/src/*.rt'))):
        where = path[len(root):].lstrip('/')
        text = open(path).read()
        code = re.sub(r'(?m)//[^\n]*', '', text)
        thin = re.search(r'crates/capi_\w+_c/', where)
        for m in re.finditer(r'enum (\w+) \{((?:[^{}]|\{[^{}]*\})*)\}', code):
            if re.search(r'\(Refusal\)', m.group(2)):
                point[1].append(f'{where}: enum {m.group(1)}')
        for m in re.finditer(r'(?:number\(\w+\) [=<>!]=? ?\w+|let \w+ = (?:tables::)?number\(\w+\))', code):
            if not re.search(r'/capi_|/replay', where):
                point[1].append(f'{where}: {m.group(0)}')
        for m in re.finditer(r'\bis_refusal\(', code):
            point[1].append(f'{where}: a refusal passed on by hand')
        for m in re.finditer(r'(\w+)::Refused\(\w+\) => (\w+)::Refused', code):
            point[1].append(f'{where}: {m.group(0)}')
        for m in re.finditer(r'(?m)^ *while [^\n]*', code):
            point[3].append(f'{where}: {m.group(0).strip()}')
        for name, params, whole, body in functions(text):
            names = [p.split(':')[0].strip() for p in re.sub(r'//[^\n]*', '', params).split(',')]
            if re.match(r'(same_|equal|lesser|greater|wide$|four$|low$|\w*_?number(_of\w*)?$|refusal_number|number_of\w*|is_refusal|to_\w+$)', name):
                point[4].append(f'{where}: {name}')
            if sum(n in TABLES for n in names) >= 2 and not thin:
                point[5].append(f'{where}: {name}')
            if re.search(r'&(?:mut )?\[\w+; 1024\]', params):
                point[6].append(f'{where}: {name}')
            for p in re.findall(r'(\w+): bool', params):
                if re.search(r'\bif !?%s\b' % p, body):
                    point[7].append(f'{where}: {name}({p})')
            if not thin and body.count('\n') >= 3:
                bodies.setdefault(scaled(body), []).append(f'{where}: {name}')
    for group in bodies.values():
        if len(group) > 1:
            point[2].append(' = '.join(group))
    for path in glob.glob(os.path.join(root, 'crates/*/proofs/**/Answers.antt'), recursive=True):
        point[8].append(path[len(root):].lstrip('/'))
    return point


def main():
    args = [a for a in sys.argv[1:] if not a.startswith('--')]
    listed = sys.argv[sys.argv.index('--list') + 1] if '--list' in sys.argv else None
    root = next((a for a in args if a != listed), '.')
    point = places(root)
    for n in sorted(point):
        if listed is None:
            extra = f' ({sum(p.count(" = ") + 1 for p in point[n])} functions)' if n == 2 else ''
            print(f'{n}: {len(point[n])}{extra}')
        elif listed == str(n):
            print('\n'.join(point[n]))


main()
