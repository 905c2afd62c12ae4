#!/usr/bin/env python3
"""Lists the places in crates/*/src at which docs/DESIGN-PASS.md looks, point by point.

tools/design_places.py         the number of places of each kind
tools/design_places.py KIND    the places of one kind, FILE:LINE: TEXT
"""
import glob
import re
import sys


def functions():
    for path in sorted(glob.glob('crates/*/src/**/*.rt', recursive=True)):
        text = open(path).read()
        for m in re.finditer(r'^[ ]*(?:pub(?:\([a-z]+\))? )?(?:unsafe )?(?:extern "C" )?fn (\w+)(?:<[^>(]*>)?\(', text, re.M):
            depth, i = 1, m.end()
            while depth:
                depth += {'(': 1, ')': -1}.get(text[i], 0)
                i += 1
            yield path, text.count('\n', 0, m.start()) + 1, m.group(1), ' '.join(text[m.end():i - 1].split())


def lines(pattern):
    for path in sorted(glob.glob('crates/*/src/**/*.rt', recursive=True)):
        for n, line in enumerate(open(path), 1):
            if re.search(pattern, line):
                yield path, n, line.strip()


def enums():
    for path in sorted(glob.glob('crates/*/src/**/*.rt', recursive=True)):
        text = open(path).read()
        for m in re.finditer(r'^(?:pub(?:\([a-z]+\))? )?enum (\w+) \{\n(.*?)^\}', text, re.M | re.S):
            cases = re.findall(r'^    (\w+)( \{.*?^    \}|\([^\n]*\)| \{[^\n]*\})?,$', re.sub(r'^ *//.*\n', '', m.group(2), flags=re.M), re.M | re.S)
            yield path, text.count('\n', 0, m.start()) + 1, m.group(1), cases


def option_shaped():
    """An enum with a value in one case and none in its one other, or with a case of a refusal, a fault, or nothing to say."""
    for path, n, name, cases in enums():
        full = [c for c in cases if c[1]]
        if len(cases) == 2 and len(full) == 1 or any(re.search('Refus|Fault', c[0] + c[1]) for c in full):
            yield path, n, name + ': ' + ', '.join(c[0] for c in cases)


def flag_beside():
    for path in sorted(glob.glob('crates/*/src/**/*.rt', recursive=True)):
        text = open(path).read()
        for m in re.finditer(r'^(?:pub(?:\([a-z]+\))? )?struct (\w+) \{\n(.*?)^\}', text, re.M | re.S):
            if re.search(r': bool,', m.group(2)) and m.group(2).count(':') > 1:
                yield path, text.count('\n', 0, m.start()) + 1, m.group(1)


def with_parameters(test):
    for path, n, name, inside in functions():
        if test(inside):
            yield path, n, name + '(' + inside + ')'


def twins():
    seen = {}
    for path in sorted(glob.glob('crates/*/src/**/*.rt', recursive=True)):
        text = open(path).read()
        for m in re.finditer(r'^[ ]*(?:pub(?:\([a-z]+\))? )?fn (\w+)[^{;]*?\{\n(.*?)^\}', text, re.M | re.S):
            words = re.findall(r'\w+|[^\w\s]', m.group(2))
            if len(words) < 12:
                continue
            shape = ' '.join(w if not re.match(r'\w', w) or w in ('let', 'mut', 'if', 'else', 'while', 'loop', 'for', 'in', 'match', 'return', 'as') else 'x' for w in words)
            seen.setdefault(shape, []).append((path, text.count('\n', 0, m.start()) + 1, m.group(1)))
    for group in seen.values():
        if len(group) > 1:
            for place in group:
                yield place[0], place[1], place[2] + '  (one of ' + ', '.join(g[2] for g in group) + ')'


KINDS = {
    '1-option': option_shaped,
    '1-flag': flag_beside,
    '1-number': lambda: with_parameters(lambda p: re.search(r'\b(kind|rule|code|packing|which): (u8|u32|u64|usize)\b', p)),
    '2-twins': twins,
    '3-while': lambda: lines(r'^\s*while '),
    '4-by-hand': lambda: ((p, n, f) for p, n, f, i in functions() if re.search(r'(_number|_place|_kind|_type|_bits|_verdict|_of_code|_code)$|^(same_|signed_|bits_|value_of)', f) and 'gvrs_c' not in p),
    '5-many': lambda: with_parameters(lambda p: p.count(':') > 6),
    '6-buffers': lambda: lines(r'\[0u?\w*; \w+\]'),
    '6-parallel': lambda: with_parameters(lambda p: 'kinds: &mut' in p and 'bits: &mut' in p),
    '7-switch': lambda: with_parameters(lambda p: re.search(r'\b\w+: bool\b', p)),
}

if __name__ == '__main__':
    if len(sys.argv) > 1:
        for place in KINDS[sys.argv[1]]():
            print('%s:%d: %s' % place[:3])
    else:
        for kind, places in KINDS.items():
            print('%-12s %d' % (kind, len(list(places()))))
        answers = sum(len(re.findall(r'^pub \S+ : ', open(p).read(), re.M)) for p in glob.glob('crates/*/proofs/**/Answers.antt', recursive=True))
        print('%-12s %d' % ('8-answers', answers))
