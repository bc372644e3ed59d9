#!/usr/bin/env python3
"""The places in the code that docs/DESIGN-PASS.md counts, a line each, and how many there are by point.

    python3 tools/places.py [COMMIT]

Without a commit it reads the files as they are here. A place is found by its text alone, so a reader judges each: the page says
which are kept and why. Parameters of exported functions, which C sets, are not counted.
"""
import re
import subprocess
import sys
from collections import defaultdict

WORDS = set('''as bool break const continue crate else enum extern false fn for ghost i32 i64 if impl in let loop match mod mut pub
return self Self static struct trait true type u16 u32 u64 u8 unsafe use usize where while'''.split())
TYPES = {'bool', 'i32', 'i64', 'u8', 'u16', 'u32', 'u64', 'usize'}


def sources(commit):
    """Name and text of each source file of the crates."""
    if commit is None:
        names = subprocess.run(['git', 'ls-files', 'crates/*/src/*.rt'], capture_output=True, text=True, check=True).stdout.split()
        return [(name, open(name, encoding='utf-8').read()) for name in names]
    names = subprocess.run(['git', 'ls-tree', '-r', '--name-only', commit, 'crates'], capture_output=True, text=True, check=True).stdout.split()
    names = [name for name in names if '/src/' in name and name.endswith('.rt')]
    return [(name, subprocess.run(['git', 'show', commit + ':' + name], capture_output=True, text=True, check=True).stdout) for name in names]


def functions(name, text):
    """Place, parameters and body (without clauses and comments) of each function of a file."""
    code = re.sub(r'//[^\n]*', '', text)
    for head in re.finditer(r'\bfn (\w+)(?:<[^>(]*>)?\(', code):
        end = head.end()
        depth = 1
        while depth:
            depth += {'(': 1, ')': -1}.get(code[end], 0)
            end += 1
        parameters = re.findall(r'(\w+): ([^,]+)', code[head.end():end - 1])
        after = re.search(r'\n( *)\{\n|\) \{\n|[\w\]>] \{\n', code[end - 1:])
        if not after:
            continue
        start = end - 1 + after.end()
        indent = re.match(r' *', code[start:]).group(0)
        close = code.find('\n' + indent[4:] + '}', start)
        yield f'{name.split("/")[1]}::{head.group(1)}', parameters, code[start:close]


def renamed(body):
    """The body with its names numbered in the order in which they come, and its types and numbers left out."""
    seen = {}
    parts = []
    for word in re.findall(r'\w+|[^\w\s]', body):
        if word in TYPES or word[0].isdigit():
            parts.append('0')
        elif word in WORDS or not (word[0].isalpha() or word[0] == '_'):
            parts.append(word)
        else:
            parts.append('v%d' % seen.setdefault(word, len(seen)))
    return ' '.join(parts).replace(' as 0', '').replace(', )', ' )')


def own_results(name, text):
    """1: enums that say accepted or refused, found or missing; flags in a struct; refusals and kinds as numbers."""
    for kind, body in re.findall(r'enum (\w+) \{(.*?)\n\}', text, re.S):
        if not kind.endswith('Error') and re.search(r'\b(Refused\(|Missing|OutOfRange|Bad\b|BadLine)', body):
            yield 1, name, f'enum {kind}'
    for kind, body in re.findall(r'struct (\w+)[^{;]*\{(.*?)\n\}', text, re.S):
        for flag in re.findall(r'(\w+): bool,', body):
            yield 1, name, f'flag {kind}.{flag}'
    for line in re.findall(r'refusal: [1-9]\d*,|return (?:6|19);|\bk: u8|kind: u8|\bmatch k \{|gone: (?:&mut |&)?\[?u8|Refusal::\w+ => 1,', text):
        yield 1, name, f'number {line}'


def loops(name, text):
    """3: loops that count an index by hand."""
    code = re.sub(r'//[^\n]*', '', text)
    for loop in re.finditer(r'\n( *)(while [^\n]*|loop) \{\n(.*?)\n\1\}', code, re.S):
        if re.search(r'\b\w+ [+-]= (?:1|16);', loop.group(3)):
            yield 3, name, 'loop ' + loop.group(2).strip()


def by_hand(name, text):
    """4: conversions, copies, least and largest, equality written by hand."""
    code = re.sub(r'//[^\n]*', '', text)
    for place, _, body in functions(name, text):
        flat = ' '.join(body.split())
        if re.fullmatch(r'\w+ as \w+', flat) or re.fullmatch(r'if (\w+) < (\w+) \{ (?:return )?\w+;? \}(?: else \{)? ?\w+ ?\}?', flat):
            yield 4, name, f'function {place}'
        if re.fullmatch(r'\w+ \{( \w+: \w+,)+ \}', flat) or 'to[k] = from[k]' in flat or 'to[i] = from[i]' in flat:
            yield 4, name, f'function {place}'
        if re.fullmatch(r'(?:let (\w+) = [\w.:]+(?:\([^;]*\))?; )?match [^{]*\{.*number\(\) as u32.*\}', flat) or 'Relative::HIGHEST <' in flat or '=> 24,' in flat:
            yield 4, name, f'conversion {place}'
    for _ in re.findall(r'if \w+(?:\.\w+)*\.num == \w+(?:\.\w+)*\.num \{\n *if', code):
        yield 4, name, 'equality of two fractions'
    for _ in re.findall(r'if (\w+) < (\S+) \{\n *\1 = \2;', code):
        yield 4, name, 'largest so far'


def beside(name, text):
    """6: a buffer with a length beside it, a list searched by halves, a length for "not found", parallel arrays."""
    code = re.sub(r'//[^\n]*', '', text)
    for kind, body in re.findall(r'struct (\w+)[^{;]*\{(.*?)\n\}', code, re.S):
        arrays = len(re.findall(r': \[\w+; \w+\],', body))
        if arrays and re.search(r'\b(count|units|size|len): usize', body):
            yield 6, name, f'struct {kind}: a length beside its array'
        if arrays > 1:
            yield 6, name, f'struct {kind}: {arrays} arrays side by side'
    for place, _, body in functions(name, text):
        if 'let middle' in body:
            yield 6, name, f'search {place}'
        if re.search(r'\n    list\.len\(\)$', body):
            yield 6, name, f'sentinel {place}'


def switches(name, text):
    """7: a switch on which step to run."""
    for place, _, body in functions(name, text):
        if re.search(r'Kind::\w+ => \w+[.:(]|if size\.q == 0 \{', body):
            yield 7, name, f'switch {place}'


def groups(all_functions):
    """5: three or more parameters that stand together, in this order, in three or more functions."""
    together = defaultdict(set)
    for place, parameters, _ in all_functions:
        for i in range(len(parameters)):
            for j in range(i + 3, len(parameters) + 1):
                together[tuple(parameters[i:j])].add(place)
    kept = [(group, places) for group, places in together.items() if len(places) >= 3]
    for group, places in kept:
        if not any(set(group) < set(other) and places <= others for other, others in kept):
            names = ', '.join(parameter for parameter, _ in group)
            yield 5, f'({names})', f'{len(places)} functions'


def twins(all_functions):
    """2: functions that are equal but for names, types and numbers."""
    alike = defaultdict(list)
    for place, _, body in all_functions:
        if body.count('\n') >= 2:
            alike[renamed(body)].append(place)
    for places in alike.values():
        if len(places) > 1 and not all(place.startswith('vougecress_c::') for place in places):
            yield 2, ', '.join(places), f'{len(places)} alike'


def main():
    files = sources(sys.argv[1] if len(sys.argv) > 1 else None)
    places = [place for name, text in files for walk in (own_results, loops, by_hand, beside, switches) for place in walk(name, text)]
    every = [f for name, text in files if 'vougecress_c/' not in name for f in functions(name, text)]
    inside = [f for f in every if '::vougecress_' not in f[0]]
    places += list(twins(every)) + list(groups(inside))
    for point, where, what in sorted(places):
        print(point, where, what)
    for point in range(1, 8):
        print(f'point {point}: {sum(1 for place in places if place[0] == point)} places')


if __name__ == '__main__':
    main()
