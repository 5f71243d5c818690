#!/usr/bin/env python3
"""Counts the places in src/ that docs/DESIGN-PASS.md speaks of, a line for each point. With -v it lists each place too."""
import collections
import glob
import re
import sys

FUNCTION = re.compile(r'^( *)(?:pub )?fn (\w+)')


def functions(path):
    """Each function of a file: its line, name, head (up to the body) and body."""
    lines = open(path, encoding='utf-8').read().split('\n')
    at = 0
    while at < len(lines):
        start = FUNCTION.match(lines[at])
        if not start:
            at += 1
            continue
        indent = start.group(1)
        first = at
        body = None
        while at < len(lines) and lines[at] != indent + '}':
            if body is None and (lines[at] == indent + '{' or lines[at].endswith(' {')):
                body = at
            if body is None and lines[at].endswith('}') and ' { ' in lines[at] and 'ensures' not in lines[at] and 'requires' not in lines[at]:
                break
            at += 1
        body = at if body is None else body
        yield first + 1, start.group(2), '\n'.join(lines[first:body + 1]), '\n'.join(lines[body:at + 1])
        at += 1


def structs(path):
    """Each struct of a file: its line, name and fields with their types."""
    text = open(path, encoding='utf-8').read()
    for found in re.finditer(r'^(?:pub )?struct (\w+)[^;{]*\{\n(.*?)^\}', text, re.M | re.S):
        fields = re.findall(r'^    (?:pub )?(\w+): (.*),$', found.group(2), re.M)
        yield text.count('\n', 0, found.start()) + 1, found.group(1), fields


def parameters(head):
    """The parameters of a function's head with their types."""
    inside = head[head.index('(') + 1:]
    depth = 1
    for at, letter in enumerate(inside):
        depth += (letter == '(') - (letter == ')')
        if depth == 0:
            inside = inside[:at]
            break
    pairs = re.findall(r'(?:^|[,\s])(?:mut )?(\w+): ([^,()]+(?:\([^)]*\))?)', inside)
    return [(name, ' '.join(kind.split())) for name, kind in pairs]


def facts(head):
    """The facts that a function's requires clauses join by a product."""
    for clause in re.findall(r'^ *requires (?:\w+ )?\{ (.*?) \}$', head, re.M | re.S):
        flat = ' '.join(clause.split())
        for fact in re.split(r' × ', flat):
            yield fact.strip('() ')


def main():
    paths = sorted(glob.glob('crates/*/src/*.rt'))
    places = collections.defaultdict(list)
    by_fact = collections.defaultdict(set)
    by_pair = collections.defaultdict(set)
    heads = {}
    for path in paths:
        for number, name, fields in structs(path):
            kinds = dict(fields)
            if 'bool' in kinds.values() and len(fields) > 1:
                places['1 flag beside a value'].append(f'{path}:{number} {name}')
            if any(f in ('answer', 'kind', 'refusal') and k == 'u64' for f, k in fields):
                places['1 number for a kind or a refusal, in a struct'].append(f'{path}:{number} {name}')
            if 'usize' in kinds.values() and any('[' in k for k in kinds.values()):
                places['6 array with a length beside'].append(f'{path}:{number} {name}')
            if sum('[' in k for k in kinds.values()) > 1:
                places['6 parallel arrays'].append(f'{path}:{number} {name}')
        for number, name, head, body in functions(path):
            where = f'{path}:{number} {name}'
            heads[where] = head
            if '-> u64' in head and re.search(r'return \d+;|return (?:refused|refusal|answer|first|asked);|^ +(?:4294967296 \+|ACCEPTED \+|0$|10$|9$|14$)', body, re.M):
                places['1 number for a refusal, answered'].append(where)
            tests = re.findall(r'\b(?:refused|refusal|answer|asked|replied)\b (?:!=|<|==) \w+|\bkind [!=<]=? \d|\d < \w+\.kind', body)
            places['1 number for a kind or a refusal, tested'] += [where] * len(tests)
            compared = re.findall(r'if (?:\w+\.)?(\w+)(?:\(\w+\))? (?:!=|<) ', body)
            if len(re.findall(r'if \w+\.(\w+) (?:!=|<) \w+\.\w+', body)) > 1:
                places['4 equality or order by hand'].append(where)
            for fact in facts(head):
                by_fact[re.sub(r'\b\w+\.(now|old)\b', r'_.\1', fact)].add(where)
            for pair in parameters(head):
                by_pair[pair].add(where)
        for number, line in enumerate(open(path, encoding='utf-8'), 1):
            if re.match(r'\s*while ', line):
                places['3 while'].append(f'{path}:{number}')
            if re.match(r'\s*(?:Bad|None|Nothing),$', line):
                places['1 enum of the shape of Option'].append(f'{path}:{number}')
            if re.match(r'\s*match (?:kind|\w+\.kind) \{', line):
                places['7 switch on a number'].append(f'{path}:{number}')
    for fact, users in by_fact.items():
        if len(users) > 2:
            places['5 fact in three or more contracts'].append(f'{fact}: {len(users)} functions')
    sets = collections.defaultdict(set)
    for where, head in heads.items():
        names = frozenset(p for p in parameters(head) if len(by_pair[p]) > 2)
        for other, second in heads.items():
            if other != where:
                joint = names & set(parameters(second))
                if len(joint) > 2:
                    sets[joint] |= {where, other}
    groups = [(joint, users) for joint, users in sets.items() if len(users) > 2]
    maximal = [(j, u) for j, u in groups if not any(j < k and u <= v for k, v in groups)]
    together = set().union(*(u for _, u in maximal)) if maximal else set()
    places['5 function whose parameters travel together'] = sorted(together)
    for path in sorted(glob.glob('crates/*/proofs/**/Answers.antt', recursive=True)):
        for number, line in enumerate(open(path, encoding='utf-8'), 1):
            if re.match(r'pub \S+ : ', line):
                places['8 answer'].append(f'{path}:{number}')
    for point in sorted(places):
        print(f'{len(places[point]):5}  {point}')
        if '-v' in sys.argv:
            for place in places[point]:
                print('       ' + place)


if __name__ == '__main__':
    main()
