#!/usr/bin/env python3
"""Lists the places of docs/DESIGN-PASS.md in the code of a commit, point by point, and how many they are.

usage: tools/places.py COMMIT [POINT]      (COMMIT `.` is the working tree)
"""
import collections, glob, re, subprocess, sys

def files(commit):
    if commit == '.':
        return {f: open(f).read() for f in sorted(glob.glob('crates/*/src/*.rt'))}
    names = subprocess.run(['git', 'ls-tree', '-r', '--name-only', commit, 'crates'], capture_output=True, text=True, check=True).stdout.split()
    names = [n for n in names if re.match(r'crates/\w+/src/.*\.rt$', n)]
    return {n: subprocess.run(['git', 'show', f'{commit}:{n}'], capture_output=True, text=True, check=True).stdout for n in names}

def block(text, at):
    """From the `{` at or after `at` to its `}`."""
    i = text.index('{', at)
    depth = 0
    for j in range(i, len(text)):
        depth += (text[j] == '{') - (text[j] == '}')
        if depth == 0:
            return text[i + 1:j]
    return text[i + 1:]

def line(text, at):
    return text.count('\n', 0, at) + 1

def functions(text):
    """name, parameters, clauses, body and line of each function."""
    for m in re.finditer(r'^( *)(?:pub )?(?:extern "C" )?fn (\w+)(?:<[^(]*>)?\(', text, re.M):
        depth, j = 1, m.end()
        while depth:
            depth += (text[j] in '([<') - (text[j] in ')]' or (text[j] == '>' and text[j - 1] != '-'))
            j += 1
        parameters = [' '.join(p.split()) for p in re.split(r',\s*(?![^\[(<]*[\])>])', text[m.end():j - 1]) if p.strip()]
        end = re.compile(r'^%s\{|\{\n' % m.group(1), re.M).search(text, j)
        if not end:
            continue
        head = text[j:end.start()]
        yield m.group(2), parameters, re.findall(r'requires(?: \w+)? \{(.*)\}', head), block(text, end.start()), line(text, m.start())

def shaped(text):
    """Enums of the shape of Option or Result: at most one variant says something, and another says nothing or a refusal."""
    for m in re.finditer(r'^(?:pub )?enum (\w+) \{', text, re.M):
        body = re.sub(r'//.*', '', block(text, m.start()))
        variants = re.findall(r'^    (\w+)(?:\(([^)]*)\)| (\{[^}]*\}))?,', body, re.M)
        says = [v for v in variants if (v[1] or v[2]) and v[1] != 'Refusal']
        refused = [v for v in variants if v[1] == 'Refusal']
        if refused or (len(says) == 1 and len(variants) > 1):
            yield line(text, m.start()), f'enum {m.group(1)}'
    # a yes or no beside what it is about
    for m in re.finditer(r'^(?:pub )?struct (\w+) \{', text, re.M):
        body = block(text, m.start())
        if re.search(r'^\s+(pub )?(present|matched|same|split|inexact): bool', body, re.M):
            yield line(text, m.start()), f'struct {m.group(1)}, a flag and a value'
    # an answer that is only passed on, and a match that only asks which it is
    passed = r'\b(?:\w+::)*(Refused|Unwritten|Err)\((\w+)\) => (?:return )?(?:\w+::)*(?:Refused|Unwritten|Err|Over)\((?:\w+::\w+\()?\2\)|\b(?:\w+::)*(Not|Never|Nothing|None|Full) => (?:return )?(?:\w+::)*(?:Not|Never|Nothing|None|Bad|Unclassed|Absent|Full)\b,'
    for m in re.finditer(passed, text):
        yield line(text, m.start()), 'passed on by hand: ' + m.group(0)
    for m in re.finditer(r'\b[\w:]+(?:\(_\)|\(\(\)\))? => (true|false),\n\s+[\w:]+(?:\(_\)|\(\(\)\))? => (true|false),\n\s+\}', text):
        yield line(text, m.start()), 'which it is, by a match'

def counted(text):
    """Loops that count an index by hand."""
    for m in re.finditer(r'^( *)while (.*) \{$', text, re.M):
        body = block(text, m.end() - 1)
        for v in re.findall(r'\b(\w+) [+-]= 1;', body):
            if re.search(rf'\b{v}\b', m.group(2)):
                yield line(text, m.start()), f'while {m.group(2)}'
                break

def shape(body, own):
    body = re.sub(r'//.*', '', body)
    body = re.sub(r'b?"[^"]*"', 'S', body)
    body = re.sub(r"b?'[^']*'", 'N', body)
    body = re.sub(r'\b0x[0-9A-Fa-f]+\b|\b\d[\d_]*\b', 'N', body)
    names = {}
    return ' '.join(re.sub(r'\b(?!if\b|else\b|match\b|return\b|let\b|mut\b|while\b|for\b|in\b|as\b|S\b|N\b)[A-Za-z_]\w*', lambda m: names.setdefault(m.group(0), f'v{len(names)}'), body).split())

def twins(texts):
    """Functions of one crate that differ only in names, numbers and texts, each after the first."""
    seen = collections.defaultdict(list)
    for f, text in texts.items():
        for name, parameters, _, body, n in functions(text):
            s = shape(body, name)
            if len(s.split()) >= 12:
                seen[(f.split('/')[1], len(parameters), s)].append((f, n, name))
    for places in seen.values():
        for f, n, name in places[1:]:
            yield f, n, f'{name}, as {places[0][2]}'

def by_hand(text):
    """Equality, order, copies and conversions by hand."""
    own = set(re.findall(r'^(?:pub )?(?:enum|struct) (\w+)', text, re.M))
    for name, parameters, _, body, n in functions(text):
        if re.search(r'(\w+)\[(.+?)\] = (\w+)\[', body) and 'while' in body:
            yield n, f'{name}: a copy, byte by byte'
        elif re.search(r'if (.+)\[i\](.*) != (.+)\[i\]', body):
            yield n, f'{name}: equality, byte by byte'
        elif re.match(r'(number|place|name|name_length|wanted|left|of_\w+|\w+_number|\w+_of|one_if|has_\w+|seconds_in|refusal|size)$', name) and len(parameters) == 1 \
                and re.match(r'\s*(match \w+ \{|if \w+ \{ [01] \} else \{ [01] \})', body):
            yield n, f'{name}: a conversion'

def together(texts):
    """Three parameters or more, of the same names and types, in three functions of a crate or more."""
    groups = collections.defaultdict(set)
    for f, text in texts.items():
        for name, parameters, _, _, n in functions(text):
            for size in range(3, len(parameters) + 1):
                for i in range(len(parameters) - size + 1):
                    groups[(f.split('/')[1], tuple(parameters[i:i + size]))].add((f, n, name))
    best = {}
    for (crate, ps), fs in groups.items():
        if len(fs) >= 3:
            key = (crate, frozenset(fs))
            if key not in best or len(ps) > len(best[key]):
                best[key] = ps
    for (crate, fs), ps in sorted(best.items(), key=lambda x: (x[0][0], sorted(x[0][1]))):
        if not any(c == crate and fs < other and set(ps) <= set(q) for (c, other), q in best.items()):
            f, n, _ = sorted(fs)[0]
            yield f, n, f'{", ".join(ps)} in {len(fs)}: ' + ', '.join(sorted(x[2] for x in fs))

def facts(texts):
    """A fact that three functions of a crate or more ask."""
    asked = collections.defaultdict(list)
    for f, text in texts.items():
        for name, _, requires, _, n in functions(text):
            for r in requires:
                for fact in re.split(r' × (?![^(]*\))', r.strip()):
                    asked[(f.split('/')[1], fact.strip('() '))].append((f, n, name))
    for (crate, fact), fs in sorted(asked.items()):
        if len(fs) >= 3:
            yield fs[0][0], fs[0][1], f'{fact} in {len(fs)}: ' + ', '.join(x[2] for x in fs)

def buffers(text):
    """A lent table or text with a count of what is used beside it, and columns that lie side by side."""
    for name, parameters, _, _, n in functions(text):
        for a, b in zip(parameters, parameters[1:]):
            if re.search(r': &(mut )?\[', a) and re.match(r'(count|used|n|len|held|size): usize', b):
                yield n, f'{name}: {a}, {b}'
    for m in re.finditer(r'^(?:pub )?const (LENS|HIGH|PARENTS|ALIASED)\b', text, re.M):
        yield line(text, m.start()), f'const {m.group(1)}, beside another'

def switches(text):
    """A chain of tests of one name that says which function runs."""
    for name, _, _, body, n in functions(text):
        k = len(re.findall(r'if letters::same\(\w+, b"', body))
        if k >= 2:
            yield n, f'{name}: {k} names'

def main():
    texts = files(sys.argv[1])
    each = lambda rule: [(f, n, what) for f, text in texts.items() for n, what in rule(text)]
    points = {
        '1': each(shaped), '2': list(twins(texts)), '3': each(counted), '4': each(by_hand),
        '5': list(together(texts)) + list(facts(texts)), '6': each(buffers), '7': each(switches),
    }
    try:
        show(points)
    except BrokenPipeError:
        pass

def show(points):
    for p, places in points.items():
        if len(sys.argv) > 2 and sys.argv[2] != p:
            continue
        print(f'point {p}: {len(places)} places')
        if len(sys.argv) > 2:
            for f, n, what in sorted(places):
                print(f'  {f[7:]}:{n}  {what}')

main()
