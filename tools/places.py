#!/usr/bin/env python3
"""Counts in crates/*/src what docs/DESIGN-PASS.md speaks of, a line a point.

places.py [-l] [POINT]     counts (with -l: and lists) the places of the points 1 to 7 in this checkout; of one point where it is named

It goes by text: a place is somewhere to look, and whether it is one is said in docs/DESIGN-PASS.md.
"""
import collections, glob, re, sys

SOURCES = sorted(glob.glob('crates/*/src/*.rt'))


def crate(path):
    return path.split('/')[1]


def plain(text):
    """The text without comments and clauses, line for line."""
    text = re.sub(r'//[^\n]*', '', text)
    return re.sub(r'^( +)(requires|ensures|decreases)\b[^\n]*$', '', text, flags=re.M)


def block(text, at):
    """From the brace at a place to the one that closes it."""
    depth = 0
    for i in range(at, len(text)):
        depth += {'{': 1, '}': -1}.get(text[i], 0)
        if depth == 0:
            return text[at:i + 1]
    return text[at:]


def functions(text):
    """Name, parameters, clauses and body of each function."""
    for m in re.finditer(r'^ *(?:pub )?(?:extern "C" )?fn (\w+)(?:<[^{(]*>)?\(', text, re.M):
        depth, end = 0, m.end() - 1
        while True:
            depth += {'(': 1, ')': -1}.get(text[end], 0)
            if depth == 0:
                break
            end += 1
        at = end
        clauses = []
        line = re.compile(r'\n( +)(requires|ensures|decreases)\b([^\n]*)')
        head = text.find('{', at)
        while True:
            stop = re.compile(r'\n *\{|\{').search(text, at)
            c = line.search(text, at)
            if c and c.start() <= stop.start():
                clauses.append((c.group(2), c.group(3)))
                at = c.end()
            else:
                head = text.find('{', stop.start())
                break
        yield m.group(1), text[m.end():end], clauses, block(text, head), m.start()


def types(text, word):
    for m in re.finditer(r'^(?:pub )?' + word + r' (\w+)[^;{(]*\{', text, re.M):
        yield m.group(1), block(text, m.end() - 1)[1:-1]


def parts(body):
    """The variants or fields of a type, split at its own commas."""
    out, depth, part = [], 0, ''
    for ch in body:
        depth += {'(': 1, '{': 1, '<': 1, '[': 1, ')': -1, '}': -1, '>': -1, ']': -1}.get(ch, 0)
        if ch == ',' and depth == 0:
            out.append(part.strip())
            part = ''
        else:
            part += ch
    return [p for p in out + [part.strip()] if p]


def point1():
    for f in SOURCES:
        text = plain(open(f).read())
        for name, body in types(text, 'enum'):
            vs = parts(body)
            holding = [v for v in vs if '(' in v or '{' in v]
            if len(vs) <= 3 and holding:
                yield f'{crate(f)}: enum {name} has {len(vs)} cases, {len(holding)} with a value'
            elif holding and any(re.match(r'(Bad|Unknown|None|Failed|Refused)\b', v) for v in vs):
                yield f'{crate(f)}: enum {name} has a case for what went wrong'
            elif any(re.match(r'(Bad|Unknown|None)\b', v) for v in vs):
                yield f'{crate(f)}: enum {name} has a case for none'
        for name, body in types(text, 'struct'):
            for p in parts(body):
                if re.search(r'\b(lent|ready|there|within|question|on|watch|idle): bool$', p) or re.search(r'\b(fault|kind|number|letter): u(8|16)$', p):
                    yield f'{crate(f)}: struct {name}, {p}'
        for m in re.finditer(r'^(?:pub )?const ((?!MOST_)\w+): (u8|u16) = ', text, re.M):
            yield f'{crate(f)}: const {m.group(1)}: {m.group(2)}'


def shape(body):
    seen = {}
    out = []
    for t in re.findall(r'[A-Za-z_]\w*|\d\w*|\S', body):
        if re.match(r'[A-Za-z_]', t) and t not in ('if', 'else', 'while', 'for', 'in', 'match', 'let', 'mut', 'return', 'loop', 'true', 'false', 'as', 'self'):
            t = '$%d' % seen.setdefault(t, len(seen))
        elif t[0].isdigit():
            t = '0'
        out.append(t)
    return ' '.join(out), len(out)


def point2():
    by = collections.defaultdict(list)
    for f in SOURCES:
        for name, params, clauses, body, at in functions(plain(open(f).read())):
            s, n = shape(body)
            if n >= 30:
                by[s].append(f'{crate(f)}::{name}')
    for s, names in sorted(by.items(), key=lambda x: x[1]):
        if len(names) > 1:
            yield ', '.join(names)


def point3():
    for f in SOURCES:
        text = plain(open(f).read())
        for m in re.finditer(r'\b(while ([^{]*)|loop )\{', text):
            body = block(text, m.end() - 1)
            steps = {s.group(1) for s in re.finditer(r'^ *([a-z_.]+) (?:[-+]= 1|= \1 [-+] 1);', body, re.M)}
            if m.group(2) is not None:
                steps = {s for s in steps if re.search(r'(?<![\w.])' + re.escape(s) + r'(?![\w.])', m.group(2))}
            if steps:
                yield f'{crate(f)}: {m.group(1).strip()}'


def point4():
    names = r'is|below|is_of|is_none|wide\w*|greater|least|smaller|minimum|maximum|number_of|same\w*|equal\w*|letter|small|digit|byte|size|none|of|number|place'
    for f in SOURCES:
        text = plain(open(f).read())
        for m in re.finditer(r'^ *(?:pub )?fn (' + names + r')\(', text, re.M):
            yield f'{crate(f)}: fn {m.group(1)}'
        for m in re.finditer(r'\w+\.(is|below|is_of|is_none)\(', text):
            yield f'{crate(f)}: {m.group(0)}..)'


def split_clause(text):
    """The facts of a clause, at its own ×."""
    text = text.strip()
    text = re.sub(r'^\w* *\{ ?', '', text)
    text = re.sub(r' ?\}$', '', text)
    out, depth, part = [], 0, ''
    for ch in text:
        depth += {'(': 1, ')': -1}.get(ch, 0)
        if ch == '×' and depth == 0:
            out.append(part.strip())
            part = ''
        else:
            part += ch
    return [p.strip('() ') for p in out + [part.strip()] if p]


def point5():
    facts = collections.defaultdict(set)
    groups = collections.defaultdict(set)
    for f in SOURCES:
        text = re.sub(r'//[^\n]*', '', open(f).read())
        for name, params, clauses, body, at in functions(text):
            where = f'{crate(f)}::{name}'
            for kind, c in clauses:
                if kind == 'requires':
                    for p in split_clause(c):
                        facts[re.sub(r'\.(now|old|new|entry)\b', '', p)].add(where)
            ps = [re.sub(r'\s+', ' ', p) for p in parts(params)]
            for i in range(len(ps)):
                for j in range(i + 3, len(ps) + 1):
                    groups[', '.join(ps[i:j])].add(where)
    for p, w in sorted(facts.items(), key=lambda x: -len(x[1])):
        if len(w) >= 3:
            yield f'fact {p}: {len(w)} functions'
    shown = []
    for g, w in sorted(groups.items(), key=lambda x: (-x[0].count(':'), -len(x[1]))):
        if len(w) >= 3 and not any(g in h and w <= v for h, v in shown):
            shown.append((g, w))
            yield f'parameters {g}: {len(w)} functions'


def point6():
    for f in SOURCES:
        text = plain(open(f).read())
        for m in re.finditer(r'^.*\[[\w: ]+; [\w: +*]+\].*$', text, re.M):
            yield f'{crate(f)}: {m.group(0).strip()[:100]}'


def point7():
    for f in SOURCES:
        text = plain(open(f).read())
        for name, params, clauses, body, at in functions(text):
            for p in parts(params):
                if re.search(r': bool$', p) or 'fn(' in p:
                    yield f'{crate(f)}::{name}: {p}'


def main():
    words = [w for w in sys.argv[1:] if w != '-l']
    listed = '-l' in sys.argv
    if any(w not in '1234567' for w in words):
        sys.exit(__doc__)
    names = ['shapes of Option or Result, flags with a value, number codes', 'groups of functions of one shape', 'loops that count by hand',
             'equality, order and conversion by hand', 'facts in three requires and more, parameters that travel together', 'arrays of a fixed size', 'flags and functions as parameters']
    for i, point in enumerate([point1, point2, point3, point4, point5, point6, point7], 1):
        if words and str(i) not in words:
            continue
        found = list(point())
        print(f'{i}  {len(found):4}  {names[i - 1]}')
        if listed:
            for line in found:
                print('        ' + line)


main()
