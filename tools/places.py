#!/usr/bin/env python3
"""places.py [FOLDER]: the places of docs/DESIGN-PASS.md in FOLDER/crates/*/src (here by default), point by point.

Point 1: an enum of the repository with the shape of Option or Result; a number for a kind, a refusal or a stage (a const, and each use of it); a flag or a number that says whether the value beside it counts.
Point 2: functions and types whose bodies are the same but for names and numbers.
Point 3: a while whose condition's variable goes up or down by a step in the body.
Point 4: a comparison, order or conversion by a chain of returns.
Point 5: a fact that stands in the requires of three or more functions; parameters that travel together in three or more.
Point 6: a slice or array with a number of its elements beside it; arrays side by side.
Point 7: a number or flag that says which step runs next.
"""
import collections
import glob
import re
import sys

TOP = sys.argv[1] if len(sys.argv) > 1 else '.'
FILES = sorted(glob.glob(TOP + '/crates/*/src/*.rt'))


def functions(text):
    """Each function's name, parameters, clauses and body."""
    for m in re.finditer(r'^( *)(?:pub(?:\(crate\))? )?(?:extern "C" )?fn (\w+)(?:<[^>]*>)?\((.*?)\)', text, re.M | re.S):
        rest = text[m.end():]
        end = re.search(r'^' + m.group(1) + r'\}', rest, re.M)
        whole = rest[:end.end()] if end else rest
        cut = re.search(r'^' + m.group(1) + r'\{|\{$', whole, re.M)
        clauses, body = (whole[:cut.start()], whole[cut.start():]) if cut else ('', whole)
        yield m.group(2), m.group(3), clauses, body, text[:m.start()].count('\n') + 1


def loops(text):
    """Loops by while that move their index by a step."""
    for m in re.finditer(r'^( *)while (.*) \{$', text, re.M):
        rest = text[m.end():]
        body = rest[:re.search(r'^' + m.group(1) + r'\}', rest, re.M).start()]
        for name in re.findall(r'\b[a-z_]\w*\b', m.group(2)):
            if re.search(r'^\s*' + name + r' [+-]= (1|[a-z_]+::PART);', body, re.M):
                yield text[:m.start()].count('\n') + 1, m.group(2)
                break


def normal(body):
    """A body without names, numbers and layout."""
    words = {}
    def word(m):
        w = m.group(0)
        if w in ('if', 'else', 'while', 'for', 'in', 'return', 'let', 'mut', 'as', 'true', 'false', 'match', 'usize', 'bool', 'loop', 'continue'):
            return w
        return words.setdefault(w, 'w%d' % len(words))
    body = re.sub(r'//.*', '', body)
    body = re.sub(r'\b\d\w*\b', '0', body)
    return re.sub(r'\s+', ' ', re.sub(r'\b[A-Za-z_]\w*\b', word, body))


found = collections.OrderedDict((k, []) for k in ('1 enum', '1 const', '1 use', '2 twin', '3 while', '4 chain', '5 fact', '5 group', '6 arrays', '7 stage'))
bodies = collections.defaultdict(list)
facts = collections.defaultdict(set)
groups = collections.defaultdict(set)
for path in FILES:
    name = path[len(TOP) + 1:].replace('crates/', '')
    text = open(path).read()
    for m in re.finditer(r'^(?:pub )?enum (\w+) \{\n((?:.*\n)*?)\}', text, re.M):
        found['1 enum'].append('%s %s' % (name, m.group(1)))
    for i, line in enumerate(text.split('\n'), 1):
        if re.match(r'^(pub )?const (FOUND|FEWER|REFUSED|GOING|ANSWER|NO_ANSWER|[A-Z_]+): u(8|32) = \d+;', line) and ('outcome/' in name or re.search(r': u8 = \d+;', line)):
            found['1 const'].append('%s:%d %s' % (name, i, line.strip()))
        if re.search(r'outcome::[A-Z][A-Z_]+\b|outcome::plain\(', line):
            found['1 use'].append('%s:%d' % (name, i))
        if re.search(r'while \w+\.?(stage|going|over)\b|while !\w+\.over', line):
            found['7 stage'].append('%s:%d %s' % (name, i, line.strip()))
    for line, cond in loops(text):
        found['3 while'].append('%s:%d while %s' % (name, line, cond))
    for fn, params, clauses, body, line in functions(text):
        if len(body) > 120:
            bodies[normal(body)].append('%s:%d %s' % (name, line, fn))
        if re.search(r'if (\w+) < (\w+) \{\s*return (true|false);\s*\}\s*if \2 < \1 \{', body):
            found['4 chain'].append('%s:%d %s' % (name, line, fn))
        if name.startswith('test_'):
            continue
        ps = [p.split(':')[0].strip().replace('mut ', '') for p in params.split(',') if ':' in p]
        for a in range(len(ps)):
            for b in range(a + 1, len(ps)):
                groups[(ps[a], ps[b])].add('%s %s' % (name, fn))
        req = re.search(r'requires \{(.*?)\}\s*(ensures|$|\n\s*\{)', clauses, re.S)
        if req:
            for c in req.group(1).split('×'):
                c = re.sub(r'\s+', ' ', c).strip()
                while c.startswith('(') and c.endswith(')'):
                    c = c[1:-1].strip()
                facts[re.sub(r'\.(old|now|new)\b', '', c)].add('%s %s' % (name, fn))
        arrays = re.findall(r'(\w+): &(?:mut )?\[u\d+\]', params)
        if {'lens', 'counts'} <= set(arrays) or {'lens', 'arcs', 'counts'} <= set(arrays):
            found['6 arrays'].append('%s:%d %s' % (name, line, fn))
for same in bodies.values():
    if len(same) > 1:
        found['2 twin'].append(' = '.join(same))
for fact, where in sorted(facts.items(), key=lambda x: -len(x[1])):
    if len(where) >= 3:
        found['5 fact'].append('%d: %s' % (len(where), fact))
for pair, where in sorted(groups.items(), key=lambda x: -len(x[1])):
    if len(where) >= 40:
        found['5 group'].append('%d: %s, %s' % (len(where), pair[0], pair[1]))
for kind, places in found.items():
    print('## %s: %d' % (kind, len(places)))
    for p in places:
        print('   ' + p)
