"""The cases of patterns by rules and a seed, group by group."""
import itertools
import random

from expressions import read, write
from programs import A_PROGRAM, is_of_book, is_portable
from search import listing

MOST_LINES, MOST_STEPS = 30, 1500
# The random cases are those of this seed, so that they are the same each time.
SEED = 1971

BASES = ["('A' | 'AB') ('C' | 'BC')", "LEN(1) 'B' | 'A' LEN(2)", "ARBNO('A' | 'AA') RPOS(0)", "ARB 'B'", "('A' | LEN(2)) REM"]
BASE_SUBJECTS = {BASES[0]: ('ABC', 'ABBC'), BASES[1]: ('ABC', 'CAB'), BASES[2]: ('AAA', 'BAA'), BASES[3]: ('ABAB', 'AAC'),
                 BASES[4]: ('ABC', 'BA')}
PARTS = ["'A'", "'AB'", "''", 'LEN(1)', 'ARB', 'REM', "ANY('A')", "NOTANY('A')", "SPAN('A')", "BREAK('B')", 'POS(1)', 'RPOS(1)',
         'TAB(2)', 'RTAB(1)', 'BAL']


def texts(letters, least, most):
    for size in range(least, most + 1):
        for letters_of in itertools.product(letters, repeat=size):
            yield ''.join(letters_of)


def places(tree, path=()):
    """The paths to the parts of a pattern that are patterns themselves."""
    yield path
    if isinstance(tree, tuple) and tree[0] in ('|', ' ', '.', '$'):
        for index in (1, 2) if tree[0] in '| ' else (1,):
            yield from places(tree[index], path + (index,))
    if isinstance(tree, tuple) and tree[0] == 'call' and tree[1] in ('ARBNO', 'FENCE'):
        yield from places(tree[2], path + (2,))


def changed(tree, path, change):
    if not path:
        return change(tree)
    return tree[:path[0]] + (changed(tree[path[0]], path[1:], change),) + tree[path[0] + 1:]


def changed_everywhere(changes):
    """Each base with each change at each place."""
    for base in BASES:
        for path in places(read(base)):
            for change in changes:
                yield base, write(changed(read(base), path, change))


def counts():
    for kind, count, size in itertools.product(('LEN', 'POS', 'RPOS', 'TAB', 'RTAB'), range(5), range(5)):
        yield 'float', '%s(%d)' % (kind, count), 'ABCD'[:size]


def sets():
    for kind, members in itertools.product(('ANY', 'NOTANY', 'SPAN', 'BREAK'), ('A', 'AB', 'C')):
        for subject in texts('AB', 0, 3):
            yield 'float', "%s('%s')" % (kind, members), subject


def literals():
    for text, subject in itertools.product(('A', 'AB', 'AA', 'ABA'), texts('AB', 1, 3)):
        yield 'float', write(text), subject
    for part, size in itertools.product(("''", 'ARB', 'REM', 'FAIL', 'ABORT', 'FENCE'), range(4)):
        yield 'float', part, 'ABC'[:size]


def balanced():
    for subject in texts('A()', 0, 3):
        yield 'float', 'BAL', subject
    for subject in ('(A)B', '()()', '((A))', '(A))(B', 'A(B,C)D', '(()', '())A', ')A('):
        yield 'float', 'BAL', subject
        yield 'anchor', 'BAL RPOS(0)', subject
        yield 'anchor', "BAL . X BAL", subject


def breakx():
    for members, subject in itertools.product(('A', 'B', 'AB', 'C'), texts('AB', 0, 3)):
        yield 'float', "BREAKX('%s')" % members, subject
    for part in PARTS:
        yield 'float', "BREAKX('B') %s" % part, 'ABAB'


def pairs():
    for left, right in itertools.product(PARTS, PARTS):
        yield 'float', '%s %s' % (left, right), 'AABA'
    for left, right in itertools.product(PARTS[:12:2], PARTS[:12:2]):
        yield 'float', '%s | %s' % (left, right), 'ABA'


def triples():
    for a, b, c in itertools.product(("'A'", "'AB'", 'ARB'), repeat=3):
        for shape in ('(%s | %s) %s', '%s (%s | %s)', '%s %s | %s', '%s | %s %s'):
            yield 'anchor', shape % (a, b, c), 'ABA'


def starts():
    for pattern in BASES + PARTS + ["'A' FENCE", "FENCE 'B'", "'B' ABORT | 'A'", "@N 'B'", "'B' | RPOS(0)", "POS(0) | RPOS(0)"]:
        for mode, subject in itertools.product(('anchor', 'float'), ('', 'B', 'BAAB')):
            yield mode, pattern, subject


def repeats():
    bodies = ["'A'", "'A' | 'AA'", "'AA' | 'A'", "'AB' | 'A' | 'B'", 'LEN(1)', "LEN(1) | 'AB'", "ANY('A') ('B' | LEN(1))", "SPAN('A')",
              "BAL", "'A' ARBNO('B')", "ARBNO('B') 'A'"]
    for body, subject in itertools.product(bodies, ('AAA', 'ABAB', 'BAA')):
        for shape in ('ARBNO(%s)', 'ARBNO(%s) RPOS(0)', "ARBNO(%s) 'B'", "'A' ARBNO(%s)"):
            yield 'anchor', shape % body, subject
    for one, two in itertools.product(bodies[:5], repeat=2):
        yield 'anchor', 'ARBNO(%s) ARBNO(%s)' % (one, two), 'AAB'


def nulls():
    for body in ("''", 'ARB', "'A' | ''", "'' | 'A'", "ARBNO('A')", "ARBNO('A' | 'AA')", "BREAK('B')", '@N', "'A' $ X | '' $ Y", 'REM', 'POS(1)'):
        for shape in ('ARBNO(%s)', 'ARBNO(%s) RPOS(0)', "ARBNO(%s) 'B'"):
            yield 'anchor', shape % body, 'AAB'


def cuts():
    names = [('name', kind) for kind in ('FENCE', 'ABORT', 'FAIL')]
    changes = [change for name in names for change in (
        lambda part, name=name: (' ', name, part), lambda part, name=name: (' ', part, name),
        lambda part, name=name: ('|', name, part), lambda part, name=name: ('|', part, name))]
    for base, pattern in changed_everywhere(changes):
        yield 'float', pattern, BASE_SUBJECTS[base][0]


def fences():
    def fence(part):
        return ('call', 'FENCE', part)
    for base, pattern in changed_everywhere([fence, lambda part: (' ', fence(part), 'B'), lambda part: fence(('|', part, 'A'))]):
        for subject in BASE_SUBJECTS[base]:
            yield 'float', pattern, subject
    for base in BASES:
        for outer, inner in itertools.combinations(list(places(read(base))), 2):
            yield 'anchor', write(changed(changed(read(base), inner, fence), outer, fence)), BASE_SUBJECTS[base][0]
    for inner in ("FENCE 'C'", "'A' FENCE", "('A' | 'AB') FENCE", "ABORT | 'A'", "'A' $ X FENCE 'C' | 'A'"):
        for shape in ('FENCE(%s)', "FENCE(%s) 'D'", "FENCE(%s) 'D' | 'AB'"):
            yield 'float', shape % inner, 'ABCD'


def events():
    x, y, n = ('name', 'X'), ('name', 'Y'), ('@', ('name', 'N'))
    one = [lambda part: ('$', part, x), lambda part: (' ', n, part), lambda part: (' ', part, n)]
    for base, pattern in changed_everywhere(one):
        for subject in BASE_SUBJECTS[base]:
            yield 'float', pattern, subject
    for base in BASES:
        for outer, inner in itertools.combinations(list(places(read(base))), 2):
            tree = changed(read(base), inner, lambda part: ('$', part, y))
            yield 'anchor', write(changed(tree, outer, one[0])), BASE_SUBJECTS[base][0]


def pending():
    x, y = ('name', 'X'), ('name', 'Y')
    for base, pattern in changed_everywhere([lambda part: ('.', part, x), lambda part: ('.', ('$', part, y), x)]):
        for subject in BASE_SUBJECTS[base]:
            yield 'float', pattern, subject
    for base in BASES:
        for outer, inner in itertools.combinations(list(places(read(base))), 2):
            for name in (x, y):
                tree = changed(read(base), inner, lambda part: ('.', part, name))
                yield 'anchor', write(changed(tree, outer, lambda part: ('.', part, x))), BASE_SUBJECTS[base][0]


def failing():
    x = ('name', 'X')
    for part, subject in (("LEN(1) . X 'C'", 'ABD'), ("LEN(1) . X FAIL", 'AB'), ("LEN(1) $ Y . X FAIL", 'AB'), ("@N LEN(1) . X 'Z'", 'AB')):
        for mode in ('anchor', 'float'):
            yield mode, part, subject
    for tail in ('Z', ('name', 'FAIL'), ('name', 'ABORT'), (' ', ('name', 'FENCE'), 'Z')):
        yield 'anchor', write((' ', read("LEN(1) . X"), tail)), 'AB'
        for base in BASES:
            for path in places(read(base)):
                tree = (' ', changed(read(base), path, lambda part: ('.', part, x)), tail)
                yield ('float' if tail == 'Z' else 'anchor'), write(tree), BASE_SUBJECTS[base][0]


def deferred():
    for base, pattern in changed_everywhere([lambda part: ('*', part), lambda part: ('*', ('*', part))]):
        yield 'float', pattern, BASE_SUBJECTS[base][0]
    setting = ("LEN(1) $ X", "ARB $ X", "(LEN(1) | LEN(2)) $ X", "SPAN('AB') $ X", "ARBNO(LEN(1)) $ X")
    reading = ("*X", "'C' *X", "ARB *X", "(*X | 'C')", "ARBNO('C') *X RPOS(0)", "*(X 'C')", "*(X | 'C')")
    for (left, right), subject in itertools.product(itertools.product(setting, reading), ('ABAB', 'ABCAB')):
        yield 'anchor', '%s %s' % (left, right), subject
    for left, right in itertools.product(('@N', 'LEN(1) @N', 'ARB @N'), (
            'LEN(*N)', 'LEN(*(N + 1))', 'POS(*N)', 'TAB(*(N + 1))', 'RTAB(*N)', 'RPOS(*N)', '*EQ(N,1)', '*GT(N,1) LEN(1)', 'LEN(1) *LT(N,2)')):
        for mode in ('anchor', 'float'):
            yield mode, '%s %s' % (left, right), 'ABC'
    for kind in ('ANY', 'NOTANY', 'SPAN', 'BREAK'):
        yield 'float', "LEN(1) $ X %s(*X)" % kind, 'AABA'
        yield 'float', "(LEN(1) | LEN(2)) $ X %s(*X) . Y" % kind, 'ABBA'


def limits():
    for base in BASES + ["SUCCEED", "SUCCEED 'A'", "SUCCEED FAIL", "'A' SUCCEED", "LEN(1) $ X *X", "ARB . X 'B'", "FENCE('A' | 'AB') 'C'", "BREAKX('B')"]:
        for steps in (0, 1, 2, 3, 5, 8, 13, 21, 34):
            yield 'float %d' % steps, base, BASE_SUBJECTS.get(base, ('ABAB',))[0]


def standing():
    readers = ('*X', "*X 'B'", "LEN(1) *X", "*X LEN(1)")
    for setter, reader in itertools.product(("LEN(1) $ X 'C'", "LEN(1) $ X FAIL", "(LEN(1) | LEN(2)) $ X 'C'"), readers):
        yield 'anchor', '%s | %s' % (setter, reader), 'AAB'
        yield 'float', '%s | %s' % (reader, setter), 'BABA'
    for reader in ('LEN(*N)', 'TAB(*N)', "LEN(*(N + 1))", '*N'):
        yield 'anchor', "LEN(1) @N 'C' | %s" % reader, 'ABC'
        yield 'float', "%s 'B' | LEN(1) @N FAIL" % reader, 'ABAB'


def seeded():
    source = random.Random(SEED)
    leaves = [read(part) for part in PARTS] + ['B', 'B', 'A', ('call', 'LEN', 1), ('@', ('name', 'N')), ('*', ('name', 'X'))]

    def pattern(depth):
        if depth == 0 or source.random() < 0.15:
            return source.choice(leaves)
        kind = source.choice([' ', ' ', ' ', '|', '|', '$', '.', 'ARBNO', '*', 'cut'])
        if kind in (' ', '|'):
            return (kind, pattern(depth - 1), pattern(depth - 1))
        if kind in ('$', '.'):
            return (kind, pattern(depth - 1), ('name', source.choice('XY')))
        if kind == '*':
            return ('*', pattern(depth - 1))
        if kind == 'cut':
            return source.choice([(' ', ('name', 'FENCE'), pattern(depth - 1)), ('call', 'FENCE', pattern(depth - 1))])
        return ('call', 'ARBNO', pattern(depth - 1))

    for _ in range(250):
        subject = ''.join(source.choice('AAB') for _ in range(source.randint(1, 5)))
        yield source.choice(('anchor', 'float')), write(pattern(source.randint(2, 4))), subject


RULES = {'counts': counts, 'sets': sets, 'literals': literals, 'balanced': balanced, 'breakx': breakx, 'pairs': pairs,
         'triples': triples, 'starts': starts, 'repeats': repeats, 'nulls': nulls, 'cuts': cuts, 'fences': fences, 'events': events,
         'pending': pending, 'failing': failing, 'deferred': deferred, 'limits': limits, 'standing': standing, 'seeded': seeded}


def rows():
    """The rows without listings. Left out are cases that stand already and those whose listings are long."""
    known = set()
    for group, rule in RULES.items():
        number, portable = 0, {}
        for case in rule():
            mode, pattern, subject = case
            if case in known:
                continue
            known.add(case)
            lines = listing(*case) if ' ' in mode else listing(*case, MOST_STEPS)
            if len(lines) > MOST_LINES or ' ' not in mode and lines[-1] == 'limit':
                continue
            if group == 'failing' and any(line.startswith('way') for line in lines):
                continue
            number += 1
            name = '-'
            if is_portable(mode, pattern):
                name = group if is_of_book(pattern) or group in ('breakx', 'fences') else group + '-profile'
                portable[name] = portable.get(name, -1) + 1
                name = '%s-%d' % (name, portable[name] // A_PROGRAM + 1)
            yield '\t'.join((group, str(number), name, mode, pattern, subject, ''))
