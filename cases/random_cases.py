"""Random cases of the common language for cases/fuzz: patterns, and small programs that always end, without errors.

A case is a tuple, ('ways', mode, pattern, subject) or ('program', statements): its statements are (label, core, goto),
where a core is ('=', name, E) or ('match', name, P, E or None), and a goto is a dictionary of S, F or '' to a later label.
An expression is a text, a number, or a tuple: (sign, left, right), ('name', X), ('item', X, E) or ('call', F, E, ..).
"""
import expressions
from programs import HEAD, is_portable, statements
from rules import PARTS, changed, places

FUNCTIONS = """        DEFINE('TWICE(X)')
        DEFINE('TURN(X)A')
        DEFINE('LATER(X)')                              :(DEFINED.)
TWICE   TWICE = X X                                     :(RETURN)
TURN    TURN = A
        X LEN(1) . A REM . X                            :F(RETURN)
        TURN = TURN TURN(X) A                           :(RETURN)
LATER   LATER = LGT(X,'AB') X                           :S(RETURN)F(FRETURN)
DEFINED.
"""
# What each program begins with.
BEGINS = ('&ANCHOR = 0', 'I = 4', 'J = -3', "A = 'ABA'", 'B =', "C = 'AB'", "R = ARRAY('0:4','r')", 'T = TABLE()')
TEXTS, NUMBERS = 'ABC', 'IJ'
PREDICATES = ('EQ', 'NE', 'LT', 'LE', 'GT', 'GE', 'IDENT', 'DIFFER', 'LGT')
# Functions whose first argument may stand in their place.
OF_TEXTS = ('DUPL', 'REPLACE', 'TRIM', 'TWICE', 'LATER', 'TURN')
LITERALS = ('', 'A', 'B', 'AB', 'BA', 'CAB', ' ', '12', 'A,B')


def random_pattern(source):
    """A pattern of the group `ways`."""
    leaves = [expressions.read(part) for part in PARTS] + [
        'B', 'A', ('call', 'LEN', 1), ('@', ('name', 'N')), ('*', ('name', 'X')), *(('name', cut) for cut in ('FENCE', 'ABORT', 'FAIL'))]

    def pattern(depth):
        if depth == 0 or source.random() < 0.15:
            return source.choice(leaves)
        kind = source.choice([' ', ' ', ' ', '|', '|', '$', '.', 'ARBNO', '*'])
        if kind in (' ', '|'):
            return (kind, pattern(depth - 1), pattern(depth - 1))
        if kind in ('$', '.'):
            return (kind, pattern(depth - 1), ('name', source.choice('XY')))
        return ('*', pattern(depth - 1)) if kind == '*' else ('call', 'ARBNO', pattern(depth - 1))

    while True:
        tree = pattern(source.randint(1, 4))
        subject = ''.join(source.choice('AAB()') for _ in range(source.randint(0, 5)))
        case = ('ways', source.choice(('anchor', 'float')), tree, subject)
        if is_portable(case[1], expressions.write(tree)):
            return case


class Maker:
    """Random statements."""

    def __init__(self, source):
        self.source = source

    def number(self, depth):
        pick = self.source.random()
        if depth == 0 or pick < 0.3:
            return self.source.choice([self.source.randint(-3, 9), ('name', self.source.choice(NUMBERS))])
        if pick < 0.6:
            return (self.source.choice('+-'), self.number(depth - 1), self.number(depth - 1))
        if pick < 0.8:
            return (self.source.choice('*/'), self.number(depth - 1), self.source.randint(1, 5))
        if pick < 0.9:
            return ('call', 'SIZE', self.text(depth - 1))
        return ('REMDR', ('call', 'SIZE', self.text(depth - 1)), self.source.randint(1, 5))

    def predicate(self, depth):
        if self.source.random() < 0.5:
            return ('call', self.source.choice(PREDICATES[:6]), self.number(depth), self.number(depth))
        return ('call', self.source.choice(PREDICATES[6:]), self.text(depth), self.text(depth))

    def text(self, depth):
        pick = self.source.random()
        if depth == 0 or pick < 0.25:
            return self.source.choice([self.source.choice(LITERALS), ('name', self.source.choice(TEXTS))])
        if pick < 0.5:
            return (' ', self.text(depth - 1), self.text(depth - 1))
        if pick < 0.6:
            return (' ', self.predicate(depth - 1), self.text(depth - 1))
        if pick < 0.7:
            return ('item', self.source.choice('RT'), self.number(depth - 1))
        if pick < 0.78:
            return ('call', 'DUPL', self.text(0), self.source.randint(0, 3))
        if pick < 0.86:
            return ('call', 'REPLACE', self.text(depth - 1), 'AB', self.source.choice(['BA', 'XY', 'CC']))
        if pick < 0.9:
            return ('call', 'TRIM', self.text(depth - 1))
        if pick < 0.97:
            return ('call', self.source.choice(['TWICE', 'LATER', 'TURN']), self.text(depth - 1))
        return self.number(depth - 1)

    def pattern(self, depth):
        pick = self.source.random()
        if depth == 0 or pick < 0.3:
            return self.source.choice([
                'A', 'B', ('name', 'ARB'), ('name', 'REM'), ('call', 'LEN', 1), ('call', 'ANY', 'AB'), ('call', 'SPAN', 'AB'),
                ('call', 'BREAK', 'B'), ('name', 'C')])
        if pick < 0.6:
            return (' ', self.pattern(depth - 1), self.pattern(depth - 1))
        if pick < 0.8:
            return ('|', self.pattern(depth - 1), self.pattern(depth - 1))
        return (self.source.choice('.$'), self.pattern(depth - 1), ('name', self.source.choice('AB')))

    def statement(self, number, count):
        pick, goto = self.source.random(), {}
        if self.source.random() < 0.4:
            for kind in self.source.choice([['S'], ['F'], ['S', 'F'], ['F', 'S'], ['']]):
                goto[kind] = 'L%d' % self.source.randint(number + 1, count)
        if pick < 0.2:
            core = ('=', ('name', self.source.choice(NUMBERS)), self.number(2))
        elif pick < 0.5:
            core = ('=', ('name', self.source.choice(TEXTS)), self.text(3))
        elif pick < 0.62:
            core = ('=', ('item', self.source.choice('RT'), self.number(1)), self.text(2))
        elif pick < 0.72:
            core = ('=', ('name', 'OUTPUT'), self.text(2))
        else:
            value = self.source.choice([None, self.text(1)])
            core = ('match', ('name', self.source.choice(TEXTS)), self.pattern(2), value)
        return ('L%d' % number, core, goto)


def random_program(source):
    maker, count = Maker(source), source.randint(2, 7)
    return ('program', [maker.statement(number, count) for number in range(count)])


def written(tree):
    """An expression as a text, with brackets around each operand that has a sign."""
    if isinstance(tree, (str, int)):
        return "'%s'" % tree if isinstance(tree, str) else str(tree)
    kind = tree[0]
    if kind == 'name':
        return tree[1]
    if kind == 'item':
        return '%s<%s>' % (tree[1], written(tree[2]))
    if kind == 'REMDR':
        return 'REMDR(%s,%d)' % (written(tree[1]), tree[2])
    if kind == 'call':
        return '%s(%s)' % (tree[1], ','.join(map(written, tree[2:])))
    left, right = (
        ('(%s)' if isinstance(part, tuple) and part[0] in ' |+-*/.$' else '%s') % written(part) for part in tree[1:])
    return left + (' ' if kind == ' ' else ' %s ' % kind) + right


def program_text(case, title):
    """The statements of a program, behind which the variables are told. Its labels end with the number of the case."""
    number = title.split(' ')[1]
    lines = ["        CASE.('%s')" % title] + ['        ' + one for one in BEGINS]
    wanted = {target for _, _, goto in case[1] for target in goto.values()}
    for label, core, goto in case[1]:
        text = written(core[1])
        if core[0] == 'match':
            text += ' (%s)' % written(core[2])
        value = core[-1]
        if value is not None:
            text += ' = ' + written(value)
        branches = ''.join('%s(%sC%s)' % (kind, target, number) for kind, target in goto.items())
        label = label + 'C' + number if label in wanted else ''
        lines.append(('%-7s %s %s' % (label, text, ':' + branches if branches else '')).rstrip())
    kept = {label for label, _, _ in case[1]}
    for label in sorted(wanted - kept):
        lines.append('%sC%s' % (label, number))
    lines.append("        OUTPUT = I ',' J ',(' A '),(' B '),(' C ')'")
    lines.append("        OUTPUT = '(' R<0> R<1> R<4> ')(' T<0> T<1> T<4> ')' SIZE(B)")
    return '*       a random program\n' + '\n'.join(lines) + '\n'


def case_text(case, title):
    if case[0] == 'ways':
        return statements(title, case[1], expressions.write(case[2]), case[3])
    return program_text(case, title)


def whole(cases):
    """A program of cases with their titles."""
    head = HEAD % {'name': 'found', 'group': 'fuzz'}
    if any(case[0] == 'program' for case, _ in cases):
        head = head.replace(':(CASES.)', ':(BEGUN.)').replace('\nCASES.\n', '\nBEGUN.\n' + FUNCTIONS + 'CASES.\n')
    return head + ''.join(case_text(case, title) for case, title in cases) + 'END\n'


def parts(tree):
    """The parts of an expression that may stand in its place."""
    if not isinstance(tree, tuple) or tree[0] in ('name', 'item'):
        return []
    if tree[0] == 'call':
        return [tree[2]] if tree[1] in OF_TEXTS else []
    if tree[0] in ('.', '$'):
        return [tree[1]]
    return [part for part in tree[1:] if not (isinstance(part, tuple) and part[0] == 'call' and part[1] in PREDICATES)]


def smaller_trees(tree):
    """Expressions with one part taken out."""
    yield from parts(tree)
    if isinstance(tree, tuple) and tree[0] != 'name':
        for index in range(1, len(tree)):
            if isinstance(tree[index], tuple):
                for part in smaller_trees(tree[index]):
                    yield tree[:index] + (part,) + tree[index + 1:]


def inner_patterns(tree):
    """The parts of a pattern that are patterns."""
    if not isinstance(tree, tuple):
        return ()
    if tree[0] in ('|', ' '):
        return tree[1:]
    if tree[0] in ('.', '$', '*'):
        return tree[1:2]
    return tree[2:] if tree[:2] == ('call', 'ARBNO') else ()


def smaller(case):
    """Cases that are smaller by one part."""
    if case[0] == 'ways':
        _, mode, tree, subject = case
        for path in places(tree):
            part = tree
            for index in path:
                part = part[index]
            for found in inner_patterns(part):
                one = changed(tree, path, lambda _, found=found: found)
                if is_portable(mode, expressions.write(one)):
                    yield ('ways', mode, one, subject)
        for index in range(len(subject)):
            yield ('ways', mode, tree, subject[:index] + subject[index + 1:])
        return
    held = case[1]
    for index, (label, core, goto) in enumerate(held):
        yield ('program', held[:index] + held[index + 1:])
        if goto:
            yield ('program', held[:index] + [(label, core, {})] + held[index + 1:])
        for place in range(1, len(core)):
            if isinstance(core[place], tuple):
                for tree in smaller_trees(core[place]):
                    one = core[:place] + (tree,) + core[place + 1:]
                    yield ('program', held[:index] + [(label, one, goto)] + held[index + 1:])
