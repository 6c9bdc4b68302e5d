"""Cases of the language whose outputs are computed plainly, by Python alone: nothing of the interpreter is read here.

Each rule gives a mark, what the case is about, its statements, and the text that it writes.
"""
import itertools
import random

SEED = 1967
SMALL = (0, 1, -1, 2, -3, 7, -10, 100)
LEAST, MOST = -2 ** 63, 2 ** 63 - 1


def literal(value):
    return str(value) if isinstance(value, int) else "'%s'" % value


def written(expression):
    return ' OUTPUT = %s' % expression


def judged(predicate):
    """The statements of a predicate, which write whether it holds."""
    return " R = 'no'\n R = %s 'yes'\n OUTPUT = R" % predicate


def yes(truth):
    return 'yes' if truth else 'no'


def divided(x, y):
    """The quotient without its fraction."""
    return abs(x) // abs(y) * (1 if (x < 0) == (y < 0) else -1)


def rest(x, y):
    return x - divided(x, y) * y


def arithmetic():
    for x, y in itertools.product(SMALL, SMALL):
        yield 'book', 'a sum', written('%d + %d' % (x, y)), str(x + y)
        yield 'book', 'a difference', written('%d - %d' % (x, y)), str(x - y)
        yield 'book', 'a product', written('%d * %d' % (x, y)), str(x * y)
        if y != 0:
            yield 'book', 'a quotient', written('%d / %d' % (x, y)), str(divided(x, y))
            mark = 'book' if x >= 0 and y > 0 else 'profile'
            yield mark, 'a remainder', written('REMDR(%d,%d)' % (x, y)), str(rest(x, y))
    for x, y in itertools.product((1, 2, 3, 10, -1, -2), (0, 1, 2, 3, 5, 8)):
        base = str(x) if x >= 0 else '(%d)' % x
        yield 'book' if y > 0 else 'profile', 'a power', written('%s ** %d' % (base, y)), str(x ** y)
    yield 'profile', 'a power', written('0 ** 0'), '1'
    yield 'book', 'a power', written('0 ** 3'), '0'
    for x, y in itertools.product(('', '0', '7', '-7', '+7', '007', '-012'), (3, -2)):
        yield 'book', 'a sum with a text', written("'%s' + %d" % (x, y)), str(int(x or 0) + y)
        yield 'book', 'a product with a text', written("%d * '%s'" % (y, x)), str(int(x or 0) * y)


# The signs of arithmetic with how closely they bind, and what they are.
SIGNS = {'+': (0, lambda x, y: x + y), '-': (0, lambda x, y: x - y), '/': (1, divided), '*': (2, lambda x, y: x * y)}


def precedence():
    """Sums of random numbers, with brackets where the tree needs them, and with some that it doesn't."""
    source = random.Random(SEED)

    def tree(depth):
        if depth == 0 or source.random() < 0.25:
            return source.randint(0, 12)
        return (source.choice('+-*/'), tree(depth - 1), tree(depth - 1))

    def value(part):
        return part if isinstance(part, int) else SIGNS[part[0]][1](value(part[1]), value(part[2]))

    def text(part, level=0):
        if isinstance(part, int):
            return str(part)
        own = SIGNS[part[0]][0]
        told = '%s %s %s' % (text(part[1], own), part[0], text(part[2], own + 1))
        return '(%s)' % told if own < level else told

    made = set()
    while len(made) < 130:
        one = tree(3)
        try:
            found = value(one)
        except ZeroDivisionError:
            continue
        told = text(one)
        if isinstance(one, int) or told in made or len(told) > 50:
            continue
        made.add(told)
        yield 'book', 'signs that bind more and less closely', written(told), str(found)


def binding():
    """Which sign binds more closely, one by one."""
    for told, found in (('2 ** 3 ** 2', 2 ** 9), ('2 ** 2 ** 3', 2 ** 8), ('3 ** 1 ** 2', 3)):
        yield 'profile', '** groups to the right', written(told), str(found)
    for told, found in (
            ('2 * 3 ** 2', 18), ('2 ** 3 * 2', 16), ('2 ** 3 + 1', 9), ('20 - 2 ** 4', 4), ('64 / 2 ** 3', 8)):
        yield 'book', '** binds more closely', written(told), str(found)
    for told, found in (
            ('-3 + 5', 2), ('-3 * -5', 15), ('2 - -3', 5), ('-(2 + 3)', -5), ('7 - -7 / 2', 10), ('+3 - +4', -1)):
        yield 'book', 'unary signs bind most closely', written(told), str(found)
    for left, right, found in (
            ('1', '1 + 1', '12'), ('2 * 3', '4', '64'), ('1 + 2', '3 + 4', '37'), ('8 / 3', '8 - 3', '25')):
        yield 'book', 'a concatenation binds less closely', written('%s %s' % (left, right)), found


def range_ends():
    """Numbers beyond 32 bits, as far as those of 64 bits go."""
    big = (2147483647, 2147483648, 4294967296, 3037000499, 4611686018427387904, MOST)
    for x in big:
        yield 'profile', 'a large number', written(x), str(x)
        yield 'profile', 'a large negative number', written('0 - %d' % x), str(-x)
        yield 'profile', 'a large number as a text', written("SIZE(%d)" % x), str(len(str(x)))
        yield 'profile', 'a text that is a large number', written("'%d' - 1" % x), str(x - 1)
        for y in (2, -2, 1000003):
            yield 'profile', 'the quotient of a large number', written('%d / %d' % (x, y)), str(divided(x, y))
            yield 'profile', 'the remainder of a large number', written('REMDR(%d,%d)' % (x, y)), str(rest(x, y))
    for x, y in ((2147483647, 1), (4611686018427387903, 4611686018427387904), (MOST, -1), (-MOST, -1)):
        yield 'profile', 'a large sum', written('%d + %d' % (x, y)), str(x + y)
    for x, y in ((65536, 65536), (3037000499, 3037000499), (MOST, -1), (-4294967296, 2147483648)):
        yield 'profile', 'a large product', written('%d * %d' % (x, y)), str(x * y)
    for x, y in ((2, 31), (2, 32), (2, 62), (10, 18), (3, 39), (7, 22)):
        yield 'profile', 'a large power', written('%d ** %d' % (x, y)), str(x ** y)
    yield 'profile', 'the least number', written("'%d' + 0" % LEAST), str(LEAST)
    yield 'profile', 'the remainder of the least number', written("REMDR('%d',-1)" % LEAST), '0'


def predicates():
    tests = {'EQ': lambda x, y: x == y, 'NE': lambda x, y: x != y, 'LT': lambda x, y: x < y, 'LE': lambda x, y: x <= y,
             'GT': lambda x, y: x > y, 'GE': lambda x, y: x >= y}
    for name, test in tests.items():
        for x, y in itertools.product((0, 1, -1, 10, '', '01', '-1'), (0, 1, -2, '1')):
            told = judged('%s(%s,%s)' % (name, literal(x), literal(y)))
            yield 'book', 'numbers are compared', told, yes(test(int(x or 0), int(y or 0)))
    letters = ('', 'A', 'AA', 'AB', 'B', 'BA')
    for x, y in itertools.product(letters, letters):
        yield 'book', 'texts are compared', judged("LGT('%s','%s')" % (x, y)), yes(x > y)
    for x, y in ((1, 10), (10, 9), (9, 10), ('a', 'A'), ('A', 'a'), ('A', '1'), (' ', '')):
        mark = 'book' if (x, y) in ((1, 10), (10, 9), (9, 10), (' ', '')) else 'profile'
        yield mark, 'texts are compared', judged('LGT(%s,%s)' % (literal(x), literal(y))), yes(str(x) > str(y))
    values = ('', 'A', 'a', '1', '01', 1, 0, '0')
    for x, y in itertools.product(values, values):
        same = type(x) is type(y) and x == y
        yield 'book', 'type and value are compared', judged('IDENT(%s,%s)' % (literal(x), literal(y))), yes(same)
        if values.index(x) % 2 == 0 or same:
            told = judged('DIFFER(%s,%s)' % (literal(x), literal(y)))
            yield 'book', 'type and value are compared', told, yes(not same)
    for x in ('12', '-12', '+12', '007', 12, -1):
        yield 'book', 'what is an integer', judged('INTEGER(%s)' % literal(x)), 'yes'
    for x in ('A', '1A', 'A1', '-', '+', '1-', '--1', '1+1'):
        yield 'book', 'what is an integer', judged('INTEGER(%s)' % literal(x)), 'no'
    for pattern in ('LEN(1)', 'ARRAY(1)', 'TABLE()', "'A' | 'B'"):
        yield 'book', 'what is no integer', judged('INTEGER(%s)' % pattern), 'no'


def strings():
    for x in ('', 'A', 'AB', ' ', 'A B', '  AB  ', "it is", '12345', '((', 'ABCDEFGHIJKLMNOPQRSTUVWXYZ'):
        yield 'book', 'the size', written("SIZE('%s')" % x), str(len(x))
        yield 'book', 'without trailing blanks', written("'(' TRIM('%s') ')'" % x), '(%s)' % x.rstrip(' ')
    for x in (0, 7, -7, 10, 99, 100, -100, 12345):
        yield 'book', 'the size of a number', written('SIZE(%d)' % x), str(len(str(x)))
        yield 'book', 'a number behind a text', written("'N' %d" % x), 'N%d' % x
        yield 'book', 'a number before a text', written("%d 'N'" % x), '%dN' % x
    for x in ('A  ', 'A B  ', '   ', ' A', 'A   B', 'A. ', ' '):
        yield 'book', 'without trailing blanks', written("SIZE(TRIM('%s'))" % x), str(len(x.rstrip(' ')))
    for x, n in itertools.product(('', 'A', 'AB', ' -', '12'), (0, 1, 2, 3, 7)):
        yield 'book', 'copies', written("'(' DUPL('%s',%d) ')'" % (x, n)), '(%s)' % (x * n)
    for x, n in ((7, 3), (12, 2), (0, 4)):
        yield 'book', 'copies of a number', written('DUPL(%d,%d)' % (x, n)), str(x) * n
    for n in (-1, -7):
        yield 'profile', 'copies fewer than none', judged("DUPL('A',%d)" % n), 'no'
    subjects, others = ('', 'A', 'ABC', 'CABBAC', 'XYZ'), ('1', '12', 'AB', '123', 'ABC')
    for x, y, z in itertools.product(subjects, ('A', 'AB', 'CBA'), others):
        if len(y) == len(z):
            told = written("'(' REPLACE('%s','%s','%s') ')'" % (x, y, z))
            yield 'book', 'letters are replaced', told, '(%s)' % x.translate(str.maketrans(y, z))
        elif x == 'ABC':
            yield 'profile', 'alphabets of two lengths', judged("REPLACE('%s','%s','%s')" % (x, y, z)), 'no'
    for x, y, z in (('ABA', 'AA', '12'), ('ABA', 'ABA', '123'), ('BBB', 'BAB', '123')):
        yield 'profile', 'a letter that stands twice', written("REPLACE('%s','%s','%s')" % (x, y, z)), x.translate(
            {ord(old): new for old, new in zip(y, z)})
    for x, n in itertools.product(('A', '-7', '12'), range(4)):
        told = " X = 'B'\n X = X DUPL('%s',%d)\n OUTPUT = SIZE(X) X" % (x, n)
        yield 'book', 'a text that grows', told, '%dB%s' % (1 + len(x) * n, x * n)


def in_range():
    """Each subscript of an array of one dimension, and one on both sides of the bounds."""
    for prototype, low, high in (
            ('1', 1, 1), ('3', 1, 3), ('0:2', 0, 2), ('-2:0', -2, 0), ('-1:1', -1, 1), ('5:7', 5, 7), ('2:2', 2, 2)):
        yield 'book', 'the prototype', written("PROTOTYPE(ARRAY('%s'))" % prototype), prototype
        for index in range(low - 1, high + 2):
            inside = low <= index <= high
            head = " A = ARRAY('%s','v')\n R = 'no'\n" % prototype
            yield 'book', 'a subscript at the bounds', head + ' R = A<%d>\n OUTPUT = R' % index, 'v' if inside else 'no'
            told = " A = ARRAY('%s')\n R = 'no'\n A<%d> = 'x' :F(A%%)\n R = A<%d>\nA%% OUTPUT = R"
            yield 'book', 'an assignment at the bounds', told % (prototype, index, index), 'x' if inside else 'no'
    for prototype in ('2,3', '2,2,2', '0:1,3', '-1:1,-1:1', '1,1', '10'):
        yield 'book', 'the prototype', written("PROTOTYPE(ARRAY('%s'))" % prototype), prototype
    for i, j in itertools.product(range(0, 4), range(1, 5)):
        head = " A = ARRAY('2,2:3','v')\n R = 'no'\n R = A<%d,%d>\n OUTPUT = R" % (i, j)
        yield 'book', 'two subscripts at the bounds', head, 'v' if 1 <= i <= 2 and 2 <= j <= 3 else 'no'
    for i, j in itertools.product(range(1, 4), range(1, 4)):
        fill = (" A = ARRAY('3,3')\n I = 0\nA% I = LT(I,3) I + 1 :F(C%)\n J = 0\n"
                "B% J = LT(J,3) J + 1 :F(A%)\n A<I,J> = 10 * I + J :(B%)\n"
                "C% OUTPUT = A<{},{}>".format(i, j))
        yield 'book', 'each element has its own place', fill, str(10 * i + j)
    for size in (1, 2, 5, 10):
        count = " A = ARRAY(%d)\n I = 0\nA%% I = I + 1\n A<I> = I :S(A%%)\n OUTPUT = I" % size
        yield 'book', 'a loop counts the elements', count, str(size + 1)


def keys():
    """An entry is set by one key and read by another."""
    values = ('A', 'a', 'AB', '', '1', '01', 1, -1, '-1', 0)
    for one, other in itertools.product(values, values):
        same = type(one) is type(other) and one == other
        mark = 'profile' if str(one) == str(other) and not same else 'book'
        told = " T = TABLE()\n T<%s> = 'v'\n OUTPUT = '(' T<%s> ')'" % (literal(one), literal(other))
        yield mark, 'one key and another', told, '(v)' if same else '()'


def counted_matches():
    """What simple patterns take of a text, by their counts."""
    subject = 'ABCDE'
    for n, m in itertools.product(range(0, 6), range(0, 3)):
        told = " R = 'no'\n 'ABCDE' LEN(%d) LEN(%d) . R\n OUTPUT = R" % (n, m)
        yield 'book', 'a part by LEN', told, subject[n:n + m] if n + m <= 5 else 'no'
    for n, m in itertools.product(range(0, 6), range(0, 6, 2)):
        told = " R = 'no'\n 'ABCDE' TAB(%d) RTAB(%d) . R\n OUTPUT = R" % (n, m)
        yield 'book', 'a part by TAB and RTAB', told, subject[n:5 - m] if n <= 5 - m else 'no'
    for letter in 'ABCDEF':
        told = " R = 'no'\n 'ABCDE' BREAK('%s') . R\n OUTPUT = '(' R ')'" % letter
        yield 'book', 'a part by BREAK', told, '(%s)' % (subject[:subject.index(letter)] if letter in subject else 'no')
        told = " N = 'no'\n 'ABCDE' '%s' @N\n OUTPUT = N" % letter
        yield 'book', 'a place by @', told, str(subject.index(letter) + 1) if letter in subject else 'no'
        told = " X = 'ABCDE'\n X '%s' =\n OUTPUT = X" % letter
        yield 'book', 'a letter is taken out', told, subject.replace(letter, '')


RULES = {'arithmetic': (arithmetic, precedence, binding, range_ends), 'predicates': (predicates,),
         'strings': (strings,), 'arrays': (in_range,), 'tables': (keys,), 'replacement': (counted_matches,)}


def computed(group):
    for rule in RULES.get(group, ()):
        yield from rule()
