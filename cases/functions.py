"""Values as texts and numbers, and the functions of the language over values."""
import re

from expressions import as_pattern
from objects import Array, Failure, Fault, Place, Table, same

LEAST, MOST = -2 ** 63, 2 ** 63 - 1
LONGEST = 1000000
TYPES = ('STRING', 'INTEGER', 'PATTERN', 'ARRAY')


def text(value):
    if isinstance(value, (str, int)):
        return str(value)
    raise Fault(1)


def number(value):
    if isinstance(value, int):
        return value
    if value == '':
        return 0
    if isinstance(value, str) and re.fullmatch(r'[+-]?[0-9]+', value) and LEAST <= int(value) <= MOST:
        return int(value)
    raise Fault(1)


def pattern(value):
    if isinstance(value, (str, int, tuple)):
        return as_pattern(value)
    raise Fault(1)


def within(result):
    if not LEAST <= result <= MOST:
        raise Fault(2)
    return result


def short(result):
    if len(result) > LONGEST:
        raise Fault(8)
    return result


def quotient(left, right):
    if right == 0:
        raise Fault(3)
    whole = abs(left) // abs(right)
    return within(whole if (left < 0) == (right < 0) else -whole)


def remainder(left, right):
    if right == 0:
        raise Fault(3)
    rest = abs(left) % abs(right)
    return -rest if left < 0 else rest


def power(base, exponent):
    if exponent < 0:
        raise Fault(7)
    if exponent == 0:
        return 1
    return within(base ** exponent) if exponent < 64 else within(base ** (64 + exponent % 2))


def calculate(sign, left, right):
    """The value of two numbers with a sign of arithmetic."""
    left, right = number(left), number(right)
    if sign == '+':
        return within(left + right)
    if sign == '-':
        return within(left - right)
    if sign == '*2':
        return within(left * right)
    if sign == '/':
        return quotient(left, right)
    return power(left, right)


def holds(truth):
    """The value of a predicate."""
    if not truth:
        raise Failure
    return ''


def datatype(value):
    if isinstance(value, str):
        return 'STRING'
    if isinstance(value, int):
        return 'INTEGER'
    if isinstance(value, tuple):
        return 'EXPRESSION' if value[0] == 'deferred' else 'PATTERN'
    return 'NAME' if isinstance(value, Place) else value.kind


def compares(test):
    return lambda x, y: holds(test(number(x), number(y)))


def duplicate(x, n):
    x, n = text(x), number(n)
    if n < 0:
        raise Failure
    if len(x) * n > LONGEST:
        raise Fault(8)
    return x * n


def replace(x, y, z):
    x, y, z = text(x), text(y), text(z)
    if y == '' or len(y) != len(z):
        raise Failure
    mapping = {}
    for old, new in zip(y, z):
        mapping[old] = new
    return ''.join(mapping.get(letter, letter) for letter in x)


def is_integer(x):
    if not isinstance(x, (str, int)):
        raise Failure
    try:
        number(x)
    except Fault:
        raise Failure
    return ''


def identical(x, y):
    if isinstance(x, tuple) and isinstance(y, tuple):
        raise Fault(1)
    return same(x, y)


def convert(x, kind):
    kind = text(kind)
    if kind not in TYPES:
        raise Fault(1)
    try:
        if kind == 'ARRAY':
            return x.rows() if isinstance(x, Table) else x if isinstance(x, Array) else holds(False)
        return {'STRING': text, 'INTEGER': number, 'PATTERN': pattern}[kind](x)
    except Fault:
        raise Failure


def prototype(x):
    if not isinstance(x, Array):
        raise Fault(1)
    return x.prototype


def counted(kind):
    def build(count):
        if isinstance(count, tuple) and count[0] == 'deferred':
            return (kind, count)
        count = number(count)
        if count < 0:
            raise Fault(7)
        return (kind, count)
    return build


def of_set(kind):
    def build(members):
        if isinstance(members, tuple) and members[0] == 'deferred':
            return (kind, members)
        members = text(members)
        if members == '':
            raise Fault(6)
        return (kind, members)
    return build


FUNCTIONS = {
    'EQ': (2, compares(lambda x, y: x == y)), 'NE': (2, compares(lambda x, y: x != y)),
    'LT': (2, compares(lambda x, y: x < y)), 'LE': (2, compares(lambda x, y: x <= y)),
    'GT': (2, compares(lambda x, y: x > y)), 'GE': (2, compares(lambda x, y: x >= y)),
    'IDENT': (2, lambda x, y: holds(identical(x, y))),
    'DIFFER': (2, lambda x, y: holds(not identical(x, y))),
    'LGT': (2, lambda x, y: holds(text(x) > text(y))),
    'INTEGER': (1, is_integer),
    'SIZE': (1, lambda x: len(text(x))),
    'TRIM': (1, lambda x: text(x).rstrip(' ')),
    'DUPL': (2, duplicate),
    'REPLACE': (3, replace),
    'REMDR': (2, lambda x, y: remainder(number(x), number(y))),
    'DATATYPE': (1, datatype),
    'CONVERT': (2, convert),
    'PROTOTYPE': (1, prototype),
    'ARRAY': (2, lambda p, v: Array(text(p), v)),
    'TABLE': (0, lambda: Table()),
    'ARBNO': (1, lambda p: ('ARBNO()', pattern(p))),
    'FENCE': (1, lambda p: ('FENCE()', pattern(p))),
    **{kind: (1, counted(kind)) for kind in ('LEN', 'POS', 'RPOS', 'TAB', 'RTAB')},
    **{kind: (1, of_set(kind)) for kind in ('ANY', 'NOTANY', 'SPAN', 'BREAK', 'BREAKX')},
}
