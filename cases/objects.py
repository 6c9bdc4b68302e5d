"""Arrays, tables and objects of the interpreter, and places in them that have names."""
import re


class Failure(Exception):
    """A form that failed."""


class Fault(Exception):
    """An error of the program, with its number."""


class Place:
    """An item or a field, which can be assigned to."""

    def __init__(self, holder, key):
        self.holder, self.key = holder, key

    def read(self):
        return self.holder.read(self.key)

    def write(self, value):
        self.holder.write(self.key, value)

    def same(self, other):
        return isinstance(other, Place) and self.holder is other.holder and self.key == other.key

    def __str__(self):
        return 'place %d %s' % (id(self.holder), self.key)


class Array:
    kind = 'ARRAY'

    def __init__(self, prototype, initial):
        self.prototype, self.initial, self.elements = prototype, initial, {}
        self.bounds = [self.bound(part) for part in prototype.split(',')]

    @staticmethod
    def bound(part):
        found = re.match(r'(?:([+-]?[0-9]+):)?([+-]?[0-9]+)$', part)
        if not found:
            raise Fault(12)
        low, high = int(found[1] or 1), int(found[2])
        if high < low:
            raise Fault(12)
        return low, high

    def key(self, indexes):
        if len(indexes) != len(self.bounds):
            raise Fault(12)
        if not all(low <= index <= high for index, (low, high) in zip(indexes, self.bounds)):
            raise Failure
        return indexes

    def read(self, key):
        return self.elements.get(key, self.initial)

    def write(self, key, value):
        self.elements[key] = value


class Table:
    kind = 'TABLE'

    def __init__(self):
        self.entries = {}

    @staticmethod
    def key(values):
        if len(values) != 1:
            raise Fault(12)
        if isinstance(values[0], tuple):
            raise Fault(1)
        return (type(values[0]), values[0])

    def read(self, key):
        return self.entries.get(key, '')

    def write(self, key, value):
        self.entries[key] = value

    def rows(self):
        """The array of the entries that hold something, in the order in which they joined."""
        held = [(key[1], value) for key, value in self.entries.items() if value != '']
        if not held:
            raise Failure
        array = Array('%d,2' % len(held), '')
        for number, pair in enumerate(held, 1):
            for column, value in enumerate(pair, 1):
                array.write((number, column), value)
        return array


class Object:
    """An object of a type of the program."""

    def __init__(self, kind, fields, values):
        self.kind = kind
        self.fields = dict(zip(fields, list(values) + [''] * len(fields)))

    def read(self, key):
        return self.fields[key]

    def write(self, key, value):
        self.fields[key] = value


def same(left, right):
    """Whether two values are equal in type and value."""
    if isinstance(left, Place):
        return left.same(right)
    if isinstance(left, (str, int)):
        return type(left) is type(right) and left == right
    return left is right
