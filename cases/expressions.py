"""Patterns as texts, trees and values: what the programs of this folder read and write.

A tree is a text, a number, or a tuple of a sign or kind and its operands, by the grammar of docs/LANGUAGE.md as far as the
cases use it: (sign, left, right) for the binary signs `|`, ` `, `+`, `-`, `.` and `$`, ('*', E), ('@', ('name', 'N')),
('call', NAME, part, ..) and ('name', NAME). A value is a text, a number, or a tuple, which is a pattern.
"""
import re

from reader import Reading, Refused

# The signs of binary operators, from the loosest to the closest; a blank where no sign and no end follows is one too.
BINARY = [re.compile(sign) for sign in (r" (\|) ", r"( )(?![|+.$-] )", r" ([+-]) ", r" ([.$]) ")]
PRIMARY = re.compile(r"'([^']*)'|\"([^\"]*)\"|([0-9]+)|([A-Z]+)(\(?)|(\()")


def read(text):
    """The tree of an expression."""
    tree, end = read_level(text, 0, 0)
    assert end == len(text), text
    return tree


def read_any(text):
    """The same of any expression of the language, of which reader.py has the whole grammar."""
    try:
        return read(text)
    except (AssertionError, AttributeError, IndexError):
        reading = Reading(text)
        tree = reading.expression()
        if reading.at != len(text):
            raise Refused(text)
        return tree


def read_level(text, at, level):
    if level == len(BINARY):
        return read_element(text, at)
    left, at = read_level(text, at, level + 1)
    while sign := BINARY[level].match(text, at):
        right, at = read_level(text, sign.end(), level + 1)
        left = (sign[1], left, right)
    return left, at


def read_element(text, at):
    if text[at] in '*@':
        operand, end = read_element(text, at + 1)
        return (text[at], operand), end
    found = PRIMARY.match(text, at)
    single, double, digits, name, call, bracket = found.groups()
    at = found.end()
    if bracket:
        tree, at = read_level(text, at, 0)
        return tree, at + 1
    if call:
        parts = []
        while text[at - 1] != ')':
            part, at = read_level(text, at, 0)
            parts.append(part)
            at += 1
        return ('call', name, *parts), at
    if name:
        return ('name', name), at
    return int(digits) if digits else double if single is None else single, at


def write(tree, level=0, told=False):
    """The text of a tree, in brackets where it binds less closely than the level (that of its sign in BINARY) asks for.

    Where it is told, functions of a program that writes listings stand behind the parts that set a variable at once.
    """
    if isinstance(tree, str):
        return '"%s"' % tree if "'" in tree else "'%s'" % tree
    if isinstance(tree, int):
        return str(tree)
    kind = tree[0]
    if kind == 'name':
        return tree[1]
    if kind == 'call':
        return '%s(%s)' % (tree[1], ','.join(write(part, 0, told) for part in tree[2:]))
    if kind == 'key':
        return '&' + tree[1]
    if kind == 'item':
        return '%s<%s>' % (tree[1][1], ','.join(write(part) for part in tree[2:]))
    if kind in ('?', '~') or kind[0] == 'u':
        return kind[-1] + write(tree[1], 4)
    if kind in ('/', '*2', '**'):
        return '(%s %s %s)' % (write(tree[1], 3), kind.rstrip('2'), write(tree[2], 3))
    if kind == '*':
        return '*' + write(tree[1], 4, told)
    if kind == '@':
        text, own = '@' + tree[1][1], 4
        if told:
            text, own = "%s *CUR.('%s',%s)" % (text, tree[1][1], tree[1][1]), 1
    else:
        own = 0 if kind == '|' else 1 if kind == ' ' else 2 if kind in '+-' else 3
        sign = ' ' if kind == ' ' else ' %s ' % kind
        text = write(tree[1], own, told) + sign + write(tree[2], own + 1, told)
        if told and kind == '$':
            text, own = "%s @T. *SET.('%s',%s,T.)" % (text, tree[2][1], tree[2][1]), 1
    return '(%s)' % text if own < level else text


def as_pattern(value):
    return value if isinstance(value, tuple) else ('text', str(value))


def joined(left, right):
    """Concatenation: a null operand leaves the other as it is, and texts are joined."""
    if left == '' or right == '':
        return right if left == '' else left
    if isinstance(left, tuple) or isinstance(right, tuple):
        return (' ', as_pattern(left), as_pattern(right))
    return str(left) + str(right)
