"""Programs of SNOBOL4 as statements of trees, by the grammar of docs/LANGUAGE.md.

A tree is a text, a number or a tuple of a kind and its parts: the kinds of expressions.py, and besides ('key', NAME),
('item', A, index, ..), the binary signs `/`, `*2` (a product) and `**`, and the unary signs `u+`, `u-`, `u.`, `u$`, `?`, `~`.
"""
import collections
import re

Statement = collections.namedtuple('Statement', 'label subject pattern assigns value goto')
# The signs of binary operators, from the loosest to the closest; a blank where no sign and no end follows is one too.
BINARY = [re.compile(sign) for sign in (
    r'[ \t]+(\|)[ \t]+', r'[ \t]+()(?![ \t]|[)>\],:]|$|=(?:[ \t]|$)|(?:\*\*|[|+/*.$-])[ \t])',
    r'[ \t]+([+-])[ \t]+', r'[ \t]+(/)[ \t]+',
    r'[ \t]+(\*)[ \t]+', r'[ \t]+(\*\*)[ \t]+', r'[ \t]+([.$])[ \t]+')]
POWER = 5
PRIMARY = re.compile(r"""'([^']*)'|"([^"]*)"|([0-9]+)|&([A-Za-z][\w.]*)|([A-Za-z][\w.]*)([(<\[]?)|(\()""")
LABEL = re.compile(r'[A-Za-z0-9][\w.]*')
BLANKS = re.compile(r'[ \t]*')
CLOSING = {'(': ')', '<': '>', '[': ']'}


class Refused(Exception):
    """The text is no program; the argument is the statement."""


class Reading:
    """One statement that is read from left to right."""

    def __init__(self, text):
        self.text, self.at = text, 0

    def ahead(self, pattern):
        found = re.compile(pattern).match(self.text, self.at)
        if found:
            self.at = found.end()
        return found

    def blanks(self):
        self.at = BLANKS.match(self.text, self.at).end()

    def peek(self):
        return self.text[self.at:self.at + 1]

    def expression(self, level=0):
        if level == len(BINARY):
            return self.element()
        left = self.expression(level + 1)
        while True:
            sign = BINARY[level].match(self.text, self.at)
            if not sign:
                return left
            self.at = sign.end()
            kind = {'': ' ', '*': '*2'}.get(sign[1], sign[1])
            left = (kind, left, self.expression(level if level == POWER else level + 1))

    def element(self):
        sign = self.peek()
        if sign and sign in '+-$.*@?~':
            self.at += 1
            return ('u' + sign if sign in '+-$.' else sign, self.element())
        found = PRIMARY.match(self.text, self.at)
        if not found:
            raise Refused(self.text)
        self.at = found.end()
        single, double, digits, keyword, name, opened, bracket = found.groups()
        if bracket:
            self.blanks()
            tree = self.expression()
            self.blanks()
            self.close(')')
            return tree
        if keyword:
            return ('key', keyword)
        if opened:
            parts = self.arguments(CLOSING[opened])
            return ('call', name, *parts) if opened == '(' else ('item', ('name', name), *parts)
        if name:
            return ('name', name)
        return int(digits) if digits else double if single is None else single

    def close(self, sign):
        if self.peek() != sign:
            raise Refused(self.text)
        self.at += 1

    def arguments(self, end):
        parts = []
        while True:
            self.blanks()
            parts.append('' if self.peek() in (',', end) else self.expression())
            self.blanks()
            if self.peek() != ',':
                self.close(end)
                return parts
            self.at += 1

    def target(self):
        self.close('(')
        self.blanks()
        if self.peek() == '$':
            self.at += 1
            found = ('$', self.element())
        else:
            found = self.ahead(LABEL)
            if not found:
                raise Refused(self.text)
            found = found[0]
        self.blanks()
        self.close(')')
        return found

    def goto(self):
        """The targets on success and on failure."""
        targets = {}
        self.blanks()
        if self.peek() == '(':
            target = self.target()
            return target, target
        while self.peek() in ('S', 'F') and self.peek():
            kind = self.peek()
            self.at += 1
            targets[kind] = self.target()
            self.blanks()
        return targets.get('S'), targets.get('F')

    def statement(self):
        label = self.ahead(LABEL)
        subject = pattern = value = None
        assigns, goto = False, (None, None)
        self.blanks()
        if label and label[0] == 'END':
            return Statement('END', None, None, False, None, (None, None))
        if self.peek() and self.peek() != ':':
            subject = self.element()
            if BINARY[1].match(self.text, self.at):
                self.blanks()
                pattern = self.expression()
            if self.ahead(r'[ \t]+=(?=[ \t]|$)'):
                assigns = True
                if self.ahead(r'[ \t]+(?![: \t]|$)'):
                    value = self.expression()
                else:
                    value = ''
        self.blanks()
        if self.ahead(':'):
            goto = self.goto()
        self.blanks()
        if self.at != len(self.text):
            raise Refused(self.text)
        return Statement(label[0] if label else None, subject, pattern, assigns, value, goto)


def cards(text):
    """The statements of a program as texts."""
    joined = []
    for line in text.split('\n'):
        if line[:1] in ('*', '-') or not line.strip():
            continue
        if line[:1] in ('+', '.'):
            joined[-1] += ' ' + line[1:]
        else:
            joined.append(line)
    for card in joined:
        for part in re.findall(r"""(?:'[^']*'|"[^"]*"|[^;'"])+""", card):
            if part.strip():
                yield part


def read_program(text):
    statements = []
    for card in cards(text):
        statements.append(Reading(card).statement())
        if statements[-1].label == 'END':
            break
    return statements
