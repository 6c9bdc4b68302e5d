#!/usr/bin/env python3
"""A plain search: the listings of the cases, written from docs/MATCHING.md alone.

usage: search.py <ways.tsv    writes the rows again, with the listings that this search gives

It is slow and short, and shares nothing with the interpreter, so that what both say of a case is no mirror of either.
cases/mistakes.tsv changes lines of this file; each change is a wrong interpreter that the cases have to refuse.
"""
import sys

sys.dont_write_bytecode = True
from commands import ends
from expressions import as_pattern, joined, read

sys.setrecursionlimit(20000)
COUNTS = ('LEN', 'POS', 'RPOS', 'TAB', 'RTAB')
SETS = ('ANY', 'NOTANY', 'SPAN', 'BREAK', 'BREAKX')
ALONE = ('ARB', 'BAL', 'REM', 'FAIL', 'FENCE', 'ABORT', 'SUCCEED')
COMPARED = {'EQ': lambda a, b: a == b, 'NE': lambda a, b: a != b, 'GT': lambda a, b: a > b, 'LT': lambda a, b: a < b}


class Ended(Exception):
    """The match has ended, with the line that tells how."""


class CutOff(Exception):
    """What stands behind the close of a FENCE(P) is exhausted; the cut is the argument."""


class Failed(Exception):
    """The value that was asked for is a failure."""


class Search:
    def __init__(self, subject, anchored, steps):
        self.subject, self.anchored, self.left = subject, anchored, steps
        self.size, self.start, self.lines, self.variables = len(subject), 0, [], {}

    def listing(self, pattern):
        try:
            self.look_for(as_pattern(self.value(read(pattern))))
        except Ended as how:
            self.lines.append(str(how))
        return self.lines

    def look_for(self, pattern):
        """Matches a pattern from each start; tells by an exception how the match ended."""
        for start in range(0, 1 if self.anchored else self.size + 1):
            if start > 0:
                self.step()
            self.start = start
            self.go((pattern, None), start, ())
        raise Ended('exhausted')

    def step(self):
        if self.left == 0:
            raise Ended('limit')
        self.left -= 1

    def value(self, tree):
        """The value of an expression: a text, a number, or a pattern, which is a tuple."""
        if not isinstance(tree, tuple):
            return tree
        kind = tree[0]
        if kind == 'name':
            return (tree[1],) if tree[1] in ALONE else self.variables.get(tree[1], '')
        if kind == '*':
            return ('deferred', tree[1])
        if kind == '@':
            return ('@', tree[1][1])
        if kind in '.$':
            return (kind, as_pattern(self.value(tree[1])), tree[2][1])
        values = [self.value(part) for part in tree[1 if kind != 'call' else 2:]]
        if kind in '+-':
            return int(values[0] or 0) + int(kind + '1') * int(values[1] or 0)
        if kind == '|':
            return ('|', *map(as_pattern, values))
        if kind == ' ':
            return joined(*values)
        if tree[1] in COMPARED:
            if COMPARED[tree[1]](int(values[0] or 0), int(values[1] or 0)):
                return ''
            raise Failed
        if tree[1] in ('ARBNO', 'FENCE'):
            return (tree[1] + '()', as_pattern(values[0]))
        return (tree[1], values[0])

    def go(self, goals, at, pending):
        """Matches the goals from a cursor; returns when they are exhausted."""
        if goals is None:
            self.lines.append(' '.join(['way %d %d' % (self.start, at)] + ['%s=%d-%d' % entry for entry in pending]))
            return
        self.step()
        goal, rest = goals
        kind = goal[0]
        if kind == ' ':
            self.go((goal[1], (goal[2], rest)), at, pending)
        elif kind == '|':
            self.go((goal[1], rest), at, pending)
            self.step()
            self.go((goal[2], rest), at, pending)
        elif kind == 'ARBNO()':
            self.go(rest, at, pending)
            self.step()
            self.go((goal[1], (('again', goal, at), rest)), at, pending)
        elif kind == 'again':
            if at != goal[2]:
                self.go((goal[1], rest), at, pending)
        elif kind in ('.', '$'):
            self.go((goal[1], (('close ' + kind, goal[2], at), rest)), at, pending)
        elif kind == 'close .':
            self.go(rest, at, pending + ((goal[1], goal[2], at),))
        elif kind == 'close $':
            self.lines.append('set %s %d %d' % (goal[1], goal[2], at))
            self.variables[goal[1]] = self.subject[goal[2]:at]
            self.go(rest, at, pending)
        elif kind == '@':
            self.lines.append('cursor %s %d' % (goal[1], at))
            self.variables[goal[1]] = at
            self.go(rest, at, pending)
        elif kind == 'FENCE':
            self.go(rest, at, pending)
            raise Ended('aborted')
        elif kind == 'FENCE()':
            cut = object()
            try:
                self.go((goal[1], (('close cut', cut), rest)), at, pending)
            except CutOff as cut_off:
                if cut_off.args[0] is not cut:
                    raise
        elif kind == 'close cut':
            self.go(rest, at, pending)
            raise CutOff(goal[1])
        elif kind == 'ABORT':
            raise Ended('aborted')
        elif kind == 'SUCCEED':
            while True:
                self.go(rest, at, pending)
                self.step()
        elif kind == 'deferred':
            try:
                found = as_pattern(self.value(goal[1]))
            except Failed:
                return
            self.go((found, rest), at, pending)
        else:
            for number, end in enumerate(self.ends(kind, goal[1] if len(goal) > 1 else None, at)):
                if number > 0:
                    self.step()
                self.go(rest, end, pending)

    def ends(self, kind, argument, at):
        """The ends of a primitive from a cursor, in the order in which they are tried."""
        if isinstance(argument, tuple):
            try:
                argument = self.value(argument[1])
            except Failed:
                return []
        subject, size = self.subject, self.size
        if kind in COUNTS:
            count = int(argument or 0)
            end = {'LEN': at + count, 'POS': count, 'RPOS': size - count, 'TAB': count, 'RTAB': size - count}[kind]
            return [end] if at <= end <= size and (kind not in ('POS', 'RPOS') or end == at) else []
        if kind in SETS:
            members = str(argument)
            if kind in ('ANY', 'NOTANY'):
                return [at + 1] if at < size and (subject[at] in members) == (kind == 'ANY') else []
            if kind == 'SPAN':
                end = at
                while end < size and subject[end] in members:
                    end += 1
                return [end] if end > at else []
            ends = [end for end in range(at, size) if subject[end] in members]
            return ends if kind == 'BREAKX' else ends[:1]
        if kind == 'text':
            return [at + len(argument)] if subject.startswith(argument, at) else []
        if kind == 'BAL':
            ends, depth = [], 0
            for end in range(at, size):
                depth += (subject[end] == '(') - (subject[end] == ')')
                if depth < 0:
                    break
                if depth == 0:
                    ends.append(end + 1)
            return ends
        return {'ARB': list(range(at, size + 1)), 'REM': [size], 'FAIL': []}[kind]


def listing(mode, pattern, subject, most=1000000):
    """The lines of a case, of which the mode is `anchor` or `float` and, where it has one, the limit of steps."""
    words = mode.split()
    return Search(subject, words[0] == 'anchor', int(words[1]) if len(words) > 1 else most).listing(pattern)


def main():
    if len(sys.argv) > 1 or sys.stdin.isatty():
        return __doc__.strip()
    for row in sys.stdin:
        cells = row.rstrip('\n').split('\t')
        if cells[0] != 'group':
            cells[6] = '|'.join(listing(*cells[3:6]))
        print('\t'.join(cells))


if __name__ == '__main__':
    ends(main)
