"""The plain search of search.py over the variables of a machine: the first way of a match, and what waits for it."""
import re

import search
from functions import text
from objects import Failure, Place

PENDING = re.compile(r' (.*?)=([0-9]+)-([0-9]+)(?= |$)')


class Found(Exception):
    """The line of the first way of a match."""


class Lines(list):
    """The lines of a search, which ends at its first way."""

    def append(self, line):
        super().append(line)
        if line.startswith('way '):
            raise Found(line)

    def __iadd__(self, lines):
        for line in lines:
            self.append(line)
        return self


class Variables(dict):
    """The variables of a program. Names that end with a dot are those of the harness, which no copy holds."""

    def __init__(self, machine, held=()):
        super().__init__(held)
        self.machine = machine

    def get(self, name, default=''):
        return self.machine.own.get(name, default) if name.endswith('.') else super().get(name, default)

    def __setitem__(self, name, value):
        if isinstance(name, Place):
            name.write(value)
            return
        if name == 'OUTPUT':
            self.machine.lines.append(text(value))
        if name.endswith('.'):
            self.machine.own[name] = value
        else:
            super().__setitem__(name, value)


class Matching(search.Search):
    """A search over the variables of a machine."""

    def __init__(self, machine, subject):
        self.machine, self.begun = machine, False
        super().__init__(subject, machine.keywords['ANCHOR'] != 0, machine.most_steps)
        self.lines, self.begun = Lines(), True

    @property
    def variables(self):
        return self.machine.variables

    @variables.setter
    def variables(self, held):
        if self.begun:
            self.machine.variables = held if isinstance(held, Variables) else Variables(self.machine, held)

    def value(self, tree):
        try:
            return self.machine.value(tree)
        except Failure:
            raise search.Failed

    def first_way(self, goal):
        """The span of the first way and what waits for it, or None."""
        try:
            self.look_for(goal)
        except Found as found:
            line = found.args[0]
            start, end, rest = re.match(r'way ([0-9]+) ([0-9]+)(.*)$', line, re.DOTALL).groups()
            waits = [(name, int(begin), int(close)) for name, begin, close in PENDING.findall(rest)]
            return int(start), int(end), waits
        except search.Ended:
            return None
