"""The cases of the language, by hand from cases/hand and computed by language_rules.py: their table and their programs."""
import glob
import os

from language_rules import RULES, computed
from programs import A_PROGRAM

HERE = os.path.dirname(os.path.realpath(__file__))
HEAD = 'group\tcase\tprogram\tmark\twhat\tstatements\tinput\tlines'
PROGRAM = """*       %s: cases of the group %s, in plain SNOBOL4. It writes %s.out.
*       Quickscan is turned off where it is on; elsewhere the keyword is left alone.
        EQ(&FULLSCAN,0)                                 :F(FULL.)
        &FULLSCAN = 1
FULL.   &STLIMIT = 100000
        DEFINE('CASE.(TITLE.)')                         :(CASES.)
*       A case begins.
CASE.   OUTPUT = '# ' TITLE.
        &ANCHOR = 0
        &TRIM = 0                                       :(RETURN)
CASES.
"""
# Statements stand in columns 1 to 72, as on cards.
WIDEST = 72


def groups():
    """The groups in the order of their names."""
    by_hand = [os.path.basename(path)[:-4] for path in glob.glob(os.path.join(HERE, 'hand', '*.txt'))]
    return sorted(set(by_hand) | set(RULES))


def by_hand(text):
    """The cases of a file: `= MARK: WHAT`, statements, lines `< INPUT` (`<!` is one without an end), and `> OUTPUT`.

    A mark with `alone` behind it is that of a case which ends the run by an error, and has a program of its own.
    """
    for block in ('\n' + text).split('\n= ')[1:]:
        head, *lines = block.rstrip('\n').split('\n')
        mark, what = head.split(': ', 1)
        read = [line for line in lines if line.startswith('<')]
        wanted = [line[2:] for line in lines if line.startswith('>')]
        statements = [line for line in lines if line[:1] not in ('<', '>')]
        given = ''.join(line[2:] + ('' if line[1:2] == '!' else '\n') for line in read)
        yield mark, what, '\n'.join(statements), given if read else None, '\n'.join(wanted)


def cases(group):
    """The cases of a group: mark, what, statements, input or None, and the lines that are wanted."""
    path = os.path.join(HERE, 'hand', group + '.txt')
    if os.path.exists(path):
        with open(path) as file:
            yield from by_hand(file.read())
    for mark, what, statements, wanted in computed(group):
        yield mark, what, statements, None, wanted


def escaped(text):
    assert '\\' not in text and '\t' not in text, text
    return text.replace('\n', '\\n')


def plain(cell):
    return cell.replace('\\n', '\n')


def rows():
    for group in groups():
        yield from rows_of(group, cases(group))


def rows_of(group, held):
    """The rows of the cases of a group, of which `%` becomes the number."""
    shared = {'book': 0, 'profile': 0}
    for number, (mark, what, statements, given, wanted) in enumerate(held, 1):
        alone = mark.endswith(' alone') or given is not None or 'END' in statements
        mark = mark.split(' ')[0]
        assert mark in shared, mark
        if alone:
            name = '%s-case-%d' % (group, number)
        else:
            shared[mark] += 1
            name = '%s%s-%d' % (group, '' if mark == 'book' else '-profile', (shared[mark] - 1) // A_PROGRAM + 1)
        cells = (escaped(cell.replace('%', str(number))) for cell in (what, statements, given or '', wanted))
        yield '\t'.join((group, str(number), name, mark, *cells))


def laid_out(statements):
    """Statements with their labels in column 1 and the rest behind column 8."""
    for line in statements.split('\n'):
        if line[:1] in ('+', '.'):
            yield line[:1] + '       ' + line[1:].lstrip()
        elif line[:1] == '*':
            yield line
        else:
            label, _, rest = line.partition(' ')
            yield ('%-7s %s' % (label, rest)).rstrip()


def case_text(title, mark, what, statements):
    note = what + ('' if mark == 'book' else ', not of the book')
    text = ''.join(line + '\n' for line in laid_out(statements))
    assert max(map(len, text.split('\n'))) <= WIDEST, text
    return "*       %s\n        CASE.('%s')\n%s" % (note, title, text)


def language_programs(table):
    """The programs of a table: for each name its text, what it writes, and its input, if it has one."""
    made = {}
    for row in table.splitlines()[1:]:
        group, number, name, mark, what, statements, given, lines = row.split('\t')
        source, output, inputs = made.setdefault(name, ([PROGRAM % (name, group, name)], [], []))
        title = '%s %s' % (group, number)
        source.append(case_text(title, mark, what, plain(statements)))
        output.append('# %s\n' % title + (plain(lines) + '\n'))
        inputs.append(plain(given))
    return {name: (''.join(source) + 'END\n', ''.join(output), ''.join(inputs))
            for name, (source, output, inputs) in made.items()}
