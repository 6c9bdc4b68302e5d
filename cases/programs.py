"""The cases as plain programs of SNOBOL4 that write the listings themselves, and what these write."""
import re

from expressions import read, read_any, write

HEAD = """*       %(name)s: cases of the group %(group)s, in plain SNOBOL4. It writes %(name)s.out.
*       Quickscan is turned off where it is on; elsewhere the keyword is left alone.
        EQ(&FULLSCAN,0)                                 :F(FULL.)
        &FULLSCAN = 1
FULL.   &STLIMIT = 100000
        DEFINE('CASE.(TITLE.)')
        DEFINE('WAY.(B.,C.)')
        DEFINE('DONE.()')
        DEFINE('SET.(NAME.,PART.,C.)')
        DEFINE('CUR.(NAME.,C.)')
        DEFINE('KTH.()')
        DEFINE('AGAIN.()')
        DEFINE('OVER.()')
        DEFINE('VARS.()')                               :(CASES.)
*       A case begins.
CASE.   OUTPUT = '# ' TITLE.
        ENDED. = 0
        K. = 0
        X =
        Y =
        N =                                             :(RETURN)
*       Within a match: WAY. and DONE. fail, so that the search goes on.
WAY.    OUTPUT = 'way ' B. ' ' C.                       :(FRETURN)
DONE.   ENDED. = 1                                      :(FRETURN)
SET.    OUTPUT = 'set ' NAME. ' ' C. - SIZE(PART.) ' ' C.   :(RETURN)
CUR.    OUTPUT = 'cursor ' NAME. ' ' C.                 :(RETURN)
*       Succeeds at the K.-th way alone; the match is begun again for each K.
KTH.    LEFT. = LEFT. - 1
        EQ(LEFT.,0)                                     :S(RETURN)F(FRETURN)
AGAIN.  OUTPUT = GT(K.,0) 'way ' S. ' ' E. ' X=' X ' Y=' Y ' N=' N
        K. = LT(K.,50) K. + 1                           :F(FRETURN)
        LEFT. = K.
        X =
        Y =
        N =                                             :(RETURN)
*       Behind a match that failed.
OVER.   OUTPUT = EQ(ENDED.,1) 'exhausted'               :S(RETURN)
        OUTPUT = 'aborted'                              :(RETURN)
VARS.   OUTPUT = 'left X=' X ' Y=' Y ' N=' N            :(RETURN)
CASES.
"""
# So many cases stand in a program.
A_PROGRAM = 50
# What variables hold before a match that fails.
OLD = 'old'


def names(tree):
    """The names of the variables that a pattern sets."""
    if not isinstance(tree, tuple):
        return set()
    found = set().union(*map(names, tree[1:]))
    if tree[0] in ('.', '$', '@'):
        found.add(tree[-1][1])
    return found


def has(tree, *kinds):
    return isinstance(tree, tuple) and (tree[0] in kinds or any(has(part, *kinds) for part in tree[1:]))


def may_be_null(tree):
    """Whether a pattern may match null, as far as its form tells."""
    if not isinstance(tree, tuple):
        return tree == ''
    kind = tree[0]
    if kind in '|':
        return may_be_null(tree[1]) or may_be_null(tree[2])
    if kind == ' ':
        return may_be_null(tree[1]) and may_be_null(tree[2])
    if kind in '.$':
        return may_be_null(tree[1])
    if kind == 'name':
        return tree[1] not in ('BAL', 'FAIL', 'ABORT')
    if kind == 'call' and tree[1] == 'FENCE':
        return may_be_null(tree[2])
    return not (kind == 'call' and (tree[1] in ('ANY', 'NOTANY', 'SPAN') or tree[1:] == ('LEN', 1) or tree[1:] == ('LEN', 2)))


def repeats_null(tree):
    if not isinstance(tree, tuple):
        return False
    return tree[:2] == ('call', 'ARBNO') and may_be_null(tree[2]) or any(map(repeats_null, tree[1:]))


def is_portable(mode, pattern):
    """Whether no implementation may differ by right: no limit of steps, and no repetition of what may match null."""
    return ' ' not in mode and not repeats_null(read(pattern)) and 'SUCCEED' not in pattern


def is_of_book(pattern):
    return 'BREAKX(' not in pattern and 'FENCE(' not in pattern


def note(mode, pattern, subject):
    """The comment above a case: what it matches, and whether the book has it."""
    quoted = '"%s"' % pattern if "'" in pattern else "'%s'" % pattern
    return "ways %s on '%s', %s%s" % (quoted, subject, mode, '' if is_of_book(pattern) else ', not of the book')


def shown(pattern, subject, lines, group=''):
    """What the program of a case writes where its listing has these lines.

    A pattern with `.` is matched once for each way, and what its variables hold then stands behind the way. One of `failing` is
    matched once, and its variables held something before.
    """
    tree = read_any(pattern)
    waits, held, told = has(tree, '.'), {}, []
    if group == 'failing':
        held = {'X': OLD, 'Y': OLD}
    for line in lines[:-1]:
        words = line.split(' ')
        if words[0] == 'set':
            held[words[1]] = subject[int(words[2]):int(words[3])]
        elif words[0] == 'cursor':
            held[words[1]] = words[2]
        if not waits:
            told.append(line)
        elif words[0] == 'way':
            then = dict(held)
            for name, begin, end in (re.match(r'(\w+)=(\d+)-(\d+)$', entry).groups() for entry in words[3:]):
                then[name] = subject[int(begin):int(end)]
            told.append(' '.join(words[:3] + values(then)))
    told.append('failed' if group == 'failing' else lines[-1])
    if names(tree):
        told.append(' '.join(['left'] + values(held)))
    return told


def values(held):
    return ['%s=%s' % (name, held.get(name, '')) for name in 'XYN']


def card(statement, label='', goto=''):
    """A statement on lines of at most 72 columns, cut at blanks outside literals."""
    line, lines = '%-7s' % label, []
    for word in re.findall(r"(?:'[^']*'|\"[^\"]*\"|[^\s'\"])+", statement + (' ' + goto if goto else '')):
        if len(line) + 1 + len(word) > 72 and line.strip():
            lines.append(line)
            line = '+      '
        line += ' ' + word
    return '\n'.join(lines + [line]) + '\n'


def statements(title, mode, pattern, subject):
    """The statements of a case."""
    tree = read_any(pattern)
    waits, fails = has(tree, '.'), title.startswith('failing ')
    told = write(tree, 2, not waits and not fails)
    ended = '*DONE.()' if mode == 'anchor' else 'RPOS(0) *DONE.()'
    text = "*       %s\n        CASE.('%s')\n        &ANCHOR = %d\n" % (note(mode, pattern, subject), title, mode == 'anchor')
    label = 'L' + title.split(' ')[1]
    if fails:
        text += card("X = '%s'" % OLD) + card("Y = '%s'" % OLD) + card('%s %s' % (write(subject), told), '', ':S(%s)' % label)
        return text + card("OUTPUT = 'failed'") + card('VARS.()', label)
    if waits:
        text += card('AGAIN.()', label, ':F(%sE)' % label)
        text += card("%s @S. %s @E. *KTH.() | %s" % (write(subject), told, ended), '', ':S(%s)' % label)
        text += card('OVER.()', label + 'E')
    else:
        text += card("%s @S. %s @E. *WAY.(S.,E.) | %s" % (write(subject), told, ended)) + card('OVER.()')
    return text + (card('VARS.()') if names(tree) else '')


def programs(table):
    """The programs of a table of cases: for each name its text and what it writes."""
    made = {}
    for row in table.splitlines()[1:]:
        group, number, name, mode, pattern, subject, lines = row.split('\t')
        if name == '-':
            continue
        source, output = made.setdefault(name, ([HEAD % {'name': name, 'group': group}], []))
        source.append(statements('%s %s' % (group, number), mode, pattern, subject))
        output += ['# %s %s' % (group, number)] + shown(pattern, subject, lines.split('|'), group)
    return {name: (''.join(source) + 'END\n', '\n'.join(output) + '\n') for name, (source, output) in made.items()}
