"""Tests the module snobol4 and, below it, the library. usage: library.py SNOBOL4 SNOBOL4-LIST (the programs to compare with)"""
import ctypes
import glob
import itertools
import os
import resource
import subprocess
import sys
import tempfile
import threading

import snobol4

PROGRAM, LIST = sys.argv[1:]


def tell(name, is_well, why=''):
    print(f'ok {name}' if is_well else f'not ok {name}: {why}', flush=True)


def same(name, came, wanted):
    tell(name, came == wanted, f'{came!r} where {wanted!r} is wanted'[:400])


def read(file):
    with open(file, 'rb') as opened:
        return opened.read()


def rows():
    with open('cases/ways.tsv', encoding='utf-8', newline='\n') as file:
        head, *rest = (line.rstrip('\n').split('\t') for line in file)
    return [dict(zip(head, row)) for row in rest]


def listings():
    """Each listing of the table, by the library's lines and, again, by the ways that the module makes of them."""
    differing, other, table = [], [], rows()
    for row in table:
        mode, *steps = row['mode'].split(' ')
        words = row['pattern'], row['subject'], mode == 'anchor', int(steps[0]) if steps else snobol4.STEPS
        wanted = row['lines'].split('|')
        try:
            came = list(snobol4.lines(*words))
        except snobol4.Fault as fault:
            came = [str(fault)]
        if '|'.join(came) != row['lines']:
            differing.append(f"{row['group']} {row['case']}: {came}")
        if 'OUTPUT' in row['pattern']:
            continue
        spans = [tuple(map(int, line.split(' ')[1:3])) for line in wanted if line.startswith('way ')]
        try:
            ways = [(way.start, way.end) for way in itertools.islice(snobol4.ways(*words), len(spans))]
        except snobol4.Fault as fault:
            ways = [fault]
        if ways != spans:
            other.append(f"{row['group']} {row['case']}: {ways}")
    tell('there are 2,000 listings and more', len(table) >= 2000, len(table))
    tell('each is that of the table', not differing, f'{len(differing)} differ, the first is {differing[:1]}')
    tell('and its ways are those of its lines', not other, f'{len(other)} differ, the first is {other[:1]}')


def programs():
    for file in sorted(glob.glob('examples/*.sno')):
        name = file[:-len('.sno')]
        same(f'the example {os.path.basename(name)}', snobol4.run(read(file), read(f'{name}.in')), read(f'{name}.out'))
    files, differing = sorted(glob.glob('cases/programs/*.sno')), []
    for file in files:
        name = file[:-len('.sno')]
        try:
            came = snobol4.run(read(file), read(f'{name}.in') if os.path.exists(f'{name}.in') else b'')
        except snobol4.Fault as fault:
            came = fault.output
        if came != read(f'{name}.out'):
            differing.append(name)
    tell('there are 200 programs of the cases and more', len(files) >= 200, len(files))
    tell('each writes what is wanted', not differing, differing)


def parts():
    """Pending assignments and those at once: as README.md and docs/MATCHING.md tell them."""
    same('a way has what is pending and what was set', list(snobol4.ways("LEN(1) $ X LEN(1) . Y", 'AB', anchor=True)),
         [(0, 2, (('Y', 1, 2),), (('X', 0, 1),))])
    same('a cursor is a part without a length', list(snobol4.ways("LEN(1) @N", 'A', anchor=True)), [(0, 1, (), (('N', 1, 1),))])
    same('what OUTPUT gets is no line', list(snobol4.ways("LEN(7) $ OUTPUT", 'way 0 9', anchor=True)), [(0, 7, (), (('OUTPUT', 0, 7),))])
    same('names may have a blank', list(snobol4.ways("LEN(1) . $'A B' LEN(1) . Y", 'CD', anchor=True)),
         [(0, 2, (('A B', 0, 1), ('Y', 1, 2)), ())])
    same('places count bytes', [(way.start, way.end) for way in snobol4.ways("'Ä'", 'aÄ')], [(1, 3)])
    first = list(itertools.islice(snobol4.ways('ARB ARB ARB ARB', 'A' * 200, steps=1_000_000_000), 3))
    same('the first ways need no more than they take', [(way.start, way.end) for way in first], [(0, 0), (0, 1), (0, 2)])
    same('an aborted search has no more', list(snobol4.ways('ABORT', 'A')), [])


def fault(call, *words, **named):
    try:
        call(*words, **named)
    except snobol4.Fault as raised:
        return raised.status, raised.number, raised.statement, raised.line, str(raised), raised.output
    return None


def faults():
    two = " OUTPUT = 'A'\n OUTPUT = 'A' + 1\nEND\n"
    line = 'snobol4: error 1 in statement 2'
    same('an error has its number and statement', fault(snobol4.run, two), (1, 1, 2, None, line, 'A\n'))
    same('and bytes, where the program is of bytes', fault(snobol4.run, two.encode()), (1, 1, 2, None, line, b'A\n'))
    same('a refusal has its line', fault(snobol4.check, " X =\n (A\nEND\n"), (2, 3, None, 2, 'snobol4: syntax 3 at line 2', ''))
    same('a limit of statements', fault(snobol4.run, 'A :(A)\nEND\n', statements=9)[:3], (4, 20, 1))
    same('a limit of steps', fault(snobol4.run, " 'AAAA' ARB 'Z'\nEND\n", match_steps=9)[:3], (5, 21, 1))
    same('and one of a search', fault(lambda: list(snobol4.ways("ARB 'Z'", 'AAAA', steps=9)))[0], 5)
    same('a number out of its range', fault(snobol4.run, 'END\n', statements=0)[0], 64)
    same('a text that is not UTF-8', fault(lambda: list(snobol4.ways(b"'\xff'", 'A')))[0], 64)
    same('an output without room', fault(snobol4.run, 'A OUTPUT = 1 :(A)\nEND\n', most=9)[::5], (7, '1\n1\n1\n1\n1'))
    same('a program that is well', snobol4.check(' X = 1\nEND\n'), None)
    refused = snobol4.listing(' (A\nEND\n').split('\n')
    tell('a listing tells why it is refused', refused[0] == '     1   (A' and 'syntax 3' in ' '.join(refused[1:]), refused)
    two = " X = 'A'; Y = X / 2\n OUTPUT = Y\nEND\n"
    same('a listing', snobol4.listing(two), "     1   X = 'A'; Y = X / 2\n     3   OUTPUT = Y\n     4  END\n")
    same('a statement of it', snobol4.listing(two, 2), "     2   X = 'A'; Y = X / 2\n")
    same('a statement that is not there', fault(snobol4.listing, 'END\n', 9)[0], 64)


def rooms():
    """Each call with rooms of all sizes: what is written is the beginning of the whole, and nothing stands behind it."""
    told = snobol4._Told()
    program = b" OUTPUT = 'ABC'\n OUTPUT = 'A' + 1\nEND\n"
    calls = {
        'ways': (snobol4._lib.snobol4_ways, (b"'A'", 3, b'AA', 2, False, 100), b'way 0 1\nway 1 2\nexhausted\n', b'', 0),
        'run': (snobol4._lib.snobol4_run, (program, len(program), b'', 0, 100, 100), b'ABC\n', b'snobol4: error 1 in statement 2\n', 1),
    }
    for name, (call, words, output, line, status) in calls.items():
        wrong = []
        for room, line_room in itertools.product(range(len(output) + 3), range(0, len(line) + 3, 7)):
            out, why = ctypes.create_string_buffer(b'#' * 99, 99), ctypes.create_string_buffer(b'#' * 99, 99)
            call(*words, out, room, why, line_room, told)
            fits = room >= len(output)
            came = told.status, out.raw, told.written
            wanted = status if fits else 7, output[:room].ljust(99, b'#'), min(room, len(output))
            said = line if fits else b'snobol4: write fault\n'
            if came != wanted or why.raw != said[:line_room].ljust(99, b'#') or told.told != min(line_room, len(said)):
                wrong.append((room, line_room, came, why.raw))
        tell(f'rooms of each size for {name}', not wrong, wrong[:1])


def matchers():
    """Listings that stay: their lines one after another, rooms that are too small, and the end."""
    lib, told, line = snobol4._lib, snobol4._Told(), ctypes.create_string_buffer(99)

    def begin(pattern, subject, steps=1_000_000_000):
        matcher = snobol4._Matcher()
        lib.snobol4_matcher_new(pattern, len(pattern), subject, len(subject), False, steps, matcher, line, 99, told)
        return matcher

    def ask(matcher, room=99):
        out = ctypes.create_string_buffer(b'#' * 99, 99)
        lib.snobol4_matcher_next(matcher, out, room, line, 99, told)
        whole = out.raw[:told.written].ljust(99, b'#') == out.raw
        return told.status, out.raw[:told.written] if whole else out.raw, ctypes.string_at(line, told.told)

    many, two = begin(b'ARB ' * 20, b'A' * 200), begin(b'LEN(1)', b'AB')
    same('a first line of a thousand million', ask(many), (0, b'way 0 0\n', b''))
    same('a line of another listing', [ask(two), ask(many)], [(0, b'way 0 1\n', b''), (0, b'way 0 1\n', b'')])
    lib.snobol4_matcher_free(many)
    same('a listing that is let go', ask(many), (64, b'', b''))
    same('a line that finds no room waits', [ask(two, room) for room in (0, 1, 7, 8)], [(7, b'', b'')] * 3 + [(0, b'way 1 2\n', b'')])
    same('the end is told again', [ask(two) for _ in range(3)], [(0, b'exhausted\n', b''), (0, b'', b''), (0, b'', b'')])
    lib.snobol4_matcher_free(two)
    lib.snobol4_matcher_free(two)
    wrong = begin(b"'A' *LEN('X')", b'A')
    same('an error is told again', [ask(wrong) for _ in range(2)], [(1, b'', b'snobol4: error 1\n')] * 2)
    lib.snobol4_matcher_free(wrong)
    same('a refused pattern is not held', (begin(b'(', b'A').held, told.status), (False, 2))
    same('nor one with too many steps', (begin(b"'A'", b'A', 1_000_000_001).held, told.status), (False, 64))
    lines = snobol4.lines('ARB ARB', 'A' * 200, steps=1_000_000_000)
    next(lines)
    lines.close()
    same('a generator that is closed has no more', list(lines), [])
    before = resource.getrusage(resource.RUSAGE_SELF).ru_maxrss
    for _ in range(500):
        lines = snobol4.lines('ARB', 'A' * 1_000_000)
        next(lines)
        lines.close()
    more = resource.getrusage(resource.RUSAGE_SELF).ru_maxrss - before
    tell('listings that are let go give their memory back', more < 100_000, f'they take {more} KB more')


def threads():
    """Calls at once in four threads."""
    wanted, came = [list(snobol4.ways('ARB ARB', 'A' * 20))] * 4, []
    each = [threading.Thread(target=lambda: came.append(list(snobol4.ways('ARB ARB', 'A' * 20)))) for _ in wanted]
    for one in each:
        one.start()
    for one in each:
        one.join()
    tell('four threads at once', came == wanted, 'they differ')


def commands():
    """The module's commands beside those of the program: outputs, lines and statuses."""
    with tempfile.TemporaryDirectory() as folder:
        def put(name, text):
            with open(os.path.join(folder, name), 'w', encoding='utf-8') as file:
                file.write(text)
            return os.path.join(folder, name)

        good, bad, wrong = put('good.sno', 'A OUTPUT = INPUT :S(A)\nEND\n'), put('bad.sno', ' (A\nEND\n'), put('wrong.sno', " X = 'A' + 1\nEND\n")
        for words in (
            ['ways', '--anchor', "'A' | 'AB'", 'AB'], ['ways', '--steps', '3', "ARB 'Z'", 'AAAA'], ['ways', "LEN('A')", 'A'],
            ['ways', '(', 'A'], ['run', good], ['run', bad], ['run', wrong], ['run', '--statements', '2', good],
            ['run', os.path.join(folder, 'none')], ['check', good], ['check', bad], ['list', good], ['list', '--statement', '1', good],
        ):
            theirs = [LIST, *words[1:]] if words[0] == 'list' else [PROGRAM, *words]
            ended = [
                subprocess.run(each, input=b'ONE\nTWO\n', capture_output=True, check=False)
                for each in ([sys.executable, '-m', 'snobol4', *words], theirs)
            ]
            came, wanted = [(one.returncode, one.stdout, one.stderr) for one in ended]
            same(f'the command {" ".join(os.path.basename(word) for word in words)}', came, wanted)


for test in (listings, programs, parts, faults, rooms, matchers, threads, commands):
    test()
