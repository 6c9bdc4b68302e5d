"""SNOBOL4 by the library libsnobol4.so, through ctypes: the ways of a pattern, and programs.

    >>> for way in ways("'A' | 'AB'", 'AB', anchor=True):
    ...     print(way.start, way.end)
    0 1
    0 2
    >>> run(" OUTPUT = 'I READ ' INPUT\\nEND\\n", 'THIS\\n')
    'I READ THIS\\n'

Texts are str, which are given as UTF-8 and come back so, or bytes. Each place is a number of bytes from the text's beginning, so
`subject.encode()[way.start:way.end]` is what a way matches. What ends in an error is a Fault.

The library is looked for in the file that the environment names as SNOBOL4_LIBRARY, beside this file, where ./install puts it, and
where a repository has it: built, and then shipped.
"""
from __future__ import annotations

import argparse
import contextlib
import ctypes
import os
import re
import sys
from collections.abc import Generator, Iterator
from typing import AnyStr, NamedTuple, NoReturn, Optional, Union

__all__ = ['Fault', 'Part', 'Way', 'check', 'lines', 'listing', 'run', 'ways']

Text = Union[str, bytes]
# What a run or a search may do where nothing else is said, as for the program `snobol4`; and the most bytes that it may write.
STATEMENTS = STEPS = 1_000_000
MOST = 1 << 26
NO_MEMORY, NO_ROOM, USAGE = 6, 7, 64
# No line that tells of a fault is longer.
LINE = 256


class Part(NamedTuple):
    """A variable and the part of the subject that it gets: the bytes from `start` to `end`.

    Of a cursor assignment (`@N`) both are the cursor."""
    name: str
    start: int
    end: int


class Way(NamedTuple):
    """One way in which a pattern matches: where it starts and ends.

    `pending` are the assignments (`.`) that it would make, in order; `sets` those (`$` and `@`) that were made at once since
    the way before it, also in what failed since."""
    start: int
    end: int
    pending: tuple[Part, ...]
    sets: tuple[Part, ...]


class Fault(Exception):
    """An error, a refusal or a limit: str() is the line that the program `snobol4` writes.

    status     its status, as docs/ERRORS.md has them
    number     of an error or a syntax, else None
    statement  the number of the statement, where the line has one
    line       the number of the program's line, where the line has one
    output     what was written before, as text or as bytes"""

    def __init__(self, status: int, told: str, output: Text = '') -> None:
        super().__init__(told)
        self.status, self.output = status, output
        self.number = _number(r'(?:error|syntax) (\d+)', told)
        self.statement = _number(r'in statement (\d+)', told)
        self.line = _number(r'at line (\d+)', told)


def _number(pattern: str, text: str) -> Optional[int]:
    found = re.search(pattern, text)
    return int(found[1]) if found else None


class _Told(ctypes.Structure):
    _fields_ = [('status', ctypes.c_uint32), ('written', ctypes.c_size_t), ('told', ctypes.c_size_t)]


class _Matcher(ctypes.Structure):
    _fields_ = [('search', ctypes.c_void_p), ('held', ctypes.c_bool)]


def _library() -> ctypes.CDLL:
    here = os.path.dirname(os.path.abspath(__file__))
    places = ['.', '../../..', '../../../lib', '../../crates/snobol4_c/out', '../../bin']
    files = [os.path.join(here, place, 'libsnobol4.so') for place in places]
    named = os.environ.get('SNOBOL4_LIBRARY')
    file = named or next((each for each in files if os.path.exists(each)), 'libsnobol4.so')
    library = ctypes.CDLL(file)
    text, room = [ctypes.c_char_p, ctypes.c_size_t], [ctypes.c_void_p, ctypes.c_size_t]
    matcher = ctypes.POINTER(_Matcher)
    for name, words in (
        ('snobol4_ways', [*text, *text, ctypes.c_bool, ctypes.c_uint32, *room]),
        ('snobol4_matcher_new', [*text, *text, ctypes.c_bool, ctypes.c_uint32, matcher]),
        ('snobol4_matcher_next', [matcher, *room]),
        ('snobol4_run', [*text, *text, ctypes.c_uint64, ctypes.c_uint32, *room]),
        ('snobol4_check', text),
        ('snobol4_list', [*text, ctypes.c_uint32, *room]),
    ):
        call = getattr(library, name)
        call.argtypes, call.restype = [*words, *room, ctypes.POINTER(_Told)], None
    library.snobol4_matcher_free.argtypes, library.snobol4_matcher_free.restype = [matcher], None
    return library


_lib = _library()


def _bytes(text: Text) -> bytes:
    return text if isinstance(text, bytes) else text.encode()


def _call(name: str, *words: object, room: Optional[int] = None) -> tuple[int, bytes, str]:
    """Calls the library: its status, what it wrote, and its line. `room` is that for the output, None where it writes none."""
    told, line = _Told(), ctypes.create_string_buffer(LINE)
    out = None if room is None else ctypes.create_string_buffer(max(room, 1))
    given: list[object] = []
    for word in words:
        given += [word, len(word)] if isinstance(word, bytes) else [word]
    if out is not None:
        given += [out, room]
    getattr(_lib, name)(*given, line, LINE, told)
    wrote = ctypes.string_at(out, told.written) if out is not None else b''
    return told.status, wrote, ctypes.string_at(line, told.told).decode(errors='replace').strip()


def _grown(name: str, *words: object, most: int) -> tuple[int, bytes, str]:
    """Calls the library with more and more room, at most `most` bytes: each call does the whole anew."""
    room = min(1 << 12, most)
    while True:
        status, wrote, line = _call(name, *words, room=room)
        if status != NO_ROOM or len(wrote) < room or room == most:
            return status, wrote, line
        room = min(room * 8, most)


def _raise(status: int, line: str, output: Text) -> NoReturn:
    if status == NO_MEMORY:
        raise MemoryError(line)
    raise Fault(status, line or 'a number is out of its range, or a text is not UTF-8', output)


def _next(matcher: _Matcher, room: int) -> tuple[int, bytes, str, int]:
    """What the library gives of a listing: the status, the lines, what went wrong, and the room that was needed."""
    while True:
        status, wrote, line = _call('snobol4_matcher_next', matcher, room=room)
        if status != NO_ROOM:
            return status, wrote, line, room
        room *= 8


def lines(pattern: Text, subject: Text, anchor: bool = False, steps: int = STEPS) -> Generator[str, None, None]:
    """The lines of `snobol4 ways` one after another, the last of which tells how the search ended.

    No more is searched than is asked for, and nothing is searched twice."""
    matcher, room = _Matcher(), 1 << 9
    try:
        status, _, line = _call('snobol4_matcher_new', _bytes(pattern), _bytes(subject), anchor, steps, matcher)
        while not status:
            status, wrote, line, room = _next(matcher, room)
            yield from wrote.decode(errors='surrogateescape').split('\n')[:-1]
            if not wrote:
                break
    finally:
        _lib.snobol4_matcher_free(matcher)
    if status:
        _raise(status, line, '')


_LINE = re.compile(r'(?:set (?P<set>.+) (\d+) (\d+)|cursor (?P<cursor>.+) (\d+)|way (?P<start>\d+) (\d+)(?P<pending> .*)?)$', re.DOTALL)
_PENDING = re.compile(r' (.+?)=(\d+)-(\d+)(?= |$)', re.DOTALL)


def ways(pattern: Text, subject: Text, anchor: bool = False, steps: int = STEPS) -> Iterator[Way]:
    """The ways in which the pattern matches the subject, in the order in which the search finds them.

    With `anchor` they start at 0 alone. Where the search comes to the limit of `steps`, a Fault with status 5 is raised behind
    the last way that was found.

    >>> list(ways("LEN(1) $ X LEN(1) . Y", 'AB'))
    [Way(start=0, end=2, pending=(Part(name='Y', start=1, end=2),), sets=(Part(name='X', start=0, end=1),))]
    """
    with contextlib.closing(lines(pattern, subject, anchor, steps)) as told:
        yield from _ways(told)


def _ways(told: Iterator[str]) -> Iterator[Way]:
    """The ways that these lines tell."""
    sets: list[Part] = []
    written = 0
    for line in told:
        # What is assigned to OUTPUT stands behind the line that tells so.
        if written:
            written -= len(line.encode(errors='surrogateescape')) + 1
            continue
        if line == 'limit':
            raise Fault(5, 'the limit of steps was reached')
        found = _LINE.match(line)
        if not found:
            continue
        if found['set']:
            sets.append(Part(found['set'], int(found[2]), int(found[3])))
            if found['set'] == 'OUTPUT':
                written = int(found[3]) - int(found[2]) + 1
        elif found['cursor']:
            sets.append(Part(found['cursor'], int(found[5]), int(found[5])))
            if found['cursor'] == 'OUTPUT':
                written = len(found[5]) + 1
        else:
            pending = tuple(Part(name, int(start), int(end)) for name, start, end in _PENDING.findall(found['pending'] or ''))
            yield Way(int(found['start']), int(found[7]), pending, tuple(sets))
            sets = []


def run(
    program: AnyStr, input: Text = '', *, statements: int = STATEMENTS, match_steps: int = STEPS, most: int = MOST
) -> AnyStr:
    """What the program writes when it is run on the input, of the program's type: str or bytes.

    It performs at most so many statements, takes at most so many steps in each match, and writes at most `most` bytes.

    >>> run(" OUTPUT = 'ONE' + 1\\nEND\\n")
    Traceback (most recent call last):
    snobol4.Fault: snobol4: error 1 in statement 1
    """
    status, wrote, line = _grown('snobol4_run', _bytes(program), _bytes(input), statements, match_steps, most=most)
    output: AnyStr = wrote if isinstance(program, bytes) else wrote.decode(errors='surrogateescape')
    if status:
        _raise(status, line, output)
    return output


def check(program: Text) -> None:
    """Reads the program and doesn't run it: a Fault tells the first thing that is wrong with it."""
    status, _, line = _call('snobol4_check', _bytes(program))
    if status:
        _raise(status, line, '')


def listing(program: Text, statement: int = 0) -> str:
    """The program with the numbers of its statements and with warnings, or one statement of it, where its number is given.

    A program that is refused is listed too, and its listing tells why."""
    status, wrote, line = _grown('snobol4_list', _bytes(program), statement, most=1 << 30)
    if status not in (0, 2):
        _raise(status, line, '')
    return wrote.decode(errors='surrogateescape')


def _words() -> argparse.Namespace:
    parser = argparse.ArgumentParser(prog='python3 -m snobol4', description='SNOBOL4 by the library libsnobol4.so.')
    commands = parser.add_subparsers(dest='command', required=True)
    one = commands.add_parser('ways', help='list the ways in which a pattern matches a subject')
    one.add_argument('--anchor', action='store_true')
    one.add_argument('--steps', type=int, default=STEPS)
    one.add_argument('pattern')
    one.add_argument('subject')
    one = commands.add_parser('run', help='run a program on standard input')
    one.add_argument('--statements', type=int, default=STATEMENTS)
    one.add_argument('--match-steps', type=int, default=STEPS)
    one.add_argument('file')
    commands.add_parser('check', help='tell the first thing that is wrong with a program').add_argument('file')
    one = commands.add_parser('list', help='list a program with the numbers of its statements')
    one.add_argument('--statement', type=int, default=0)
    one.add_argument('file')
    return parser.parse_args()


def _obey(words: argparse.Namespace) -> None:
    write = sys.stdout.buffer.write
    if words.command == 'ways':
        for line in lines(words.pattern, words.subject, words.anchor, words.steps):
            write(line.encode(errors='surrogateescape') + b'\n')
        return
    with open(words.file, 'rb') as file:
        program = file.read()
    if words.command == 'run':
        write(run(program, sys.stdin.buffer.read(), statements=words.statements, match_steps=words.match_steps))
    elif words.command == 'check':
        check(program)
    else:
        write(listing(program, words.statement).encode(errors='surrogateescape'))


def _main() -> int:
    try:
        _obey(_words())
        sys.stdout.buffer.flush()
    except Fault as fault:
        output = fault.output
        sys.stdout.buffer.write(output if isinstance(output, bytes) else output.encode(errors='surrogateescape'))
        sys.stdout.buffer.flush()
        print(fault, file=sys.stderr)
        return fault.status
    except MemoryError as fault:
        print(fault, file=sys.stderr)
        return NO_MEMORY
    except OSError as fault:
        print(f'snobol4: cannot read {fault.filename}', file=sys.stderr)
        return 3
    return 0


if __name__ == '__main__':
    sys.exit(_main())
