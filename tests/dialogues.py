"""Holds dialogues with a program that asks, on a terminal and on pipes that don't wait. usage: dialogues.py PROGRAM

Each answer is given only when its question is there.
"""
import os
import pty
import select
import subprocess
import sys
import tempfile

ASKS = b"""L N = N + 1
 OUTPUT = 'question ' N
 ANSWER = INPUT :F(DONE)
 OUTPUT = 'answer ' N ': ' ANSWER
 LT(N,3) :S(L)
DONE OUTPUT = 'thanks'
END
"""
WRITES = b"""L N = LT(N,30000) N + 1 :F(END)
 OUTPUT = 'LINE ' N :(L)
END
"""
SECONDS = 60


def expect(end, seen, line):
    """Reads until the line is there, and returns what came behind it."""
    while line not in seen:
        ready, _, _ = select.select([end], [], [], SECONDS)
        if not ready:
            raise AssertionError(f"{line!r} is waited for, and {seen!r} came")
        seen += os.read(end, 4096)
    return seen.split(line, 1)[1]


def answer(to, end, line_end):
    seen = b""
    for number in range(1, 4):
        seen = expect(end, seen, b"question %d" % number + line_end)
        os.write(to, b"yes %d\n" % number)
        seen = expect(end, seen, b"answer %d: yes %d" % (number, number) + line_end)
    expect(end, seen, b"thanks" + line_end)


def on_terminal(program, file):
    child, terminal = pty.fork()
    if child == 0:
        os.execv(program, [program, "run", file])
    answer(terminal, terminal, b"\r\n")
    _, ended = os.waitpid(child, 0)
    assert ended == 0, f"its status is {ended}"


def without_waiting(program, file):
    """The program's ends of the pipes have nothing, or no room, at times, and are not waited for by the system."""
    (input_end, to), (end, output_end) = os.pipe(), os.pipe()
    os.set_blocking(input_end, False)
    os.set_blocking(output_end, False)
    with subprocess.Popen([program, "run", file], stdin=input_end, stdout=output_end) as child:
        os.close(input_end)
        os.close(output_end)
        yield to, end
        os.close(to)
        assert child.wait(SECONDS) == 0, f"its status is {child.returncode}"


def asks_without_waiting(program, file):
    for to, end in without_waiting(program, file):
        answer(to, end, b"\n")


def writes_without_waiting(program, file):
    """More than the pipe has room for is written before any is read."""
    for _, end in without_waiting(program, file):
        wanted, seen = b"".join(b"LINE %d\n" % number for number in range(1, 30001)), b""
        select.select([end], [], [], SECONDS)
        while len(seen) < len(wanted):
            some = os.read(end, 4096)
            assert some, f"only {len(seen)} bytes came"
            seen += some
        assert seen == wanted, "other lines came"


def main():
    program, failed = sys.argv[1], False
    for name, text, hold in (
        ("a dialogue on a terminal", ASKS, on_terminal),
        ("a pipe that has nothing at the moment", ASKS, asks_without_waiting),
        ("a pipe that has no room at the moment", WRITES, writes_without_waiting),
    ):
        with tempfile.NamedTemporaryFile(suffix=".sno") as file:
            file.write(text)
            file.flush()
            try:
                hold(program, file.name)
                print(f"ok {name}", flush=True)
            except (AssertionError, OSError, subprocess.TimeoutExpired) as why:
                print(f"not ok {name}: {why}", flush=True)
                failed = True
    sys.exit(failed)


main()
