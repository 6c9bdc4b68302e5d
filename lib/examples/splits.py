"""Lists the ways to split a word in two, and runs a program."""
import snobol4

WORD = 'ABC'
for way in snobol4.ways('LEN(1) ARB . X REM . Y', WORD, anchor=True):
    parts = {name: WORD[start:end] for name, start, end in way.pending}
    print(way.start, way.end, parts)

print(snobol4.run("MORE LINE = INPUT :F(END)\n LINE 'A' = '-'\n OUTPUT = LINE :(MORE)\nEND\n", 'BANANA\nCANAL\n'), end='')

try:
    snobol4.run(" OUTPUT = 'BEFORE'\n OUTPUT = 'A' + 1\nEND\n")
except snobol4.Fault as fault:
    print(fault.output, end='')
    print(f'error {fault.number} in statement {fault.statement}: {fault}')
