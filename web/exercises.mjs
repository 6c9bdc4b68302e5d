// The exercises of docs/TUTORIAL.md: what is asked, and whether an answer is right. What a listing gives is asked of the module;
// what a pattern or a program is to do stands in exercises.txt.
// All texts are strings of bytes, one letter a byte.

// The exercises of the texts of the questions and of exercises.txt.
export function exercises(questions, text) {
  const asked = new Map([...questions.matchAll(/^(\d+)\. (.*)$/gm)].map(([, number, question]) => [number, question]));
  return text.split(/^== /m).slice(1).map(each => {
    const [head, ...rows] = each.trimEnd().split('\n'), [, number, kind, starts, part] = /^(\d+) (\w+) ?(\w+)?(?:, (.*))?$/.exec(head);
    return { name: number + (part ? `, ${part}` : ''), question: asked.get(number), kind, anchor: starts === 'anchored', ...KINDS[kind](rows) };
  });
}

const KINDS = {
  listing: ([pattern, subject]) => ({ pattern, subject }),
  pattern: rows => ({ cases: rows.map(row => row.split(' = ')).map(([subject, wanted]) => ({ subject, wanted })) }),
  program: rows => ({ input: marked_by('< ', rows), output: marked_by('> ', rows) }),
};

const marked_by = (mark, rows) => rows.filter(row => row.startsWith(mark)).map(row => `${row.slice(mark.length)}\n`).join('');

// A program that tells of each line of its input whether the pattern matches it, and the values that the first wanted line names.
export function trial(statements, pattern, { anchor, cases }) {
  const names = [...cases[0].wanted.matchAll(/, (\w+) /g)].map(([, name]) => name), clear = names.map(name => `        ${name} =\n`).join('');
  return `${statements}\n        &ANCHOR = ${Number(anchor)}\nREAD.   LINE. = INPUT :F(END)\n${clear}        LINE. (${pattern.replace(/\s*\n\s*/g, ' ')}) :F(NO.)\n`
    + `        OUTPUT = 'yes' ${names.map(name => `", ${name} '" ${name} "'"`).join(' ')} :(READ.)\nNO.     OUTPUT = 'no' :(READ.)\nEND\n`;
}

const told_line = line => (line === undefined ? 'nothing' : line || 'a null line');

// What is wrong with lines beside those that are wanted, or ''. Of a listing the line that is wanted isn't told.
export function first_fault(came, wanted, shows) {
  const [given, right] = [came, wanted].map(text => text.trimEnd().split('\n').map(line => line.trimEnd()));
  const at = right.findIndex((line, i) => given[i] !== line);
  if (at < 0) return given.length > right.length ? `line ${right.length + 1} is one too many` : '';
  return shows ? `line ${at + 1} is ${told_line(given[at])}, where ${told_line(right[at])} is wanted` : `line ${at + 1} is another${at < given.length ? '' : ', which is missing'}`;
}

// The same of the answers for each subject.
export function first_miss(came, cases) {
  const given = came.trimEnd().split('\n'), at = cases.findIndex(({ wanted }, i) => given[i] !== wanted);
  return at < 0 ? '' : `on '${cases[at].subject}' it gives ${told_line(given[at])}, where ${told_line(cases[at].wanted)} is wanted`;
}
