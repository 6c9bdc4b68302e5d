// Compares what the modules for WebAssembly give with what is written in this repository. usage: node web.mjs LIBRARY COMMANDS
import fs from 'node:fs';
import { perform } from '../web/command.mjs';
import { Snobol4 } from '../web/module.mjs';
import { behind, marked } from '../web/search.mjs';

const [bytes, of_commands] = process.argv.slice(2).map(file => fs.readFileSync(file));
const machine = await Snobol4.load(bytes), commands = new WebAssembly.Module(of_commands);
const text = some => Buffer.from(some).toString();

function same(name, came, wanted) {
  const [one, other] = [came, wanted].map(each => JSON.stringify(each));
  console.log(one === other ? `ok ${name}` : `not ok ${name}: ${one.slice(0, 200)} where ${other.slice(0, 200)} is wanted`);
}

function run(program, { input = '', ...limits } = {}) {
  const { status, out, line } = machine.run(Buffer.from(program), Buffer.from(input), limits);
  return [status, text(out), line];
}

// The status of the program snobol4, called by the words, and what it writes to each output. Each file that it opens holds the text
// `file`, and standard input that of `input`.
function command(words, { file = '', input = '', most } = {}) {
  const outputs = ['', '', ''], left = [Buffer.from(input), , , Buffer.from(file)];
  const status = perform(commands, memory => ({
    open: () => 3,
    close: () => 0,
    read: (from, at, size) => {
      const some = left[from].subarray(0, size);
      left[from] = left[from].subarray(some.length);
      memory(at, some.length).set(some);
      return some.length;
    },
    write: (to, at, size) => {
      outputs[to] += memory(at, size).toString('latin1');
      return size;
    },
    is_terminal: () => 0,
  }), 'snobol4', words, most);
  return [status, ...outputs.slice(1).map(output => text(bytes_of(output)))];
}

function listings() {
  const [head, ...rows] = fs.readFileSync('cases/ways.tsv', 'utf8').trimEnd().split('\n').map(line => line.split('\t'));
  const at = Object.fromEntries(head.map((name, i) => [name, i]));
  const by_call = (pattern, subject, anchor, steps) => {
    const { out, line } = machine.ways(Buffer.from(pattern), Buffer.from(subject), { anchor, steps });
    return text(out) + line;
  };
  const by_words = (pattern, subject, anchor, steps) => {
    const [, out, line] = command(['ways', ...anchor ? ['--anchor'] : [], '--steps', String(steps), '--', pattern, subject]);
    return out + line;
  };
  same('there are 2,000 listings and more', rows.length >= 2000, true);
  for (const [name, list] of [['each is that of the table', by_call], ['and so it is by the command', by_words]]) {
    const differing = rows.filter(row => {
      const [mode, steps = 1e6] = row[at.mode].split(' ');
      const came = list(row[at.pattern], row[at.subject], mode === 'anchor', Number(steps));
      return came.trimEnd().replaceAll('\n', '|') !== row[at.lines];
    });
    same(name, differing.map(row => `${row[at.group]} ${row[at.case]}`), []);
  }
}

function examples() {
  for (const file of fs.readdirSync('examples').filter(each => each.endsWith('.sno')).sort()) {
    const [program, input, output] = ['.sno', '.in', '.out'].map(end => fs.readFileSync(`examples/${file.slice(0, -4)}${end}`, 'utf8'));
    same(`the example ${file.slice(0, -4)}`, run(program, { input }), [0, output, '']);
  }
}

// The programs of cases/programs, which have all cases of the language and of patterns.
function programs() {
  const folder = 'cases/programs', text_of = name => fs.existsSync(`${folder}/${name}`) ? fs.readFileSync(`${folder}/${name}`) : '';
  const names = fs.readdirSync(folder).filter(each => each.endsWith('.sno')).map(each => each.slice(0, -4));
  same('there are 200 programs and more', names.length >= 200, true);
  const differing = names.filter(name => {
    const [, out] = command(['run', name], { file: text_of(`${name}.sno`), input: text_of(`${name}.in`) });
    return out !== text(text_of(`${name}.out`));
  });
  same('each writes what is wanted, by the command', differing, []);
}

// Runs the program by the call and by the command.
function both(name, program, wanted, limit = 1e6) {
  same(name, run(program, { statements: limit, steps: limit }), wanted);
  same(`${name}, by the command`, command(['run', '--statements', `${limit}`, '--match-steps', `${limit}`, 'FILE'], { file: program }), wanted);
}

// The programs of examples/deep, which would overflow the stack, were any part of the interpreter to call itself for them.
function deep() {
  const calls = ` DEFINE('F(N)') :(MAIN)\nF F = EQ(N,1) 1 :S(RETURN)\n '1' *${'+'.repeat(7800)}${'('.repeat(39)}F(N - 1)${')'.repeat(39)} . F :(RETURN)\n`
    + 'MAIN OUTPUT = F(200)\n OUTPUT = F(201)\nEND\n';
  both('200 calls', calls, [1, '1\n', 'snobol4: error 10 in statement 3\n']);
  both('a third of a million levels', " P = *P 'A' | 'A'\n 'A' P\nEND\n", [5, '', 'snobol4: error 21 in statement 2\n']);
  const chains = " ONE = LEN(1)\n LEFT = ONE\n RIGHT = ONE\n N = 1\nMORE N = LT(N,1000000) N + 1 :F(MADE)\n LEFT = LEFT ONE\n RIGHT = ONE RIGHT :(MORE)\n"
    + "MADE S = DUPL('A',1000000)\n S LEFT . X :F(END)\n OUTPUT = SIZE(X)\n S RIGHT . X :F(END)\n OUTPUT = SIZE(X)\nEND\n";
  both('a million nodes', chains, [0, '1000000\n1000000\n', ''], 1e7);
  both('1,582 times **', ` OUTPUT = ${'('.repeat(39)}${'1 ** '.repeat(1582)}1${')'.repeat(39)}\nEND\n`, [0, '1\n', '']);
}

// A heap of so many bytes ends a run, and nothing else: the same module then goes on.
async function memory() {
  const fills = " OUTPUT = 'BEGUN'\n T = TABLE()\nL N = LT(N,300000) N + 1 :F(DONE)\n T<N> = 'ITEM ' N :(L)\nDONE OUTPUT = 'ENDED'\nEND\n";
  for (const megabytes of [4, 8, 16]) {
    const small = await Snobol4.load(bytes, megabytes * 2 ** 20);
    const [program, none] = [Buffer.from(fills), Buffer.alloc(0)];
    const { status, out, line } = small.run(program, none, { most: 1000 });
    same(`${megabytes} MB are refused more`, [status, text(out), line], [6, 'BEGUN\n', 'snobol4: no memory\n']);
    same('and then the module goes on', text(small.ways(Buffer.from("'A'"), Buffer.from('A'), { most: 100 }).out), 'way 0 1\nexhausted\n');
    const wanted = [6, 'BEGUN\n', 'snobol4: no memory\n'];
    same('by the command, too', command(['run', 'FILE'], { file: fills, most: megabytes * 2 ** 20 }), wanted);
  }
  same('with enough it ends', run(fills, { most: 1000 }), [0, 'BEGUN\nENDED\n', '']);
}

const latin = some => Buffer.from(some).toString('latin1');
const bytes_of = string => Buffer.from(string, 'latin1');

// The rows of a tree, as tools/picture writes them.
const drawn = rows => rows.map(({ depth, text }) => `${'  '.repeat(depth)}${text}\n`).join('');

function by_ways(pattern, subject, anchor) {
  const { text: with_marks, rows } = marked(pattern, subject);
  const [listing, plain] = [with_marks, pattern].map(each => latin(machine.ways(bytes_of(each), bytes_of(subject), { anchor }).out));
  return rows(listing, plain, 2000);
}

function by_run(statements, pattern, subject, anchor) {
  const asked = behind(statements, pattern, subject, anchor), none = Buffer.alloc(0);
  const { ways, patterns } = asked.ways(latin(machine.run(bytes_of(asked.asks), none, { statements: 1e9 }).out));
  const program = asked.marked(patterns);
  const { out, line } = machine.run(bytes_of(program.text), none, { statements: 1e9 });
  return { ways, rows: asked.rows(latin(out), program.parts, ways, 2000, line) };
}

// The page's trees are those written by hand for tools/picture, asked by `ways`, and behind no statements by `run`.
function trees() {
  for (const tree of fs.readFileSync('tests/picture.trees', 'latin1').split(/^#/m).slice(1)) {
    const [head, ...rows] = tree.split('\n'), [starts, pattern, subject] = head.split('#');
    for (const [how, draw] of [['ways', by_ways], ['run', (...words) => by_run('', ...words).rows]]) {
      // What is set within a deferred pattern has no mark.
      if (how === 'run' && pattern.startsWith('*(')) continue;
      let came;
      try {
        came = drawn(draw(pattern, subject, starts === 'anchored'));
      } catch (fault) {
        came = String(fault);
      }
      same(`tree of ${pattern} on ${subject}, by ${how}`, came, rows.join('\n'));
    }
  }
}

// A pattern that names itself, and what its variables hold behind each way.
function named() {
  const { ways, rows } = by_run(" SUM = '1' ('+' *SUM | '')", 'SUM . X', '1+1', true);
  same('a recursive pattern', ways, [{ cursors: [0, 3], values: [['X', '1+1']] }, { cursors: [0, 1], values: [['X', '1']] }]);
  same('and its tree', drawn(rows), `start 0
  SUM at 0
    '1' matches 0-1
      '+' matches 1-2
        *SUM at 2
          '1' matches 2-3
            '+' fails at 3
            '' matches 3-3
              *SUM matches 2-3 '1'
                SUM matches 0-3 '1+1'
                  pending X=0-3
                  => way 0 3 X=0-3
      '' matches 1-1
        SUM matches 0-1 '1'
          pending X=0-1
          => way 0 1 X=0-1
exhausted
`);
}

listings();
programs();
trees();
named();
examples();
deep();
await memory();
