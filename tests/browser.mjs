// Opens the page in a browser without a window, and compares what it shows. usage: node browser.mjs BROWSER PAGE
import fs from 'node:fs';
import { pathToFileURL } from 'node:url';
import { browser_of } from './browsers.mjs';

const [program, page] = process.argv.slice(2);

function same(name, came, wanted) {
  const [one, other] = [came, wanted].map(each => JSON.stringify(each));
  console.log(one === other ? `ok ${name}` : `not ok ${name}: ${one?.slice(0, 300)} where ${other.slice(0, 300)} is wanted`);
}

const browser = browser_of(program);
const own = pathToFileURL(page).href;
const link = fields => `${own}#${new URLSearchParams(fields)}`;
const text = id => browser.tell(`document.getElementById('${id}').innerText.trim()`);
const press = (id, keys) => browser.tell(`void document.getElementById('${id}').dispatchEvent(new KeyboardEvent('keydown', ${JSON.stringify({ ...keys, bubbles: true })}))`);
const sleep = time => new Promise(resolve => setTimeout(resolve, time));
// Waits up to three minutes until the condition holds. What is asked while a page goes may never be answered, so it is asked again.
async function soon(condition) {
  for (const end = Date.now() + 180_000; Date.now() < end; await sleep(100)) {
    if (await Promise.race([browser.tell(condition).catch(() => false), sleep(2000)])) return;
  }
}
// Opens the page anew with these fields, and waits until it tells something.
async function show(fields, told = fields.tab === 'program' ? 'run-told' : 'ways-told') {
  await browser.open('about:blank');
  await browser.open(link(fields));
  await soon(`document.readyState === 'complete' && (document.getElementById('${told}')?.innerText ?? '').trim() !== ''`);
}

// What the page's own module answers to the calls, one behind the other, in a worker of the page. Texts are strings of bytes.
const answers = calls => browser.tell(`(async () => {
  const bytes_of = text => Uint8Array.from(text, letter => letter.charCodeAt(0));
  const text_of = bytes => Array.from(bytes, byte => String.fromCharCode(byte)).join('');
  const packed = new Blob([bytes_of(atob(document.getElementById('module').textContent.trim()))]);
  const module = await WebAssembly.compile(await new Response(packed.stream().pipeThrough(new DecompressionStream('gzip'))).arrayBuffer());
  const worker = new Worker(URL.createObjectURL(new Blob([document.getElementById('worker').textContent])));
  const told = [];
  for (const [name, options, ...texts] of ${JSON.stringify(calls)}) {
    told.push(await new Promise(resolve => {
      worker.onmessage = ({ data: { status, out, line } }) => resolve([status, text_of(out), line]);
      worker.postMessage({ id: 0, module, name, words: [...texts.map(bytes_of), options] });
    }));
  }
  return told;
})()`);
const read = file => fs.existsSync(file) ? fs.readFileSync(file, 'latin1') : '';

async function listings() {
  const [head, ...rows] = read('cases/ways.tsv').trimEnd().split('\n').map(line => line.split('\t'));
  const at = Object.fromEntries(head.map((name, i) => [name, i]));
  const came = await answers(rows.map(row => {
    const [mode, steps = 1e6] = row[at.mode].split(' ');
    return ['ways', { anchor: mode === 'anchor', steps: Number(steps) }, row[at.pattern], row[at.subject]];
  }));
  const lines = came.map(([, out, line]) => (out + line).trimEnd().replaceAll('\n', '|'));
  same('there are 2,000 listings and more', rows.length >= 2000, true);
  same('each is that of the table', rows.filter((row, i) => lines[i] !== row[at.lines]).map(row => `${row[at.group]} ${row[at.case]}`), []);
}

// The programs of a folder, each with its input, and which of them write something else than is wanted.
async function programs(folder) {
  const names = fs.readdirSync(folder).filter(each => each.endsWith('.sno')).map(each => `${folder}/${each.slice(0, -4)}`);
  const came = await answers(names.map(name => ['run', {}, read(`${name}.sno`), read(`${name}.in`)]));
  return [names, names.filter((name, i) => came[i][1] !== read(`${name}.out`))];
}

async function all_programs() {
  const [examples, differing_examples] = await programs('examples'), [cases, differing_cases] = await programs('cases/programs');
  same('there are 20 examples and more', examples.length >= 20, true);
  same('each writes what is wanted', differing_examples, []);
  same('there are 200 programs of the cases and more', cases.length >= 200, true);
  same('and each of them', differing_cases, []);
}

async function pages() {
  await show({ tab: 'ways', pattern: "'A' . X | 'AB' $ Y", subject: 'AB', anchor: '1' });
  same('the ways are shown', (await text('list')).replace(/\s+/g, ' '), 'way 0 1 AB X = A set Y 0 2 AB way 0 2 AB');
  same('and how the search ended', await text('ways-told'), '2 ways: that is all');
  await show({ tab: 'ways', pattern: 'LEN(1) . X', subject: 'Ä', anchor: '1' });
  same('a letter of several bytes is shown whole', await browser.tell(`document.querySelector('#list mark').innerText`), 'Ä');
  await show({ tab: 'ways', pattern: "'A' | 'AB'", subject: 'AB', anchor: '1', view: 'search' });
  await soon(`document.querySelectorAll('.row').length > 0`);
  same('the search is drawn', (await text('tree')).split('\n').map(row => row.trim()), ['start 0', "'A' matches 0-1", '=> way 0 1', "'AB' matches 0-2", '=> way 0 2', 'exhausted']);
  await browser.tell(`document.querySelector('[data-move=next]').click(); document.querySelector('[data-move=step]').click()`);
  same('it is gone through', [await text('row-told'), await text('count')], ["The search backs up: 'AB' matches 0-2", '4 of 6']);
  const counts = [];
  for (const key of ['End', 'ArrowLeft', 'Home', 'w', 'ArrowDown', 'ArrowUp']) {
    await press('tree', { key });
    counts.push((await text('count')).split(' ')[0]);
  }
  same('and by the keys', counts, ['6', '5', '1', '3', '4', '3']);
  await show({ tab: 'ways', pattern: 'SUM . X', subject: '1+1', anchor: '1', statements: " SUM = '1' ('+' *SUM | '')" });
  same('a recursive pattern', (await text('list')).replace(/\s+/g, ' '), 'way 0 3 1+1 X = 1+1 way 0 1 1+1 X = 1');
  await show({ tab: 'ways', pattern: "'A", subject: 'A' });
  same('a pattern that is refused', await text('ways-told'), 'syntax 1 at line 1');
  await show({ tab: 'program', text: "L OUTPUT = INPUT :S(L)\nEND\n", input: 'ONE\nTWO\n' });
  await soon(`document.getElementById('run-told').innerText.includes('ended')`);
  same('a program runs', await text('output'), 'ONE\nTWO');
  await show({ tab: 'program', text: " OUTPUT = 'A'\n OUTPUT = 'A' + 1\nEND\n" });
  same('an error is told', [await text('run-told'), await text('output')], ['error 1 in statement 2', 'A']);
  same('its statement is marked', (await browser.tell(`document.querySelector('.here').innerText`)).trim(), "2   OUTPUT = 'A' + 1");
  same('and explained', (await text('why')).split('\n')[0], 'Error 1: data type');
  await show({ tab: 'program', text: 'L :(L)\nEND\n', limit: '1000000000000' }, 'listing');
  await browser.tell(`document.getElementById('stop-run').focus(); document.getElementById('stop-run').click()`);
  same('Stop ends it, and hands on its focus', [await text('run-told'), await browser.tell('document.activeElement.id')], ['Stopped.', 'run']);
  await exercises();
  await browser.fit(380, 800);
  for (const tab of ['ways', 'program', 'exercise']) {
    await show({ tab, exercises: '11', answer: 'A'.repeat(200), pattern: "ARB . X ',' REM . Y", subject: 'one,two,three'.repeat(9), text: `${'*'.repeat(200)}\nEND\n`, view: 'search' }, { ways: 'ways-told', program: 'run-told', exercise: 'question' }[tab]);
    same(`nothing is wider than 380 pixels: ${tab}`, await browser.tell('document.documentElement.scrollWidth <= 380'), true);
  }
  same('each button and field has a name', await browser.tell(NAMELESS), []);
  same('nothing is loaded from elsewhere', await browser.tell(`performance.getEntriesByType('resource').filter(each => !/^(blob|data):/.test(each.name)).map(each => each.name)`), []);
}

// The buttons and fields without letters in their names, as those hear them who don't see the page.
const NAMELESS = `[...document.querySelectorAll('button, input, select, textarea, [tabindex]')].filter(each => {
  const labels = [...each.labels ?? []].map(label => label.innerText).join(' ');
  return !/[a-z]/i.test(each.ariaLabel ?? (labels || (each.matches('button') ? each.textContent : '')));
}).map(each => each.outerHTML.slice(0, 60))`;

// Answers by the names of their exercises, each with what is told of it. The right ones are those of docs/TUTORIAL.md.
const ANSWERS = [
  ['1', 'way 0 2\nway 1 3\nway 2 4\nexhausted', 'Right.'],
  ['1', 'way 0 2\nway 2 4\nexhausted', 'Not right: line 2 is another.'],
  ['2', 'way 0 3\nway 0 1\nway 0 3\nway 0 2\nexhausted\n', 'Right.'],
  ['2', 'way 0 3\nway 0 1\nway 0 3\nway 0 2', 'Not right: line 5 is another, which is missing.'],
  ['3, with RPOS', "'A' RPOS(0)", 'Right.'],
  ['3, with RTAB', "RTAB(1) 'A'", 'Right.'],
  ['3, with RTAB', "'A' RPOS(0)", "Not right: on 'BANANA' it gives no, where yes is wanted."],
  ['4', "SPAN('0123456789') . H ':'\nSPAN('0123456789') . M RPOS(0)", 'Right.'],
  ['4', "ARB . H ':' REM . M", "Not right: on '9:3X' it gives yes, H '9', M '3X', where no is wanted."],
  ['4', "SPAN('0123456789'", 'Not right: syntax 3, in the pattern.'],
  ['5', 'set X 0 2\nway 0 3\nexhausted', 'Right.'],
  ['6', 'way 0 2\nway 0 3\nexhausted', 'Right.'],
  ['7', 'way 0 2 X=0-1\nway 0 5 X=0-4\nexhausted', 'Right.'],
  ['7', 'way 0 2 X=0-1\nway 0 5 X=0-4\nway 0 7 X=0-7\nexhausted', 'Not right: line 3 is another.'],
  ['8, the first', 'aborted', 'Right.'],
  ['8, the second', 'aborted', 'Right.'],
  ['8, the third', 'way 0 3\nexhausted', 'Right.'],
  ['9', " LETTERS = 'abcdefghijklmnopqrstuvwxyz'\n WORD = BREAK(LETTERS) . GAP SPAN(LETTERS) . W\nREAD LINE = INPUT :F(END)\n RESULT =\nNEXT LINE WORD = :F(WRITE)\n RESULT = RESULT GAP '[' W ']' :(NEXT)\nWRITE OUTPUT = RESULT LINE :(READ)\nEND", 'Right.'],
  ['9', 'L OUTPUT = INPUT :S(L)\nEND\n', 'Not right: line 1 is to be, or not, where [to] [be], [or] [not] is wanted.'],
  ['10', 'PAIRS RPOS(0)', 'Right.', " PAIRS = 'A' *PAIRS 'B' | ''"],
  ['10', "ARBNO('A') ARBNO('B') RPOS(0)", "Not right: on 'AAB' it gives yes, where no is wanted."],
  ['11', " DEFINE('ROUND(TEXT)X') :(MAIN)\nROUND TEXT POS(0) LEN(1) . X = :F(RETURN)\n ROUND = X ROUND :(ROUND)\nMAIN OUTPUT = ROUND(INPUT) :S(MAIN)\nEND", 'Right.'],
  ['11', ' OUTPUT = 1 / 0\nEND\n', 'Not right: error 3 in statement 1.'],
  ['12', " DATA('CELL(LINE,REST)')\n LAST = .FIRST\nREAD $LAST = CELL(INPUT) :F(SHOW)\n LAST = .REST($LAST) :(READ)\nSHOW OUTPUT = DIFFER(FIRST) LINE(FIRST) :F(END)\n FIRST = REST(FIRST) :(SHOW)\nEND", 'Right.'],
  ['13', "BREAK(',') . A ',' (BREAK(',') | REM) . B", 'Right.'],
  ['13', "BREAK(',') . A ',' BREAK(',') . B", "Not right: on '1,2' it gives no, where yes, A '1', B '2' is wanted."],
];

async function exercises() {
  await show({ tab: 'exercise' }, 'question');
  const names = JSON.parse(await browser.tell(`JSON.stringify([...document.getElementById('exercises').options].map(each => each.innerText))`));
  same('each exercise has an answer here', names.filter(name => !ANSWERS.some(([answered]) => answered === name)), []);
  same('and is asked', await text('question'), "(Chapter 1.) Which ways has 'AA' on AAAA, and in which order?");
  for (const [name, answer, told, first] of ANSWERS) {
    await show({ tab: 'exercise', exercises: names.indexOf(name), answer, ...(first && { 'first-answer': first }) }, 'question');
    // (by the key for one of them)
    if (name === '1') await press('answer', { key: 'Enter', ctrlKey: true });
    else await browser.tell(`document.getElementById('check').click()`);
    await soon(`document.getElementById('exercise-told').innerText.trim() !== ''`);
    same(`exercise ${name}: ${told}`, await text('exercise-told'), told);
  }
}

const limit = setTimeout(() => {
  console.log('not ok the browser answers: it does not, after 900 seconds');
  browser.process.kill('SIGKILL');
  process.exit(1);
}, 900_000);
try {
  await browser.begin();
  await browser.open(own);
  await soon(`document.readyState === 'complete' && document.getElementById('module') !== null`);
  await listings();
  await all_programs();
  await pages();
} catch (fault) {
  console.log(`not ok the browser answers: ${String(fault).split('\n')[0]}`);
}
clearTimeout(limit);
await browser.end();
