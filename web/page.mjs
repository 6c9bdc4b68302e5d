// The page: it asks the module, in a worker that can be ended, and shows what it gives.
import { exercises, first_fault, first_miss, trial } from './exercises.mjs';
import { behind, lines, marked, MOST_ASKED, Undrawn } from './search.mjs';

const $ = id => document.getElementById(id);
const encoder = new TextEncoder(), decoder = new TextDecoder();
const MOST_LINES = 400, MOST_ROWS = 2000, MOST_BYTES = 2 ** 20, NO_BYTES = new Uint8Array();

function element(name, properties, ...inner) {
  const made = Object.assign(document.createElement(name), properties);
  made.append(...inner);
  return made;
}

// ---- the worker, which is ended, and made anew, where it is to be stopped

class Stopped extends Error {}

const SOURCE = URL.createObjectURL(new Blob([$('worker').textContent], { type: 'text/javascript' }));
let worker = null, waiting = null, asked = 0;

async function read_module() {
  const text = $('module').textContent.trim();
  if (!text) throw new Error('this page was joined without the module: web/make and then ./release make it whole');
  const packed = Uint8Array.from(atob(text), letter => letter.charCodeAt(0));
  return WebAssembly.compile(await new Response(new Blob([packed]).stream().pipeThrough(new DecompressionStream('gzip'))).arrayBuffer());
}
const MODULE = read_module();

function halt() {
  worker?.terminate();
  waiting?.reject(new Stopped());
  worker = waiting = null;
}

// What the call answers. A call that is going on is ended.
async function ask(name, ...words) {
  const id = ++asked, module = await MODULE;
  if (id !== asked) throw new Stopped();
  if (waiting) halt();
  if (!worker) {
    worker = new Worker(SOURCE);
    worker.onmessage = ({ data }) => {
      if (waiting?.id !== data.id) return;
      const { resolve } = waiting;
      waiting = null;
      resolve(data);
    };
  }
  return new Promise((resolve, reject) => {
    waiting = { id, resolve, reject };
    worker.postMessage({ id, module, name, words });
  });
}

// ---- texts, and parts of them. A letter of several bytes is shown whole, also where a cursor stands within it.

const latin = bytes => Array.from(bytes, byte => String.fromCharCode(byte)).join('');
const unlatin = text => decoder.decode(Uint8Array.from(text, letter => letter.charCodeAt(0)));
const is_within = (bytes, at) => (bytes[at] & 0xc0) === 0x80;

function whole(bytes, begin, end) {
  let from = begin, upto = end;
  while (from > 0 && is_within(bytes, from)) from--;
  while (upto < bytes.length && is_within(bytes, upto)) upto++;
  return [from, upto];
}

// The subject around the bytes from `begin` to `end`, which are marked.
function strip(bytes, begin, end, most = 60) {
  const [first, last] = whole(bytes, begin, end), [from] = whole(bytes, Math.max(0, first - most), 0), [, upto] = whole(bytes, 0, Math.min(bytes.length, last + most));
  const part = (a, b) => decoder.decode(bytes.slice(...whole(bytes, a, b)));
  const inside = last - first > 2 * most ? `${part(first, first + most)} … ${part(last - most, last)}` : part(first, last);
  const is_cut = first !== begin || last !== end;
  const mark = element('mark', { className: `${first === last ? 'none' : ''}${is_cut ? ' cut' : ''}`, title: is_cut ? 'a letter of several bytes is cut here' : '' }, inside);
  return element('span', { className: 'strip' }, (from ? '…' : '') + part(from, first), mark, part(last, upto) + (upto < bytes.length ? '…' : ''));
}

const chip = (name, text) => element('span', { className: 'chip' }, `${unlatin(name)} = `, text === '' ? 'null' : unlatin(text));

// ---- the ways of a pattern

let bytes = NO_BYTES, rows = [], now = 0;

async function show_ways() {
  keep();
  const { pattern, subject, statements } = Object.fromEntries(['pattern', 'subject', 'statements'].map(id => [id, latin(encoder.encode($(id).value))]));
  const options = { anchor: $('anchor').checked, steps: number($('steps'), 1e6), most: MOST_BYTES };
  bytes = encoder.encode($('subject').value);
  rows = [];
  await shown('ways', async () => {
    if (statements.trim()) await show_behind(statements.trimEnd(), pattern, subject, options);
    else await show_plain(pattern, subject, options);
    draw();
  });
}

const bytes_of = text => Uint8Array.from(text, letter => letter.charCodeAt(0));
const plural = count => `${count} ${count === 1 ? 'way' : 'ways'}`;
const ENDS = { exhausted: 'that is all', aborted: 'the search was aborted', limit: 'the limit of steps was reached' };

async function show_plain(pattern, subject, options) {
  const { status, out, line } = await ask('ways', bytes_of(pattern), bytes, options), plain = latin(out);
  list_lines(plain, status, line);
  if ($('search').hidden || [2, 64].includes(status)) return;
  await try_to_draw(async () => {
    const with_marks = marked(pattern, subject), told = await ask('ways', bytes_of(with_marks.text), bytes, { ...options, most: 4 * MOST_BYTES });
    return with_marks.rows(latin(told.out), plain, MOST_ROWS, status ? fault_text(status, line) : '');
  });
}

async function try_to_draw(make) {
  try {
    rows = await make();
  } catch (why) {
    if (!(why instanceof Undrawn)) throw why;
    tell('ways', `${$('ways-told').textContent}. No picture: ${why.message}`, false);
  }
}

function list_lines(plain, status, fault) {
  const items = [];
  let ways = 0, count = 0, last = '';
  try {
    for (const { kind, name, cursors, line, assigned } of lines(plain)) {
      if (kind === 'end') last = line;
      if (kind === 'way') ways++;
      if (kind === 'end' || ++count > MOST_LINES) continue;
      const label = kind === 'output' ? 'written' : kind === 'way' ? `way ${cursors.join(' ')}` : unlatin(line);
      const parts = [...(assigned ?? '').matchAll(/ (.+?)=(\d+)-(\d+)(?= |$)/g)].map(([, target, from, upto]) => chip(target, latin(bytes.slice(from, upto))));
      items.push(item(kind, label, kind === 'output' ? element('span', { className: 'chip' }, unlatin(line)) : strip(bytes, cursors[0], cursors.at(-1)), ...parts));
    }
  } catch (why) {
    if (!(why instanceof Undrawn)) throw why;
    items.push(element('li', {}, unlatin(plain)));
  }
  if (count > MOST_LINES) items.push(element('li', {}, `and ${count - MOST_LINES} more lines`));
  $('list').replaceChildren(...items);
  const text = status === 0 ? `${plural(ways)}: ${ENDS[last]}` : status === 7 ? `more than ${plural(ways)}: the listing is cut at ${MOST_BYTES} bytes` : fault_text(status, fault);
  tell('ways', text, status !== 0);
}

const item = (kind, label, ...inner) => element('li', {}, element('span', { className: `name ${kind}` }, label), ...inner);

async function show_behind(statements, pattern, subject, { anchor, steps }) {
  const limits = { statements: 1e9, steps, most: 4 * MOST_BYTES };
  let asks;
  try {
    asks = behind(statements, pattern, subject, anchor);
  } catch (why) {
    if (!(why instanceof Undrawn)) throw why;
    // (the check below tells what is wrong with it)
    asks = { asks: `${statements}\n ${pattern}\nEND\n`, ways: () => ({ ways: [], patterns: [], ended: '' }) };
  }
  const { status, out, line } = await ask('run', bytes_of(asks.asks), NO_BYTES, limits), { ways, patterns, ended } = asks.ways(latin(out));
  $('list').replaceChildren(...ways.map(({ cursors, values }) => item('way', `way ${cursors.join(' ')}`, strip(bytes, ...cursors), ...values.map(each => chip(...each)))));
  const more = ways.length === MOST_ASKED && !ended ? `the first ${MOST_ASKED} ways` : `${plural(ways.length)}: ${ENDS[ended]}`;
  tell('ways', status === 0 ? more : behind_fault(statements, status, line), status !== 0);
  if ($('search').hidden || ![0, 5].includes(status)) return;
  await try_to_draw(async () => {
    const program = asks.marked(patterns), told = await ask('run', bytes_of(program.text), NO_BYTES, limits);
    return asks.rows(latin(told.out), program.parts, ways, MOST_ROWS, told.status === 5 ? 'limit' : told.status === 7 ? '' : told.line.trim());
  });
}

// A line or statement is one of those that were typed, or else it is the pattern.
function behind_fault(statements, status, line) {
  const refused = / at line (\d+)/.exec(line);
  if (status === 5) return ENDS.limit;
  return refused && Number(refused[1]) > statements.split('\n').length ? `${fault_text(status, line).replace(/ at line.*/, '')}, in the pattern` : fault_text(status, line);
}

function fault_text(status, line) {
  if (status === -1) return `the interpreter was ended: ${line}`;
  return status === 64 ? 'a number is out of its range' : line.replace(/^snobol4: /, '').trim();
}

// ---- the search

function draw() {
  $('tree').replaceChildren(...rows.map(({ depth, text, kind }, i) => {
    const row = element('div', { className: `row ${kind}`, id: `row-${i}`, onclick: () => go(i) }, unlatin(text));
    row.setAttribute('role', 'option');
    row.style.setProperty('--depth', depth);
    return row;
  }));
  $('place').max = rows.length || 1;
  const cells = [];
  for (let at = 0; at <= Math.min(bytes.length, 400); at++) {
    const gap = element('span', { className: `gap${at && is_within(bytes, at) ? ' within' : ''}` });
    gap.dataset.at = at;
    cells.push(gap);
    if (at === bytes.length || is_within(bytes, at)) continue;
    const letter = decoder.decode(bytes.slice(at, whole(bytes, at, at + 1)[1]));
    cells.push(Object.assign(element('span', { className: 'letter' }, letter < ' ' ? '·' : letter), { at }));
  }
  $('cells').replaceChildren(...cells);
  go(0);
}

function go(to) {
  now = Math.max(0, Math.min(rows.length - 1, to));
  const here = rows[now], drawn = $('tree').children;
  $('count').textContent = here ? `${now + 1} of ${rows.length}` : '';
  $('place').value = now + 1;
  for (const id of ['at', 'row-told', 'state']) $(id).replaceChildren();
  if (!here) return;
  for (let i = 0; i < drawn.length; i++) {
    drawn[i].classList.toggle('later', i > now);
    drawn[i].classList.toggle('now', i === now);
    drawn[i].setAttribute('aria-selected', i === now);
  }
  $('tree').setAttribute('aria-activedescendant', `row-${now}`);
  for (const gap of $('cells').querySelectorAll('.gap')) gap.classList.toggle('now', Number(gap.dataset.at) === here.end);
  for (const letter of $('cells').querySelectorAll('.letter')) letter.classList.toggle('in', letter.at < here.end && whole(bytes, 0, letter.at + 1)[1] > here.begin);
  const source = here.part?.source ?? latin(encoder.encode($('pattern').value)), { begin, end } = here.part ?? { begin: 0, end: source.length };
  $('at').append(unlatin(source.slice(0, begin)), element('mark', {}, unlatin(source.slice(begin, end))), unlatin(source.slice(end)));
  $('row-told').textContent = (here.back ? 'The search backs up: ' : '') + unlatin(here.text);
  const values = Object.entries(here.values).map(each => chip(...each)), pending = here.pending.map(each => chip(each.name, latin(bytes.slice(each.begin, each.end))));
  const dim = text => element('span', { className: 'dim' }, text);
  $('state').append(...(values.length ? [dim('variables'), ...values] : []), ...(pending.length ? [dim('pending'), ...pending] : []));
  const row = drawn[now], box = $('tree');
  if (row.offsetTop < box.scrollTop) box.scrollTop = row.offsetTop;
  else if (row.offsetTop + row.offsetHeight > box.scrollTop + box.clientHeight) box.scrollTop = row.offsetTop + row.offsetHeight - box.clientHeight;
}

const moves = {
  first: () => go(0), back: () => go(now - 1), step: () => go(now + 1), last: () => go(rows.length - 1),
  next: () => {
    const found = rows.findIndex(({ kind }, i) => i > now && ['way', 'end'].includes(kind));
    go(found < 0 ? rows.length - 1 : found);
  },
};
const KEYS = { Home: 'first', ArrowLeft: 'back', ArrowUp: 'back', ArrowRight: 'step', ArrowDown: 'step', End: 'last', w: 'next', W: 'next' };

// ---- a program

async function show_run() {
  keep();
  const program = encoder.encode($('text').value), options = { statements: number($('limit'), 1e6), most: MOST_BYTES };
  $('why').replaceChildren();
  await shown('run', async () => {
    const listed = decoder.decode((await ask('list', program)).out);
    show_listing(listed, -1);
    const began = performance.now(), { status, out, line } = await ask('run', program, encoder.encode($('input').value), options);
    $('output').textContent = decoder.decode(out);
    const time = Math.round(performance.now() - began), at = / in statement (\d+)/.exec(line);
    tell('run', status === 0 ? `It ended, after ${time} ms.` : status === 7 ? `The output is cut at ${MOST_BYTES} bytes.` : fault_text(status, line), status !== 0);
    if (at) show_listing(listed, Number(at[1]));
    show_why(/(error \d+|syntax \d+|duplicate label|no END|too large)/i.exec(line)?.[1]);
  });
}

function show_listing(text, statement) {
  let number = 0;
  $('listing').replaceChildren(...text.trimEnd().split('\n').map(line => {
    // A statement goes on in the lines behind its number that begin with +.
    number = Number(/^ *(\d+)  /.exec(line)?.[1] ?? (/^ {8}\+/.test(line) ? number : 0));
    return element('div', { className: number === statement ? 'here' : '' }, line || ' ');
  }));
  const here = $('listing').querySelector('.here');
  if (here) $('listing').scrollTop = here.offsetTop - $('listing').offsetTop - 60;
}

// What docs/ERRORS.md says of the error.
function show_why(what) {
  const found = what && $('errors').textContent.split(/^### /m).find(each => each.toLowerCase().startsWith(what.toLowerCase()) && !/^\d/.test(each.slice(what.length)));
  if (!found) return;
  const [head, ...paragraphs] = found.trim().split(/\n+/);
  $('why').replaceChildren(element('p', {}, element('b', {}, head)), ...paragraphs.map(each => element('p', {}, ...with_code(each))));
}

const with_code = text => text.split('`').map((each, i) => i % 2 ? element('code', {}, each) : each);

// ---- an exercise

const EXERCISES = exercises($('questions').textContent, $('exercise-list').textContent);
const ANSWERS = { listing: 'Its listing, a line a way, and how it ends', pattern: 'Your pattern', program: 'Your program' };
const exercise = () => EXERCISES[$('exercises').value];

function show_exercise() {
  const { question, kind, anchor, pattern, subject, cases, input, output } = exercise(), mode = anchor ? 'anchored' : 'not anchored';
  $('question').replaceChildren(...with_code(question));
  const told = texts => texts.map(text => `'${text}'`).join(', '), lines_of = text => told(text.trimEnd().split('\n'));
  $('asked').textContent = kind === 'listing' ? `${pattern}   on   ${subject}, ${mode}` : kind === 'pattern' ? `It is tried, ${mode}, on ${told(cases.map(each => each.subject))}.`
    : `It is run with the input ${lines_of(input)}, and is to write ${lines_of(output)}.`;
  $('for-answer').textContent = ANSWERS[kind];
  $('for-first').hidden = kind !== 'pattern';
  tell('exercise', '', false);
  keep();
}

// What is wrong with the answer, or ''.
const CHECKS = {
  async listing({ pattern, subject, anchor }, answer) {
    const { out } = await ask('ways', bytes_of(pattern), bytes_of(subject), { anchor, steps: 1e6, most: MOST_BYTES });
    return first_fault(answer, latin(out), false);
  },
  async pattern(which, answer) {
    const input = which.cases.map(({ subject }) => `${subject}\n`).join(''), first = latin(encoder.encode($('first-answer').value)).trimEnd();
    const { status, out, line } = await ask('run', bytes_of(trial(first, answer, which)), bytes_of(input), { statements: 1e6, most: MOST_BYTES });
    return status ? behind_fault(first, status, line) : first_miss(latin(out), which.cases);
  },
  async program({ input, output }, answer) {
    const { status, out, line } = await ask('run', bytes_of(answer.endsWith('\n') ? answer : `${answer}\n`), bytes_of(input), { statements: 1e6, most: MOST_BYTES });
    return status ? fault_text(status, line) : first_fault(latin(out), output, true);
  },
};

async function check_answer() {
  keep();
  await shown('exercise', async () => {
    const wrong = await CHECKS[exercise().kind](exercise(), latin(encoder.encode($('answer').value)));
    tell('exercise', wrong ? `Not right: ${unlatin(wrong)}.` : 'Right.', wrong !== '');
  });
}

// ---- fields, tabs, the link

function number(field, usual) {
  const value = Number(field.value);
  return field.value === '' || !Number.isInteger(value) || value < field.min || value > field.max ? usual : value;
}

function tell(where, text, is_bad) {
  $(`${where}-told`).textContent = text;
  $(`${where}-told`).classList.toggle('bad', is_bad);
}

// Does what is to be shown, and tells of it unless it was stopped for something else.
async function shown(where, does) {
  const id = asked;
  $(`stop-${where}`).disabled = false;
  try {
    await does();
  } catch (fault) {
    if (fault instanceof Stopped) return;
    tell(where, fault.message, true);
  }
  if (id <= asked) rest(where);
}

// (a button that has the focus would lose it when it is disabled)
function rest(where) {
  if (document.activeElement === $(`stop-${where}`)) $({ ways: 'pattern', run: 'run', exercise: 'check' }[where]).focus();
  $(`stop-${where}`).disabled = true;
}

const FIELDS = { ways: ['pattern', 'subject', 'statements', 'steps'], program: ['text', 'input', 'limit'], exercise: ['exercises', 'first-answer', 'answer'] };
const SHOWS = { ways: show_ways, program: show_run, exercise: show_exercise }, TABS = Object.keys(SHOWS);
let tab = 'ways';

function show(name) {
  tab = name;
  for (const each of Object.keys(FIELDS)) {
    $(each).hidden = each !== name;
    $(`tab-${each}`).setAttribute('aria-selected', each === name);
    $(`tab-${each}`).tabIndex = each === name ? 0 : -1;
  }
}

function show_as(tree) {
  $('search').hidden = !tree;
  $('list').hidden = tree;
  $('as-tree').setAttribute('aria-pressed', tree);
  $('as-list').setAttribute('aria-pressed', !tree);
}

function keep() {
  const state = new URLSearchParams({ tab });
  for (const name of FIELDS[tab]) if ($(name).value) state.set(name, $(name).value);
  if (tab === 'ways' && $('anchor').checked) state.set('anchor', '1');
  if (tab === 'ways' && !$('search').hidden) state.set('view', 'search');
  history.replaceState(null, '', `#${state}`);
}

function restore() {
  const state = new URLSearchParams(location.hash.slice(1)), name = TABS.find(each => each === state.get('tab')) ?? 'ways';
  show(name);
  if (state.has('tab')) for (const field of FIELDS[name]) $(field).value = state.get(field) ?? (field === 'steps' || field === 'limit' ? 1e6 : '');
  if (!exercise()) $('exercises').value = 0;
  if (state.has('pattern')) $('anchor').checked = state.has('anchor');
  fit_statements();
  show_as(state.get('view') === 'search');
  SHOWS[name]();
}

const [, ...EXAMPLES] = `\n${$('examples').textContent.trimEnd()}`.split(/^(?===)/m);
const PATTERNS = EXAMPLES.filter(each => !each.startsWith('===')).map(each => {
  const [head, pattern, subject, ...statements] = each.split('\n'), [, name, starts] = /^== (.*), (\w+)$/.exec(head);
  return { name, pattern, subject, statements: statements.join('\n').trimEnd(), anchor: starts === 'anchored' };
});
const PROGRAMS = EXAMPLES.filter(each => each.startsWith('===')).map(each => {
  const [, name, text, input] = /^=== (.*)\n([^]*?)^---\n([^]*)$/m.exec(each);
  return { name, text, input };
});

// A field of examples: the fields of the one that is chosen are filled in, and it is shown.
function offer(field, examples, shows) {
  field.append(element('option', { value: '' }, 'choose …'), ...examples.map(({ name }, i) => element('option', { value: i }, name)));
  field.onchange = () => {
    if (field.value === '') return;
    fill(examples[field.value]);
    shows();
  };
}

function fill({ name, anchor, ...texts }) {
  for (const [id, text] of Object.entries(texts)) $(id).value = text;
  if (anchor !== undefined) $('anchor').checked = anchor;
  fit_statements();
}

function fit_statements() {
  $('first').open ||= $('statements').value !== '';
  $('statements').rows = Math.max(3, Math.min(10, $('statements').value.split('\n').length));
}

let timer = 0;
const soon = () => {
  clearTimeout(timer);
  timer = setTimeout(show_ways, 150);
};

offer($('patterns'), PATTERNS, show_ways);
offer($('programs'), PROGRAMS, show_run);
fill(PATTERNS[0]);
fill(PROGRAMS[0]);
$('steps').value = $('limit').value = 1e6;
for (const id of ['pattern', 'subject', 'statements', 'steps', 'anchor']) $(id).oninput = soon;
for (const [i, name] of TABS.entries()) {
  $(`tab-${name}`).onclick = () => {
    show(name);
    SHOWS[name]();
  };
  $(`tab-${name}`).onkeydown = ({ key }) => {
    if (key !== 'ArrowLeft' && key !== 'ArrowRight') return;
    const other = $(`tab-${TABS[(i + (key === 'ArrowRight' ? 1 : TABS.length - 1)) % TABS.length]}`);
    other.click();
    other.focus();
  };
}
for (const [id, tree] of [['as-list', false], ['as-tree', true]]) {
  $(id).onclick = () => {
    show_as(tree);
    show_ways();
  };
}
for (const where of ['ways', 'run', 'exercise']) {
  $(`stop-${where}`).onclick = () => {
    asked++;
    halt();
    rest(where);
    tell(where, 'Stopped.', true);
  };
}
$('run').onclick = show_run;
$('check').onclick = check_answer;
$('exercises').append(...EXERCISES.map(({ name }, i) => element('option', { value: i }, name)));
$('exercises').onchange = () => {
  $('answer').value = $('first-answer').value = '';
  show_exercise();
};
for (const [panel, does] of [['program', show_run], ['exercise', check_answer]]) {
  $(panel).onkeydown = ({ key, ctrlKey, metaKey }) => key === 'Enter' && (ctrlKey || metaKey) && does();
}
for (const button of document.querySelectorAll('[data-move]')) button.onclick = moves[button.dataset.move];
$('place').oninput = () => go($('place').value - 1);
$('search').onkeydown = event => {
  const move = KEYS[event.key];
  if (!move || event.ctrlKey || event.altKey || event.metaKey || event.target === $('place')) return;
  event.preventDefault();
  moves[move]();
};
addEventListener('hashchange', restore);
restore();
