// The search of a pattern as a tree, as tools/picture draws it. No search is done here: each part of the pattern is put between
// marks, and the tree is put together from what is then told. Asked by `ways`, marks are cursor assignments; where statements are
// performed first, they are calls of a function, and the program that is made of it all is run.
// All texts are strings of bytes, one letter a byte.

export class Undrawn extends Error {}

// A part of the pattern. The kinds are leaf, row (a concatenation), choice (an alternation), repeat (ARBNO), cut (FENCE with an
// argument), name (a pattern by its name, whose own parts have marks), `.` and `$`.
class Part {
  constructor(kind, source, begin, end, inner = [], target = '') {
    Object.assign(this, { kind, source, begin, end, inner, target, text: source.slice(begin, end), number: 0 });
  }

  marked(mark, parts) {
    if (this.kind === 'row') return `(${this.inner.map(part => part.marked(mark, parts)).join(' ')})`;
    const number = this.number = parts.length;
    parts.push(this);
    const inner = this.inner.map(part => part.marked(mark, parts));
    if (this.kind === 'choice') return `(${inner.map((text, i) => `${mark(number, 'a', i)} ${text}`).join(' | ')})`;
    const text = ['leaf', 'name'].includes(this.kind) ? this.text
      : this.kind === 'repeat' ? `ARBNO(${mark(number, 'r')} ${inner[0]} ${mark(number, 'q')})`
      : this.kind === 'cut' ? `FENCE(${inner[0]})`
      : `${inner[0]} ${this.kind} ${this.target}`;
    return `(${mark(number, 'e')} ${text} ${mark(number, 'x')} | ${mark(number, 'f')} FAIL)`;
  }

  // The part and all parts in it.
  all() {
    return [this, ...this.inner.flatMap(part => part.all())];
  }
}

// Reads a pattern that was accepted; `names` are those that have marks of their own.
class Reader {
  constructor(text, names) {
    Object.assign(this, { text, names, at: 0 });
  }

  match(pattern) {
    pattern.lastIndex = this.at;
    return pattern.exec(this.text);
  }

  whole() {
    this.blanks();
    const part = this.choice();
    this.blanks();
    if (this.at < this.text.length) this.lost();
    return part;
  }

  lost() {
    throw new Undrawn(`cannot read the pattern at ${this.text.slice(this.at)}`);
  }

  blanks() {
    const begin = this.at;
    this.at += this.match(/\s*/y)[0].length;
    return this.at > begin;
  }

  operator(signs) {
    const match = this.match(/\s+(\*\*|[|+*/.$-])\s+/y);
    if (!match || !signs.includes(match[1])) return null;
    this.at += match[0].length;
    return match[1];
  }

  choice() {
    const begin = this.at, parts = [this.row()];
    while (this.operator(['|'])) parts.push(this.row());
    return parts.length === 1 ? parts[0] : new Part('choice', this.text, begin, this.at, parts);
  }

  row() {
    const begin = this.at, parts = [this.sum()];
    for (;;) {
      const end = this.at;
      if (!this.blanks() || '|),>]'.includes(this.text.charAt(this.at))) {
        this.at = end;
        return parts.length === 1 ? parts[0] : new Part('row', this.text, begin, end, parts);
      }
      parts.push(this.sum());
    }
  }

  sum() {
    const begin = this.at, part = this.assigned(), signs = ['+', '-', '*', '/', '**'];
    if (!this.operator(signs)) return part;
    do this.assigned(); while (this.operator(signs));
    return new Part('leaf', this.text, begin, this.at);
  }

  assigned() {
    const begin = this.at;
    let part = this.element();
    for (;;) {
      const sign = this.operator(['.', '$']);
      if (!sign) return part;
      const target = this.at;
      this.element();
      part = new Part(sign, this.text, begin, this.at, [part], this.text.slice(target, this.at));
    }
  }

  element() {
    const begin = this.at, match = this.match(/([-+$.*@?~]*)('[^']*'|"[^"]*"|\(|&?[A-Za-z][\w.]*[(<[]?|\d+)/y);
    if (!match) this.lost();
    this.at += match[0].length;
    if (['(', 'ARBNO(', 'FENCE('].includes(match[0])) {
      const inner = this.at;
      let part = null;
      this.blanks();
      if (!'),'.includes(this.text.charAt(this.at))) {
        part = this.choice();
        this.blanks();
      }
      if (part && this.text[this.at] === ')') {
        this.at++;
        return match[0] === '(' ? part : new Part(match[0] === 'ARBNO(' ? 'repeat' : 'cut', this.text, begin, this.at, [part]);
      }
      this.at = inner;
    }
    if ('(<['.includes(match[0].at(-1))) this.close();
    const is_name = ['', '*'].includes(match[1]) && this.names.includes(match[2].toUpperCase());
    return new Part(is_name ? 'name' : 'leaf', this.text, begin, this.at);
  }

  close() {
    for (let depth = 1; depth;) {
      const match = this.match(/[^'"()<>[\]]|'[^']*'|"[^"]*"|([(<[])|[)>\]]/sy);
      if (!match) this.lost();
      this.at += match[0].length;
      depth += match[1] ? 1 : ')>]'.includes(match[0]) ? -1 : 0;
    }
  }
}

// The lines of a listing: kind, name, cursors and all of it. What setting OUTPUT writes is a line of its kind.
export function* lines(text) {
  for (let at = 0; at < text.length;) {
    const end = text.indexOf('\n', at);
    if (end < 0) return;
    const line = text.slice(at, end);
    const match = /^(?:(set) (.+) (\d+) (\d+)|(cursor) (.+) (\d+)|(way) (\d+) (\d+)( .*)?|(exhausted|aborted|limit))$/.exec(line);
    at = end + 1;
    if (!match) throw new Undrawn('a listing with a line feed in a name cannot be drawn');
    const [, set, set_name, from, upto, cursor, name, place, way, begin, stop] = match;
    if (way) yield { kind: 'way', cursors: [+begin, +stop], line, assigned: match[11] };
    else if (match[12]) yield { kind: 'end', cursors: [], line };
    else {
      yield set ? { kind: 'set', name: set_name, cursors: [+from, +upto], line } : { kind: 'cursor', name, cursors: [+place], line };
      if ((set_name || name) === 'OUTPUT') {
        const size = set ? upto - from : place.length;
        yield { kind: 'output', cursors: [], line: text.slice(at, at + size) };
        at += size + 1;
      }
    }
  }
}

const short = text => text.length <= 32 ? text : text.slice(0, 28) + '..';

// Each row has its depth, text and kind, the part and the bytes of the subject that it is of, whether the search backs up to it, and
// what is pending and what the variables hold there.
class Tree {
  constructor(subject) {
    Object.assign(this, { subject, rows: [], live: false, back: false, values: {} });
    this.here = this.root = { kind: 'root', at: 0, depth: 0, waits: true, open: null, pending: [] };
  }

  row(depth, text, kind, part, begin, end) {
    const { back, values, here: { pending } } = this;
    this.rows.push({ depth, text, kind, part, begin, end, back, pending, values });
    this.back = false;
  }

  check(fits) {
    if (!fits) throw new Undrawn('the lines of the listing are not those of a search, so nothing is drawn');
  }

  waiting() {
    let node = this.here;
    while (!node.waits) node = node.parent;
    return node;
  }

  step(parent, kind, part, at, depth, waits = false, open = null) {
    this.live = true;
    return this.here = { parent, kind, part, at, depth, waits, open, ends: 0, times: 0, choice: 0, begun: false, pending: parent.pending };
  }

  innermost(kind, part) {
    const node = this.here.open && this.here.open[0];
    this.check(this.live && node && node.kind === kind && node.part === part);
    return node;
  }

  begin(node) {
    this.row(node.depth++, `${short(node.part.text)} at ${node.at}`, 'try', node.part, node.at, node.at);
    node.begun = true;
  }

  matches(depth, part, begin, end, more) {
    this.row(depth, `${short(part.text)} matches ${begin}-${end}${more}`, 'match', part, begin, end);
  }

  taken(part, begin, end) {
    if (begin === end || /^['"0-9]/.test(part.text)) return '';
    const text = short(this.subject.slice(begin, end));
    return text.includes("'") ? ` "${text}"` : ` '${text}'`;
  }

  // A start of the search.
  mark_s(part, index, at) {
    this.check(!this.live && this.waiting() === this.root);
    this.here = this.root;
    this.row(0, `start ${at}`, 'start', null, at, at);
    this.step(this.root, 's', null, at, 1);
  }

  // A part is entered.
  mark_e(part, index, at) {
    this.check(this.live);
    const here = this.here, node = this.step(here, 'e', part, at, here.depth, true, here.open);
    if (['cut', 'name'].includes(part.kind)) this.begin(node);
    if (part.kind !== 'leaf') node.open = [node, here.open];
  }

  // It has an end.
  mark_x(part, index, at) {
    if (part.kind === 'leaf') {
      const owner = this.waiting();
      this.back ||= !this.live;
      this.check(owner.kind === 'e' && owner.part === part);
      if (!this.live) this.here = owner;
      owner.ends++;
      let depth = owner.depth;
      if (!part.text.startsWith('@')) this.matches(depth++, part, owner.at, at, this.taken(part, owner.at, at));
      this.step(owner, 'x', part, at, depth, false, owner.open);
      return;
    }
    const owner = this.innermost('e', part), before = this.here;
    owner.ends++;
    const node = this.step(before, 'x', part, at, before.depth, part.kind === 'repeat', owner.open[1]);
    if (part.kind === '.') {
      node.pending = [...before.pending, { name: part.target, begin: owner.at, end: at }];
      this.row(node.depth, `pending ${part.target}=${owner.at}-${at}`, 'set', part, owner.at, at);
    } else if (part.kind === 'repeat') {
      node.times = before.kind === 'q' ? before.times : 0;
      this.matches(node.depth++, part, owner.at, at, node.times === 1 ? ', once' : `, ${node.times} times`);
    } else if (part.kind === 'cut') {
      for (let here = before; here !== owner; here = here.parent) here.waits = false;
      this.matches(node.depth++, part, owner.at, at, ', and drops what waits in it');
    } else if (part.kind === 'name') {
      this.matches(node.depth++, part, owner.at, at, this.taken(part, owner.at, at));
    }
  }

  // It has no further end.
  mark_f(part) {
    const owner = this.waiting();
    this.check(owner.kind === 'e' && owner.part === part && (owner === this.here || !this.live));
    this.here = owner;
    if (!owner.ends && ['leaf', 'cut', 'name'].includes(part.kind)) {
      this.row(owner.depth, `${short(part.text)} fails at ${owner.at}`, 'fail', part, owner.at, owner.at);
    }
    owner.waits = this.live = false;
  }

  // An alternative of a choice is taken up.
  mark_a(part, index, at) {
    const here = this.here;
    if (index === 0) {
      this.check(this.live);
      this.step(here, 'a', part, at, here.depth, true, here.open);
      return;
    }
    const owner = this.waiting();
    this.check(!this.live && owner.kind === 'a' && owner.part === part && owner.choice + 1 === index);
    owner.choice = index;
    owner.waits = index + 1 < part.inner.length;
    this.back = true;
    this.step(owner, 'alternative', part, at, owner.depth, false, owner.open);
  }

  // A repetition goes on once more.
  mark_r(part, index, at) {
    const owner = this.waiting();
    this.check(!this.live && owner.kind === 'x' && owner.part === part && owner.at === at);
    owner.waits = false;
    let entry = owner;
    while (!(entry.kind === 'e' && entry.part === part)) entry = entry.parent;
    const node = this.step(owner, 'r', part, at, owner.depth);
    node.open = [node, [entry, owner.open]];
    node.times = owner.times + 1;
    this.back = true;
    this.row(owner.depth - 1, `${short(part.text)} once more at ${at}`, 'try', part, at, at);
  }

  // It has gone on so.
  mark_q(part, index, at) {
    const owner = this.innermost('r', part), here = this.here;
    const node = this.step(here, 'q', part, at, here.depth, false, owner.open[1]);
    node.times = owner.times;
    if (at === owner.at) {
      this.row(node.depth, `${short(part.text)} goes on no more: it took nothing`, 'fail', part, at, at);
      this.live = false;
    }
  }

  // An assignment at once, or what it writes.
  note({ kind, name, cursors, line }) {
    const last = this.rows.at(-1), [begin, end] = cursors.length ? [cursors[0], cursors.at(-1)] : [last.begin, last.end];
    if (kind === 'output') {
      this.rows.push({ ...last, text: line, kind, back: false });
      return;
    }
    const node = this.live ? this.here : this.waiting();
    if (!this.live) this.back = true;
    let part = node.part;
    this.values = { ...this.values, [name]: kind === 'set' ? this.subject.slice(begin, end) : String(begin) };
    if (node.kind === 'e' && part.kind === 'leaf') {
      if (!part.text.startsWith('@') && !node.begun) this.begin(node);
      this.here = node;
      this.live = true;
    } else {
      part = node.open && node.open[0].part;
      this.check(this.live && part && part.kind === '$' && kind === 'set' && node.open[0].at === begin);
    }
    this.row(node.depth, line, 'set', part, begin, end);
  }

  way({ cursors, line }) {
    this.check(this.live);
    this.row(this.here.depth, '=> ' + line, 'way', null, ...cursors);
    this.live = false;
  }

  end(line) {
    const node = this.waiting();
    this.check(line !== 'exhausted' || node === this.root && !this.live);
    if (this.live && node === this.here && node.kind === 'e' && !node.begun) this.begin(node);
    this.here = node;
    this.row(0, line, 'end', node.part, node.at, node.at);
  }

  // Takes the lines one by one, up to so many rows; `fault` is what ended the search where no line tells it.
  draw(told, most, fault) {
    for (const line of told) {
      if (line.kind === 'mark') this['mark_' + line.letter](line.part, line.index, line.at);
      else if (line.kind === 'way') this.way(line);
      else if (line.kind === 'end') {
        this.end(line.line);
        return this.rows;
      } else this.note(line);
      if (this.rows.length >= most) {
        this.row(0, `and so on: these are the first ${most} rows`, 'end', null, 0, 0);
        return this.rows;
      }
    }
    if (this.rows.length) this.row(0, fault || 'and so on', 'end', null, 0, 0);
    return this.rows;
  }
}

const unused = (texts, begins) => {
  let number = 0;
  while (texts.join('\n').toUpperCase().includes(`${begins}${number}.`)) number++;
  return `${begins}${number}.`;
};
const read_mark = (found, parts, at) => ({ kind: 'mark', part: parts[found[1]], letter: found[2], index: Number(found[3]), at });

// The pattern with its marks for `ways`, and how to make the rows of the tree of its listing. `plain` is the listing without marks.
export function marked(pattern, subject) {
  const begins = unused([pattern, subject], 'M'), parts = [null];
  const mark = (number, kind, index = '') => `@${begins}${number}${kind}${index}`;
  const text = `${mark(0, 's')} ${new Reader(pattern, []).whole().marked(mark, parts)}`;
  const name = new RegExp(`^${begins.replace('.', '\\.')}(\\d+)([a-z])(\\d*)$`);
  function* told(listing, plain) {
    const without = lines(plain);
    for (const line of lines(listing)) {
      const found = line.kind === 'cursor' && name.exec(line.name);
      if (found) yield read_mark(found, parts, line.cursors[0]);
      else {
        const wanted = without.next().value;
        // The marks take steps, so they may meet the limit alone.
        if (line.line !== 'limit' && wanted && wanted.line !== line.line) throw new Undrawn('the marks change what this pattern does, so it cannot be drawn');
        yield line;
      }
    }
  }
  return { text, rows: (listing, plain, most, fault = '') => new Tree(subject).draw(told(listing, plain), most, fault) };
}

// A text as an expression: literals, and the variable of a line feed.
const quoted = (text, feed) => text.split('\n').map(line => line.split("'").map(each => `'${each}'`).join(` "'" `)).join(` ${feed} `);
const DEFINITION = /^([ \t]+)([A-Za-z][\w.]*)([ \t]+=[ \t]+)(.*?)([ \t]*)$/;
const is_name = text => /^[A-Za-z][\w.]*$/.test(text);

// A pattern that is asked behind statements: two programs for `run`, and how to read what they write. The first asks for one way
// after the other, each by a match of its own, and tells what the variables then hold; the second has the marks.
export function behind(statements, pattern, subject, anchored) {
  const [feed, of, k, left, done, begin, end, place, test, over, again, mark_, told_] = [...'ABCDEFGHIJKLM'].map(each => unused([statements, pattern, subject], `${each}Q`));
  const read = (text, names = []) => new Reader(text, names).whole();
  const definitions = statements.split('\n').map(line => DEFINITION.exec(line)).filter(found => {
    try {
      return found && read(found[4]);
    } catch {
      return false;
    }
  });
  const all = () => [pattern, ...definitions.map(found => found[4])].flatMap(text => read(text).all());
  const targets = [...new Set(all().filter(part => ['.', '$'].includes(part.kind)).map(part => part.target.toUpperCase()).filter(is_name))];
  const names = [...new Set(definitions.map(found => found[2].toUpperCase()))];
  const head = [` &ALPHABET POS(10) LEN(1) . ${feed}`, ` ${of} = ${quoted(subject, feed)}`, ` &ANCHOR = ${anchored ? 1 : 0}`];
  // A line that is told begins with a name that no text has, so that it is told apart from what the statements write.
  const tail = [`${over} OUTPUT = EQ(${done},1) '${of} exhausted' :S(END)`, ` OUTPUT = '${of} aborted' :(END)`, `${end} ${done} = 1 :(FRETURN)`];
  const last = `${anchored ? '' : 'RPOS(0) '}*${end}()`;
  const asks = [statements, ...head, ` DEFINE('${test}()'); DEFINE('${end}()')`,
    ...names.map(name => ` OUTPUT = '${of} is ${name} ' DATATYPE(${name})`), ...targets.map((name, i) => ` ${told_}${i} = ${name}`),
    `${again} ${k} = LT(${k},${MOST_ASKED}) ${k} + 1 :F(END)`, ` ${left} = ${k}`, ...targets.map((name, i) => ` ${name} = ${told_}${i}`),
    ` ${of} @${begin} (${pattern}) @${place} *${test}() | ${last} :F(${over})`, ` OUTPUT = '${of} way ' ${begin} ' ' ${place}`,
    ...targets.map(name => ` OUTPUT = '${of} holds ${name} ' SIZE(${name}); OUTPUT = ${name}`), ` :(${again})`,
    `${test} ${left} = ${left} - 1`, ` EQ(${left},0) :S(RETURN)F(FRETURN)`, ...tail, 'END', ''].join('\n');

  function marked_program(patterns) {
    const parts = [null], mark = (number, kind, index = '') => `@${place} *${mark_}('${number}${kind}${index}')`;
    const inside = statements.split('\n').map(line => {
      const found = DEFINITION.exec(line);
      if (!found || !patterns.includes(found[2].toUpperCase())) return line;
      return `${found[1]}${found[2]}${found[3]}${read(found[4], patterns).marked(mark, parts)}`;
    });
    const text = [...inside, ...head, ` DEFINE('${mark_}(${k})'); DEFINE('${end}()')`,
      ` ${of} ${mark(0, 's')} ${read(pattern, patterns).marked(mark, parts)} ${mark(0, 'w')} FAIL | ${last}`,
      ...tail, `${mark_} OUTPUT = '${of} ' ${k} ' ' ${place} :(RETURN)`, 'END', ''].join('\n');
    return { text, parts };
  }

  // The lines of the marks, as those of a listing: what is set at once, and at a way what is pending, follow from where the marks are.
  function* told(output, parts, tree, spans) {
    let start = 0;
    for (const line of output.split('\n').filter(each => each.startsWith(`${of} `)).map(each => each.slice(of.length + 1))) {
      const found = /^(\d+)([a-z])(\d*) (\d+)$/.exec(line), at = found && Number(found[4]);
      if (!found) {
        yield { kind: 'end', cursors: [], line };
        continue;
      }
      const part = parts[found[1]];
      if (found[2] === 'w') {
        const span = spans.shift(), pending = tree.here.pending.map(each => ` ${each.name}=${each.begin}-${each.end}`).join('');
        if (span && (span[0] !== start || span[1] !== at)) throw new Undrawn('the marks change what this pattern does, so it cannot be drawn');
        yield { kind: 'way', cursors: [start, at], line: `way ${start} ${at}${pending}` };
        continue;
      }
      if (found[2] === 's') start = at;
      if (found[2] === 'x' && part.kind === 'leaf' && part.text.startsWith('@')) yield { kind: 'cursor', name: part.text.slice(1), cursors: [at], line: `cursor ${part.text.slice(1)} ${at}` };
      if (found[2] === 'x' && part.kind === '$') {
        const from = tree.here.open?.[0]?.at ?? at;
        yield { kind: 'set', name: part.target, cursors: [from, at], line: `set ${part.target} ${from} ${at}` };
        if (part.target === 'OUTPUT') yield { kind: 'output', cursors: [], line: subject.slice(from, at) };
      }
      yield read_mark(found, parts, at);
    }
  }

  return {
    asks,
    // The ways, each with its cursors and what the variables hold; the names that are patterns; and how it ended, if it did.
    ways(output) {
      const ways = [], patterns = [];
      let ended = '';
      for (let at = 0; at < output.length;) {
        const stop = output.indexOf('\n', at), line = output.slice(at, stop < 0 ? undefined : stop);
        at += line.length + 1;
        const [told, kind, first, second] = line.split(' ');
        if (told !== of) continue;
        if (kind === 'way') ways.push({ cursors: [Number(first), Number(second)], values: [] });
        else if (kind === 'is' && second === 'PATTERN') patterns.push(first);
        else if (kind === 'holds') {
          ways.at(-1).values.push([first, output.slice(at, at + Number(second))]);
          at += Number(second) + 1;
        } else if (kind !== 'is') ended = kind;
      }
      return { ways, patterns, ended };
    },
    marked: marked_program,
    rows(output, parts, ways, most, fault) {
      const tree = new Tree(subject);
      return tree.draw(told(output, parts, tree, ways.map(way => way.cursors)), most, fault);
    },
  };
}

// So many ways are asked for behind statements.
export const MOST_ASKED = 100;
