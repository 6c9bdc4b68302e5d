// The module for WebAssembly as an object: its calls take texts as bytes, and give bytes.

// No line that tells of a fault is longer.
const LINE = 4096;
const NOTHING = new Uint8Array();
const NO_MEMORY = { status: 6, out: NOTHING, line: 'snobol4: no memory\n' };

export class Snobol4 {
  constructor(exports) {
    this.calls = exports;
  }

  // Begins with the module's bytes, or with the module compiled; `most` are the bytes that its heap may take.
  static async load(module, most = 2 ** 30) {
    const loaded = await WebAssembly.instantiate(module);
    const machine = new Snobol4((loaded.instance ?? loaded).exports);
    machine.calls.heap_limit(BigInt(most));
    return machine;
  }

  view(at, size) {
    return new Uint8Array(this.calls.memory.buffer, Number(at), size);
  }

  // Lends the function `name` the texts, room for `most` bytes of output, none where it is 0, and room for the line that tells a
  // fault. Told are its status, what it wrote, and that line. Where there is no memory for these rooms, it is as if the call had
  // found none.
  call(name, texts, numbers, most) {
    const lent = [];
    const lend = size => {
      const at = this.calls.heap_take(BigInt(size));
      if (at) lent.push(at);
      return at;
    };
    try {
      const words = [];
      for (const text of texts) {
        const at = lend(text.length);
        if (!at) return NO_MEMORY;
        this.view(at, text.length).set(text);
        words.push(at, BigInt(text.length));
      }
      const out = lend(most), line = lend(LINE), told = lend(24);
      if (!(out && line && told)) return NO_MEMORY;
      const room = most ? [out, BigInt(most)] : [];
      this.calls[name](...words, ...numbers, ...room, line, BigInt(LINE), told);
      const end = new DataView(this.calls.memory.buffer, Number(told), 24);
      const [written, tells] = [8, 16].map(at => Number(end.getBigUint64(at, true)));
      return {
        status: end.getUint32(0, true),
        out: this.view(out, written).slice(),
        line: new TextDecoder().decode(this.view(line, tells).slice()),
      };
    } finally {
      for (const at of lent) this.calls.heap_give(at);
    }
  }

  ways(pattern, subject, { anchor = false, steps = 1e6, most = 2 ** 24 } = {}) {
    return this.call('snobol4_ways', [pattern, subject], [anchor ? 1 : 0, steps], most);
  }

  run(program, input, { statements = 1e6, steps = 1e6, most = 2 ** 24 } = {}) {
    return this.call('snobol4_run', [program, input], [BigInt(statements), steps], most);
  }

  check(program) {
    return this.call('snobol4_check', [program], [], 0);
  }

  list(program, { statement = 0, most = 2 ** 24 } = {}) {
    return this.call('snobol4_list', [program], [statement], most);
  }
}
