// The programs snobol4 and snobol4-list under node, from 18 on: the module for WebAssembly has them as they are, and this file gives
// them what they ask of a system, by node's calls. Each word that they answer is their own.
import fs from 'node:fs';
import tty from 'node:tty';
import { fileURLToPath } from 'node:url';

// The number by which the programs know want of memory, as Linux has it; all other faults are alike to them.
const FAULTS = { ENOMEM: 12 };
const OTHER_FAULT = 5;

function pause() {
  Atomics.wait(new Int32Array(new SharedArrayBuffer(4)), 0, 0, 5);
}

// What `call` gives, or the number of its fault below 0. A device that has nothing at the moment is waited for.
function answer(call) {
  for (;;) {
    try {
      return call();
    } catch (fault) {
      // (on Windows the end of a pipe is told so)
      if (fault.code === 'EOF') return 0;
      if (fault.code !== 'EAGAIN') return -(FAULTS[fault.code] ?? OTHER_FAULT);
    }
    pause();
  }
}

// What web/system.c asks for, of the devices and files of this process. `bytes` gives those that stand in the module's memory.
function system_of_process(bytes) {
  return {
    open: (at, size) => answer(() => fs.openSync(bytes(at, size), 'r')),
    close: file => answer(() => fs.closeSync(file) ?? 0),
    read: (file, at, size) => answer(() => fs.readSync(file, bytes(at, size))),
    write: (file, at, size) => answer(() => fs.writeSync(file, bytes(at, size))),
    is_terminal: file => Number(tty.isatty(file)),
  };
}

// Runs the program `name` on the words, which are bytes, and gives its status; its heap takes at most so many bytes.
export function perform(module, system_of, name, words, most = 2 ** 32) {
  const bytes = (at, size) => Buffer.from(calls.memory.buffer, at >>> 0, size);
  const calls = new WebAssembly.Instance(module, { system: system_of(bytes) }).exports;
  calls.heap_limit(BigInt(most));
  const text = Buffer.concat([name, ...words].flatMap(word => [Buffer.from(word), Buffer.of(0)]));
  const at = calls.heap_take(BigInt(text.length));
  if (!at) throw new RangeError('no memory for the words');
  bytes(Number(at), text.length).set(text);
  calls.lend_words(at, BigInt(words.length + 1));
  return calls[name.replace('-', '_')]();
}

// The words of the command line. Node gives them as text, in which what is no UTF-8 is lost: where some may be, Linux is asked for
// their bytes.
function words_of_process() {
  const words = process.argv.slice(2);
  if (words.every(word => !word.includes('\ufffd')) || !fs.existsSync('/proc/self/cmdline')) return words;
  const all = fs.readFileSync('/proc/self/cmdline', 'latin1').split('\0').slice(0, -1);
  return all.slice(all.length - words.length).map(word => Buffer.from(word, 'latin1'));
}

function find_module() {
  const places = ['./snobol4-commands.wasm', '../crates/snobol4/out/snobol4-commands.wasm', '../bin/snobol4-commands.wasm'];
  const files = places.map(place => fileURLToPath(new URL(place, import.meta.url)));
  return process.env.SNOBOL4_MODULE ?? files.find(each => fs.existsSync(each));
}

export function run(name) {
  const file = find_module();
  const end = (status, why) => {
    fs.writeSync(2, `${name}: ${why}\n`);
    process.exitCode = status;
  };
  if (!file) return end(70, 'there is no snobol4-commands.wasm, which web/make makes');
  try {
    const module = new WebAssembly.Module(fs.readFileSync(file));
    process.exitCode = perform(module, system_of_process, name, words_of_process(), process.env.SNOBOL4_MEMORY);
  } catch (fault) {
    if (!(fault instanceof WebAssembly.RuntimeError || fault instanceof RangeError)) throw fault;
    end(134, `the module was ended: ${fault.message}`);
  }
}
