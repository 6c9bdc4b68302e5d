// Browsers without a window, each an object that opens pages and tells what scripts come to there. Chromium is spoken to through two
// pipes, Firefox through a socket of this machine.
import { spawn } from 'node:child_process';
import fs from 'node:fs';
import net from 'node:net';
import os from 'node:os';
import path from 'node:path';

const sleep = time => new Promise(resolve => setTimeout(resolve, time));

// A process with a folder of its own, and the calls that wait for its answers.
class Browser {
  constructor(program, words, stdio) {
    Object.assign(this, { count: 0, waiting: new Map(), folder: fs.mkdtempSync(path.join(os.tmpdir(), 'snobol4-browser-')) });
    this.process = spawn(program, words(this.folder), { stdio, env: { ...process.env, HOME: this.folder } });
    this.ended = new Promise(resolve => this.process.once('exit', resolve));
    this.ended.then(() => this.waiting.forEach(([, reject]) => reject(new Error('it ended'))));
    // Where this process ends before, so does the browser.
    process.once('exit', () => this.leave());
    for (const signal of ['SIGHUP', 'SIGINT', 'SIGTERM']) process.once(signal, () => process.exit(1));
  }

  // Sends what `text` makes of the call's number.
  ask(text) {
    const id = ++this.count;
    this.write(text(id));
    return new Promise((resolve, reject) => this.waiting.set(id, [resolve, reject]));
  }

  answer(id, fault, result) {
    const [resolve, reject] = this.waiting.get(id) ?? [];
    this.waiting.delete(id);
    if (fault) reject?.(new Error(fault.message));
    else resolve?.(result);
  }

  async end() {
    this.close().catch(() => {});
    await this.ended;
    this.leave();
  }

  leave() {
    this.process.kill('SIGKILL');
    fs.rmSync(this.folder, { recursive: true, force: true, maxRetries: 5 });
  }
}

// Its messages are texts of JSON, each with a 0 behind it.
class Chromium extends Browser {
  constructor(program) {
    const words = ['--headless', '--disable-gpu', '--no-first-run', '--disable-dev-shm-usage', '--remote-debugging-pipe'];
    if (process.getuid?.() === 0) words.push('--no-sandbox');
    super(program, folder => [...words, `--user-data-dir=${folder}`], ['ignore', 'ignore', 'ignore', 'pipe', 'pipe']);
    let rest = '';
    this.process.stdio[4].on('data', data => {
      const texts = (rest + data).split('\0');
      rest = texts.pop();
      for (const { id, error, result } of texts.map(JSON.parse)) this.answer(id, error, result);
    });
  }

  write(text) {
    this.process.stdio[3].write(`${text}\0`);
  }

  call(method, params = {}) {
    return this.ask(id => JSON.stringify({ id, method, params, sessionId: this.session }));
  }

  async begin() {
    const { targetId } = await this.call('Target.createTarget', { url: 'about:blank' });
    this.session = (await this.call('Target.attachToTarget', { targetId, flatten: true })).sessionId;
  }

  open(url) {
    return this.call('Page.navigate', { url });
  }

  async tell(expression) {
    const { result, exceptionDetails } = await this.call('Runtime.evaluate', { expression, awaitPromise: true, returnByValue: true });
    if (exceptionDetails) throw new Error(exceptionDetails.exception?.description ?? exceptionDetails.text);
    return result.value;
  }

  fit(width, height) {
    return this.call('Emulation.setDeviceMetricsOverride', { width, height, deviceScaleFactor: 1, mobile: false });
  }

  close() {
    this.session = undefined;
    return this.call('Browser.close');
  }
}

// Its messages are texts of JSON, each behind its length and a colon (the protocol is called Marionette).
class Firefox extends Browser {
  constructor(program) {
    super(program, folder => {
      fs.writeFileSync(path.join(folder, 'user.js'), 'user_pref("marionette.port", 0);\n');
      return ['--headless', '--no-remote', '--marionette', '--remote-allow-system-access', '--profile', folder];
    }, 'ignore');
  }

  // The port, which it writes to a file once it listens.
  async port() {
    const file = path.join(this.folder, 'MarionetteActivePort');
    while (!fs.existsSync(file) || !fs.readFileSync(file, 'utf8')) {
      if (this.process.exitCode !== null) throw new Error('it ended');
      await sleep(50);
    }
    return Number(fs.readFileSync(file, 'utf8'));
  }

  async begin() {
    this.socket = net.connect(await this.port(), '127.0.0.1');
    let rest = Buffer.alloc(0);
    this.socket.on('error', () => {});
    this.socket.on('data', data => {
      rest = Buffer.concat([rest, data]);
      for (let colon; (colon = rest.indexOf(':')) > 0;) {
        const end = colon + 1 + Number(rest.subarray(0, colon));
        if (rest.length < end) return;
        this.hear(JSON.parse(rest.subarray(colon + 1, end)));
        rest = rest.subarray(end);
      }
    });
    await this.call('WebDriver:NewSession', { capabilities: { alwaysMatch: { pageLoadStrategy: 'none', timeouts: { script: 900_000 } } } });
  }

  // (the first message is no answer: it tells which protocol this is)
  hear(message) {
    if (Array.isArray(message)) this.answer(...message.slice(1));
  }

  write(text) {
    this.socket.write(`${Buffer.byteLength(text)}:${text}`);
  }

  call(name, params = {}) {
    return this.ask(id => JSON.stringify([0, id, name, params]));
  }

  open(url) {
    return this.call('WebDriver:Navigate', { url });
  }

  async tell(expression) {
    const script = `const [text, done] = arguments;
      new Promise(resolve => resolve(window.eval(text))).then(value => done({ value }), fault => done({ fault: String(fault) }));`;
    const { value: { value, fault } } = await this.call('WebDriver:ExecuteAsyncScript', { script, args: [expression] });
    if (fault) throw new Error(fault);
    return value;
  }

  // No window of it is as narrow as a telephone's, so the page has a part of the window.
  async fit(width, height) {
    const script = `Object.assign(gBrowser.selectedBrowser.style, { flex: 'none', width: '${width}px', height: '${height}px' });`;
    await this.call('Marionette:SetContext', { value: 'chrome' });
    await this.call('WebDriver:ExecuteScript', { script, args: [] });
    await this.call('Marionette:SetContext', { value: 'content' });
  }

  close() {
    return this.call('Marionette:Quit', { flags: ['eForceQuit'] });
  }
}

export const browser_of = program => new (/firefox/.test(path.basename(program)) ? Firefox : Chromium)(program);
