// Chromium without a window, driven over a pipe: pages, widths, keys, clicks, and functions that are called in a page.

import { spawn } from 'node:child_process';
import { existsSync, readFileSync, rmSync } from 'node:fs';
import { join } from 'node:path';

const PATIENCE = 60000;

/** A running Chromium. */
export class Browser {
  constructor(program, profile) {
    const calm = ['--disable-background-timer-throttling', '--disable-backgrounding-occluded-windows', '--disable-renderer-backgrounding',
      '--disable-extensions', '--disable-component-update', '--no-first-run'];
    this.process = spawn(program, ['--headless', '--no-sandbox', '--disable-gpu', '--hide-scrollbars', '--remote-debugging-pipe', ...calm,
      `--user-data-dir=${profile}`, 'about:blank'], { stdio: ['ignore', 'ignore', 'ignore', 'pipe', 'pipe'] });
    this.number = 0;
    this.waiting = new Map();
    this.heard = [];
    this.rest = '';
    this.process.stdio[4].setEncoding('utf8');
    this.process.stdio[4].on('data', (text) => this.hear(text));
    this.process.on('exit', () => { for (const { refuse } of this.waiting.values()) refuse(new Error('Chromium ended')); });
  }

  // Takes what Chromium says; messages end with a zero byte.
  hear(text) {
    const messages = (this.rest + text).split('\0');
    this.rest = messages.pop();
    for (const message of messages.map((one) => JSON.parse(one))) {
      const waiting = this.waiting.get(message.id);
      if (waiting === undefined) this.heard.push(message);
      else if (message.error) waiting.refuse(new Error(message.error.message));
      else waiting.accept(message.result);
      this.waiting.delete(message.id);
    }
  }

  /** Asks Chromium for something; answers what it says. */
  ask(method, params = {}, sessionId = undefined) {
    this.number += 1;
    const id = this.number;
    const answer = new Promise((accept, refuse) => {
      this.waiting.set(id, { accept, refuse });
      setTimeout(() => refuse(new Error(`${method}: no answer`)), PATIENCE).unref();
    });
    this.process.stdio[3].write(`${JSON.stringify({ id, method, params, sessionId })}\0`);
    return answer;
  }

  /** A new empty page of a width and a height. */
  async page(width, height = 900) {
    const { targetId } = await this.ask('Target.createTarget', { url: 'about:blank' });
    const { sessionId } = await this.ask('Target.attachToTarget', { targetId, flatten: true });
    const page = new Page(this, targetId, sessionId);
    await page.ask('Page.enable');
    await page.ask('Network.enable');
    await page.ask('Emulation.setFocusEmulationEnabled', { enabled: true });
    await page.size(width, height);
    return page;
  }

  /** Ends Chromium. */
  async close() {
    const end = new Promise((done) => { this.process.on('exit', done); });
    await this.ask('Browser.close').catch(() => {});
    await end;
  }
}

/** A page in Chromium. */
class Page {
  constructor(browser, targetId, sessionId) {
    Object.assign(this, { browser, targetId, sessionId });
  }

  ask(method, params) { return this.browser.ask(method, params, this.sessionId); }

  /** Gives the page another size. */
  async size(width, height) {
    await this.ask('Emulation.setDeviceMetricsOverride', { width, height, deviceScaleFactor: 1, mobile: false });
    await this.run(() => new Promise((done) => { requestAnimationFrame(() => requestAnimationFrame(done)); }));
  }

  /** Opens a file at a fragment and waits until it shows a view. */
  async open(file, fragment = '') {
    await this.ask('Page.navigate', { url: 'about:blank' });
    await this.ask('Page.navigate', { url: `file://${file}#${fragment}` });
    await this.settle();
  }

  /** Waits until the page shows a view and has nothing more to draw. */
  async settle() {
    const end = Date.now() + PATIENCE;
    while (Date.now() < end) {
      const isDone = await this.run(() => document.querySelector('main[data-view]:not([data-busy])') !== null).catch(() => false);
      if (isDone) return this.run(() => new Promise((done) => { setTimeout(() => setTimeout(done, 0), 25); }));
      await new Promise((resume) => { setTimeout(resume, 20); });
    }
    throw new Error('the page shows no view');
  }

  /** Goes to a fragment by the page's address. */
  async go(fragment) {
    await this.run((hash) => new Promise((done) => {
      if (window.location.hash === hash) done();
      window.addEventListener('hashchange', () => setTimeout(done), { once: true });
      window.location.hash = hash;
    }), fragment.startsWith('#') ? fragment : `#${fragment}`);
    await this.settle();
  }

  /** Calls a function in the page; answers what it gives. */
  async run(call, ...words) {
    const expression = `(${call})(${words.map((word) => JSON.stringify(word)).join(', ')})`;
    const { result, exceptionDetails } = await this.ask('Runtime.evaluate', { expression, awaitPromise: true, returnByValue: true, userGesture: true });
    if (exceptionDetails) throw new Error(exceptionDetails.exception ? exceptionDetails.exception.description : exceptionDetails.text);
    return result.value;
  }

  /** Presses a key. */
  async press(key) {
    const text = key.length === 1 ? key : undefined;
    const code = { Enter: 13, Tab: 9, ArrowDown: 40, ArrowUp: 38, Escape: 27 }[key] || key.charCodeAt(0);
    const words = { key, text: key === 'Enter' ? '\r' : text, windowsVirtualKeyCode: code };
    await this.ask('Input.dispatchKeyEvent', { type: words.text ? 'keyDown' : 'rawKeyDown', ...words });
    await this.ask('Input.dispatchKeyEvent', { type: 'keyUp', key, windowsVirtualKeyCode: code });
    await this.settle();
  }

  /** Moves the pointer to the middle of the first element of a selector, and clicks there where asked to. */
  async point(selector, isClick = true) {
    const place = await this.run((words) => {
      const node = document.querySelector(words);
      if (node === null) return null;
      node.scrollIntoView({ block: 'center' });
      const { left, top, width, height } = node.getBoundingClientRect();
      return { x: left + width / 2, y: top + height / 2 };
    }, selector);
    if (place === null) throw new Error(`nothing is ${selector}`);
    await this.ask('Input.dispatchMouseEvent', { type: 'mouseMoved', ...place });
    if (!isClick) return;
    for (const type of ['mousePressed', 'mouseReleased']) {
      await this.ask('Input.dispatchMouseEvent', { type, ...place, button: 'left', clickCount: 1 });
    }
    await this.settle();
  }

  /** The text of the first element of a selector; null where there is none. */
  text(selector) {
    return this.run((words) => { const node = document.querySelector(words); return node === null ? null : node.textContent; }, selector);
  }

  /** The texts of all elements of a selector. */
  texts(selector) {
    return this.run((words) => [...document.querySelectorAll(words)].map((node) => node.textContent), selector);
  }

  /** Chooses a value of the choice of a name. */
  async choose(name, value) {
    await this.run((words, chosen) => {
      const select = document.querySelector(`[data-key="choice ${words}"]`);
      select.value = chosen;
      select.dispatchEvent(new Event('change'));
    }, name, value);
    await this.settle();
  }

  /** What the CSV of a table holds, which is kept in a folder meanwhile; nothing where none comes. */
  async csv(label, folder) {
    await this.browser.ask('Browser.setDownloadBehavior', { behavior: 'allow', downloadPath: folder });
    await this.point(`[aria-label="CSV of ${label}"]`);
    const path = join(folder, `${label.replace(/[^A-Za-z0-9_]+/g, '_')}.csv`);
    let text = '';
    for (let tries = 0; tries < 50 && text === ''; tries += 1) {
      await new Promise((resume) => { setTimeout(resume, 100); });
      text = existsSync(path) ? readFileSync(path, 'utf8') : '';
    }
    rmSync(path, { force: true });
    return text;
  }

  /** Writes a picture of the page; `height` makes it as high as it is. */
  async picture(isWhole = false) {
    const { data } = await this.ask('Page.captureScreenshot', { format: 'png', captureBeyondViewport: isWhole });
    return Buffer.from(data, 'base64');
  }

  /** The addresses that the page asked for, but for files and data. */
  requests() {
    return this.browser.heard.filter(({ method, sessionId }) => method === 'Network.requestWillBeSent' && sessionId === this.sessionId)
      .map(({ params }) => params.request.url).filter((url) => !/^(file|data|about|blob):/.test(url));
  }

  /** Closes the page. */
  close() { return this.browser.ask('Target.closeTarget', { targetId: this.targetId }); }
}
