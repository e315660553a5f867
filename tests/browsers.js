'use strict';

// Debian's Chromium and Firefox, headless, for tests of pages: tests/page and tests/office-page. A page is opened from the disk.
// SHOTS may name a folder for pictures.

const fs = require('fs');
const net = require('net');
const os = require('os');
const path = require('path');
const { spawn } = require('child_process');

const SHOTS = process.env.SHOTS;
const sleep = ms => new Promise(done => setTimeout(done, ms));

class Chromium {
  static async begin() {
    const it = new Chromium();
    it.home = fs.mkdtempSync(path.join(os.tmpdir(), 'chromium-'));
    const words = ['--headless=new', '--no-sandbox', '--disable-gpu', '--disable-dev-shm-usage', '--no-first-run', `--user-data-dir=${it.home}`, '--remote-debugging-pipe', 'about:blank'];
    it.child = spawn('chromium', words, { stdio: ['ignore', 'ignore', fs.openSync(`${it.home}/log`, 'w'), 'pipe', 'pipe'] });
    it.waiting = new Map();
    it.heard = [];
    let held = '';
    it.child.stdio[4].on('data', data => {
      const parts = (held + data).split('\0');
      held = parts.pop();
      for (const part of parts) it.hear(JSON.parse(part));
    });
    it.name = (await it.call('Browser.getVersion')).product;
    const { targetId } = await it.call('Target.createTarget', { url: 'about:blank' });
    it.session = (await it.call('Target.attachToTarget', { targetId, flatten: true })).sessionId;
    for (const domain of ['Page', 'DOM', 'Log', 'Runtime', 'Network']) await it.call(`${domain}.enable`);
    return it;
  }

  hear(message) {
    if (message.id) {
      this.waiting.get(message.id)(message);
      this.waiting.delete(message.id);
    } else this.heard.push(message);
  }

  call(method, params = {}) {
    const id = this.last = (this.last ?? 0) + 1;
    return new Promise((done, fail) => {
      this.waiting.set(id, message => message.error ? fail(new Error(`${method}: ${message.error.message}`)) : done(message.result));
      this.child.stdio[3].write(`${JSON.stringify({ id, method, params, sessionId: this.session })}\0`);
    });
  }

  async open(page) {
    await this.call('Page.navigate', { url: `file://${page}` });
    while (!await this.value('location.protocol === "file:" && document.readyState === "complete"')) await sleep(50);
  }

  async value(expression) {
    const { result, exceptionDetails } = await this.call('Runtime.evaluate', { expression, returnByValue: true, awaitPromise: true });
    if (exceptionDetails) throw new Error(exceptionDetails.exception.description);
    return result.value;
  }

  async choose(file, selector = '#file') {
    const { root } = await this.call('DOM.getDocument');
    const { nodeId } = await this.call('DOM.querySelector', { nodeId: root.nodeId, selector });
    await this.call('DOM.setFileInputFiles', { nodeId, files: [file] });
  }

  // Drags files over the page and drops them, as input events of the browser. Returns whether the place to drop showed that they were over it.
  async drag(...files) {
    const data = { items: [], files, dragOperationsMask: 1 };
    for (const type of ['dragEnter', 'dragOver']) await this.call('Input.dispatchDragEvent', { type, x: 300, y: 260, data });
    const over = await this.value('document.getElementById("drop").classList.contains("over")');
    await this.call('Input.dispatchDragEvent', { type: 'drop', x: 300, y: 260, data });
    return over;
  }

  async key(key, code, text, modifiers = 0) {
    const words = { key, code: key.length === 1 ? undefined : key, windowsVirtualKeyCode: code, modifiers };
    await this.call('Input.dispatchKeyEvent', { type: text ? 'keyDown' : 'rawKeyDown', text, ...words });
    await this.call('Input.dispatchKeyEvent', { type: 'keyUp', ...words });
  }

  async type(text) {
    for (const it of text) await this.key(it, it.toUpperCase().charCodeAt(0), it);
  }

  async width(width, height, dark) {
    await this.call('Emulation.setDeviceMetricsOverride', { width, height, deviceScaleFactor: 1, mobile: width < 600 });
    await this.call('Emulation.setEmulatedMedia', { features: [{ name: 'prefers-color-scheme', value: dark ? 'dark' : 'light' }] });
    await sleep(200);
  }

  async picture(name) {
    if (!SHOTS) return;
    const { data } = await this.call('Page.captureScreenshot', { captureBeyondViewport: true });
    fs.writeFileSync(`${SHOTS}/${name}.png`, Buffer.from(data, 'base64'));
  }

  async end() {
    const ended = new Promise(done => this.child.once('exit', done));
    this.session = undefined;
    await this.call('Browser.close').catch(() => this.child.kill());
    await ended;
    fs.rmSync(this.home, { recursive: true, force: true, maxRetries: 10, retryDelay: 200 });
  }
}

class Firefox {
  static async begin() {
    const it = new Firefox();
    it.home = fs.mkdtempSync(path.join(os.tmpdir(), 'firefox-'));
    const port = 20000 + process.pid % 20000;
    it.downloads = `${it.home}/downloads`;
    const prefs = { 'marionette.port': port, 'app.update.enabled': false, 'datareporting.policy.dataSubmissionEnabled': false, 'browser.download.folderList': 2, 'browser.download.dir': it.downloads };
    fs.mkdirSync(it.downloads);
    fs.writeFileSync(`${it.home}/user.js`, Object.entries(prefs).map(([name, value]) => `user_pref("${name}", ${JSON.stringify(value)});\n`).join(''));
    const env = { ...process.env, HOME: it.home, MOZ_HEADLESS: '1' };
    it.child = spawn('firefox-esr', ['--headless', '--no-remote', '--marionette', '--profile', it.home], { stdio: 'ignore', env });
    await it.connect(port);
    const begun = await it.call('WebDriver:NewSession', { capabilities: {} });
    it.name = `Firefox/${begun.capabilities.browserVersion}`;
    return it;
  }

  async connect(port) {
    for (let tries = 0; ; tries++) {
      this.link = net.connect(port, '127.0.0.1');
      const open = await new Promise(done => { this.link.once('connect', () => done(true)); this.link.once('error', () => done(false)); });
      if (open) break;
      if (tries > 600) throw new Error('firefox-esr does not answer');
      await sleep(100);
    }
    let held = Buffer.alloc(0);
    this.waiting = new Map();
    this.link.on('data', data => {
      held = Buffer.concat([held, data]);
      for (let colon; (colon = held.indexOf(58)) > 0;) {
        const length = Number(held.subarray(0, colon));
        if (held.length < colon + 1 + length) break;
        const message = JSON.parse(held.subarray(colon + 1, colon + 1 + length));
        held = held.subarray(colon + 1 + length);
        if (Array.isArray(message)) this.waiting.get(message[1])?.(message);
      }
    });
  }

  call(name, words) {
    const id = this.last = (this.last ?? 0) + 1;
    const text = JSON.stringify([0, id, name, words]);
    return new Promise((done, fail) => {
      this.waiting.set(id, ([, , error, result]) => error ? fail(new Error(`${name}: ${error.message}`)) : done(result));
      this.link.write(`${Buffer.byteLength(text)}:${text}`);
    });
  }

  open(page) {
    return this.call('WebDriver:Navigate', { url: `file://${page}` });
  }

  async value(expression) {
    return (await this.call('WebDriver:ExecuteScript', { script: `return ${expression}`, args: [] })).value;
  }

  async element(selector) {
    const { value } = await this.call('WebDriver:FindElement', { using: 'css selector', value: selector });
    return Object.values(value)[0];
  }

  async choose(file, selector = '#file') {
    await this.value(`(document.querySelector(${JSON.stringify(selector)}).value = "")`);
    await this.call('WebDriver:ElementSendKeys', { id: await this.element(selector), text: file });
  }

  async width(width, height) {
    await this.call('WebDriver:SetWindowRect', { width, height });
    await sleep(200);
  }

  async picture(name) {
    if (!SHOTS) return;
    const { value } = await this.call('WebDriver:TakeScreenshot', { full: true });
    fs.writeFileSync(`${SHOTS}/${name}.png`, Buffer.from(value, 'base64'));
  }

  async end() {
    const ended = new Promise(done => this.child.once('exit', done));
    await this.call('Marionette:Quit', { flags: ['eForceQuit'] }).catch(() => this.child.kill());
    this.link.destroy();
    await ended;
    fs.rmSync(this.home, { recursive: true, force: true, maxRetries: 10, retryDelay: 200 });
  }
}

module.exports = { Chromium, Firefox, sleep };
