// node browser.js PAGE.html [FOLDER]: clicks through the page in chromium, by the DevTools protocol over a pipe. Pictures go to the folder.
'use strict';
const { spawn } = require('child_process');
const fs = require('fs');
const os = require('os');
const path = require('path');
const assert = require('assert');

const page = path.resolve(process.argv[2]), folder = process.argv[3];
const home = fs.mkdtempSync(path.join(os.tmpdir(), 'varisat-web-'));
const chromium = spawn(process.env.CHROMIUM || 'chromium', [
  '--headless=new', '--no-sandbox', '--disable-gpu', '--disable-dev-shm-usage', '--hide-scrollbars', '--no-first-run', '--disable-background-networking',
  '--disable-component-update', '--proxy-server=127.0.0.1:9', `--user-data-dir=${home}`, '--window-size=1000,1250', '--remote-debugging-pipe', 'about:blank',
], { stdio: ['ignore', 'ignore', 'ignore', 'pipe', 'pipe'] });

const waiting = new Map(), complaints = [];
let last = 0, left = '';
chromium.stdio[4].on('data', (data) => {
  left += data;
  for (let at; (at = left.indexOf('\0')) >= 0; left = left.slice(at + 1)) {
    const said = JSON.parse(left.slice(0, at));
    if (said.id) {
      const { go, fail } = waiting.get(said.id);
      waiting.delete(said.id);
      if (said.error) fail(new Error(said.error.message));
      else go(said.result);
    } else if (said.method === 'Runtime.exceptionThrown' || (said.method === 'Log.entryAdded' && said.params.entry.level === 'error')) {
      complaints.push(JSON.stringify(said.params));
    } else if (said.method === 'Network.requestWillBeSent') {
      const { url } = said.params.request;
      if (!/^(file|blob|data):/.test(url)) complaints.push('a request: ' + url);
    }
  }
});
let session;
const call = (method, params = {}) => new Promise((go, fail) => {
  waiting.set(++last, { go, fail });
  chromium.stdio[3].write(JSON.stringify({ id: last, method, params, ...(session && { sessionId: session }) }) + '\0');
});
const read = async (text) => {
  const { result, exceptionDetails } = await call('Runtime.evaluate', { expression: text, returnByValue: true, awaitPromise: true });
  if (exceptionDetails) throw new Error(exceptionDetails.exception?.description || exceptionDetails.text);
  return result.value;
};
const pause = (ms) => new Promise((go) => setTimeout(go, ms));
const until = async (text, seconds = 60) => {
  for (const end = Date.now() + seconds * 1000; Date.now() < end; await pause(20)) if (await read(text)) return;
  throw new Error(`not within ${seconds} s: ${text}: ${await read('document.body.innerText')}`);
};
// A click where the part stands, as by a mouse.
const click = async (name) => {
  const { x, y } = await read(`(() => {
    const it = document.getElementById('${name}');
    it.scrollIntoView({ block: 'center' });
    const at = it.getBoundingClientRect();
    return { x: at.x + at.width / 2, y: at.y + at.height / 2 };
  })()`);
  for (const type of ['mousePressed', 'mouseReleased']) await call('Input.dispatchMouseEvent', { type, x, y, button: 'left', clickCount: 1 });
};
const choose = (name) => read(`(() => { const it = document.getElementById('example'); it.value = '${name}'; it.dispatchEvent(new Event('change')) })()`);
const fill = (name, text) => read(`document.getElementById('${name}').value = ${JSON.stringify(text)}`);
const text = (name) => read(`document.getElementById('${name}').innerText`);
const picture = async (name) => {
  if (!folder) return;
  await read('scrollTo(0, 0)');
  const { data } = await call('Page.captureScreenshot', { captureBeyondViewport: true });
  fs.writeFileSync(path.join(folder, name), Buffer.from(data, 'base64'));
};
const solved = async (seconds) => {
  await click('solve');
  await until(`document.body.dataset.state === 'done'`, seconds);
};

async function main() {
  const { targetId } = await call('Target.createTarget', { url: 'about:blank' });
  session = (await call('Target.attachToTarget', { targetId, flatten: true })).sessionId;
  for (const it of ['Page', 'Runtime', 'Log', 'Network']) await call(it + '.enable');
  await call('Page.navigate', { url: 'file://' + page });
  await until(`document.body && document.body.dataset.state === 'ready'`);
  console.log(await read('navigator.userAgent'));

  await solved();
  assert.equal(await text('verdict'), 'Satisfiable');
  const guests = await read(`[...document.querySelectorAll('#model li')].map((it) => it.textContent).join(', ')`);
  console.log('dinner:', guests);
  assert.match(guests, /^Ann comes: (yes|no), Ben comes: (yes|no), Cleo comes: (yes|no)$/);
  assert.match(await text('sure'), /each clause holds/);
  await picture('dinner.png');

  await fill('assumed', '1 3');
  await solved();
  assert.equal(await text('verdict'), 'Unsatisfiable under the assumptions');
  console.log('core:', await text('model'));
  await fill('assumed', '1 x');
  await click('solve');
  assert.match(await text('verdict'), /no literal/);

  await choose('pigeons');
  await solved();
  assert.equal(await text('verdict'), 'Unsatisfiable');
  console.log('pigeons:', await text('checked'));
  assert.match(await text('checked'), /accepts/);
  const proof = await read(`document.getElementById('proof').value`);
  await call('Emulation.setEmulatedMedia', { features: [{ name: 'prefers-color-scheme', value: 'dark' }] });
  await picture('pigeons-dark.png');
  await call('Emulation.setEmulatedMedia', { features: [] });

  // A proof with a wrong line, and one that stops early.
  await fill('proof', '1 0\n' + proof);
  await click('check');
  await until(`document.body.dataset.state === 'done'`);
  console.log('a wrong line:', await text('checked'));
  assert.match(await text('checked'), /refuses it: a line is wrong/);
  await fill('proof', proof.split('\n').slice(0, 3).join('\n') + '\n');
  await click('check');
  await until(`document.body.dataset.state === 'done'`);
  assert.match(await text('checked'), /refute nothing/);

  await fill('text', 'p cnf 2 1\n1 two 0\n');
  await solved();
  console.log('a fault:', await text('verdict'));
  assert.notEqual(await text('verdict'), '');

  // Examples in their own form, and without a proof.
  await choose('timetable');
  await solved();
  assert.match(await text('picture'), /The timetable\s+9:00\s[^]*12:00\s+Music \(Dora\)/);
  assert.match(await text('about'), /seven courses/i);
  await picture('timetable.png');
  await choose('sudoku');
  await solved();
  assert.match((await text('picture')).replace(/\s/g, ''), /534678912672195348198342567859761423426853791713924856961537284287419635345286179/);
  await picture('sudoku.png');
  await choose('fault');
  await solved();
  assert.match(await text('picture'), /the sum of the second circuit/);
  await choose('circuit');
  await click('proves');
  await solved();
  assert.equal(await text('verdict'), 'Unsatisfiable; no proof was asked for');
  assert.equal(await read(`document.getElementById('refuted').hidden`), true);
  await click('proves');

  // By the keyboard alone: from the top, each control gets the focus in turn, all are named, Control and Enter solve, Escape stops.
  const press = async (key, modifiers = 0) => {
    const code = { Tab: 9, Enter: 13, Escape: 27 }[key];
    for (const type of ['rawKeyDown', 'keyUp']) await call('Input.dispatchKeyEvent', { type, key, code: key, modifiers, windowsVirtualKeyCode: code });
  };
  await call('Page.navigate', { url: 'file://' + page });
  await until(`document.body && document.body.dataset.state === 'ready'`);
  const visited = [];
  for (let i = 0; i < 12; i++) {
    await press('Tab');
    visited.push(await read('document.activeElement.id || document.activeElement.tagName'));
  }
  for (const it of ['example', 'file', 'text', 'solve', 'assumed', 'proves', 'link', 'SUMMARY']) assert.ok(visited.includes(it), `Tab does not come to ${it}: ${visited}`);
  await press('Enter', 2);
  await until(`document.body.dataset.state === 'done'`);
  assert.equal(await text('verdict'), 'Satisfiable');
  await choose('hard');
  await press('Enter', 2);
  await until(`/searching/.test(document.getElementById('status').textContent)`);
  await press('Escape');
  await until(`document.body.dataset.state === 'done'`);
  assert.equal(await text('verdict'), 'Stopped');

  // What a screen reader is given: each control has a name.
  await call('Accessibility.enable');
  const { nodes } = await call('Accessibility.getFullAXTree');
  const controls = nodes.filter((it) => !it.ignored && ['button', 'textbox', 'combobox', 'checkbox', 'link', 'table'].includes(it.role?.value));
  assert.ok(controls.length >= 8);
  const nameless = controls.filter((it) => !it.name?.value && it.role.value !== 'table');
  assert.deepEqual(nameless.map((it) => it.role.value), []);
  for (const role of ['banner', 'main', 'contentinfo']) assert.ok(nodes.some((it) => it.role?.value === role), role);

  // Lines of a session.
  await read(`document.querySelectorAll('details').forEach((it) => { it.open = true; })`);
  await click('run');
  await until(`document.body.dataset.state === 'done'`);
  assert.equal(await text('answers'), 'ok\nok\nok false\nok -2 1 0\nok\nok true\nok 1 2 0');

  // A link carries the formula.
  await fill('text', 'c 7 = the seventh\np cnf 7 1\n7 0\n');
  await click('link');
  await until(`/address/.test(document.getElementById('linked').textContent)`);
  const link = await read('location.href');
  assert.match(link, /#formula=[\w-]+$/);
  await call('Page.navigate', { url: 'about:blank' });
  await call('Page.navigate', { url: link });
  await until(`document.body && document.body.dataset.state === 'ready'`);
  await solved();
  assert.equal(await text('model'), 'the seventh: yes');
  await call('Page.navigate', { url: `file://${page}#formula=xx` });
  await until(`/cannot be read/.test(document.getElementById('verdict')?.textContent)`);

  // On a phone nothing is wider than the screen.
  await call('Emulation.setDeviceMetricsOverride', { width: 375, height: 700, deviceScaleFactor: 2, mobile: true });
  await call('Page.navigate', { url: `file://${page}?example=sudoku&solve` });
  await until(`document.body?.dataset.state === 'done'`);
  assert.ok(await read('document.documentElement.scrollWidth <= 375'), 'the page is wider than a phone');
  await picture('phone.png');
  await call('Emulation.clearDeviceMetricsOverride');
  await call('Page.navigate', { url: 'file://' + page });
  await until(`document.body?.dataset.state === 'ready'`);

  await choose('random');
  await solved();
  console.log('random 200:', await text('verdict'), (await text('statistics')).match(/time\s+(\S+ s)/)[1]);

  // The page goes on while it searches, and stops at once.
  await choose('hard');
  await click('solve');
  await until(`/searching/.test(document.getElementById('status').textContent)`);
  let longest = 0;
  for (const end = Date.now() + 3000; Date.now() < end;) {
    const start = Date.now();
    await read('1');
    longest = Math.max(longest, Date.now() - start);
  }
  await picture('running.png');
  const before = Date.now();
  await click('stop');
  await until(`document.body.dataset.state === 'done'`);
  console.log(`stopped within ${Date.now() - before} ms; the page answered within ${longest} ms`);
  assert.equal(await text('verdict'), 'Stopped');

  // A long file, which is chosen as by a user.
  const long = path.join(home, 'long.cnf');
  const clauses = Array.from({ length: 200000 }, (_, i) => `${(i % 100000) + 1} ${((i * 7) % 100000) + 1} -${((i * 13) % 100000) + 1} 0\n`);
  fs.writeFileSync(long, 'c 3 = the third\np cnf 100000 200000\n' + clauses.join(''));
  const { root } = await call('DOM.getDocument'), { nodeId } = await call('DOM.querySelector', { nodeId: root.nodeId, selector: '#file' });
  await call('DOM.setFileInputFiles', { nodeId, files: [long] });
  await until(`/long.cnf/.test(document.getElementById('text').value)`);
  await solved();
  assert.equal(await text('verdict'), 'Satisfiable');
  assert.match(await text('model'), /^the third: (yes|no)$/);
  console.log('a long file:', (await text('statistics')).match(/time\s+(\S+ s)/)[1]);

  // What is begun after a stop is not stopped.
  await choose('hard');
  await click('solve');
  await pause(1500);
  assert.equal(await read('document.body.dataset.state'), 'running');
  await click('stop');
  await until(`document.body.dataset.state === 'done'`);

  if (process.env.FORMULA) {
    await fill('text', fs.readFileSync(process.env.FORMULA, 'utf8'));
    for (let i = 0; i < 3; i++) {
      await solved(120);
      console.log(process.env.FORMULA, await text('verdict'), (await text('statistics')).match(/time\s+(\S+ s)/)[1], '|', await text('checked'));
    }
  }
  // An example by the address.
  await call('Page.navigate', { url: `file://${page}?example=pigeons&solve` });
  await until(`document.getElementById('checked')?.dataset.number === '20'`);
  assert.deepEqual(complaints, []);
}

main().then(() => console.log('passed'), (error) => {
  console.log(error.stack, complaints);
  process.exitCode = 1;
}).finally(() => {
  chromium.once('exit', () => fs.rmSync(home, { recursive: true, force: true }));
  chromium.kill();
  setTimeout(() => chromium.kill('SIGKILL'), 5000).unref();
});
