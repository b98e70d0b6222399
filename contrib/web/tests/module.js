// node module.js MODULE.wasm [FOLDER]: the module in node. With a folder of formulas and of what the library for C made of them: it makes
// the same, byte for byte. Else its calls, used rightly and wrongly.
'use strict';
const assert = require('assert');
const fs = require('fs');
const path = require('path');
const { Calls, Solver, Session, decide, unsatisfied } = require('../varisat.js');
const { EXAMPLES, names } = require('../examples.js');

const [file, folder] = process.argv.slice(2);
const bytes = (text) => new TextEncoder().encode(text);
const module_ = new WebAssembly.Module(fs.readFileSync(file));
const calls = new Calls(module_);
const solved = (text) => decide(calls, bytes(text), async () => true);

async function compare() {
  const formulas = fs.readdirSync(folder).filter((it) => it.endsWith('.cnf'));
  let refuted = 0;
  for (const it of formulas) {
    const text = fs.readFileSync(path.join(folder, it)), found = await decide(calls, text, async () => true);
    const wanted = fs.readFileSync(path.join(folder, it.replace('.cnf', '.out')));
    assert.ok(wanted.equals(found.answer === 20 ? Buffer.from(found.proof) : Buffer.from([...found.model].join(' '))), it);
    if (found.answer === 20) {
      refuted++;
      assert.equal(calls.check(text, found.proof).number, 20);
    } else {
      assert.equal(found.bad, 0);
    }
  }
  assert.ok(refuted > 20 && refuted < formulas.length - 20);
  console.log(`contrib/web: the same as the library for C on ${formulas.length} formulas, ${refuted} of them with a proof`);
}

async function tryCalls() {
  // It takes nothing from its host.
  assert.deepEqual(WebAssembly.Module.imports(module_), []);
  const dinner = fs.readFileSync(path.join(__dirname, '../../../examples/dinner.cnf'), 'utf8');
  assert.equal(EXAMPLES.dinner.text(), dinner);
  assert.deepEqual([...names(dinner).values()], ['Ann comes', 'Ben comes', 'Cleo comes']);
  const { answer, model, bad } = await solved(dinner);
  assert.deepEqual([answer, bad, model.length], [10, 0, 3]);
  assert.equal(unsatisfied(bytes(dinner), [-1, -2, -3]).length, 2);

  const square = fs.readFileSync(path.join(__dirname, '../../../examples/square.cnf'), 'utf8'), refuted = await solved(square);
  assert.equal(refuted.answer, 20);
  const text = bytes(square);
  assert.deepEqual(calls.check(text, refuted.proof), { number: 20, place: 0 });
  assert.deepEqual(calls.check(text, bytes('')), { number: 0, place: 0 });
  assert.equal(calls.check(bytes('p cnf 2 1\n1 2 0\n'), refuted.proof).number, 16);
  assert.deepEqual(calls.check(text, bytes('1 x 0\n')).number, 16);
  assert.deepEqual(calls.check(bytes('p cnf 2 1\n1 two 0\n'), bytes('')), { number: 13, place: 2 });
  assert.equal((await solved('')).answer, 10);
  assert.equal((await solved('p cnf 0 1\n0\n')).answer, 20);
  await assert.rejects(solved('p cnf 2 1\n1 two 0\n'), /line 2/);
  await assert.rejects(solved('p cnf 2 1\n1 300000000 0\n'), /./);

  const under = (...assumed) => decide(calls, bytes(dinner), async () => true, assumed);
  assert.deepEqual([(await under(2, -3)).bad, [...(await under(2, -3)).model]], [0, [1, 2, -3]]);
  assert.deepEqual([...(await under(2, 3)).core].sort(), [2, 3]);
  assert.deepEqual([...(await decide(calls, text, async () => true, [1])).core], []);

  // Each example, with a proof and, simplified first, without one. What has its own form is shown as it should be.
  const shown = {};
  for (const [name, it] of Object.entries(EXAMPLES)) {
    if (name === 'hard') continue;
    for (const proves of [true, false]) {
      const found = await decide(calls, bytes(it.text()), async () => true, [], proves);
      assert.equal(found.answer, ['circuit', 'pigeons'].includes(name) ? 20 : name === 'random' ? found.answer : 10, name);
      if (found.answer === 10) assert.equal(found.bad, 0, name);
      else assert.equal('proof' in found, proves, name);
      if (it.rows) {
        const held = new Set(found.model);
        shown[name] = it.rows((l) => held.has(l)).rows;
      }
    }
  }
  assert.deepEqual(shown.timetable.map(([hour]) => hour), ['9:00', '10:00', '11:00', '12:00']);
  assert.equal(shown.timetable.flatMap(([, it]) => it.split(', ')).length, 7);
  assert.equal(shown.sudoku.map((row) => row.map((it) => it.given ?? it).join('')).join(' '),
    '534678912 672195348 198342567 859761423 426853791 713924856 961537284 287419635 345286179');
  const [a, b, one, other] = shown.fault.map(([, it]) => Number(it));
  assert.ok(one === a + b && other !== a + b);

  // Without a proof and under assumptions the answers are the same, and models satisfy what was given: small random formulas.
  for (let seed = 1; seed <= 200; seed++) {
    let state = seed;
    const below = (n) => Math.floor(((state = (Math.imul(state, 1664525) + 1013904223) >>> 0) / 2 ** 32) * n);
    const literal = () => (below(2) ? 1 : -1) * (below(12) + 1);
    const clauses = Array.from({ length: 30 + below(30) }, () => Array.from({ length: 1 + below(3) }, literal).concat(0).join(' '));
    const some = bytes(clauses.slice(0, 10 + below(clauses.length - 10)).join('\n')), assumed = [...new Set(Array.from({ length: below(3) }, literal))];
    const whole = await decide(calls, some, async () => true, [], true), without = await decide(calls, some, async () => true, [], false);
    assert.deepEqual([without.answer, without.bad], [whole.answer, whole.bad]);
    const held = await decide(calls, some, async () => true, assumed), units = bytes(`${new TextDecoder().decode(some)}\n${assumed.map((l) => l + ' 0').join('\n')}`);
    const as_units = await decide(calls, units, async () => true);
    assert.deepEqual([held.answer, held.bad], [as_units.answer, as_units.bad]);
    if (held.core) {
      const fails = bytes(`${new TextDecoder().decode(some)}\n${[...held.core].map((l) => l + ' 0').join('\n')}`);
      assert.equal((await decide(calls, fails, async () => true)).answer, 20);
      assert.ok([...held.core].every((l) => assumed.includes(l)));
    }
  }

  // A session answers as README says that the command does.
  const session = new Session(calls), answers = [];
  for (const line of ['add -1 2', 'assume 1 -2', 'solve', 'core', 'assume 1', 'solve', 'model', 'add x', 'core', 'solve 1', 'steps']) {
    answers.push(await session.answer(line, async () => true));
  }
  session.close();
  assert.deepEqual(answers.slice(0, 7), ['ok', 'ok', 'ok false', 'ok -2 1 0', 'ok', 'ok true', 'ok 1 2 0']);
  assert.deepEqual([answers[7], answers[9]], ['bad line', 'bad line']);
  assert.match(answers[8], /^err: /);
  assert.match(answers[10], /^ok [0-9]+$/);

  // Stopped after a round; a search in many short rounds is the same.
  let rounds = 0;
  const stopped = await decide(calls, bytes(EXAMPLES.hard.text()), async () => ++rounds < 3);
  assert.deepEqual([stopped.answer, rounds], [0, 3]);
  const pigeons = bytes(EXAMPLES.pigeons.text()), whole = await decide(calls, pigeons, async () => true), solver = new Solver(calls), parts = [];
  solver.feed(pigeons);
  while (solver.solve(7) === 0) parts.push(solver.taken());
  solver.must(solver.call('close_proof'));
  parts.push(solver.taken());
  solver.close();
  assert.ok(Buffer.concat(parts).equals(Buffer.from(whole.proof)));
  // A text of some megabytes, in pieces.
  const long = 'p cnf 1000 200000\n' + Array.from({ length: 200000 }, (_, i) => `${i % 1000 + 1} ${(i * 7) % 1000 + 1} -${(i * 13) % 1000 + 1} 0\n`).join('');
  assert.deepEqual([(await solved(long)).answer, (await solved(long)).bad], [10, 0]);
  // All memory is given back.
  assert.equal(calls.exports.web_bytes(), 0n);
  // Out of memory is an answer: the host lets the memory grow no more.
  const small = new Calls(module_);
  const room = [];
  for (let size = 1n << 28n; size > 1n << 10n;) {
    const at = small.exports.web_new(size);
    if (at === 0n) size /= 2n;
    else room.push(at);
    if (room.length > 14 && size === 1n << 28n) break;
  }
  if (room.length < 15) {
    await assert.rejects(decide(small, bytes(long), async () => true), /memory/);
    for (const at of room) small.exports.web_free(at);
    assert.equal((await decide(small, bytes(dinner), async () => true)).answer, 10);
  }
  console.log('contrib/web: the calls are right');
}

(folder ? compare() : tryCalls()).catch((error) => {
  console.error(error);
  process.exitCode = 1;
});
