// The solver in a web page: the module's calls, a worker that makes them, and the page. Nothing here is proved; the calls are those of
// crates/varisat_c, which are. The build puts this text, examples.js and the module into one page, and a worker is made of the same text.
'use strict';

const SATISFIABLE = 10, UNSATISFIABLE = 20, INTERRUPTED = 1;
const REASONS = {
  3: 'out of memory', 4: 'the solver is invalid', 5: 'the store of clauses is full', 7: 'a variable is above 2^28', 13: 'the text has a fault',
  16: 'a line is wrong, or no line', 17: 'a clause is not one of the text',
};
const COUNTERS = ['conflicts', 'decisions', 'propagations', 'restarts', 'learned literals', 'deleted clauses', 'collections'];

// The calls of a module. A number of 64 bits is a BigInt in JavaScript; of a byte only eight bits count.
class Calls {
  constructor(module) {
    this.exports = new WebAssembly.Instance(module).exports;
  }

  // A view of the memory, which is another one after each call.
  bytes(at, size) {
    return new Uint8Array(this.exports.memory.buffer, at, size);
  }

  // Does something with room for so many bytes, and frees it.
  within(size, use) {
    const at = Number(this.exports.web_new(BigInt(Math.max(size, 16))));
    if (at === 0) throw new Error(REASONS[3]);
    try {
      return use(at);
    } finally {
      this.exports.web_free(BigInt(at));
    }
  }

  // Does something with a copy of these bytes.
  over(bytes, use) {
    return this.within(bytes.length, (at) => {
      this.bytes(at, bytes.length).set(bytes);
      return use(at);
    });
  }

  // Does something with a copy of these numbers of 32 bits.
  overNumbers(numbers, use) {
    return this.over(new Uint8Array(Int32Array.from(numbers).buffer), use);
  }

  // The list that the last call of a solver or a simplifier made.
  copied(prefix, handle) {
    const count = Number(this.exports[prefix + 'list_len'](handle));
    return this.within(4 * count, (at) => {
      this.exports[prefix + 'list_copy'](handle, BigInt(at), BigInt(count));
      return new Int32Array(this.exports.memory.buffer, at, count).slice();
    });
  }

  // A handle of 16 bytes, opened. null where there is no memory.
  opened(prefix) {
    const handle = this.exports.web_new(16n);
    if (handle === 0n) return null;
    this.bytes(Number(handle), 16).fill(0);
    if (this.exports[prefix + 'open'](handle) & 1) return handle;
    this.exports.web_free(handle);
    return null;
  }

  // Checks a proof against a text: 20 where it refutes the text's clauses, 0 where all its lines are right, else what is wrong and where.
  check(text, proof, format = 0) {
    return this.within(16, (place) => this.over(text, (t) => this.over(proof, (p) => {
      const number = this.exports.caller_check(format, BigInt(t), BigInt(text.length), BigInt(p), BigInt(proof.length), BigInt(place)) & 255;
      return { number, place: Number(new DataView(this.exports.memory.buffer).getBigUint64(place, true)) };
    })));
  }
}

// A solver, which writes a DRAT proof if it is to. A call that is refused throws why.
class Solver {
  constructor(calls, proves = true, for_file = true) {
    this.calls = calls;
    this.handle = calls.opened('caller_');
    if (this.handle === null) throw new Error(REASONS[3]);
    // As the program searches a file: a page decides one formula. A session has the settings of a new solver.
    if (for_file) for (const [setting, value] of [[2, 2000n], [4, 1n], [5, 110n]]) this.must(this.call('config', setting, value));
    if (proves) this.must(this.call('open_proof', 0));
  }

  call(name, ...words) {
    return this.calls.exports['caller_' + name](this.handle, ...words);
  }

  must(number) {
    number &= 255;
    if (number === 0) return;
    const text = number === 3 ? '' : this.calls.within(200, (at) => {
      const size = Number(this.call('refusal_copy', BigInt(at), 200n));
      return new TextDecoder().decode(this.calls.bytes(at, size).slice());
    });
    throw new Error(text || REASONS[number] || `refused (${number})`);
  }

  // Adds the clauses of a DIMACS text, and returns how many variables it names.
  feed(text) {
    const piece = 1 << 20;
    for (let from = 0; from < text.length; from += piece) {
      const part = text.subarray(from, from + piece);
      this.must(this.calls.over(part, (at) => this.call('feed', BigInt(at), BigInt(part.length))));
    }
    const count = Number(this.call('end_text'));
    if (count < 0) this.must(-count);
    return count;
  }

  // Searches on for so many steps: 10, 20, or 0 where they are spent.
  solve(steps) {
    this.call('limit_steps', BigInt(steps));
    const number = this.call('solve') & 255;
    if (number === INTERRUPTED) return 0;
    if (number !== SATISFIABLE && number !== UNSATISFIABLE) this.must(number);
    return number;
  }

  // Makes a call that takes a list: `assume`, whose literals hold from now on, or `add_clause`. Returns its number.
  give(name, numbers) {
    return this.calls.overNumbers(numbers, (at) => this.call(name, BigInt(at), BigInt(numbers.length))) & 255;
  }

  assume(numbers) {
    this.must(this.give('assume', numbers));
  }

  // The list that a call returns: `model`, or `core`, those of the assumptions that fail together.
  list(name) {
    this.must(this.call(name));
    return this.calls.copied('caller_', this.handle);
  }

  // What was written of the proof since it was last taken.
  taken() {
    const count = Number(this.call('take_written'));
    return this.calls.within(count, (at) => {
      const size = Number(this.call('written_copy', 0n, BigInt(at), BigInt(count)));
      return this.calls.bytes(at, size).slice();
    });
  }

  statistics() {
    const found = {};
    COUNTERS.forEach((name, i) => { found[name] = Number(this.call('counter', i)); });
    found['steps'] = Number(this.call('steps'));
    return found;
  }

  close() {
    this.call('close');
    this.calls.exports.web_free(this.handle);
  }
}

// Makes a formula smaller before it is searched. It writes no proof.
class Simplifier {
  constructor(calls) {
    this.calls = calls;
    this.handle = calls.opened('simplifier_');
    if (this.handle === null) throw new Error(REASONS[3]);
  }

  call(name, ...words) {
    return this.calls.exports['simplifier_' + name](this.handle, ...words);
  }

  must(number) {
    if (number & 255) throw new Error(REASONS[number & 255] || `refused (${number & 255})`);
  }

  add(numbers) {
    this.must(this.calls.overNumbers(numbers, (at) => this.call('add_clause', BigInt(at), BigInt(numbers.length))));
  }

  // Simplifies, but for the variables of these literals, which keep their meaning. Returns the clauses that are left, each ended by 0.
  simplify(frozen) {
    for (const literal of frozen) this.must(this.call('freeze', Math.abs(literal)));
    this.must(this.call('simplify'));
    this.must(this.call('clauses'));
    return this.calls.copied('simplifier_', this.handle);
  }

  // A model of the clauses given, from a model of those left.
  extend(model) {
    this.must(this.calls.overNumbers(model, (at) => this.call('extend', BigInt(at), BigInt(model.length))));
    return this.calls.copied('simplifier_', this.handle);
  }

  close() {
    this.call('close');
    this.calls.exports.web_free(this.handle);
  }
}

// Calls `use` with each clause of a text that was read without a fault. This reader is no part of what is proved.
function eachClause(text, use) {
  let clause = [], is_negative = false, number = -1;
  const end = () => {
    if (number === 0) {
      use(clause);
      clause = [];
    } else if (number > 0) {
      clause.push(is_negative ? -number : number);
    }
    number = -1;
    is_negative = false;
  };
  for (let i = 0; i < text.length; i++) {
    const byte = text[i];
    if (byte >= 48 && byte <= 57) {
      number = Math.max(number, 0) * 10 + byte - 48;
    } else {
      end();
      if (byte === 45) is_negative = true;
      // A comment, the header, or an end.
      else if (byte === 99 || byte === 112 || byte === 37) while (i + 1 < text.length && text[i + 1] !== 10) i++;
    }
  }
  end();
}

// Which clauses of a text have no true literal in a model: none, if all is well.
function unsatisfied(text, model) {
  const bad = [], held = new Set(model);
  let place = 0;
  eachClause(text, (clause) => {
    if (!clause.some((l) => held.has(l))) bad.push(place);
    place++;
  });
  return bad;
}

function joined(parts) {
  const all = new Uint8Array(parts.reduce((n, it) => n + it.length, 0));
  let at = 0;
  for (const it of parts) {
    all.set(it, at);
    at += it.length;
  }
  return all;
}

// Searches in rounds of about 50 ms, between which `report` says whether to go on: 10, 20, or 0 if it was stopped.
async function searched(solver, report, take = () => {}) {
  for (let steps = 200; ;) {
    const begun = performance.now(), answer = solver.solve(steps), took = performance.now() - begun;
    take();
    if (answer !== 0) return answer;
    steps = Math.max(50, Math.min(1e6, Math.round((steps * 50) / Math.max(took, 1))));
    if (!(await report(solver))) return 0;
  }
}

// Decides a text, under assumptions if there are any. Without assumptions it writes a proof if it is to; else it simplifies first. Between
// rounds `report` is given how far it is, and says whether to go on.
async function decide(calls, text, report, assumed = [], asks_proof = true) {
  const proves = asks_proof && assumed.length === 0, parts = [], start = performance.now();
  let solver = new Solver(calls, proves), simplifier = null;
  const now = () => ({ ...solver.statistics(), memory: calls.exports.memory.buffer.byteLength, ms: performance.now() - start });
  try {
    const count = solver.feed(text);
    const read = performance.now() - start;
    if (!proves) {
      // The text has no fault, which the library's reader found: its clauses are given once more, to be simplified.
      simplifier = new Simplifier(calls);
      eachClause(text, (clause) => simplifier.add(clause));
      const left = simplifier.simplify(assumed);
      solver.close();
      solver = null;
      solver = new Solver(calls, false);
      for (let from = 0; from < left.length;) {
        const to = left.indexOf(0, from);
        solver.must(solver.give('add_clause', left.subarray(from, to)));
        from = to + 1;
      }
      solver.assume(assumed);
    }
    const answer = await searched(solver, () => report(now()), () => { if (proves) parts.push(solver.taken()); });
    const found = { answer, count, read, statistics: now() };
    if (answer === SATISFIABLE) {
      let model = solver.list('model');
      if (simplifier) {
        // An assumption may name a variable that the formula does not.
        const extended = simplifier.extend(model), known = new Set(extended.map(Math.abs));
        model = Int32Array.from([...extended, ...model.filter((l) => !known.has(Math.abs(l)))]);
      }
      const held = new Set(model), bad = unsatisfied(text, model).length + assumed.filter((l) => !held.has(l)).length;
      return { ...found, model, bad };
    }
    if (answer === UNSATISFIABLE && assumed.length) return { ...found, core: solver.list('core') };
    if (answer === UNSATISFIABLE && proves) {
      solver.must(solver.call('close_proof'));
      parts.push(solver.taken());
      return { ...found, proof: joined(parts) };
    }
    return found;
  } finally {
    solver?.close();
    simplifier?.close();
  }
}

// A solver that is called line by line, as by `varisat session`. It knows some of that command's calls.
class Session {
  constructor(calls) {
    this.solver = new Solver(calls, false, false);
  }

  // The answer to a line; `report` says whether a search is to go on.
  async answer(line, report) {
    const [word, ...rest] = line.trim().split(/\s+/), numbers = rest.map(Number);
    const are_literals = rest.every((it) => /^-?[1-9][0-9]*$/.test(it)) && numbers.every((it) => Math.abs(it) < 2 ** 31);
    const takes = { add: 'add_clause', assume: 'assume' }, tells = { model: 'model', core: 'core' };
    try {
      if (word in takes && are_literals) {
        this.solver.must(this.solver.give(takes[word], numbers));
        return 'ok';
      }
      if (rest.length) return 'bad line';
      if (word in tells) return ['ok', ...this.solver.list(tells[word]), 0].join(' ');
      if (word === 'steps') return `ok ${Number(this.solver.call('steps'))}`;
      if (word !== 'solve') return 'bad line';
      const answer = await searched(this.solver, report);
      return answer === 0 ? 'stopped' : `ok ${answer === SATISFIABLE}`;
    } catch (error) {
      if (error instanceof WebAssembly.RuntimeError) throw error;
      return `err: ${error.message}`;
    }
  }

  close() {
    this.solver.close();
  }
}

// The worker: it is given the module, then texts to be decided and proofs to be checked.
function work() {
  let calls = null, goes = false;
  const pause = () => new Promise((go) => setTimeout(go, 0));
  const check = (text, proof) => {
    const start = performance.now();
    const checked = calls.check(text, proof);
    postMessage({ checked, ms: performance.now() - start });
  };
  onmessage = async ({ data }) => {
    try {
      if (data.module) calls = new Calls(data.module);
      if (data.stop) goes = false;
      if (data.check) check(data.check, data.proof);
      if (data.solve) {
        goes = true;
        let told = 0;
        const result = await decide(calls, data.solve, async (now) => {
          if (now.ms - told > 200) {
            told = now.ms;
            postMessage({ progress: now });
          }
          await pause();
          return goes;
        }, data.assumed, data.proves);
        postMessage({ result });
        if (result.proof) check(data.solve, result.proof);
      }
      if (data.lines) {
        goes = true;
        const session = new Session(calls), answers = [];
        const report = async () => {
          await pause();
          return goes;
        };
        try {
          for (const line of data.lines) if (line.trim()) answers.push(await session.answer(line, report));
        } finally {
          session.close();
        }
        postMessage({ answers });
      }
    } catch (error) {
      // After a trap nobody knows what is in the memory.
      postMessage({ error: String(error.message || error), dead: error instanceof WebAssembly.RuntimeError });
    }
  };
}

// The page.

const MOST_SHOWN = 2000, MOST_TEXT = 1 << 20, MOST_LINK = 8000;

// A formula in the part of a link that goes to no server: its bytes, compressed, as letters.
async function packed(text) {
  const stream = new Blob([text]).stream().pipeThrough(new CompressionStream('deflate-raw'));
  const bytes = new Uint8Array(await new Response(stream).arrayBuffer());
  return btoa(String.fromCharCode(...bytes)).replaceAll('+', '-').replaceAll('/', '_').replace(/=+$/, '');
}

async function unpacked(letters) {
  const bytes = Uint8Array.from(atob(letters.replaceAll('-', '+').replaceAll('_', '/')), (it) => it.charCodeAt(0));
  return new Response(new Blob([bytes]).stream().pipeThrough(new DecompressionStream('deflate-raw'))).text();
}

function made(kind, text, name = '') {
  const it = document.createElement(kind);
  it.textContent = text;
  it.className = name;
  return it;
}

function show() {
  const part = (name) => document.getElementById(name);
  const source = part('code').textContent;
  const bytes = Uint8Array.from(atob(part('binary').textContent.trim()), (it) => it.charCodeAt(0));
  let compiled = null, worker = null, solved = '', solvedExample = null, waits = 0, held = null, saved = null;

  // A long file is kept beside the text that can be edited.
  const given = () => held ?? new TextEncoder().encode(part('text').value);
  const hold = (bytes, name) => {
    const is_long = bytes.length > MOST_TEXT;
    held = is_long ? bytes : null;
    part('text').value = is_long ? `c ${name}: ${(bytes.length / 2 ** 20).toFixed(1)} MB, not shown\n` : new TextDecoder().decode(bytes);
    part('text').readOnly = is_long;
  };
  // The example whose text is unchanged, or null.
  const example = () => {
    const it = EXAMPLES[part('example').value];
    return it && held === null && part('text').value === it.text() ? it : null;
  };

  // A new worker, since one that does not answer is ended.
  const begin = async () => {
    compiled ??= await WebAssembly.compile(bytes);
    const place = URL.createObjectURL(new Blob([source], { type: 'text/javascript' }));
    worker = new Worker(place);
    URL.revokeObjectURL(place);
    worker.onmessage = ({ data }) => take(data);
    worker.onerror = (event) => take({ error: event.message, dead: true });
    worker.postMessage({ module: compiled });
  };
  const ask = async (what) => {
    if (!worker) await begin();
    worker.postMessage(what);
  };
  const end = () => {
    worker?.terminate();
    worker = null;
  };
  const goes = (is) => {
    clearTimeout(waits);
    for (const it of ['solve', 'check', 'run']) part(it).disabled = is;
    part('stop').disabled = !is;
    document.body.dataset.state = is ? 'running' : 'done';
  };
  const tell = (text, kind = '') => {
    part('verdict').textContent = text;
    part('verdict').className = kind;
  };
  const status = (text) => { part('status').textContent = text; };
  const count = (now) => {
    const rows = { ...now, memory: `${(now.memory / 2 ** 20).toFixed(1)} MB`, time: `${(now.ms / 1000).toFixed(2)} s` };
    delete rows.ms;
    part('statistics').replaceChildren(...Object.entries(rows).map(([name, value]) => {
      const row = document.createElement('tr'), head = made('th', name);
      head.scope = 'row';
      row.append(head, made('td', typeof value === 'number' ? value.toLocaleString('en') : value));
      return row;
    }));
    part('counted').hidden = false;
  };

  // A model in the form of its example: a table whose first cells are heads, or a square of digits.
  const table = ({ caption, rows, is_square }) => {
    const it = made('table', '', is_square ? 'square' : 'rows'), body = document.createElement('tbody');
    body.append(...rows.map((cells) => {
      const row = document.createElement('tr');
      row.append(...cells.map((cell, i) => {
        if (is_square) return typeof cell === 'object' ? made('td', cell.given, 'given') : made('td', cell);
        const found = made(i ? 'td' : 'th', cell);
        if (!i) found.scope = 'row';
        return found;
      }));
      return row;
    }));
    it.append(made('caption', caption), body);
    return it;
  };
  const literals = (found, known) => found.map((l) => {
    const name = known.get(Math.abs(l));
    return made('li', name ? `${name}: ${l > 0 ? 'yes' : 'no'}` : String(l), l > 0 ? 'yes' : 'no');
  });
  const showModel = (model, bad) => {
    const known = names(solved), found = [...model].filter((l) => !known.size || known.has(Math.abs(l))), holds = new Set(model);
    part('picture').replaceChildren(...(solvedExample?.rows ? [table(solvedExample.rows((l) => holds.has(l)))] : []));
    part('model').replaceChildren(...literals(found.slice(0, MOST_SHOWN), known));
    part('all').open = !solvedExample?.rows;
    part('kind').textContent = 'Model';
    part('sure').textContent = (bad ? `${bad} clauses are not satisfied: this is a fault.` : 'Looked through again: each clause holds a true literal.')
      + (found.length > MOST_SHOWN ? ` The first ${MOST_SHOWN} of ${found.length} variables:` : '');
    part('found').hidden = false;
  };
  const showCore = (core) => {
    tell('Unsatisfiable under the assumptions', 'no');
    part('picture').replaceChildren();
    part('kind').textContent = 'Core';
    part('sure').textContent = core.length ? 'These of them fail together with the clauses:' : 'The clauses fail without them.';
    part('model').replaceChildren(...literals([...core], names(solved)));
    part('all').open = true;
    part('found').hidden = false;
  };
  const showProof = (proof) => {
    const is_long = proof.length > MOST_TEXT;
    part('proof').value = is_long ? '' : new TextDecoder().decode(proof);
    part('check').hidden = is_long;
    part('proof').placeholder = is_long ? `${(proof.length / 2 ** 20).toFixed(1)} MB: too long to be shown. Save it.` : '';
    if (saved) URL.revokeObjectURL(saved);
    saved = URL.createObjectURL(new Blob([proof]));
    part('save').href = saved;
    part('checked').textContent = 'The proof is being checked ...';
    part('refuted').hidden = false;
  };
  const showCheck = ({ number, place }, ms) => {
    part('checked').textContent = number === UNSATISFIABLE
      ? `The checker accepts the proof: no assignment satisfies the formula (${(ms / 1000).toFixed(2)} s).`
      : number === 0 ? 'All lines are right, but they refute nothing.' : `The checker refuses it: ${REASONS[number] || number}, at ${place}.`;
    part('checked').dataset.number = number;
  };

  const take = (data) => {
    if (data.progress) {
      count(data.progress);
      status(`searching, ${data.progress.conflicts.toLocaleString('en')} conflicts`);
    }
    if (data.result) {
      const { answer, statistics, model, bad, proof, core } = data.result;
      count(statistics);
      status('');
      if (answer === SATISFIABLE) {
        tell('Satisfiable', 'yes');
        showModel(model, bad);
      } else if (core) {
        showCore(core);
      } else if (proof) {
        tell('Unsatisfiable', 'no');
        showProof(proof);
        return;
      } else if (answer === UNSATISFIABLE) {
        tell('Unsatisfiable; no proof was asked for', 'no');
      } else {
        tell('Stopped');
      }
      goes(false);
    }
    if (data.checked) {
      showCheck(data.checked, data.ms);
      goes(false);
    }
    if (data.answers) {
      part('answers').textContent = data.answers.join('\n');
      status('');
      goes(false);
    }
    if (data.error) {
      status('');
      tell(data.error, 'no');
      if (data.dead) end();
      goes(false);
    }
  };

  const solve = async () => {
    if (part('solve').disabled) return;
    const bytes = given();
    solved = new TextDecoder().decode(bytes.subarray(0, MOST_TEXT));
    solvedExample = example();
    const assumed = part('assumed').value.split(/[\s,]+/).filter((it) => it !== '').map(Number);
    if (!assumed.every((l) => Number.isInteger(l) && l !== 0 && Math.abs(l) < 2 ** 31)) {
      tell('An assumption is no literal: a number, or its opposite', 'no');
      return;
    }
    for (const it of ['found', 'refuted', 'counted']) part(it).hidden = true;
    delete part('checked').dataset.number;
    tell('');
    status('reading');
    goes(true);
    await ask({ solve: bytes, assumed, proves: part('proves').checked });
  };
  const stop = () => {
    if (part('stop').disabled) return;
    worker?.postMessage({ stop: true });
    // A text that is being read or simplified, or a proof that is being checked, does not answer.
    clearTimeout(waits);
    waits = setTimeout(() => {
      end();
      status('');
      if (part('verdict').textContent) part('checked').textContent = 'The check was stopped.';
      else tell('Stopped');
      goes(false);
    }, 1000);
  };
  part('solve').onclick = solve;
  part('stop').onclick = stop;
  part('check').onclick = async () => {
    part('checked').textContent = 'The proof is being checked ...';
    goes(true);
    await ask({ check: given(), proof: new TextEncoder().encode(part('proof').value) });
  };
  part('run').onclick = async () => {
    part('answers').textContent = '';
    tell('');
    status('answering');
    goes(true);
    await ask({ lines: part('lines').value.split('\n') });
  };
  part('link').onclick = async () => {
    const letters = held === null ? await packed(part('text').value) : null;
    if (letters === null || letters.length > MOST_LINK) {
      part('linked').textContent = 'The formula is too long for a link.';
      return;
    }
    // The address of this page itself, so that it can be copied where nothing may write to the clipboard.
    history.replaceState(null, '', `#formula=${letters}`);
    const is_copied = await navigator.clipboard?.writeText(location.href).then(() => true, () => false);
    part('linked').textContent = is_copied ? 'Copied; it is the address of this page now.' : 'It is the address of this page now.';
  };
  document.addEventListener('keydown', (event) => {
    if (event.key === 'Enter' && (event.ctrlKey || event.metaKey)) {
      event.preventDefault();
      if (document.activeElement === part('lines')) part('run').click();
      else solve();
    } else if (event.key === 'Escape') {
      stop();
    }
  });
  part('file').onchange = async ({ target: { files: [file] } }) => {
    if (!file) return;
    hold(new Uint8Array(await file.arrayBuffer()), file.name);
    part('example').value = '';
    part('about').textContent = '';
  };
  part('example').add(new Option('your own', ''));
  for (const [name, { title }] of Object.entries(EXAMPLES)) part('example').add(new Option(title, name));
  part('example').onchange = () => {
    const it = EXAMPLES[part('example').value];
    part('about').textContent = it?.about ?? 'A text in DIMACS CNF: each number is a variable, a minus negates it, and each clause ends with 0. A line “c 5 = name” gives a variable a name.';
    hold(new TextEncoder().encode(it?.text() ?? ''), 'text');
    part('assumed').value = '';
    part('linked').textContent = '';
  };

  const start = async () => {
    const words = new URLSearchParams(location.search), wanted = words.get('example'), letters = /^#formula=([\w-]+)$/.exec(location.hash);
    part('example').value = letters ? '' : wanted in EXAMPLES ? wanted : 'dinner';
    part('example').onchange();
    if (letters) {
      try {
        part('text').value = await unpacked(letters[1]);
      } catch {
        tell('The formula of this link cannot be read', 'no');
      }
    }
    document.body.dataset.state = 'ready';
    if (words.has('solve')) solve();
  };
  addEventListener('hashchange', start);
  start();
}

if (typeof module === 'object') {
  module.exports = { Calls, Solver, Session, decide, unsatisfied };
} else if (typeof document === 'undefined') {
  work();
} else {
  addEventListener('DOMContentLoaded', () => show());
}
