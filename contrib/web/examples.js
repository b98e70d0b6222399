// The examples of the page: each makes a DIMACS text, says in words what it asks, and may show its model in its own form.
'use strict';

// A DIMACS text of clauses, with comments.
function written(comments, count, clauses) {
  return [...comments.map((it) => 'c ' + it), `p cnf ${count} ${clauses.length}`, ...clauses.map((it) => [...it, 0].join(' '))].join('\n') + '\n';
}

// Clauses that no two of the literals are true.
function atMostOne(literals) {
  return literals.flatMap((a, i) => literals.slice(0, i).map((b) => [-b, -a]));
}

const DINNER = `c A dinner with three guests: Ann comes (1), Ben comes (2), Cleo comes (3).
c Someone comes. Ann comes only with Ben. Ben and Cleo are not both there.
c Cleo comes if Ann does not.
p cnf 3 4
1 2 3 0
-1 2 0
-2 -3 0
1 3 0
`;

// The courses of a school day with their teachers, and which of them have a student in common.
const HOURS = ['9:00', '10:00', '11:00', '12:00'];
const COURSES = [
  ['Algebra', 'Ada'], ['Geometry', 'Ada'], ['Logic', 'Ben'], ['Chemistry', 'Ben'], ['Physics', 'Cleo'], ['History', 'Dora'], ['Music', 'Dora'],
];
const SHARED = [['Algebra', 'Physics'], ['Algebra', 'History'], ['Logic', 'Physics'], ['Chemistry', 'Geometry'], ['History', 'Geometry'], ['Logic', 'Music']];
const courseAt = (course, hour) => course * HOURS.length + hour + 1;

function timetable() {
  const clauses = [], number = (name) => COURSES.findIndex(([it]) => it === name), hours = HOURS.map((_, h) => h);
  COURSES.forEach((_, c) => clauses.push(hours.map((h) => courseAt(c, h)), ...atMostOne(hours.map((h) => courseAt(c, h)))));
  const apart = (c, d) => hours.forEach((h) => clauses.push([-courseAt(c, h), -courseAt(d, h)]));
  COURSES.forEach(([, teacher], c) => COURSES.forEach(([, other], d) => { if (c < d && teacher === other) apart(c, d); }));
  SHARED.forEach(([c, d]) => apart(number(c), number(d)));
  // Two rooms: of three courses one is at another hour.
  hours.forEach((h) => COURSES.forEach((_, c) => COURSES.forEach((_, d) => COURSES.forEach((_, e) => {
    if (c < d && d < e) clauses.push([-courseAt(c, h), -courseAt(d, h), -courseAt(e, h)]);
  }))));
  // Ben comes at ten, and music is last.
  for (const name of ['Logic', 'Chemistry']) clauses.push([-courseAt(number(name), 0)]);
  clauses.push([courseAt(number('Music'), HOURS.length - 1)]);
  const comments = COURSES.flatMap(([name, teacher], c) => HOURS.map((hour, h) => `${courseAt(c, h)} = ${name} (${teacher}) at ${hour}`));
  return written(['A timetable: seven courses, four hours, two rooms.', ...comments], COURSES.length * HOURS.length, clauses);
}

function timetableRows(holds) {
  return { caption: 'The timetable', rows: HOURS.map((hour, h) => [hour, COURSES.flatMap(([name, teacher], c) => (holds(courseAt(c, h)) ? [`${name} (${teacher})`] : [])).join(', ')]) };
}

const SUDOKU = ['53..7....', '6..195...', '.98....6.', '8...6...3', '4..8.3..1', '7...2...6', '.6....28.', '...419..5', '....8..79'];
const cellIs = (row, column, digit) => 81 * row + 9 * column + digit;

function sudoku() {
  const nine = [0, 1, 2, 3, 4, 5, 6, 7, 8], digits = nine.map((it) => it + 1), clauses = [];
  SUDOKU.forEach((line, r) => [...line].forEach((it, c) => { if (it !== '.') clauses.push([cellIs(r, c, Number(it))]); }));
  for (const r of nine) for (const c of nine) clauses.push(digits.map((d) => cellIs(r, c, d)));
  for (const d of digits) {
    for (const i of nine) {
      const box = nine.map((j) => cellIs(3 * Math.floor(i / 3) + Math.floor(j / 3), 3 * (i % 3) + (j % 3), d));
      clauses.push(...atMostOne(nine.map((j) => cellIs(i, j, d))), ...atMostOne(nine.map((j) => cellIs(j, i, d))), ...atMostOne(box));
    }
  }
  return written(['A sudoku. The variable 81 r + 9 c + d says that row r + 1, column c + 1 has the digit d, for r and c from 0 to 8.'], 729, clauses);
}

function sudokuRows(holds) {
  const digitOf = (r, c) => [1, 2, 3, 4, 5, 6, 7, 8, 9].filter((d) => holds(cellIs(r, c, d))).join('/');
  return { caption: 'The sudoku; bold digits were given', is_square: true, rows: SUDOKU.map((line, r) => [...line].map((it, c) => (it === '.' ? digitOf(r, c) : { given: digitOf(r, c) }))) };
}

// Gates, each a variable with the clauses that tie it to its inputs.
class Circuit {
  constructor() {
    this.count = 0;
    this.clauses = [];
  }

  input() {
    return ++this.count;
  }

  and(a, b) {
    const out = this.input();
    this.clauses.push([-out, a], [-out, b], [out, -a, -b]);
    return out;
  }

  or(a, b) {
    return -this.and(-a, -b);
  }

  xor(a, b) {
    const out = this.input();
    this.clauses.push([-out, a, b], [-out, -a, -b], [out, -a, b], [out, a, -b]);
    return out;
  }
}

const BITS = 4;

// Two circuits that add numbers of some bits, and a wire that is true if their sums differ. With a fault the second one forgets a carry.
function adders(has_fault) {
  const it = new Circuit(), bits = Array.from({ length: BITS }, (_, i) => i), a = bits.map(() => it.input()), b = bits.map(() => it.input());
  const one = [], other = [];
  let carry = it.input(), second = carry;
  it.clauses.push([-carry]);
  for (const i of bits) {
    const half = it.xor(a[i], b[i]);
    one.push(it.xor(half, carry));
    other.push(it.xor(a[i], it.xor(b[i], second)));
    carry = it.or(it.and(a[i], b[i]), it.and(half, carry));
    const both = it.or(it.and(a[i], b[i]), it.and(a[i], second));
    second = has_fault && i === 1 ? both : it.or(both, it.and(b[i], second));
  }
  one.push(carry);
  other.push(second);
  it.clauses.push(one.map((wire, i) => it.xor(wire, other[i])));
  return { it, a, b, one, other };
}

function circuit(has_fault) {
  const { it, a, b } = adders(has_fault);
  const comments = [...a.map((v, i) => `${v} = bit ${i} of the first number`), ...b.map((v, i) => `${v} = bit ${i} of the second number`)];
  return written([`Two circuits that add numbers of ${BITS} bits: is there an input at which they differ?`, ...comments], it.count, it.clauses);
}

function circuitRows(has_fault, holds) {
  const { a, b, one, other } = adders(has_fault), value = (wires) => wires.reduce((sum, wire, i) => sum + (holds(wire) ? 2 ** i : 0), 0);
  return { caption: 'An input at which the circuits differ', rows: [['the first number', String(value(a))], ['the second number', String(value(b))], ['the sum of the first circuit', String(value(one))], ['the sum of the second circuit', String(value(other))]] };
}

// Clauses that put so many pigeons into one hole less.
function pigeons(count) {
  const at = (pigeon, hole) => pigeon * (count - 1) + hole + 1, clauses = [];
  for (let p = 0; p < count; p++) clauses.push(Array.from({ length: count - 1 }, (_, h) => at(p, h)));
  for (let h = 0; h < count - 1; h++) clauses.push(...atMostOne(Array.from({ length: count }, (_, p) => at(p, h))));
  return written([`${count} pigeons into ${count - 1} holes, each in one, no two in the same.`], count * (count - 1), clauses);
}

// Clauses of three literals each, the same for each seed.
function random(variables, count, seed) {
  let state = seed;
  const below = (n) => {
    state = (Math.imul(state, 1664525) + 1013904223) >>> 0;
    return Math.floor((state / 2 ** 32) * n);
  };
  const clauses = [];
  while (clauses.length < count) {
    const three = new Set();
    while (three.size < 3) three.add(below(variables) + 1);
    clauses.push([...three].map((v) => (below(2) ? v : -v)));
  }
  return written([`${count} random clauses of three literals over ${variables} variables.`], variables, clauses);
}

const EXAMPLES = {
  dinner: {
    title: 'A dinner with three guests', text: () => DINNER,
    about: 'Ann, Ben and Cleo are invited, and four rules say who comes with whom. Who can come? Each number is a guest, a minus says that the guest stays away, and each line that ends with 0 is a rule: at least one of its parts is true. Type 1 3 into the field “assuming” to ask whether Ann and Cleo can both come, and which of the two is to blame.',
  },
  timetable: {
    title: 'A timetable', text: timetable, rows: timetableRows,
    about: 'Seven courses are to be given in four hours and two rooms. No teacher and no student can be in two courses at once, Ben comes at ten, and music is last. Each variable says that a course is at an hour. Type 1 into the field “assuming” to have algebra at nine.',
  },
  sudoku: {
    title: 'A sudoku', text: sudoku, rows: sudokuRows,
    about: 'Each cell has a digit, and no row, column or box has a digit twice: 8,859 clauses say so. Each variable says that a cell has a digit.',
  },
  circuit: {
    title: 'Two circuits that are the same', text: () => circuit(false),
    about: `Two circuits add numbers of ${BITS} bits in different ways. The formula asks for an input at which their sums differ. There is none, which the proof shows for all ${4 ** BITS} inputs at once: this is how chips are verified.`,
  },
  fault: {
    title: 'Two circuits, one with a fault', text: () => circuit(true), rows: (holds) => circuitRows(true, holds),
    about: 'The same two circuits, but one of them forgets a carry. The model is an input at which the fault shows.',
  },
  pigeons: {
    title: 'Seven pigeons, six holes', text: () => pigeons(7),
    about: 'Seven pigeons do not fit into six holes with one in each. The solver does not count: it has to rule out one way after another, and its proof has hundreds of lines.',
  },
  random: {
    title: 'Random, 200 variables', text: () => random(200, 852, 1),
    about: 'Random clauses, about as many as are hardest for their number of variables.',
  },
  hard: {
    title: 'Twelve pigeons, eleven holes: to be stopped', text: () => pigeons(12),
    about: 'The same with twelve pigeons takes hours: this one is here to be stopped.',
  },
};

// What the comments say of variables: lines `c 5 = name` or `c 5 name`, and in a sentence `name (5)`.
function names(text) {
  const found = new Map();
  for (const line of text.split('\n')) {
    if (!line.startsWith('c ')) continue;
    const whole = /^c\s+(\d+)\s*(?:=|:)?\s+(\S.*)$/.exec(line);
    if (whole) found.set(Number(whole[1]), whole[2].trim());
    else for (const [, name, number] of line.slice(2).matchAll(/([^,;:()]*?)\s*\((\d+)\)/g)) if (name.trim()) found.set(Number(number), name.trim());
  }
  return found;
}

if (typeof module === 'object') module.exports = { EXAMPLES, names };
