// Checks certificates as verify.py does, step by step, and says the same: node verify.mjs [FILE..]   (- is standard input)

const MOST_BYTES = 1 << 24, MOST_DEEP = 81, MEMBERS = ['answer', 'game', 'id', 'needed', 'solutions', 'steps'];
/** @type {Record<string, RegExp>} */
const HEADS = {towers: /^[3-9](d[ehxu])?$/, unequal: /^[3-9](d[tekxr])?$/};
/** @type {Record<string, [number, string]>} */
const ANSWERS = {none: [0, 'No solution'], one: [1, 'Exactly one solution'], several: [2, 'Several solutions']};
const SUPPOSE = ['suppose', 'lemma'];
const NO_ID = 'its ID is none that this program can read';
/** @typedef {{w: number, lines: number[][], views: number[][], clues: Map<number, number>, signs: Set<string>, givens: number[]}} Puzzle */
/** @typedef {Map<number, number[]>} Lemma */

/** @type {(isSo: unknown, why: string, status?: 1 | 2) => asserts isSo} */
function expect(isSo, why, status = 2) {
  if (!isSo) throw Object.assign(Error(why), {status});
}
/** @param {number} least @param {number} most */
const range = (least, most) => Array.from({length: most - least + 1}, (_, at) => least + at);
/** @param {string} text @param {number} least @param {number} most */
function digit(text, least, most) {
  expect(/^[0-9]$/.test(text) && Number(text) >= least && Number(text) <= most, NO_ID);
  return Number(text);
}
/** @param {string} game @param {any} text @returns {Puzzle} */
function puzzleOf(game, text) {
  expect(typeof text === 'string' && text.length <= 1024, NO_ID);
  const [head, description = ''] = text.split(/:(.*)/s), w = Number(head[0]), back = (/** @type {number[]} */ line) => [...line].reverse();
  expect(HEADS[game].test(head), NO_ID);
  const rows = range(1, w).map((y) => range(y * w - w, y * w - 1)), columns = rows.map((_, x) => rows.map((row) => row[x]));
  const views = [...columns, ...columns.map(back), ...rows, ...rows.map(back)], clues = new Map(), signs = new Set(), givens = range(1, w * w).map(() => 0);
  if (game === 'towers') {
    const [edge, squares] = description.split(/,(.*)/s), fields = edge.split('/');
    expect(fields.length === 4 * w && !squares?.includes('0'), NO_ID);
    fields.forEach((clue, place) => { if (clue) clues.set(place, digit(clue, 1, w)); });
    const marks = squares?.replace(/[a-z]/g, (letter) => `_${'0_'.repeat(letter.charCodeAt(0) - 96)}`).split('_').filter(Boolean) ?? givens.map(String);
    givens.splice(0, w * w, ...marks.map((mark) => digit(mark, 0, w)));
  } else {
    const fields = description.split(',').filter((field, square, {length}) => field || square < length - 1);
    givens.splice(0, w * w, ...fields.map((field) => digit(field.slice(0, 1), 0, w)));
    for (const [square, field] of fields.entries()) for (const letter of field.slice(1)) {
      const y = Math.floor(square / w) + Number(letter === 'D') - Number(letter === 'U'), x = square % w + Number(letter === 'R') - Number(letter === 'L');
      expect('URDL'.includes(letter) && y >= 0 && y < w && x >= 0 && x < w && !signs.has(`${y * w + x},${square}`), NO_ID);
      signs.add(`${square},${y * w + x}`);
    }
  }
  expect(givens.length === w * w, NO_ID);
  return {w, lines: [...rows, ...columns], views, clues, signs, givens};
}
// The rules: 0 if a row or column has a number twice; each clue, given and sign, from 1 on, that a grid breaks.
/** @param {Puzzle} puzzle @param {number[]} grid */
function broken({lines, views, clues, givens, signs}, grid) {
  const along = (/** @type {number[]} */ line) => line.map((square) => [grid[square]]), pairs = [...signs].map((sign) => sign.split(',').map(Number));
  const met = [lines.every((line) => possible(along(line))), ...[...clues].map(([place, clue]) => possible(along(views[place]), clue)),
    ...grid.filter((_, square) => givens[square]).map((number, at) => number === givens.filter(Boolean)[at]),
    ...pairs.sort(([a, b], [c, d]) => a - c || b - d).map(([greater, less]) => grid[greater] > grid[less])];
  return met.flatMap((holds, at) => (holds ? [] : [at]));
}
// Whether numbers can be taken, one of each list, none twice, so that so many are seen. A way is the set of its numbers and, from bit 10 on, a count.
/** @param {number[][]} choices @param {number} [clue] */
function possible(choices, clue) {
  let ways = new Set([0]);
  for (const choice of choices) {
    const next = new Set();
    for (const way of ways) for (const n of choice) if (!(way >> n & 1)) next.add((way | 1 << n) + ((way & 1023) < 1 << n ? 1024 : 0));
    ways = next;
  }
  return [...ways].some((way) => clue === undefined || way >> 10 === clue);
}
/** @param {Puzzle} puzzle @param {number[][]} left @param {Lemma[]} lemmas @param {string} kind @param {any} what @param {number} square @param {number} number */
function rulesOut({w, lines, views, clues, signs}, left, lemmas, kind, what, square, number) {
  if (kind === 'line' || kind === 'clue' && clues.has(what)) {
    const line = kind === 'line' ? lines[what] : views[what], choices = line.map((s) => (s === square ? [number] : left[s]));
    return line.includes(square) && !possible(choices, kind === 'line' ? undefined : clues.get(what));
  }
  if (kind === 'number' && what === number) {
    return !possible(lines.slice(0, w).map((row) => (row.includes(square) ? [square] : row.filter((s) => left[s].includes(number))).map((s) => s % w)));
  }
  if (kind === 'kept' && lemmas[what]?.get(square)?.includes(number)) {
    return [...lemmas[what]].every(([other, numbers]) => other === square || left[other].every((n) => numbers.includes(n)));
  }
  if (kind !== 'sign' || !signs.has(what.join()) || !what.includes(square)) return false;
  return square === what[0] ? !left[what[1]].some((n) => n < number) : !left[what[0]].some((n) => n > number);
}
/** @param {Puzzle} puzzle @param {number[][]} left @param {Lemma[]} lemmas @param {any[]} steps @param {string} [above] */
function follow(puzzle, left, lemmas, steps, above = '') {
  const known = [...lemmas];
  for (const [at, step] of steps.entries()) {
    const name = `${above}${at + 1}`, [kind, what] = step;
    let strikes = step[2];
    if (SUPPOSE.includes(kind)) {
      /** @type {Lemma} */
      const lemma = new Map(kind === 'suppose' ? [[what, [step[2]]]] : what);
      const branch = left.map((numbers, square) => numbers.filter((number) => lemma.get(square)?.includes(number) ?? true));
      follow(puzzle, branch, known, step[step.length - 1], `${name}.`);
      expect(branch.some((numbers) => !numbers.length), `step ${name} leads to no contradiction`, 1);
      if (kind === 'lemma') known.push(lemma);
      strikes = kind === 'lemma' ? [] : [...lemma];
    } else for (const [square, numbers] of strikes) for (const number of numbers) {
      expect(rulesOut(puzzle, left, known, kind, what, square, number), `step ${name} (${kind}) does not rule out ${number} in square ${square}`, 1);
    }
    for (const [square, numbers] of strikes) left[square] = left[square].filter((number) => !numbers.includes(number));
  }
}
// Whether JSON is of a form: a text, a number from one to another, a list of any, of one form each, or of these forms in turn.
/** @param {any} value @param {any} form @returns {boolean} */
function fits(value, form) {
  if (typeof form === 'string') return value === form;
  if ('least' in form) return Number.isInteger(value) && value >= form.least && value <= form.most;
  if (!Array.isArray(value)) return false;
  return 'all' in form ? !form.all || value.every((each) => fits(each, form.all)) : value.length === form.length && value.every((each, at) => fits(each, form[at]));
}
/** @param {any[]} steps @param {any[]} forms @param {number} deep @returns {boolean} */
const formed = (steps, forms, deep) => steps.every((step) => forms.some((form) => fits(step, form)) && (!SUPPOSE.includes(step[0]) || deep > 0 && formed(step[step.length - 1], forms, deep - 1)));
/** @param {string} text @returns {Record<string, any>} */
function parsed(text) {
  expect(text.length <= MOST_BYTES && !text.includes('\\'), 'it has a backslash, or more than 16 MiB');
  const bare = text.split('"').filter((_, at) => at % 2 === 0).join('');
  expect(/^[0-9[\]{},: \t\r\n]*$/.test(bare) && /^[\0-\x7f]*$/.test(text), 'it has a word or a number that means nothing');
  const found = JSON.parse(text), names = [...text.matchAll(/"([^"]*)"(\s*:)?/g)].filter((match) => match[2]).map((match) => match[1]);
  const isOne = !Array.isArray(found) && text.split('{').length === 2, all = names.includes('needed') ? names : [...names, 'needed'];
  expect(isOne && all.sort().join() === MEMBERS.join(), 'it has not the members of one, each once');
  return {needed: [], ...found};
}
/** @param {string} text */
function shown(text) {
  const {game, id, answer, solutions, steps, needed} = parsed(text);
  expect(typeof game === 'string' && Object.hasOwn(HEADS, game) && typeof answer === 'string' && Object.hasOwn(ANSWERS, answer), 'its game or its answer is unknown');
  const puzzle = puzzleOf(game, id), {w} = puzzle, [count, words] = ANSWERS[answer], square = {least: 0, most: w * w - 1}, number = {least: 1, most: w};
  const whats = {line: {least: 0, most: 2 * w - 1}, clue: {least: 0, most: 4 * w - 1}, number, sign: [square, square], kept: {least: 0, most: MOST_BYTES - 1}}, grid = range(1, w * w).map(() => number);
  const pairs = {all: [square, {all: number}]}, others = Object.entries(whats).map(([kind, what]) => [kind, what, pairs]);
  const forms = [['suppose', square, number, {all: null}], ['lemma', pairs, {all: null}], ...others];
  expect(fits(steps, {all: null}) && formed(steps, forms, MOST_DEEP), 'a step is not of a known form, or stands too deep');
  expect(fits(solutions, range(1, count).map(() => grid)), 'its solutions are not as many as its answer has, or are no grids');
  expect(fits(needed, {all: grid}) && (answer === 'one' || !needed.length), 'what is needed is no list of grids, or not of one solution');
  expect(solutions.every((/** @type {number[]} */ solution) => !broken(puzzle, solution).length), 'what is said to be a solution is none', 1);
  const left = puzzle.givens.map((given) => (given ? [given] : range(1, w)));
  follow(puzzle, left, [], steps);
  const isOne = left.join() === String(solutions[0]) && left.every((numbers) => numbers.length === 1), isNone = left.some((numbers) => !numbers.length);
  expect({none: isNone, one: isOne, several: String(solutions[0]) !== String(solutions[1])}[answer], 'its steps and solutions do not show its answer', 1);
  const items = range(1, puzzle.clues.size + puzzle.signs.size + puzzle.givens.filter(Boolean).length);
  const breaks = needed.map((/** @type {number[]} */ other) => broken(puzzle, other).join('+')).join();
  expect(!needed.length || breaks === items.join(), 'not each item is needed', 1);
  const counts = forms.map(([kind]) => text.split(`"${kind}"`).length - 1), all = counts.reduce((sum, n) => sum + n);
  const more = needed.length ? ', and each clue, sign and given is needed' : '';
  return {puzzle, told: `${words}${more}. Steps: ${all}. Suppositions among them: ${counts[0] + counts[1]}.`};
}
// The answer of a certificate; or, with the status 1, why it doesn't, and with 2, why it is none.
/** @param {string} text */
export function verify(text) {
  try {
    return {status: 0, ...shown(text)};
  } catch (error) {
    const {status = 2, message} = /** @type {any} */ (error);
    return {status, told: error instanceof SyntaxError ? 'it is no JSON, or nested too deep' : String(message), puzzle: null};
  }
}
// For node alone.
/** @param {Puzzle} puzzle */
function drawn({w, lines, clues, signs, givens}) {
  const edge = (/** @type {number} */ from) => range(from, from + w - 1).map((place) => clues.get(place) ?? ' ');
  /** @type {(one: number, other: number, less: string, greater: string) => string} */
  const sign = (one, other, less, greater) => (signs.has(`${other},${one}`) ? less : signs.has(`${one},${other}`) ? greater : ' ');
  const out = lines.slice(0, w).flatMap((row, y) => [
    `  ${edge(2 * w)[y]} | ${row.map((s, x) => (givens[s] || '.') + (x < w - 1 ? ` ${sign(s, s + 1, '<', '>')} ` : '')).join('')} | ${edge(3 * w)[y]}`,
    `      ${row.map((s) => sign(s, s + w, '^', 'v')).join('   ')}`]);
  return [`      ${edge(0).join('   ')}`, ...out.slice(0, -1), `      ${edge(w).join('   ')}`].map((line) => line.trimEnd()).filter((line) => line || signs.size).join('\n');
}
const node = /** @type {any} */ (globalThis).process, library = 'node:fs', names = node?.argv.slice(2) ?? [];
if (/(^|[/\\])verify[.]mjs$/.test(node?.argv[1])) {
  const {readFileSync, writeFileSync} = await import(library);
  /** @param {number} status @param {string} text */
  const say = (status, text) => {
    node.exitCode = Math.max(node.exitCode ?? 0, status);
    writeFileSync(1, `${text}\n`);
  };
  try {
    for (const name of names.length ? names : ['-']) {
      let place = 0, lines = [''], why = 'there is none';
      try {
        lines = readFileSync(name === '-' ? 0 : name, 'latin1').split(/(?<=\n)/);
      } catch (error) {
        why = /** @type {any} */ (error).message;
      }
      for (const line of lines.filter((text) => text.length > MOST_BYTES || /[^ \t\n\v\f\r]/.test(text))) {
        const {status, told, puzzle} = verify(line);
        [place, why] = [place + 1, status === 2 ? told : ''];
        if (why) break;
        say(status, puzzle ? `${drawn(puzzle)}\n${told}` : `NOT SHOWN by certificate ${place} of '${name}': ${told}.`);
      }
      if (why) say(2, `NO CERTIFICATE is number ${place} of '${name}': ${why}.`);
    }
  } catch (error) {
    // If nobody reads on, as behind `head`, it is no fault, and the status is that of `cat`.
    const {code, message} = /** @type {any} */ (error);
    node.exitCode = code === 'EPIPE' ? 141 : 2;
    if (code !== 'EPIPE') console.error(`Standard output: ${message}`);
  }
}
