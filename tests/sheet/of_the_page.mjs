// Makes a sheet by the page's modules, without a page: `node of_the_page.mjs ASKED.json` prints the file, and on standard error what is told of it, or why
// there is none.
import {readFileSync} from 'node:fs';
import {NO_BYTES, bytesOf, textOf} from '../../page/bytes.js';
import {Module} from '../../page/module.js';
import {lessonsBy, movesBy} from '../../page/sheet_asked.js';
import {Unfit, chosen, kindsOf, provedBy} from '../../page/sheet_choice.js';
import {NoRoom} from '../../page/sheet_layout.js';
import {Sheets} from '../../page/sheet_pages.js';
import {plainText} from '../../page/sheet_tree.js';

const asked = JSON.parse(readFileSync(process.argv[2], 'utf-8'));
const {instance} = await WebAssembly.instantiate(readFileSync(new URL('../../programs/web/puzzles.wasm', import.meta.url)), {});
const module = new Module(instance), encoder = new TextEncoder(), decoder = new TextDecoder();

// As the worker does.
async function ask(game, lines, saved = NO_BYTES) {
  const answers = [];
  let bytes = bytesOf(saved);
  for (const line of lines) {
    const turned = module.turn(game, bytes, encoder.encode(line));
    bytes = turned.saved;
    answers.push(JSON.parse(decoder.decode(turned.said)));
    if (answers.at(-1).refused) break;
  }
  return {answers, saved: textOf(bytes)};
}

// The puzzles of a list, or those of a series for each name; and what is told of them.
async function puzzlesOf({list, game, sizes, letters, count, series, form}) {
  if (!list) return chosen(ask, {kinds: kindsOf(game, sizes, letters), count, pupils: form.names.length || 1, series, ahead: 1}, () => {});
  const sheets = [await Promise.all(list.map(async ([own, id, caption]) => ({...await provedBy(ask, own, `new ${id}`), caption: plainText(caption)})))];
  return {sheets, told: []};
}

try {
  const form = {...asked.form, names: asked.form.names.map(plainText), title: plainText(asked.form.title)};
  const {sheets: puzzles, told} = await puzzlesOf({...asked, form});
  const games = [...new Set(puzzles.flat().map(({game}) => game))];
  const moves = form.steps ? await movesBy(ask, puzzles.flat()) : [];
  const examples = form.example ? await Promise.all(games.map((game) => lessonsBy(ask, game))) : [];
  const made = new Sheets(form, {puzzles, moves, examples});
  process.stdout.write(made.file);
  for (const text of [...told, ...made.cut]) console.error(text);
} catch (fault) {
  if (!(fault instanceof NoRoom || fault instanceof Unfit)) throw fault;
  console.error(fault.message);
  process.exitCode = 2;
}
