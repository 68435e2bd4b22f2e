// The page reads texts: a list of them as JSON comes in, and what it tells of each goes out.
import {readFileSync} from 'node:fs';
import {calledOf, read} from '../../page/drawings.js';
import {copied, tabbed} from '../../page/drawn_writing.js';

const told = ({line, column, puzzle, id, game, why, doubt}) => [
  line, column, puzzle && [puzzle.game, puzzle.size, ...puzzle.items], id, game, why, doubt, puzzle && [calledOf(puzzle), copied(puzzle), tabbed(puzzle)],
];
process.stdout.write(JSON.stringify(JSON.parse(readFileSync(0, 'utf8')).map((text) => read(text).map(told))));
