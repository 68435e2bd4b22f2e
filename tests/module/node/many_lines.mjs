// So many lines in one module, whose memory doesn't grow any more after the first of them:     node many_lines.mjs MODULE LINES

import {bothAnswered, isSame} from './game.mjs';
import {moduleOf} from './module.mjs';

const [, , path, lines] = process.argv;
const games = bothAnswered(path);
const module = moduleOf(path);

function play() {
  for (const {game, before, line, said, saved} of games) {
    const turned = module.turn(game, before, line);
    if (!isSame(turned.said, said) || !isSame(turned.saved, saved)) {
      throw new Error(`${game}, ${Buffer.from(line)}: another answer`);
    }
  }
}

play();
const {byteLength} = module.exports.memory.buffer;
let played = games.length;
while (played < Number(lines)) {
  play();
  played += games.length;
}
const grown = module.exports.memory.buffer.byteLength - byteLength;
console.log(`${played} lines, memory of ${byteLength} bytes, grown by ${grown}`);
process.exitCode = grown ? 1 : 0;
