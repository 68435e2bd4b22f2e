// The settings of a player, which all tabs have in common.
import {kindOfName} from './games.js';
import {parsed} from './kept.js';

/**
 * `turn` counts the changes, and `now` is the key of the game that was shown last. Whether hints go on from the marks is chosen by the player, or by marks
 * that the page has set.
 * @typedef {{tidy: boolean, fromMarks: boolean, isFromChosen: boolean, numberFirst: boolean, equal: boolean, lanes: boolean, time: boolean, kind: string, daily: string, now: string,
 *   turn: number}} Settings
 */

/** @type {Settings} */
export const FIRST = {
  tidy: false, fromMarks: false, isFromChosen: false, numberFirst: false, equal: true, lanes: true, time: true, kind: 'towers-5-easy', daily: 'towers-5-easy', now: '', turn: 0,
};

// Those of a text that is kept: what it hasn't, or has otherwise than it may be, is as at first.
/** @param {string} text @returns {Settings} */
export function settingsIn(text) {
  const kept = parsed(text) ?? {}, known = Object.entries(FIRST).filter(([name, first]) => typeof kept[name] === typeof first);
  const settings = {...FIRST, ...Object.fromEntries(known.map(([name]) => [name, kept[name]]))};
  for (const name of /** @type {const} */ (['kind', 'daily'])) {
    if (!kindOfName(settings[name])) settings[name] = FIRST[name];
  }
  return settings;
}
