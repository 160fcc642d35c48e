// The texts that the page can be given, told apart by how they begin, and each read by its own reader.

import { isAnswer, readAnswer } from './answers.js';
import { readText } from './report.js';
import { isScript, readScript } from './script.js';
import { frontOf, LineFault, linesOfText, Stopped } from './text.js';
import { isWorth, readWorth } from './worth.js';

// A text that begins as a dump does is a script where something stands behind its enddump.
function isDumpAlone(text) {
  const end = /\nenddump\r?\n/.exec(text);
  return end === null || text.slice(end.index + end[0].length).trim() === '';
}

/** The kind of a text; null where it begins like none. */
export function kindOfText(text) {
  if (/^report [0-9]+\r?(\n|$)/.test(text)) return 'report';
  if (/^dump\r?(\n|$)/.test(text) && isDumpAlone(text)) return 'dump';
  if (isWorth(text)) return 'worth';
  if (isAnswer(text)) return 'answer';
  return isScript(text) ? 'script' : null;
}

// Reads a text of a kind.
async function readKind(kind, text, tell, before) {
  if (kind === 'report' || kind === 'dump') return readText(text, tell, before);
  if (kind === 'script') return readScript(text, tell);
  const lines = await linesOfText(text, tell);
  if (kind === 'worth') return readWorth(lines);
  if (kind === 'answer') return readAnswer(lines);
  throw new LineFault(1, `A report begins with report and a number of rows, a dump with dump; here stands ${frontOf(lines.at(1))}.`);
}

/**
 * Reads a text; answers its kind with what was read, or with its fault. What `tell` throws to stop the reading is thrown. `before` is a report
 * that was read before, of which much may stand in this text too.
 */
export async function readGiven({ name, text }, tell, before = null) {
  const own = text.startsWith('\ufeff') ? text.slice(1) : text;
  const kind = kindOfText(own);
  try {
    return { name, kind: kind || 'unknown', read: await readKind(kind, own, tell, before), fault: null };
  } catch (fault) {
    if (fault instanceof Stopped) throw fault;
    return { name, kind: kind || 'unknown', read: null, fault };
  }
}
