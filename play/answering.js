// From a source to an answer: the calls that a command takes, and what its text is on the page.

import { readAnswer } from '../page/answers.js';
import { DUMP_FAULTS, scriptFaultWords } from '../page/faults.js';
import { Lines } from '../page/text.js';
import { STOPPED } from './runner.js';

// What the page reads of an answer; a longer one is saved only.
const MOST_SHOWN = 134217728;

// Bytes of an answer as text.
function textOfAnswer(bytes) { return new TextDecoder('utf-8', { ignoreBOM: true }).decode(bytes); }

// The answer of a command that is handed a script as the dump that the script leaves; that call's own answer where it leaves none.
async function dumpBefore(runner, bytes) {
  const before = await runner.call({ call: 'dex_dump', numbers: [], bytes });
  return { before, isEnd: before.fault !== undefined || before.isStopped === true || before.status !== 0 };
}

// The whole answer of a command that is handed a script; a replay's in two parts, where its front is kept.
function answerToScript(runner, command, numbers, source, kept) {
  const call = (bytes) => runner.call({ call: command.call, numbers, bytes });
  return command.name === 'replay' && kept !== null ? kept.answer(call, source.text, source.bytes) : call(source.bytes);
}

/**
 * Calls a command on a source. The answer has `input`, the name of what the command was handed: script, dump, or nothing. `kept` has fronts of
 * the script; null: the whole is asked for.
 */
export async function answerTo(runner, command, numbers, source, kept = null) {
  if (command.reads === null) return { ...await runner.call({ call: command.call, numbers, bytes: null }), input: null };
  const { bytes } = source;
  if (command.reads === 'script' || source.isDump) {
    return { ...await answerToScript(runner, command, numbers, source, kept), input: command.reads, bytes };
  }
  const { before, isEnd } = await dumpBefore(runner, bytes);
  if (isEnd) return { ...before, input: 'script', bytes };
  const dump = before.text;
  const answer = await runner.call({ call: command.call, numbers, bytes: dump });
  return answer === STOPPED ? STOPPED : { ...answer, milliseconds: answer.milliseconds + before.milliseconds, input: 'dump', bytes: dump, isOfScript: true };
}

/** The texts of an answer as the views take them, by their names; null where one of them is too long for the page. */
export function textsFor(command, answer, source) {
  if (answer.text.length > MOST_SHOWN) return null;
  const kind = answer.status === 0 ? command.gives : 'answer';
  const texts = [{ name: kind === 'answer' ? 'The answer' : `The ${kind}`, text: textOfAnswer(answer.text) }];
  if (answer.input === 'script' && kind !== 'dump' && source.text !== null) texts.push({ name: 'The script', text: source.text });
  if (answer.input === 'dump' && kind === 'answer') texts.push({ name: 'The dump', text: textOfAnswer(answer.bytes) });
  return texts;
}

/** The row at fault of a refused script or dump, with what is wrong and what to do; null where the answer tells none. */
export function faultOf(answer, source) {
  if (answer.text.length > 1000) return null;
  const text = textOfAnswer(answer.text);
  if (!/^(script|dump) refused/.test(text)) return null;
  const told = readAnswer(new Lines(text));
  if (told.kind === 'script') {
    const { name, what, remedy } = scriptFaultWords(told, source.fieldsOfRow(Number(told.row)));
    return { row: Number(told.row), title: `${told.k} ${name}`, what, remedy };
  }
  const [name, what] = DUMP_FAULTS[told.k] || [told.name, 'the page knows no such fault'];
  return { row: Number(told.row), title: `${told.k} ${name}`, what, remedy: 'The dump has to be mended where it was made.' };
}

/** What became of a call, in words where it gave no text. */
export function lossWords(answer) {
  if (answer.fault !== undefined) return `The module broke off: ${answer.fault}. Nothing was answered.`;
  if (answer.status === 7) return 'Memory ran out: the browser gives the module no more. Status 7, and nothing was answered.';
  if (answer.status === 1) return 'A number is not within its limits. Status 1, and nothing was answered.';
  return null;
}
