// The right half of the page: the command, how far it is, and the views of what it answered.

import { counted } from '../page/amounts.js';
import { faultNode } from '../page/bar.js';
import { choice, element } from '../page/elements.js';
import { drawView, frame } from '../page/navigation.js';
import { addTexts, toldTexts } from '../page/opening.js';
import { notice } from '../page/parts.js';
import { Shown } from '../page/shown.js';
import { keepAsFile } from '../page/table_tools.js';
import { Stopped } from '../page/text.js';
import { grouped } from '../page/units.js';
import { answerTo, faultOf, textsFor, lossWords } from './answering.js';
import { COMMANDS, numberOfWord } from './commands.js';
import { Deeds } from './deeds.js';
import { Kept } from './kept.js';
import { Working } from './working.js';

// The views that show answers of each kind first.
const FIRST_VIEWS = { report: '#book', dump: '#book', answer: '#answer', script: '#script', worth: '#worth', accounts: '#accounts' };

// The name of the moment at which something is shown first.
const FIRST = 'first answer';

// How long a time is, in words.
function timeText(milliseconds) {
  if (milliseconds >= 1000) return `${(milliseconds / 1000).toFixed(1)} s`;
  return `${milliseconds.toFixed(milliseconds < 10 ? 1 : 0)} ms`;
}

/** The pane; `pane` is that of the source. */
export class AnswerPane {
  constructor({ runner, pane }) {
    this.runner = runner;
    this.pane = pane;
    [this.command] = COMMANDS;
    // Each answer that is waited for has a number; an older one is not shown any more.
    this.round = 0;
    this.last = null;
    this.left = {};
    this.kept = new Kept();
    this.beside = runner.beside();
    this.words = new Map();
    this.commandHolder = element('span', { class: 'command' });
    this.numbers = element('span', { class: 'numbers' });
    this.told = element('p', { 'class': 'file', 'role': 'status', 'data-name': 'told' }, 'Loading the module…');
    this.faults = element('div', { class: 'faults' });
    this.working = new Working(() => this.stop());
    this.node = this.paneNode();
  }

  // The pane's elements.
  paneNode() {
    this.saver = element('button', { type: 'button', disabled: true, click: () => this.save() }, 'Save the answer');
    this.taker = element('button', { type: 'button', hidden: true, click: () => this.takeAnswer() }, 'Play on from it');
    return element('section', { 'class': 'answer', 'aria-label': 'Answer' },
      element('div', { class: 'bar' }, this.commandHolder, this.numbers, this.saver, this.taker, this.working.node),
      this.told, this.faults, frame.tabs, frame.main);
  }

  /** Offers the commands whose functions the module has. */
  offerCommands() {
    const there = COMMANDS.filter(({ call }) => this.runner.functions.includes(call));
    const change = (name) => {
      this.command = there.find((one) => one.name === name);
      this.drawNumbers();
      this.answer(this.pane.source);
    };
    this.commandHolder.replaceChildren(choice('Command', there.map(({ name, says }) => [name, `${name}: ${says}`]), this.command.name, change));
  }

  // The words behind the command's name.
  drawNumbers() {
    const { name: command, numbers } = this.command;
    const fieldNode = ({ name, start }, at) => {
      const key = `${command} ${at}`;
      const heard = () => {
        this.words.set(key, input.value.trim());
        this.answer(this.pane.source);
      };
      const input = element('input', { value: this.words.get(key) || start, inputmode: 'numeric', autocomplete: 'off', input: heard, size: 8 });
      return element('label', { class: 'choice' }, element('span', {}, name), input);
    };
    this.numbers.replaceChildren(...numbers.map(fieldNode));
  }

  // The command's numbers; null where a word is none.
  readNumbers() {
    const { name: command, numbers } = this.command;
    const read = numbers.map((number, at) => numberOfWord(this.words.get(`${command} ${at}`) || number.start, number));
    return read.includes(null) ? null : read;
  }

  /** Lets the command answer a source, and shows it, unless another source comes before. */
  async answer(source) {
    this.round += 1;
    const { round, command } = this;
    const numbers = this.readNumbers();
    if (numbers === null || (command.reads !== null && source.whyNot !== null)) {
      this.runner.stop();
      this.working.end();
      if (numbers === null) this.tellNumbers();
      else this.tellWords(`${source.name} is not handed over: ${source.whyNot}.`);
      return;
    }
    this.working.begin(`${command.name} runs`);
    const answer = await answerTo(this.runner, command, numbers, source, this.kept).catch((fault) => ({ fault: String(fault) }));
    if (round !== this.round || answer.isStopped) return;
    await this.show(command, answer, source, round);
    if (round !== this.round) return;
    this.working.end();
    if (command.name === 'replay') this.prepare(command.call);
  }

  // Keeps the front of a long script, by a worker of its own; where that fails, none is kept.
  prepare(call) {
    this.kept.prepare((bytes) => this.beside.call({ call, numbers: [], bytes })).catch(() => { this.kept = new Kept(); });
  }

  // What numbers are wanted.
  tellNumbers() {
    const limits = this.command.numbers.map(({ name, least = 1n, most }) => `${name} from ${grouped(least)} to ${grouped(most)}`);
    this.told.textContent = `${this.command.name} wants ${limits.join(', ')}.`;
  }

  // Shows an answer: a fault at its row, else its texts in the views.
  async show(command, answer, source, round) {
    this.last = answer.text === undefined ? null : { command, answer };
    this.saver.disabled = this.last === null || answer.text.length === 0;
    this.taker.hidden = answer.status !== 0 || !['dump', 'script'].includes(command.gives);
    const words = lossWords(answer);
    const fault = words === null && answer.input !== null ? faultOf(answer, source) : null;
    this.pane.setFault(fault !== null && !answer.isOfScript ? fault : null);
    if (words !== null) this.tellWords(words);
    else if (fault !== null && command.gives === 'report' && frame.shown !== null && this.isOf === 'report') this.tellStale(fault);
    else await this.showTexts(command, answer, source, round);
  }

  // Tells what became of a call that gave no text, above views that stay.
  tellWords(words) {
    this.told.textContent = '';
    this.faults.replaceChildren(element('p', { 'class': 'fault', 'role': 'alert', 'data-name': 'fault' }, words));
    if (frame.shown === null) frame.main.dataset.view = 'fault';
  }

  // Tells that the views show what stood before a fault.
  tellStale(fault) {
    this.told.textContent = `Row ${fault.row} is at fault: below is what the rows left before it was.`;
    this.faults.replaceChildren();
    frame.main.dataset.stale = '';
  }

  // Reads the texts of an answer and shows them.
  async showTexts(command, answer, source, round) {
    const texts = textsFor(command, answer, source);
    if (texts === null) {
      this.tellWords(`The answer has ${grouped(answer.text.length)} bytes, more than the views show. Save it.`);
      return;
    }
    const tell = (line) => {
      if (round !== this.round) throw new Stopped();
      this.working.tell(line);
    };
    const before = frame.shown !== null && frame.shown.report.kind === 'report' ? frame.shown.report : null;
    const opened = await addTexts({}, texts, tell, before).catch((fault) => {
      if (fault instanceof Stopped) return null;
      throw fault;
    });
    if (round !== this.round || opened === null) return;
    this.told.textContent = this.toldText(command, answer);
    this.faults.replaceChildren(...opened.faulty.map(faultNode), ...(opened.shown === null ? [] : opened.shown.notices.map(notice)));
    if (opened.shown === null) frame.main.dataset.view = 'fault';
    else this.takeShown(opened.shown, command, answer);
  }

  // Shows what was read.
  takeShown(shown, command, answer) {
    if (command.gives === 'report' && answer.status === 0) shown.deeds = new Deeds(shown, (row) => this.pane.write(row));
    frame.shown = shown;
    this.goToView(answer.status === 0 ? command.gives : 'answer');
    delete frame.main.dataset.stale;
    if (performance.getEntriesByName(FIRST).length === 0) performance.mark(FIRST);
    if (command.gives === 'report' && answer.status === 0) this.pane.takeShown(shown);
    drawView();
  }

  // Goes to the view that was left when such an answer was shown last, where the answer is of another kind than the one before it.
  goToView(kind) {
    if (this.isOf !== undefined && this.isOf !== kind) {
      this.left[this.isOf] = window.location.hash;
      window.history.replaceState(null, '', this.left[kind] || FIRST_VIEWS[kind]);
    }
    this.isOf = kind;
  }

  /** Shows accounts of a ledger of which some are missing, and files of them that cannot be read; no command runs. */
  showLooked({ names, looked, faulty }) {
    this.stop();
    this.last = null;
    [this.saver.disabled, this.taker.hidden] = [true, true];
    this.faults.replaceChildren(...faulty.map(faultNode));
    if (looked === null) {
      this.told.textContent = faulty.map(({ name }) => name).join(', ');
      return;
    }
    frame.shown = new Shown({ accounts: { name: names, kind: 'accounts', read: looked } });
    this.told.textContent = toldTexts(frame.shown);
    this.goToView('accounts');
    delete frame.main.dataset.stale;
    drawView();
  }

  // What was answered, in a line.
  toldText({ name }, { status, text, milliseconds, isOfScript, isJoined }) {
    const of = isOfScript ? ' of the accounts that the script leaves' : isJoined ? ' of the rows from a changed one on, joined' : '';
    return `${name}${of}: status ${status}, ${counted(text.length, 'byte')}, ${timeText(milliseconds)}`;
  }

  // Stops what runs.
  stop() {
    this.round += 1;
    this.runner.stop();
    this.working.end();
    this.told.textContent = `${this.command.name} was stopped.`;
    if (frame.shown === null) frame.main.dataset.view = 'fault';
  }

  // The whole answer to a script that was replayed in two parts; null where something else came before it, or it gives no text, which is told.
  async wholeOf({ bytes }) {
    const { round } = this;
    this.working.begin('replay runs');
    const answer = await this.runner.call({ call: 'dex_replay', numbers: [], bytes }).catch((fault) => ({ fault: String(fault) }));
    if (round !== this.round || answer.isStopped) return null;
    this.working.end();
    const words = lossWords(answer);
    if (words === null) return answer;
    this.tellWords(`${words} Nothing is saved.`);
    return null;
  }

  // Saves the answer as a file; of one in two parts the whole, as the module answers it.
  async save() {
    const { command, answer: shown } = this.last;
    const answer = shown.isJoined ? await this.wholeOf(shown) : shown;
    if (answer === null) return;
    const kind = answer.status === 0 ? command.gives : 'answer';
    const ending = { report: 'report', dump: 'dump', script: 'csv' }[kind] || 'txt';
    keepAsFile(answer.text, `${(this.pane.source.name || 'script').replace(/\.[a-z]*$/, '')}.${ending}`);
  }

  // Takes a dump or a script that was answered as what is played, by replay.
  takeAnswer() {
    const { command, answer } = this.last;
    [this.command] = COMMANDS;
    this.commandHolder.querySelector('select').value = this.command.name;
    this.drawNumbers();
    this.pane.open({ name: command.gives === 'dump' ? 'from_a_dump.csv' : 'made.csv', bytes: answer.text });
  }
}
