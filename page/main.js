// The page: puts its frame together, opens texts, and hears keys.

import { faultNode, hearKeys, KEYS, keysNode, skipLink, themeChoice, unitsChoice } from './bar.js';
import { element } from './elements.js';
import { givenTexts, hearFiles } from './given.js';
import { drawView, frame } from './navigation.js';
import { addTexts, toldTexts } from './opening.js';
import { notice, readingBar } from './parts.js';
import { searchField } from './search.js';
import { hearPrinting } from './table.js';
import { Stopped } from './text.js';

const told = element('p', { class: 'file' });
const faults = element('div', { class: 'faults' });
let texts = {};

// Shows what is wrong where no text could be read.
function drawFaults(faulty) {
  frame.tabs.replaceChildren();
  frame.main.replaceChildren(element('h1', {}, 'This text cannot be shown'), ...faulty.map(faultNode));
  frame.main.dataset.view = 'fault';
}

// Reads texts, telling how far it is, with a button that stops it; nothing where it was stopped.
async function readWhileTold(given) {
  const working = readingBar(`Reading ${given.map(({ name }) => name).join(', ')}…`);
  frame.shown = null;
  delete frame.main.dataset.view;
  frame.tabs.replaceChildren();
  faults.replaceChildren();
  frame.main.replaceChildren(working.node);
  try {
    return await addTexts(texts, given, working.tell);
  } catch (fault) {
    if (fault instanceof Stopped) return null;
    throw fault;
  }
}

// Shows what stood there before texts were read of which the reading was stopped.
function drawStopped(given, before) {
  frame.shown = before;
  faults.replaceChildren(notice(`Reading ${given.map(({ name }) => name).join(', ')} was stopped.`));
  if (before !== null) drawView();
  else drawWelcome();
}

// Opens texts beside those that are there.
async function openTexts(given) {
  const before = frame.shown;
  const opened = await readWhileTold(given);
  if (opened === null) {
    drawStopped(given, before);
    return;
  }
  // A text that cannot be read leaves nothing of what stood there before, unless others came with it; accounts of a ledger come one by one,
  // so a file of them that cannot be read leaves the others.
  const isOfAccounts = opened.faulty.every(({ kind }) => kind === 'accounts');
  const isAllFaulty = opened.shown === null || (opened.faulty.length === given.length && !isOfAccounts);
  texts = isAllFaulty ? {} : opened.texts;
  frame.shown = isAllFaulty ? null : opened.shown;
  told.textContent = isAllFaulty ? opened.faulty.map(({ name }) => name).join(', ') : toldTexts(opened.shown);
  if (isAllFaulty) drawFaults(opened.faulty);
  else {
    faults.replaceChildren(...opened.faulty.map(faultNode), ...opened.shown.notices.map(notice));
    drawView();
  }
}

// What stands on the page before a text is opened.
function welcome() {
  return [
    element('h1', {}, 'A report, to look at'),
    element('p', {}, 'Choose a report of replay or a dump with “Open files”, or drop one here; a script, a table of worth or what a command '
      + 'answered may come with it, or later. Accounts of a ledger as JSON are taken too, one or a whole folder. Nothing leaves this computer.'),
  ];
}

// Shows that nothing is there yet.
function drawWelcome() {
  frame.main.replaceChildren(...welcome());
  frame.main.dataset.view = 'welcome';
}

// The page's own line about itself, and its keys.
function footNode() {
  return element('footer', {},
    element('p', {}, 'This page reads texts beside the product, and no proof stands behind what it shows. ./dex audit reads the same dump.'),
    keysNode(KEYS));
}

// Puts the page together.
function begin() {
  const file = element('input', { type: 'file', id: 'file', class: 'hidden', multiple: true });
  const search = searchField(() => frame.shown);
  const header = element('header', {},
    element('div', { class: 'bar' },
      element('strong', {}, 'Daisyhook report'), search.node,
      element('label', { for: 'file', class: 'button' }, 'Open files'), file, unitsChoice(), themeChoice()),
    told, faults, frame.tabs);
  drawWelcome();
  document.body.replaceChildren(skipLink('To the content', frame.main), header, frame.main, footNode());
  hearFiles(file, openTexts);
  hearKeys(search.field, () => file.click());
  hearPrinting();
  window.addEventListener('hashchange', drawView);
}

const given = givenTexts();
begin();
if (given.length > 0) openTexts(given);
