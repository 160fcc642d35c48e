// The page in which the library's module runs: a script and its report side by side, run anew at each change.

import { faultNode, hearKeys, KEYS, keysNode, skipLink, themeChoice, unitsChoice } from '../page/bar.js';
import { element } from '../page/elements.js';
import { givenTexts, hearFiles } from '../page/given.js';
import { isLedgerText, takeLedgerFiles } from '../page/ledger_json.js';
import { drawView, frame } from '../page/navigation.js';
import { searchField } from '../page/search.js';
import { hearPrinting } from '../page/table.js';
import { AnswerPane } from './answer_pane.js';
import { Runner } from './runner.js';
import { SourcePane } from './source_pane.js';

// What is proved of what the page shows, and what is not.
const PROVED = 'What answers here is the proved static library’s own module, compiled a second time, for browsers: what its functions promise is proved. '
  + 'Not proved are that compiling, the lowering to 32-bit memory, the functions for memory and 128-bit numbers under it (shims), the browser, and '
  + 'this page with its views; of a long script it joins two reports. The commands run and batch need threads and are the program’s alone. Nothing leaves this computer. '
  + 'Daisyhook may be used under the Apache License 2.0 (Apache-2.0), without warranty.';

// The bytes of a text in base64.
function bytesOfBase64(text) { return Uint8Array.from(atob(text), (sign) => sign.charCodeAt(0)); }

// The text that stands in the page by a class.
function givenText(kind) { return givenTexts(kind)[0].text; }

// The page's bar.
function barNode(search) {
  return element('header', {}, element('div', { class: 'bar' }, element('strong', {}, 'Daisyhook'), search.node, unitsChoice(), themeChoice()));
}

// The example that stands there first, and a row of it that fills orders.
const FIRST_SEEN = { example: 'deep_book', row: 28 };
// How much of a file is looked at to tell what it is.
const FRONT = 200;

// Whether a file is accounts of a ledger, or addresses beside such.
function isOfLedger({ name, bytes }) {
  return name.endsWith('.addresses') || isLedgerText(new TextDecoder().decode(bytes.subarray(0, FRONT)));
}

/** What is opened: accounts of a ledger, all that came up to now; a market of which all is there is played on as a dump. Else the first file. */
class Opener {
  constructor(sources, answers) {
    Object.assign(this, { sources, answers, accounts: [] });
  }

  open(files) {
    if (!files.some(isOfLedger)) {
      this.sources.open(files[0]);
      return;
    }
    const texts = files.filter(isOfLedger).map(({ name, bytes }) => ({ name, text: new TextDecoder().decode(bytes) }));
    const taken = takeLedgerFiles(texts, this.accounts);
    if (taken.looked !== null) this.accounts = taken.looked.accounts;
    if (taken.looked !== null && taken.looked.dump !== null && taken.faulty.length === 0) {
      this.sources.open({ name: 'accounts.dump', bytes: new TextEncoder().encode(taken.looked.dump) });
    } else this.answers.showLooked(taken);
  }
}

// A file's bytes by its name.
async function bytesOfFile(file) { return { name: file.name, bytes: new Uint8Array(await file.arrayBuffer()) }; }

// Puts the page together.
function beginPlay() {
  const runner = new Runner(bytesOfBase64(givenText('module')), givenText('worker'));
  const examples = givenTexts('example');
  const search = searchField(() => frame.shown);
  const file = element('input', { type: 'file', id: 'file', class: 'hidden', multiple: true });
  const sources = new SourcePane({ examples, file, change: () => answers.answer(sources.source) });
  const answers = new AnswerPane({ runner, pane: sources });
  const keys = [...KEYS, ['Ctrl Space', 'in the field, takes the first word that is offered']];
  const footer = element('footer', {}, element('p', { 'data-name': 'proved' }, PROVED), keysNode(keys));
  document.body.replaceChildren(skipLink('To the script', sources.editor.area), skipLink('To the report', frame.main), barNode(search),
    element('div', { class: 'play' }, sources.node, answers.node), footer);
  document.body.classList.add('playing');
  const opener = new Opener(sources, answers);
  hearFiles(file, (files) => opener.open(files), bytesOfFile);
  hearKeys(search.field, () => file.click());
  hearPrinting();
  window.addEventListener('hashchange', drawView);
  if (window.location.hash === '') window.history.replaceState(null, '', '#book');
  runner.ready.then(() => answers.offerCommands(), (fault) => frame.main.replaceChildren(faultNode({ name: 'The module', fault })));
  sources.takeExample(examples.find(({ name }) => name === FIRST_SEEN.example));
  sources.showRow(FIRST_SEEN.row);
}

beginPlay();
