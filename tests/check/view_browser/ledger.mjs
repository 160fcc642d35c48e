// Accounts of a ledger, dropped as JSON: one alone, with what is missing told; a folder with all of a market; and files that are none.

import { join } from 'node:path';
import { makePage, root, stored } from './texts.mjs';
import { faultsOfLayout } from './measures.mjs';

const FOLDER = 'examples/ledger/morning';
const MARKET = '66U5PsWRGHXAyG4kEQHBSdJH9BXhC1c2DLuNjH6mYpcq';
// What the market account says, by docs/LEDGER.md's `names`: the addresses of its parts, and what its tokens' mints have of decimals.
const EVENT_QUEUE = 'Cb6AuwpNSa4BMqb54fUkR3iGchvAF2dkr9YfgAL617CN';
const DECIMALS = { coin: 9, pc: 6 };

/** The morning's files, by their names. */
export function morning() {
  const names = ['market.json', 'open_orders.json', 'queues_and_sides.addresses', 'queues_and_sides.json', 'srm_mint.addresses', 'srm_mint.json',
    'vaults_and_mints.addresses', 'vaults_and_mints.json', 'wallets.json'];
  return names.map((name) => ({ name, text: stored(`${FOLDER}/${name}`) }));
}

/** An open-orders account of the morning by its number, as JSON of that one account. */
export function oneAccount(number) { return JSON.parse(stored(`${FOLDER}/open_orders.json`)).result[number]; }

// What an account's bytes say, and what the events in the queue's bytes owe it.
export function wantedOf(one) {
  const bytes = Buffer.from(one.account.data[0], 'base64');
  const at = (place) => bytes.readBigUInt64LE(place);
  const addresses = stored(`${FOLDER}/queues_and_sides.addresses`).split('\n');
  const queue = Buffer.from(JSON.parse(stored(`${FOLDER}/queues_and_sides.json`)).result.value[addresses.indexOf(EVENT_QUEUE)].data[0], 'base64');
  const capacity = Math.floor((queue.length - 44) / 88);
  const owed = { coin: 0n, pc: 0n };
  const own = addressBytes(one.pubkey);
  for (let number = 0; number < Number(queue.readBigUInt64LE(21)); number += 1) {
    const event = queue.subarray(37 + 88 * ((Number(queue.readBigUInt64LE(13)) + number) % capacity)).subarray(0, 88);
    if (!event.subarray(48, 80).equals(own)) continue;
    const released = event.readBigUInt64LE(8);
    if (event[0] === 9 || event[0] === 22) owed.pc += released;
    if (event[0] === 13 || event[0] === 18) owed.coin += released;
    if (event[0] === 13) owed.pc += event.readBigUInt64LE(24);
  }
  return { free: { coin: at(77), pc: at(93) }, locked: { coin: at(85) - at(77), pc: at(101) - at(93) }, owed };
}

// The bytes of an address in base58, told here once more.
function addressBytes(text) {
  let number = 0n;
  for (const sign of text) number = number * 58n + BigInt('123456789ABCDEFGHJKLMNPQRSTUVWXYZabcdefghijkmnopqrstuvwxyz'.indexOf(sign));
  return Buffer.from(number.toString(16).padStart(64, '0'), 'hex');
}

/** Drops files of names and texts on a page. */
export async function dropFiles(page, files) {
  await page.run((given) => {
    const transfer = new DataTransfer();
    for (const { name, text } of given) transfer.items.add(new File([text], name));
    document.dispatchEvent(new DragEvent('drop', { dataTransfer: transfer, bubbles: true, cancelable: true }));
  }, files);
  await new Promise((done) => { setTimeout(done, 300); });
  await page.settle();
}

// Drops a folder as a file manager does.
async function dropFolder(page, path) {
  const data = { items: [], files: [path], dragOperationsMask: 1 };
  for (const type of ['dragEnter', 'dragOver', 'drop']) await page.ask('Input.dispatchDragEvent', { type, x: 100, y: 300, data });
  await new Promise((done) => { setTimeout(done, 1000); });
  await page.settle();
}

// The amounts of a name that the page shows first: the plain number, and as it is read.
function shownAmounts(page, name) {
  return page.run((what) => ['coin', 'pc'].map((token) => {
    const node = document.querySelector(`[data-name="${what} ${token}"]`);
    return node === null ? null : [node.getAttribute('value'), node.textContent.replace(/,/g, '')];
  }), name);
}

// A native amount in tokens.
function inTokens(amount, token) {
  const digits = amount.toString().padStart(DECIMALS[token] + 1, '0');
  return `${digits.slice(0, -DECIMALS[token])}.${digits.slice(-DECIMALS[token])}`.replace(/\.?0+$/, '');
}

/** Checks what a page shows of an account; its amounts are in tokens where the mints are there. */
export async function checkAccount(suite, page, name, one, isWhole) {
  const wanted = wantedOf(one);
  for (const what of isWhole ? ['free', 'locked', 'owed'] : ['free', 'locked']) {
    const found = await shownAmounts(page, what);
    const told = ['coin', 'pc'].map((token) => [wanted[what][token].toString(), isWhole ? inTokens(wanted[what][token], token) : wanted[what][token].toString()]);
    suite.same(`${name}: ${what}`, found, told);
  }
}

// How the page looks: nothing covered, cut off or too wide.
async function checkLooks(suite, page, name) {
  const { covers, hidden, wide } = await page.run(faultsOfLayout);
  suite.same(`${name}: texts that cover others, are cut off, or are too wide`, [covers, hidden, wide].map((list) => list.slice(0, 3)), [[], [], []]);
}

// At a width: one account, then the rest of the market, in one page.
async function checkWidth(suite, width) {
  const page = await suite.browser.page(width, 900);
  const path = makePage(suite.folder, '');
  const one = oneAccount(2);
  await page.open(path);
  await dropFiles(page, [{ name: 'mine.json', text: JSON.stringify(one) }]);
  suite.same(`one account at ${width}: the view`, await page.text('h1'), 'Accounts');
  await checkAccount(suite, page, `one account at ${width}`, one, false);
  suite.holds(`one account at ${width}: the market is missing`, (await page.text('[data-name=missing]')).includes(`the market ${MARKET}`));
  await checkLooks(suite, page, `one account at ${width}`);
  await dropFiles(page, morning().filter(({ name }) => name === 'market.json'));
  const missing = (await page.texts('[data-name=missing]')).join(' ');
  suite.holds(`with its market at ${width}: the event queue is missing`, missing.includes(`event queue ${EVENT_QUEUE}`));
  await dropFiles(page, morning().filter(({ name }) => name !== 'open_orders.json'));
  await checkAccount(suite, page, `with all others at ${width}`, one, true);
  suite.same(`with all others at ${width}: missing`, await page.texts('[data-name=missing]'), []);
  suite.holds(`with all others at ${width}: the book`, (await page.texts('[role=row]')).length > 10);
  await checkLooks(suite, page, `with all others at ${width}`);
  await page.close();
}

// A folder: all views, as of a dump.
async function checkFolder(suite) {
  const page = await suite.browser.page(1280, 900);
  await page.open(makePage(suite.folder, ''));
  await dropFolder(page, join(root, FOLDER));
  suite.holds('a folder: the accounts', (await page.text('.hint')).includes('All accounts of a market are here'));
  await page.go('#audit');
  suite.holds('a folder: its audit', (await page.text('main')).length > 0);
  await page.go('#traders');
  suite.same('a folder: its traders', await page.text('h2'), 'Traders (9)');
  await page.close();
}

// Files that are none, which leave what is there.
async function checkFaulty(suite) {
  const page = await suite.browser.page(1280, 900);
  await page.open(makePage(suite.folder, ''));
  await dropFiles(page, [{ name: 'mine.json', text: JSON.stringify(oneAccount(0)) }]);
  const faulty = {
    '{"a": ': 'no JSON', '{"a": 1}': 'no account in a form', '{"result": {"context": {}, "value": {"owner": "x", "data": ["AA==", "base64"]}}}': 'x.addresses',
    '{"pubkey": "0", "account": {"owner": "x", "data": ["AA==", "base64"]}}': 'no address', '{"error": {"code": 1}}': 'answered with an error',
    [JSON.stringify({ pubkey: MARKET, account: { owner: MARKET, data: ['KLUv/Q==', 'base64+zstd'] } })]: '"encoding": "base64"', '[7]': 'stands where an account',
  };
  for (const [text, words] of Object.entries(faulty)) {
    await dropFiles(page, [{ name: 'x.json', text }]);
    const told = await page.text('.faults');
    suite.holds(`a file that is none (${text.slice(0, 20)}): ${told}`, told.includes(words) && told.includes('x.json'));
    suite.same(`a file that is none (${text.slice(0, 20)}): what was there`, await page.text('h1'), 'Accounts');
  }
  await page.close();
}

/** The cases of dropped accounts. */
export async function ledgerCases(suite) {
  for (const width of [390, 1280]) await checkWidth(suite, width);
  await checkFolder(suite);
  await checkFaulty(suite);
}
