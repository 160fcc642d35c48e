// Texts for the page: files of the repository, and reports made of them by changing addresses or bytes.

import { execFileSync } from 'node:child_process';
import { readFileSync, writeFileSync } from 'node:fs';
import { dirname, join } from 'node:path';
import { fileURLToPath } from 'node:url';

/** The folder of the repository. */
export const root = join(dirname(fileURLToPath(import.meta.url)), '..', '..', '..');

/** A text of the repository. */
export function stored(name) { return readFileSync(join(root, name), 'utf8'); }

/** Writes the page of texts into a folder by ./view: the first on its standard input, the others as files by their names. */
export function makePage(folder, input, files = {}) {
  const names = Object.keys(files).map((name) => {
    writeFileSync(join(folder, name), files[name]);
    return join(folder, name);
  });
  const page = execFileSync(join(root, 'view'), names, { input, maxBuffer: 1 << 28 });
  const path = join(folder, 'page.html');
  writeFileSync(path, page);
  return path;
}

/** The bytes of an address, from its label or its hexadecimal digits. */
export function bytesOf(address) {
  if (/^0x[0-9a-f]{64}$/.test(address)) return Buffer.from(address.slice(2), 'hex');
  return Buffer.concat([Buffer.from(address), Buffer.alloc(32 - address.length)]);
}

// Puts other bytes in the place of some, wherever they stand in an account.
function replaced(account, from, to) {
  const bytes = Buffer.from(account);
  for (let at = bytes.indexOf(from); at >= 0; at = bytes.indexOf(from, at + to.length)) to.copy(bytes, at);
  return bytes;
}

// The addresses of a market's parts: its own with another last byte.
function partsOf(bytes) {
  return [0, 1, 2, 3, 4, 5, 6, 7].map((last) => Buffer.concat([bytes.subarray(0, 31), Buffer.from([last])]));
}

// A hexadecimal address for a label, which ends in a zero byte as a market's does.
function hexFor(number) {
  let digits = '';
  for (let at = 0; at < 62; at += 1) digits += (((number + 3) * 7919 * (at + 5) * (at + 11)) % 16).toString(16);
  return `0x${digits}00`;
}

/** A report or script with hexadecimal addresses in the place of its labels, in its words and in the bytes of its accounts. */
export function withHexAddresses(text, labels) {
  const names = new Map(labels.map((label, number) => [label, hexFor(number)]));
  const pairs = [];
  for (const [label, hex] of names) {
    const [from, to] = [partsOf(bytesOf(label)), partsOf(bytesOf(hex))];
    from.forEach((bytes, at) => pairs.push([bytes, to[at]]));
  }
  const word = (one) => names.get(one) || one;
  const account = (field) => pairs.reduce((bytes, [from, to]) => replaced(bytes, from, to), Buffer.from(field, 'base64')).toString('base64');
  const isAccount = (field) => field.length > 80 && /^[A-Za-z0-9+/]+=*$/.test(field);
  const changed = (line) => {
    if (/^(entry|move|wallet|market) /.test(line)) return line.split(' ').map(word).join(' ');
    return line.split(',').map((field) => (isAccount(field) ? account(field) : field.split(' ').map(word).join(' '))).join(',');
  };
  return { text: text.split('\n').map(changed).join('\n'), names };
}

/** The labels that a script declares: mints, wallets, markets, accounts and persons. */
export function labelsOf(script) {
  const labels = new Set();
  for (const line of script.split('\n')) {
    const fields = line.split(',');
    if (['mint', 'wallet', 'market'].includes(fields[0])) labels.add(fields[1]);
    if (fields[0] === 'wallet') labels.add(fields[3]);
    if (fields[0] === 'market') labels.add(fields[4]);
    if (fields[0] === 'orders') labels.add(fields[2]);
  }
  return [...labels];
}

/** A report of which an account has other bytes from a place on; `row` begins the account's row, `field` is its field. */
export function withBytes(text, row, field, place, bytes) {
  return text.split('\n').map((line) => {
    if (!line.startsWith(row)) return line;
    const fields = line.split(',');
    const account = Buffer.from(fields[field], 'base64');
    Buffer.from(bytes).copy(account, place);
    fields[field] = account.toString('base64');
    return fields.join(',');
  }).join('\n');
}

/** The dump of a report. */
export function dumpOf(report) {
  const from = report.indexOf('\ndump\n') + 1;
  return report.slice(from, report.indexOf('\nenddump\n') + '\nenddump\n'.length);
}
