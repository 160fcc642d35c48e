// All wallets with their balances, and one wallet's movements, each with the balance before and after.

import { amountNode, mintAmountNode, numberNode, tokenOf } from './amounts.js';
import { element, tickBox } from './elements.js';
import { addressNode, linkTo, nameOf, rowNode, shortAddress } from './links.js';
import { addressFacts, facts, notice, section, seekRow, tableWithDetails } from './parts.js';
import { otherLegFacts } from './sentences.js';
import { Table } from './table.js';

// The table of all wallets.
function walletTable(shown, wallets) {
  return new Table({
    label: 'Wallets',
    columns: [
      { title: 'Wallet', isWide: true, size: '1.2fr' },
      { title: 'Owner', isWide: true },
      { title: 'Mint', isWide: true },
      { title: 'Balance', isNumber: true, isWide: true, size: '1.6fr' },
      { title: 'Moves', isNumber: true, size: '4rem' },
    ],
    count: wallets.length,
    empty: 'There are no wallets.',
    rowAt: (at) => {
      const wallet = wallets[at];
      const journal = shown.report.wallets.get(wallet.address);
      return {
        name: `wallet ${wallet.address}`,
        cells: [
          addressNode(shown, wallet.address),
          addressNode(shown, wallet.owner),
          addressNode(shown, wallet.mint),
          mintAmountNode(shown, wallet.amount, wallet.mint),
          journal === undefined ? 0 : journal.count,
        ],
      };
    },
  });
}

// One movement's cells.
function moveRow(shown, wallet, move) {
  const market = shown.exchange.markets.get(move.market);
  const token = market === undefined ? null : tokenOf(wallet.mint, market);
  const amount = (value, name) => amountNode(value, token, market, name);
  return {
    name: `move ${move.row}`,
    mark: move.kind,
    cells: [
      rowNode(move.market, move.row),
      addressNode(shown, move.market),
      move.lane,
      move.kind === 'probe' ? 'unchanged' : move.kind,
      amount(move.amount),
      amount(move.before),
      amount(move.after),
    ],
    details: market === undefined ? [] : otherLegFacts(shown, market, move.row),
  };
}

// The place of the movement that a link asks for: by its row, on its market where the link tells one.
function soughtMove(journal, numbers, words) {
  return numbers.findIndex((at) => String(journal.rows[at]) === words.row && (words.market === undefined || journal.at(at).market === words.market));
}

// The movements of a wallet, and a notice where a link asks for one that is not there.
function movements(shown, wallet, words) {
  const journal = shown.report.wallets.get(wallet.address);
  if (journal === undefined) return [element('p', { class: 'empty' }, 'A dump tells no movements.')];
  const isHidden = words.probes === 'hidden';
  const numbers = Array.from({ length: journal.count }, (_, at) => at).filter((at) => !isHidden || journal.isProbe[at] === 0);
  const table = tableWithDetails({
    label: `Movements of ${wallet.address}`,
    columns: [
      { title: 'Row', size: '6rem', key: (at) => journal.rows[numbers[at]] },
      { title: 'Market', isWide: true, size: 'minmax(6.2rem, 0.8fr)' },
      { title: 'Lane', isNumber: true, size: '3rem' },
      { title: 'What', size: '5rem' },
      { title: 'Amount', isNumber: true, isWide: true },
      { title: 'Before', isNumber: true, isWide: true },
      { title: 'After', isNumber: true, isWide: true },
    ],
    count: numbers.length,
    empty: 'No row moved anything of this wallet.',
    linkOf: (at) => linkTo('wallets', wallet.address, { ...words, row: journal.rows[numbers[at]] }),
    rowAt: (at) => moveRow(shown, wallet, journal.at(numbers[at])),
  });
  const told = words.row === undefined ? null : seekRow(table, soughtMove(journal, numbers, words), `movement of row ${words.row}`);
  const hide = (isTicked) => { window.location.hash = linkTo('wallets', wallet.address, { ...words, probes: isTicked ? 'hidden' : null }); };
  return [told, element('div', { class: 'filters' }, tickBox('Hide probes', isHidden, hide)), table.node];
}

// Whether the last movement's balance is that of the account.
function agreement(shown, wallet) {
  const journal = shown.report.wallets.get(wallet.address);
  if (journal === undefined || journal.count === 0) return 'no movement';
  const { after } = journal.at(journal.count - 1);
  return after === wallet.amount ? 'agrees with the balance' : ['is another balance, ', numberNode(after)];
}

// One wallet: its balance, mint and owner, and its movements.
function walletSection(shown, wallet, words) {
  return section(`Wallet ${nameOf(shown, wallet.address)}`,
    facts([
      ['Balance', mintAmountNode(shown, wallet.amount, wallet.mint, `balance of ${wallet.address}`)],
      ['Mint', addressNode(shown, wallet.mint)],
      ['Owner', addressNode(shown, wallet.owner)],
      ['After the last movement', agreement(shown, wallet)],
      ...addressFacts(wallet.address),
      ['Bytes', element('a', { href: linkTo('bytes', wallet.address) }, 'its account by field')],
    ]),
    movements(shown, wallet, words));
}

/** The view of wallets; the subject is the wallet whose movements are told, `words.row` the row to choose. */
export function walletsView(shown, subject, words) {
  const wallets = [...shown.exchange.wallets.values()];
  const wallet = shown.exchange.wallets.get(subject);
  const all = walletTable(shown, wallets);
  if (wallet !== undefined) all.chosen = wallets.indexOf(wallet);
  return [
    subject !== '' && wallet === undefined ? notice(`There is no wallet ${shortAddress(subject)} in this text.`) : null,
    wallet === undefined ? null : walletSection(shown, wallet, words),
    section(`All wallets (${wallets.length})`, all.node),
  ];
}
