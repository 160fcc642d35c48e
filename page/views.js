// The views: what each is called, what it shows, and when it is there.

import { answerView } from './answer_view.js';
import { auditView } from './audit_view.js';
import { bookView } from './book_view.js';
import { bytesView } from './bytes_view.js';
import { eventsView } from './events_view.js';
import { journalView } from './journal_view.js';
import { lookedView } from './looked_view.js';
import { ordersView } from './orders_view.js';
import { overview } from './overview.js';
import { ownersView } from './owner_view.js';
import { scriptView } from './script_view.js';
import { tradersView } from './traders_view.js';
import { tradesView } from './trades_view.js';
import { vaultsView } from './vaults_view.js';
import { walletsView } from './wallets_view.js';
import { worthView } from './worth_view.js';

// The views of a market are shown one market at a time. `isThere` tells whether the texts have what a view shows.
const VIEWS = [
  { name: 'answer', title: 'Answer', show: answerView, isThere: (shown) => shown.answer !== null },
  { name: 'accounts', title: 'Accounts', show: lookedView, isThere: (shown) => shown.looked !== null },
  { name: 'overview', title: 'Overview', show: overview },
  { name: 'book', title: 'Book', ofMarket: bookView },
  { name: 'trades', title: 'Trades', ofMarket: tradesView },
  { name: 'orders', title: 'Orders', ofMarket: ordersView },
  { name: 'events', title: 'Events', ofMarket: eventsView },
  { name: 'traders', title: 'Traders', ofMarket: tradersView },
  { name: 'owners', title: 'Owners', show: ownersView },
  { name: 'worth', title: 'Worth', show: worthView, isThere: (shown) => shown.worth !== null || shown.joined !== null },
  { name: 'vaults', title: 'Vaults', ofMarket: vaultsView },
  { name: 'audit', title: 'Audit', show: auditView },
  { name: 'journal', title: 'Journal', ofMarket: journalView },
  { name: 'script', title: 'Script', show: scriptView, isThere: (shown) => shown.script !== null },
  { name: 'wallets', title: 'Wallets', show: walletsView },
  { name: 'bytes', title: 'Bytes', show: bytesView },
];

/** The views that texts have, in the order of their tabs. */
export function viewsOf(shown) {
  const isThere = (view) => (view.isThere === undefined ? shown.hasAccounts : view.isThere(shown));
  return VIEWS.filter(isThere);
}
