// The lines of the feed, and what is known from them.

/** The levels that words tell, a price and its lots in turn. Numbers stay text: they may be above what a number of the browser holds exactly. */
function levelsOf(words) {
  const levels = [];
  for (let at = 0; at + 1 < words.length; at += 2) levels.push({ price: words[at], lots: words[at + 1] });
  return levels;
}

/** All markets that lines told of. */
export class Markets {
  constructor() {
    this.byName = new Map();
  }

  /** The market of a name. */
  of(name) {
    if (!this.byName.has(name)) this.byName.set(name, { name, bids: [], asks: [], trades: [] });
    return this.byName.get(name);
  }

  /** Takes a line; a line of another kind says nothing. */
  take(line, time) {
    const [kind, name, ...words] = line.split(' ');
    if (kind === 'top') {
      const middle = words.indexOf('ask');
      this.of(name).bids = levelsOf(words.slice(1, middle));
      this.of(name).asks = levelsOf(words.slice(middle + 1));
    } else if (kind === 'trade') {
      const [row, side, lots, quote] = words;
      const trades = this.of(name).trades;
      trades.unshift({ row, side, lots, quote, time });
      trades.splice(50);
    }
  }
}
