// Texts with markup in them, in every kind of text and in names and fragments: they are shown as text, run nothing and ask for nothing.

import { readFileSync } from 'node:fs';
import { makePage, stored } from './texts.mjs';

const MARKUP = '<img src=x onerror="window.hurt=1"></script><script>window.hurt=1</script><svg onload=window.hurt=1>';
const QUOTED = `"${MARKUP.replace(/"/g, '""')}"`;

// Texts with markup somewhere.
const HOSTILE = {
  'a script whose words are markup': `mint,${QUOTED},6\nwallet,${QUOTED},${QUOTED},${QUOTED},${QUOTED}\ndo,0,${QUOTED},${QUOTED},${QUOTED},-,-,-,-,new bid 1 1 1 abort limit 1 1\n`,
  'a script whose first word is none': `do,0,m,${QUOTED},a b ${QUOTED},-,-,-,-,${QUOTED}\nix,0,m,a,b,-,-,-,-,${QUOTED}\n`,
  'a swap row of markup': `swap,0,${QUOTED},${QUOTED},-,-,${QUOTED},${QUOTED},-,-,${QUOTED}\n`,
  'a report with markup': `report 1\nmarket m 1\n${MARKUP}\n`,
  'a dump with markup': `dump\nmint,${MARKUP},AAAA\nenddump\n`,
  'an answer with markup': `script refused row 1: 3 ${MARKUP}\n`,
  'a usage line with markup': `usage: ${MARKUP}\n`,
  'a finding with markup': `finding 1 ${MARKUP} 1 2 3\naudit failed 1\n`,
  'worth with markup': `worth 1\ntrader ${MARKUP} a 1 2\nend\n`,
  'a text of no kind': `${MARKUP}\n`,
  'backslashes': 'script refused row 3: 3 FieldCount\\l\\\\n\\0\n',
};

// The row of a table whose cells have markup is chosen too, so that its details are drawn.
async function chooseFirst(page) {
  await page.run(() => { for (const row of document.querySelectorAll('.rows .row')) row.click(); });
  await page.settle();
}

/** Hostile texts. */
export async function securityCases(suite) {
  const page = await suite.browser.page(1280, 900);
  for (const [name, text] of Object.entries(HOSTILE)) {
    await page.open(makePage(suite.folder, text));
    await chooseFirst(page);
    await suite.harmless(name, page);
    await page.open(makePage(suite.folder, stored('examples/two_traders.report'), { '"><img src=x onerror="window.hurt=1">': text }));
    await suite.harmless(`${name}, beside a report, as a file of a hostile name`, page);
  }
  const file = makePage(suite.folder, stored('examples/two_traders.report'));
  for (const view of ['book', 'journal', 'wallets', 'bytes', 'owners', 'orders', 'script', MARKUP]) {
    const mark = encodeURIComponent(MARKUP);
    for (const fragment of [`${view}/${mark}`, `${view}/m?row=${mark}&account=${mark}&id=${mark}&place=${mark}&signer=${mark}`, `${view}?__proto__=1&constructor=2`]) {
      await page.open(file, fragment);
      await suite.harmless(`#${fragment.slice(0, 60)}`, page);
    }
  }
  const text = readFileSync(file, 'utf8');
  suite.holds('one file: no other one is named in it', !/<(link|img|iframe)\b|<script[^>]* src=|@import|url\(/.test(text.replace(/<script type="text\/plain"[\s\S]*?<\/script>/g, '').replace(/'[^'\n]*'/g, '')));
  suite.holds('the page forbids itself to fetch', text.includes("default-src 'none'; script-src 'self' 'unsafe-inline'; style-src 'self' 'unsafe-inline'"));
  await page.close();
}
