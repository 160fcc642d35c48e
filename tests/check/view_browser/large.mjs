// A report of 100,000 rows with its script: how many rows stand on the page. How long it takes to open and to filter is told, and held to
// no bound, since a machine may be busy.

import { makePage, stored } from './texts.mjs';

const TIMES = 11112;

// The example's rows many times over: each time with row numbers of their own, in the script and in the journals.
function repeated() {
  const script = stored('examples/two_traders.csv').split('\n').filter((line) => line !== '');
  const report = stored('examples/two_traders.report').split('\n');
  const first = script.findIndex((line) => /^(do|ix),/.test(line));
  const rows = script.slice(first);
  const many = [];
  for (let time = 0; time < TIMES; time += 1) many.push(...rows);
  const lines = [];
  let block = [];
  let place = 0;
  const flush = () => {
    for (let time = 0; time < TIMES && block.length > 0; time += 1) {
      for (const words of block) lines.push(words.map((word, at) => (at === place ? String(Number(word) + time * rows.length) : word)).join(' '));
    }
    block = [];
  };
  for (const line of report) {
    const words = line.split(' ');
    if (words[0] === 'entry' || words[0] === 'move') {
      place = words[0] === 'entry' ? 2 : 3;
      block.push(words);
      continue;
    }
    flush();
    if (words[0] === 'report') lines.push(`report ${rows.length * TIMES}`);
    else lines.push(/^(market|wallet) /.test(line) ? `${words[0]} ${words[1]} ${Number(words[2]) * TIMES}` : line);
  }
  return { report: lines.join('\n'), script: `${[...script.slice(0, first), ...many].join('\n')}\n`, count: rows.length * TIMES };
}

// The seconds of processor time that all pages took so far.
async function processorTime(browser) {
  const { processInfo } = await browser.ask('SystemInfo.getProcessInfo');
  return processInfo.filter(({ type }) => type === 'renderer').reduce((sum, { cpuTime }) => sum + cpuTime, 0);
}

// How long the page takes to show another fragment, until its rows stand.
function timeOf(page, fragment) {
  return page.run((hash) => new Promise((done) => {
    const from = performance.now();
    window.addEventListener('hashchange', () => requestAnimationFrame(() => setTimeout(() => done(performance.now() - from))), { once: true });
    window.location.hash = hash;
  }), fragment);
}

/** A very long report. */
export async function largeCases(suite) {
  const { report, script, count } = repeated();
  const file = makePage(suite.folder, report, { 'script.csv': script });
  const page = await suite.browser.page(1280, 900);
  const from = Date.now();
  const before = await processorTime(suite.browser);
  await page.open(file, 'journal/m');
  const opened = (Date.now() - from) / 1000;
  const behind = await processorTime(suite.browser);
  suite.same('long report: entries', (await page.text('h2')).replace(/,/g, ''), `${count} of ${count} entries`);
  const times = [];
  const filters = ['signer=bob', 'asked=consume', 'account=amy', 'lane=1&kind=settled', 'refusal=22'];
  for (const words of filters) times.push(await timeOf(page, `#journal/m?${words}`));
  const slowest = Math.max(...times) / 1000;
  const used = { open: behind - before, filter: (await processorTime(suite.browser) - behind) / filters.length };
  suite.same('long report: rows on the page', await page.run(() => document.querySelectorAll('.rows .row').length < 100), true);
  console.log(`page: ${count} rows with their script opened in ${opened.toFixed(1)} s, filtered in ${slowest.toFixed(2)} s at most; of the processor `
    + `${used.open.toFixed(1)} s and ${used.filter.toFixed(2)} s`);
  await page.close();
}
