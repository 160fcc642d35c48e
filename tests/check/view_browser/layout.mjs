// No text covers another, no number is cut off and nothing scrolls sideways, at three widths, with labels and with hexadecimal addresses.

import { faultsOfLayout } from './measures.mjs';
import { dumpOf, labelsOf, makePage, stored, withBytes, withHexAddresses } from './texts.mjs';

// Each view of a page at each width.
async function checkViews(suite, name, file) {
  const page = await suite.browser.page(1280, 1600);
  await page.open(file);
  const views = await page.run(() => [...document.querySelectorAll('nav a')].map((link) => link.getAttribute('href')));
  for (const width of [360, 800, 1280]) {
    await page.size(width, 1600);
    for (const view of views) {
      await page.go(view);
      await page.run(() => { const row = document.querySelector('.rows .row'); if (row !== null) row.click(); });
      await page.settle();
      const { covers, hidden, wide, texts } = await page.run(faultsOfLayout);
      suite.same(`${name} ${view} at ${width}: texts that cover others`, covers.slice(0, 4), []);
      suite.same(`${name} ${view} at ${width}: texts that are cut off`, hidden.slice(0, 4), []);
      suite.same(`${name} ${view} at ${width}: parts that are too wide`, wide.slice(0, 4), []);
      suite.holds(`${name} ${view} at ${width}: there are texts`, texts > 8);
    }
  }
  await page.close();
}

/** Layouts of reports with labels, with hexadecimal addresses, and of a dump with findings. */
export async function layoutCases(suite) {
  for (const example of ['examples/deep_book', 'examples/discount_and_referrer', 'tests/data/swaps']) {
    const [script, report] = ['csv', 'report'].map((kind) => stored(`${example}.${kind}`));
    await checkViews(suite, example, makePage(suite.folder, report, { 'script.csv': script }));
    const labels = labelsOf(script);
    const hex = { report: withHexAddresses(report, labels).text, script: withHexAddresses(script, labels).text };
    await checkViews(suite, `${example} in hexadecimal`, makePage(suite.folder, hex.report, { 'script.csv': hex.script }));
  }
  await checkViews(suite, 'swaps without their script', makePage(suite.folder, stored('tests/data/swaps.report')));
  const answer = stored('tests/cases/audit/0452.out');
  await checkViews(suite, 'findings', makePage(suite.folder, stored('tests/cases/audit/0452.in'), { 'answer.txt': answer }));
  const large = withBytes(dumpOf(stored('examples/deep_book.report')), 'market,m,', 5, 64, Buffer.alloc(8, 255));
  await checkViews(suite, 'a vault of 2^64 - 1', makePage(suite.folder, large));
}
