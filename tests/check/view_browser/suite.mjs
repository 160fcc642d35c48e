// Counting of checks, and what all cases share: a browser, a folder for pages.

import { mkdtempSync, rmSync } from 'node:fs';
import { tmpdir } from 'node:os';
import { join } from 'node:path';
import { Browser } from './browser.mjs';

/** Counts checks and tells those that failed. */
class Suite {
  constructor(browser, folder) {
    Object.assign(this, { browser, folder, passed: 0, failed: 0 });
  }

  /** Counts a check as passed where what was found is what was wanted. */
  same(name, found, wanted) {
    const [one, other] = [found, wanted].map((value) => (typeof value === 'string' ? value : JSON.stringify(value)));
    if (one === other) this.passed += 1;
    else {
      this.failed += 1;
      console.log(`${name}\n  wanted: ${String(other).slice(0, 400)}\n  found:  ${String(one).slice(0, 400)}`);
    }
  }

  /** Counts a check as passed where it holds. */
  holds(name, isTrue, told = '') { this.same(name, isTrue ? 'yes' : `no ${told}`, 'yes'); }

  /** Counts as passed where nothing of a text became an element, ran, or was asked for. */
  async harmless(name, page) {
    const found = await page.run(() => ({
      hurt: window.hurt === undefined, images: document.querySelectorAll('img, iframe, object, embed, svg:not([role="img"])').length,
      handlers: document.querySelectorAll('[onload], [onerror], [onclick]').length,
      hrefs: [...document.querySelectorAll('a[href]')].filter((link) => !link.getAttribute('href').startsWith('#')).length,
    }));
    this.same(`${name}: it stays text`, found, { hurt: true, images: 0, handlers: 0, hrefs: 0 });
    this.same(`${name}: nothing is asked for`, page.requests(), []);
  }

  /** Runs a group of cases; what it throws is a failed check. */
  async group(name, cases) {
    try {
      await cases(this);
    } catch (fault) {
      this.failed += 1;
      console.log(`${name}: ${fault.stack}`);
    }
  }
}

/** Runs groups of cases in a Chromium, those of some names or all, and prints 'N passed, M failed' last; `more` gives what a suite has besides. */
export async function runGroups({ chromium, kind, groups, names, more = () => ({}) }) {
  const folder = mkdtempSync(join(tmpdir(), kind));
  const browser = new Browser(chromium, join(folder, 'profile'));
  const suite = Object.assign(new Suite(browser, folder), more(browser));
  try {
    for (const name of names.length > 0 ? names : Object.keys(groups)) await suite.group(name, groups[name]);
  } finally {
    await browser.close();
    rmSync(folder, { recursive: true, force: true, maxRetries: 20, retryDelay: 100 });
  }
  console.log(`${suite.passed} passed, ${suite.failed} failed`);
  process.exitCode = suite.failed === 0 ? 0 : 1;
}
