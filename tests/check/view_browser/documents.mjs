// Documents that pages become: node documents.mjs CHROMIUM FILE. Each line of its input is a page's path, a tab and a fragment; the document
// is written to the file, and then `done` to its output.

import { mkdtempSync, rmSync, writeFileSync } from 'node:fs';
import { tmpdir } from 'node:os';
import { join } from 'node:path';
import { createInterface } from 'node:readline';
import { Browser } from './browser.mjs';

const [, , chromium, file] = process.argv;
const folder = mkdtempSync(join(tmpdir(), 'view'));
const browser = new Browser(chromium, folder);
const page = await browser.page(1280, 3000);
for await (const line of createInterface({ input: process.stdin })) {
  const [path, fragment] = line.split('\t');
  await page.open(path, fragment).catch(() => {});
  writeFileSync(file, await page.run(() => document.documentElement.outerHTML));
  console.log('done');
}
await browser.close();
rmSync(folder, { recursive: true, force: true, maxRetries: 20, retryDelay: 100 });
