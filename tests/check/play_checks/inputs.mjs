// Files: a dump, one that is no text, long ones, the longest; what runs long is told and can be stopped; the module that breaks off.

import { readFileSync, writeFileSync } from 'node:fs';
import { join } from 'node:path';
import { stored } from '../view_browser/texts.mjs';

// A dump that is dropped is audited, and rows are played on it.
async function checkDump(suite, player) {
  await player.open();
  const report = stored('examples/two_traders.report');
  const dump = report.slice(report.indexOf('dump\n'), report.indexOf('\nend\n') + 1);
  await player.drop('two.dump', dump);
  suite.same('a dump: it is folded', (await player.rows()), '');
  await player.command('audit');
  suite.same('a dump: its audit', (await player.saved()).text, 'audit ok 1 4\n');
  const broken = dump.replace(/^(wallet,bob_usd,.{20})./m, (_, front) => `${front}x`);
  await player.drop('broken.dump', stored('tests/cases/audit/0446.in'));
  suite.same('a broken dump: its audit', (await player.saved()).text, stored('tests/cases/audit/0446.out'));
  suite.holds('a broken dump: the answer is told', (await player.page.text('main')).includes('The dump is refused at row 15'));
  await player.command('replay');
  suite.same('a broken dump, played: its answer', (await player.saved()).text, stored('tests/cases/audit/0446.out'));
  await player.drop('broken.dump', broken);
  await player.click('Leave it out');
  suite.same('the dump left out: nothing is played', (await player.saved()).text, 'report 0\ndump\nenddump\nend\n');
  await player.drop('from_a_dump.csv', stored('examples/from_a_dump.csv'));
  suite.same('a script behind a dump', (await player.saved()).text, stored('examples/from_a_dump.report'));
  await player.drop('two.report', stored('examples/two_traders.report'));
  suite.same('of a report: its dump', (await player.saved('Save the script')).text, dump);
  await player.drop('from_a_dump.csv', stored('examples/from_a_dump.csv'));
  suite.same('a script behind a dump, saved', (await player.saved('Save the script')).text, stored('examples/from_a_dump.csv'));
}

// Inputs of the ends: an answer or a clear word, and the page goes on.
async function checkEnds(suite, player) {
  await player.open();
  await player.drop('empty.csv', '');
  suite.same('an empty file', (await player.saved()).text, 'report 0\ndump\nenddump\nend\n');
  await player.drop('bytes.bin', [255, 254, 0, 128, 44, 200]);
  suite.same('bytes that are no text', (await player.saved()).text, 'script refused row 1: 1 BadCsv\n');
  const adder = () => [...document.querySelectorAll('.source button')].find((button) => button.textContent === 'Add a row').disabled;
  suite.same('bytes that are no text: no row is added', await player.page.run(adder), true);
  suite.holds('bytes that are no text: it is said', (await player.named('folded')).includes('its bytes are no text'));
  await player.drop('lines.csv', 'mint,a,6\r\nmint,b,6\rmint,c,6\n');
  suite.holds('ends of lines of all kinds', (await player.saved()).text.startsWith('report 0\ndump\nmint,a,'));
  await player.drop('line.csv', `mint,${'a'.repeat(30000)},6\n`);
  suite.same('a line that is very long', (await player.saved()).text, 'script refused row 1: 5 BadLabel\n');
  await player.dropRepeated('zero.bin', '', '\0', 67108864);
  suite.same('64 MiB of zero bytes', (await player.saved()).text, 'script refused row 1: 1 BadCsv\n');
  await player.dropRepeated('lines.csv', '', '\n', 67108864);
  suite.same('64 MiB of line feeds', (await player.saved()).text, 'report 0\ndump\nenddump\nend\n');
  await player.dropRepeated('more.csv', '', '\n', 67108865);
  suite.holds('one byte more', (await player.named('fault')).includes('more.csv is not handed over: it has 67,108,865 bytes'));
  await player.drop('two_traders.csv', stored('examples/two_traders.csv'));
  suite.same('behind all that: an example', (await player.saved()).text, stored('examples/two_traders.report'));
}

// So many instruction rows behind the setup of an example.
function manyRows(count) {
  const lines = stored('examples/two_traders.csv').split('\n').filter((line) => line !== '');
  const acts = lines.filter((line) => /^(do|ix),/.test(line));
  const setup = lines.filter((line) => !/^(do|ix),/.test(line));
  return `${[...setup, ...Array.from({ length: count }, (_, at) => acts[at % acts.length])].join('\n')}\n`;
}

// 100,000 rows: the field shows a part, a fault leads to its own part, a row is written at the end.
async function checkLong(suite, player) {
  await player.open();
  const from = Date.now();
  await player.drop('long.csv', manyRows(100000));
  console.log(`play: 100,000 rows were dropped, played and shown in ${((Date.now() - from) / 1000).toFixed(1)} s`);
  suite.holds('100,000 rows: the report', (await player.named('told')).startsWith('replay: status 0'));
  suite.holds('100,000 rows: the field shows a part', (await player.named('parts')).startsWith('The field shows rows 1 to 1,500.'));
  await player.replace('do,0,m,ann,amy,-,-,-,-,init', 'do,0,m,ann,amy,-,-,-,-,init\ndo,0,m,ann,amy,-,-,-,-,init');
  suite.holds('100,001 rows: the fault', (await player.named('row fault')).startsWith('Row 100010: 8 OverLimit.'));
  await player.click('Go to row 100010');
  suite.same('100,001 rows: the part with the fault', await player.page.texts('.gutter .fault-row'), ['100010']);
  const keys = await player.page.run(async () => {
    const times = [];
    for (const key of ['1', '2', '3']) {
      const begin = performance.now();
      document.execCommand('insertText', false, key);
      await new Promise((done) => { requestAnimationFrame(() => setTimeout(done)); });
      times.push(performance.now() - begin);
    }
    return times;
  });
  await player.calm();
  console.log(`play: a key in a script of 100,000 rows took ${Math.round(Math.max(...keys))} ms at most`);
}

// What runs long is told, and can be stopped; then the page goes on.
async function checkStop(suite, player) {
  await player.open();
  const before = (await player.saved()).text;
  const told = await player.page.run(async (text) => {
    const transfer = new DataTransfer();
    transfer.items.add(new File([text], 'long.csv'));
    document.dispatchEvent(new DragEvent('drop', { dataTransfer: transfer, bubbles: true, cancelable: true }));
    for (let count = 0; count < 1500 && document.querySelector('.working').hidden; count += 1) await new Promise((done) => { setTimeout(done, 2); });
    const words = document.querySelector('[data-name="working"]').textContent;
    [...document.querySelectorAll('.working button')][0].click();
    return words;
  }, manyRows(100000));
  await player.calm();
  suite.holds('what runs long: it is told', told === '' || /, [0-9.]+ s$/.test(told), told);
  suite.same('what runs long: it was stopped', await player.named('told'), 'replay was stopped.');
  await player.drop('two_traders.csv', stored('examples/two_traders.csv'));
  suite.same('behind a stop: an answer', (await player.saved()).text, before);
}

// A page with another worker: what the page says where memory is wanting, the module breaks off, or none can be loaded.
async function checkLosses(suite) {
  const text = readFileSync(suite.file, 'utf8');
  const holder = /(<script type="text\/plain" class="worker"[^>]*>)[\s\S]*?(<\/script>)/;
  const withWorker = (source) => text.replace(holder, (_, front, end) => front + source.replace(/</g, '\\l') + end);
  const answering = (answer) => `self.onmessage = ({ data }) => { if (!data.module) self.postMessage(${answer}); };`;
  const file = join(suite.folder, 'loss.html');
  const player = await suite.player(1280, 900);
  player.file = file;
  const answers = {
    'memory': [answering('{ status: 7, text: new Uint8Array(0), milliseconds: 1 }'), 'Memory ran out'],
    'a trap': [answering('{ fault: "RuntimeError: unreachable" }'), 'The module broke off: RuntimeError: unreachable.'],
    'a worker that fails': ['throw new Error("no worker");', 'The module broke off: '],
  };
  for (const [name, [source, words]] of Object.entries(answers)) {
    writeFileSync(file, withWorker(source));
    await player.open();
    suite.holds(`${name}: it is told`, (await player.named('fault')).startsWith(words), await player.named('fault'));
  }
  writeFileSync(file, text.replace(/(<script type="text\/plain" class="module"[^>]*>)[\s\S]*?(<\/script>)/, '$1AAAA$2'));
  await player.page.open(file).catch(() => {});
  suite.holds('no module: it is told', (await player.named('fault')).includes('The module'));
  await player.page.close();
}

/** Inputs. */
export async function inputCases(suite) {
  const player = await suite.player(1280, 900);
  for (const check of [checkDump, checkEnds, checkLong, checkStop]) await check(suite, player);
  await player.page.close();
  await checkLosses(suite);
}
