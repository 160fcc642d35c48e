// The functions under the library: numbers of 128 bits beside those of the language, blocks of memory that keep what is in them, and memory
// that is refused at every size: node shims.mjs FOLDER MODULE.

import { readFileSync } from 'node:fs';
import { join } from 'node:path';
import { call, holds, module, root, tellCounts } from './module.mjs';

const FIRST_PAGES = 32;
const WIDE = 1n << 128n;

// Numbers that are drawn the same each time.
let state = 0x9e3779b97f4a7c15n;
function drawn() {
  state = BigInt.asUintN(64, state ^ (state << 13n));
  state ^= state >> 7n;
  state = BigInt.asUintN(64, state ^ (state << 17n));
  return state;
}

// An instance with a memory of so many pages at most.
function instance(mostPages) {
  const memory = new WebAssembly.Memory({ initial: FIRST_PAGES, maximum: mostPages });
  return { memory, ...new WebAssembly.Instance(module, { env: { memory } }).exports };
}

// Products, quotients and rests of numbers of all lengths.
function checkNumbers() {
  const shims = instance(65536);
  const out = shims.play_alloc(16n);
  const halves = (number) => [BigInt.asIntN(64, number), BigInt.asIntN(64, number >> 64n)];
  const result = (name, ...words) => {
    shims[name](out, ...words);
    const view = new DataView(shims.memory.buffer, Number(out), 16);
    return view.getBigUint64(0, true) + (view.getBigUint64(8, true) << 64n);
  };
  const edges = [0n, 1n, 2n, 3n, 10n, 0xffffffffn, 1n << 32n, (1n << 63n) - 1n, 1n << 63n, (1n << 64n) - 1n, 1n << 64n, (1n << 64n) + 1n, 1n << 127n, WIDE - 1n];
  const pairs = edges.flatMap((one) => edges.map((other) => [one, other]));
  for (let count = 0; count < 20000; count += 1) {
    const wide = () => ((drawn() << 64n) + drawn()) >> (drawn() % 128n);
    pairs.push([wide(), wide()]);
  }
  const wrong = { __multi3: 0, __udivti3: 0, __umodti3: 0, __ashlti3: 0, __lshrti3: 0 };
  for (const [one, other] of pairs) {
    const places = Number(other % 128n);
    if (result('__ashlti3', ...halves(one), places) !== (one << BigInt(places)) % WIDE) wrong.__ashlti3 += 1;
    if (result('__lshrti3', ...halves(one), places) !== one >> BigInt(places)) wrong.__lshrti3 += 1;
    if (result('__multi3', ...halves(one), ...halves(other)) !== (one * other) % WIDE) wrong.__multi3 += 1;
    if (other !== 0n && result('__udivti3', ...halves(one), ...halves(other)) !== one / other) wrong.__udivti3 += 1;
    if (other !== 0n && result('__umodti3', ...halves(one), ...halves(other)) !== one % other) wrong.__umodti3 += 1;
  }
  for (const [name, count] of Object.entries(wrong)) holds(`${name} of ${pairs.length} pairs`, count === 0, `${count} are wrong`);
}

// The bytes of a block, all of one value.
function isFilled({ memory }, { place, size, value }) {
  return new Uint8Array(memory.buffer, Number(place), size).every((byte) => byte === value);
}

// Blocks that are taken, grown and given back in a drawn order: each keeps what stands in it, and none covers another.
function checkBlocks() {
  const shims = instance(4096);
  const blocks = [];
  let wrong = 0;
  const fill = (block) => new Uint8Array(shims.memory.buffer, Number(block.place), block.size).fill(block.value);
  for (let count = 0; count < 20000; count += 1) {
    const what = drawn() % 4n;
    const at = Number(drawn() % BigInt(blocks.length + 1));
    const size = Number(drawn() % (1n << (1n + drawn() % 16n)));
    if (what < 2n || at === blocks.length) {
      const block = { place: shims.play_alloc(BigInt(size)), size, value: count % 251 };
      if (block.place === 0n) continue;
      if (block.place % 16n !== 0n) wrong += 1;
      fill(block);
      blocks.push(block);
    } else if (what === 2n) {
      const [block] = blocks.splice(at, 1);
      if (!isFilled(shims, block)) wrong += 1;
      shims.play_free(block.place);
    } else {
      const block = blocks[at];
      const place = shims.play_realloc(block.place, BigInt(size));
      if (place === 0n) continue;
      if (!isFilled(shims, { ...block, place, size: Math.min(size, block.size) })) wrong += 1;
      Object.assign(block, { place, size });
      fill(block);
    }
  }
  holds('blocks keep what stands in them', wrong === 0 && blocks.every((block) => isFilled(shims, block)), `${wrong} do not`);
  const before = shims.memory.buffer.byteLength;
  for (let count = 0; count < 1000; count += 1) shims.play_free(shims.play_alloc(100000n));
  holds('memory that was given back is taken again', shims.memory.buffer.byteLength <= before + 200000);
}

// More than there is, up to numbers whose lower halves are small.
function checkTooMuch() {
  const shims = instance(64);
  const sizes = [64n * 65536n, 1n << 31n, (1n << 32n) - 1n, 1n << 32n, (1n << 32n) + 1n, (1n << 48n) + 5n, (1n << 63n) - 1n, -1n, -65536n];
  holds('more than there is, is refused', sizes.every((size) => shims.play_alloc(size) === 0n));
  const place = shims.play_alloc(100n);
  new Uint8Array(shims.memory.buffer, Number(place), 100).fill(7);
  holds('a block cannot grow to more than there is', sizes.every((size) => shims.play_realloc(place, size) === 0n));
  holds('a block that could not grow keeps what stands in it', isFilled(shims, { place, size: 100, value: 7 }));
}

// A command in memories of every size: its answer, or status 7 without a text.
function checkWant(name, words, input) {
  const whole = call(words, input);
  const wanted = Buffer.from(whole.text);
  const most = whole.memory / 65536;
  let [refused, wrong] = [0, 0];
  for (let pages = FIRST_PAGES; pages < most; pages += Math.max(1, Math.floor((most - FIRST_PAGES) / 150))) {
    const answer = call(words, input, pages);
    if (answer.status === 7 && answer.text.length === 0) refused += 1;
    else if (answer.status !== whole.status || Buffer.compare(Buffer.from(answer.text), wanted) !== 0) wrong += 1;
  }
  holds(`${name}: memory that is refused is status 7`, refused > 0 && wrong === 0, `${refused} were refused, ${wrong} are wrong, of ${most} pages`);
  const enough = call(words, input, most);
  holds(`${name}: the answer where memory is just enough`, enough.status === whole.status && Buffer.compare(Buffer.from(enough.text), wanted) === 0);
}

checkNumbers();
checkBlocks();
checkTooMuch();
const example = readFileSync(join(root, 'examples/deep_book.csv'));
const dump = Buffer.from(call(['dump'], example).text);
checkWant('replay', ['replay'], example);
checkWant('audit', ['audit'], dump);
checkWant('migrate', ['migrate', '2000', '5000'], dump);
checkWant('bulk', ['bulk', '7', '2000'], null);
tellCounts();
