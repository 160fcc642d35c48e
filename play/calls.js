// A call of one command in the module: bytes in, the status and the text out. Each call has an instance and a memory of its own, which go
// with it; so no call sees what another left. docs/LIBRARY.md tells what the functions promise of their bytes, room and size.

const FIRST_PAGES = 32;
const LEAST_ROOM = 2097152;
const LARGEST_FIRST_ROOM = 67108864;
/** The most pages of 64 KiB that a memory may have. */
export const MOST_PAGES = 65536;
/** The status of a call for which memory was wanting. */
export const NO_MEMORY = 7;

// The room for a text at first, with its size: what is asked for, where there is so much, else enough for most. Place 0: there is none.
function firstRoom(take, length, asked) {
  const usual = Math.min(5 * length + LEAST_ROOM, LARGEST_FIRST_ROOM);
  const place = asked > usual ? take(asked) : 0;
  return place === 0 ? [take(usual), usual] : [place, asked];
}

/** An instance with a memory of its own of so many pages at most. */
export function instanceOf(module, mostPages) {
  const memory = new WebAssembly.Memory({ initial: FIRST_PAGES, maximum: mostPages });
  const { exports } = new WebAssembly.Instance(module, { env: { memory } });
  return { memory, exports, take: (size) => Number(BigInt.asUintN(32, exports.play_alloc(BigInt(size)))) };
}

// The bytes in the memory of an instance, as its functions take them; null where memory is wanting.
function handIn({ memory, take }, bytes) {
  const place = take(bytes.length);
  if (place === 0) return null;
  new Uint8Array(memory.buffer, place, bytes.length).set(bytes);
  return [BigInt(place), BigInt(bytes.length)];
}

// Calls with a room, and once more with a larger one where the text does not fit.
function answerOf({ memory, exports, take }, call, words, length, asked) {
  const size = take(8);
  let [place, room] = firstRoom(take, length, asked);
  for (;;) {
    if (size === 0 || place === 0) return { status: NO_MEMORY, text: new Uint8Array(0) };
    const status = exports[call](...words, BigInt(place), BigInt(room), BigInt(size)) & 255;
    const told = Number(new DataView(memory.buffer).getBigUint64(size, true));
    if (told <= room) return { status, text: new Uint8Array(memory.buffer, place, told).slice() };
    exports.play_free(BigInt(place));
    [place, room] = [take(told), told];
  }
}

/**
 * What a command of the module answers to numbers and bytes (null where it reads none): its status, its text, and the memory that it took.
 * `room` asks for more room for a text at first than is usual, so that a command with a longer text is not called twice.
 */
export function callCommand(module, { call, numbers, bytes, room = 0 }, mostPages = MOST_PAGES) {
  const instance = instanceOf(module, mostPages);
  const input = bytes === null ? [] : handIn(instance, bytes);
  if (input === null) return { status: NO_MEMORY, text: new Uint8Array(0), memory: instance.memory.buffer.byteLength };
  const { status, text } = answerOf(instance, call, [...numbers, ...input], bytes === null ? 0 : bytes.length, room);
  return { status, text, memory: instance.memory.buffer.byteLength };
}
