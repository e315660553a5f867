'use strict';

// The calls of the module, whose code is that of the crate command_browser.

// The most bytes that an input may have, as in the program. One byte more is enough to be told that a file is too long.
const MOST_BYTES = 16777216;

// How many bytes of room a call is lent at first.
const FIRST_ROOM = 65536;

class WantOfMemory extends Error {}

// Lends the module these bytes, and returns their place: an address and a length.
function lent(exports, bytes) {
  const at = exports.lend(BigInt(bytes.length));
  if (at === 0n) throw new WantOfMemory('want of memory');
  new Uint8Array(exports.memory.buffer).set(bytes, Number(at));
  return [at, BigInt(bytes.length)];
}

// Calls an export with room for `size` bytes, and returns the text that it tells, or the length that it needs.
function told(exports, name, places, size) {
  const room = lent(exports, new Uint8Array(size));
  const count = Number(exports[name](...places, ...room));
  if (count === 0) throw new WantOfMemory('want of memory');
  if (count > size) return count;
  return new Uint8Array(exports.memory.buffer, Number(room[0]), count).slice();
}

// Returns a function that makes a call: of the name of an export, the numbers and the bytes that it is given, it returns the bytes of the text
// that is told. Numbers are BigInts. Each call has a memory of its own, so nothing is kept from one to the next.
async function loadedChecker(bytes) {
  const module = await WebAssembly.compile(bytes);
  return (name, ...parts) => {
    const exports = new WebAssembly.Instance(module, {}).exports;
    const places = parts.flatMap(part => typeof part === 'bigint' ? [part] : lent(exports, part));
    const first = told(exports, name, places, FIRST_ROOM);
    return typeof first === 'number' ? told(exports, name, places, first) : first;
  };
}
