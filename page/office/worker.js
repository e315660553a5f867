'use strict';

// The other side of a worker: it makes one call of the module that it is given, and tells the text. `checker.js` stands before it.

onmessage = async ({ data: { module, name, parts } }) => {
  try {
    const call = await loadedChecker(module);
    const text = call(name, ...parts);
    postMessage({ text });
  } catch (error) {
    postMessage({ failed: error.message, isMemory: error instanceof WantOfMemory || error instanceof RangeError });
  }
};
