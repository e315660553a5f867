'use strict';

// Calls that may take long. Each runs in a worker, so that the page lives, and can be stopped.

// What was asked of a worker and not answered yet, or null.
let running = null;

// Makes a call in a worker, and returns the text. `tick` is told the seconds once a second. Throws if the call fails or is stopped.
function longCall(module, name, parts, tick) {
  stopLongCall();
  const source = new Blob([document.getElementById('worker').textContent], { type: 'text/javascript' });
  const place = URL.createObjectURL(source);
  const worker = new Worker(place);
  const began = Date.now();
  const timer = setInterval(() => tick(Math.round((Date.now() - began) / 1000)), 250);
  return new Promise((done, fail) => {
    const end = () => {
      clearInterval(timer);
      worker.terminate();
      URL.revokeObjectURL(place);
      running = null;
    };
    running = () => {
      end();
      fail(new Stopped());
    };
    worker.onmessage = ({ data }) => {
      end();
      if (data.isMemory) fail(new WantOfMemory(data.failed));
      else if ('failed' in data) fail(new Error(data.failed));
      else done({ text: new TextDecoder().decode(data.text), seconds: (Date.now() - began) / 1000 });
    };
    worker.onerror = event => {
      end();
      fail(new Error(event.message || 'the worker ended'));
    };
    worker.postMessage({ module, name, parts: partsOfCall(parts) });
  });
}

class Stopped extends Error {}

// Stops the call that is running, if there is one.
function stopLongCall() {
  if (running) running();
}
