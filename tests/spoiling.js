'use strict';

// Texts of the program that are spoiled by chance, for tests/page and tests/office-page.

// Numbers from 0 until `until`, the same for a seed.
function chooser(seed) {
  let state = BigInt(seed) * 6364136223846793005n + 1442695040888963407n;
  return until => {
    state = BigInt.asUintN(64, state * 6364136223846793005n + 1442695040888963407n);
    return Number((state >> 33n) % BigInt(until));
  };
}

function spoiledLine(choose, line) {
  const fields = line.split('\t');
  const at = choose(fields.length);
  const number = /^-?\d+$/.test(fields[at]);
  const ways = [() => fields.splice(at, 1), () => fields.splice(at, 0, fields[at]), () => { fields[at] += ' '; }, () => { fields[at] = ''; }];
  const numbers = [1n, -1n, 2n, -2n, 1000n].map(by => () => { fields[at] = String(BigInt(fields[at]) + by); });
  const all = number ? [...numbers, ...numbers, ...numbers, ...ways, () => { fields[at] = `0${fields[at]}`; }, () => { fields[at] = '9'.repeat(40); }] : ways;
  all[choose(all.length)]();
  return fields.join('\t');
}

// A text that is spoiled in one place, or sometimes in two: in half of the cases in a line of numbers.
function spoiled(choose, text) {
  for (let times = choose(4) ? 1 : 2; times > 0; times--) {
    const lines = text.split('\n');
    const ofNumbers = [...lines.keys()].filter(it => /^(total|panel|stage|bound|split)\t/.test(lines[it]));
    const at = ofNumbers.length && choose(2) ? ofNumbers[choose(ofNumbers.length)] : choose(lines.length);
    const ways = [
      () => lines.splice(at, 1),
      () => lines.splice(at, 0, lines[at]),
      () => lines.splice(at, 2, lines[at + 1] ?? '', lines[at]),
      () => lines.splice(at),
      () => { lines[at] += '\r'; },
      () => { lines[at] = lines[at].slice(0, choose(lines[at].length + 1)) + String.fromCharCode(choose(256)) + lines[at].slice(choose(lines[at].length + 1)); },
    ];
    const line = () => { lines[at] = spoiledLine(choose, lines[at]); };
    const all = [...ways, line, line, line, line, line, line, line, line, line, line];
    all[choose(all.length)]();
    text = lines.join('\n');
  }
  return text;
}

module.exports = { chooser, spoiled };
