'use strict';

// Words: how they are compared, shown and named in sentences. What `tools/sheets.py` says of words, this says too.

// Letters of other alphabets, dashes and quotes, and below them those of ASCII that they look like.
const LOOKALIKES = new Map([
  ['АВЕЅІЈКМНОРСТУХ', 'ABESIJKMHOPCTYX'],
  ['аеіјорсухѕһԁԛԝ', 'aeijopcyxshdqw'],
  ['ΑΒΕΖΗΙΚΜΝΟΡΤΥΧ', 'ABEZHIKMNOPTYX'],
  ['ονρακιυ', 'ovpakiu'],
  ['ı‐‑‒–—−’‘ʼ´`', 'i------\'\'\'\'\''],
].flatMap(([from, to]) => [...from].map((letter, place) => [letter, to[place]])));

const MOST_NAME_BYTES = 200;                 // of a name, an id or a title
const MOST_SHOWN = 10;                       // of a list of rows or places
const CLOSE_NAMES = 0.85;                    // the share of letters in common from which a name is near another

// What counts as a blank: as Python has it, and not as JavaScript does.
const BLANKS = '\\t-\\r\\x1c-\\x20\\x85\\xa0\\u1680\\u2000-\\u200a\\u2028\\u2029\\u202f\\u205f\\u3000';
const BLANK_RUN = new RegExp(`[${BLANKS}]+`, 'u');
const BLANKS_BEFORE = new RegExp(`^[${BLANKS}]+`, 'u');
const BLANKS_BEHIND = new RegExp(`[${BLANKS}]+$`, 'u');

// Nothing can be made, for these reasons, a line each.
class Hopeless extends Error {
  constructor(...reasons) {
    super(reasons.join('\n'));
    this.reasons = reasons;
  }
}

// What is to be told of files: what may want a look, and what is harmless.
class Remarks {
  said = [];
  harmless = [];

  say(text) {
    this.said.push(text);
  }

  note(text) {
    this.harmless.push(text);
  }

  // All of it; what is harmless comes last, in a block of its own.
  lines() {
    return [...this.said, ...(this.harmless.length ? ['harmless:'] : []), ...this.harmless.map(text => `  ${text}`)];
  }
}

// ---- blanks and letters

function withoutBlanksBefore(text) {
  return text.replace(BLANKS_BEFORE, '');
}

function stripped(text) {
  return withoutBlanksBefore(text).replace(BLANKS_BEHIND, '');
}

// Returns the words of a text.
function partsOf(text) {
  return stripped(text).split(BLANK_RUN).filter(part => part !== '');
}

// Compares two texts by the numbers of their letters.
function byLetters(one, other) {
  const [a, b] = [[...one], [...other]];
  for (let place = 0; place < Math.min(a.length, b.length); place++) {
    const differ = a[place].codePointAt(0) - b[place].codePointAt(0);
    if (differ) return differ;
  }
  return a.length - b.length;
}

// Returns the letter as texts are compared without a difference of case. Unicode keeps the dotless i apart, makes ß of two letters, and has the
// capital ones of Cherokee.
function foldedLetter(letter) {
  if (letter === 'ı') return letter;
  if (letter === 'ẞ') return 'ss';
  return /\p{Script=Cherokee}/u.test(letter) ? letter.toUpperCase() : letter.toUpperCase().toLowerCase();
}

// The text without what people don't see as a difference: case, and how many blanks there are.
function folded(text) {
  return partsOf(Array.from(text.normalize('NFKC'), foldedLetter).join('')).join(' ');
}

// The same for all texts that look alike: a Cyrillic letter is the Latin one that it looks like, and what can't be seen is left out.
function lookOf(text) {
  return partsOf(folded(Array.from(text, letter => LOOKALIKES.get(letter) ?? letter).join('')).replace(/\p{Cf}/gu, '')).join(' ');
}

// A heading in small letters, without blanks and signs.
function plain(heading) {
  return folded(heading).replace(/[^\p{L}\p{N}]/gu, '');
}

// ---- how texts are shown

function hex(number, digits) {
  return number.toString(16).padStart(digits, '0');
}

// The text in quotes, with what can't be seen as numbers, as Python shows a text.
function quoted(text) {
  const quote = text.includes('\'') && !text.includes('"') ? '"' : '\'';
  const named = { '\\': '\\\\', '\n': '\\n', '\r': '\\r', '\t': '\\t', [quote]: `\\${quote}` };
  return quote + Array.from(text, letter => {
    if (named[letter]) return named[letter];
    if (letter === ' ' || !/[\p{C}\p{Z}]/u.test(letter)) return letter;
    const number = letter.codePointAt(0);
    return number < 0x100 ? `\\x${hex(number, 2)}` : number < 0x10000 ? `\\u${hex(number, 4)}` : `\\U${hex(number, 8)}`;
  }).join('') + quote;
}

// The numbers of letters in Unicode, with their names if they are few.
function codePoints(letters) {
  if (!letters.length) return 'nothing';
  const numbers = letters.slice(0, 6).map(letter => letter.codePointAt(0));
  const named = numbers.map(number => {
    const name = letters.length <= 2 ? NAME_OF_LETTER.get(number) : undefined;
    return `U+${hex(number, 4).toUpperCase()}${name ? ` (${name})` : ''}`;
  });
  return named.join(' ') + (letters.length > 6 ? ' ..' : '');
}

// Where two spellings differ, in numbers of letters.
function unlike(text, other) {
  const parts = differences([...text], [...other]).map(([has, inPlaceOf]) => `${codePoints(has)} in place of ${codePoints(inPlaceOf)}`);
  return parts.slice(0, 3).join(', ') + (parts.length > 3 ? ' ..' : '');
}

// A hint at the one of `names` that looks like `name`, or differs from it in signs or a few letters; empty if there is none.
function near(name, names) {
  const lettersOf = text => folded(text).replace(/[^\p{L}\p{N}]/gu, '');
  const some = [...names].filter(other => other !== '');
  const twin = some.find(other => lookOf(other) === lookOf(name));
  if (twin !== undefined) return ` (near: ${quoted(twin)}): ${unlike(name, twin)}`;
  const alike = some.find(other => lettersOf(other) !== '' && lettersOf(other) === lettersOf(name)) ?? closestName(name, some, CLOSE_NAMES);
  return alike === null ? '' : ` (near: ${quoted(alike)})`;
}

// Words as a list in a sentence; of many the first ten.
function listed(words) {
  if (words.length > MOST_SHOWN) return `${words.slice(0, MOST_SHOWN).join(', ')} and ${words.length - MOST_SHOWN} more`;
  return words.length === 1 ? words[0] : `${words.slice(0, -1).join(', ')} and ${words[words.length - 1]}`;
}

// The numbers of rows in words.
function rowsNamed(numbers) {
  const sorted = [...numbers].sort((a, b) => a - b);
  return `row${sorted.length > 1 ? 's' : ''} ${listed(sorted.map(String))}`;
}

// Why the office takes no such name, or null if it does.
function whyNotAName(text) {
  if (/\p{Cs}/u.test(text)) return 'it is not UTF-8';
  const size = new TextEncoder().encode(text).length;
  if (size === 0) return 'it is empty';
  if (size > MOST_NAME_BYTES) return `it has ${size} bytes, and ${MOST_NAME_BYTES} is the most`;
  return /[\x00-\x1f\x7f]/.test(text) ? 'it has a line break, a TAB or another control character' : null;
}

// The items by what is said by each; without those by which nothing is said.
function grouped(items, saidBy) {
  const groups = new Map();
  for (const item of items) {
    const said = saidBy(item);
    if (!said) continue;
    if (!groups.has(said)) groups.set(said, []);
    groups.get(said).push(item);
  }
  return groups;
}
