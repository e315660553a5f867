'use strict';

// The bytes of a file as text: UTF-8, UTF-16 with a mark, or Windows-1252. A byte that is no text becomes a unit from 0xDC80 to 0xDCFF, which
// tells the byte, or U+FFFD in UTF-16. What `tools/sheets.py` reads, this reads too.

const MARK = '\ufeff';                       // the byte order mark, by which Excel knows UTF-8
const AGAIN = 'save it again as CSV in UTF-8';
const SPOILED = /[\udc80-\udcff\ufffd]/u;     // what stands for bytes that are no text

// The letters of the bytes from 0x80 to 0x9F in Windows-1252; a blank where there is none.
const LETTERS_OF_1252 = '€ ‚ƒ„…†‡ˆ‰Š‹Œ Ž  ‘’“”•–—˜™š›œ žŸ';

function startsWith(bytes, ...begin) {
  return begin.every((byte, place) => bytes[place] === byte);
}

// The text of units, in pieces that a call takes.
function textOfUnits(units) {
  const parts = [];
  for (let at = 0; at < units.length; at += 8192) parts.push(String.fromCharCode(...units.slice(at, at + 8192)));
  return parts.join('');
}

// How many bytes of UTF-8 the letter at this place has, or 0 if there is none.
function lengthInUtf8(bytes, at) {
  const [first, second] = [bytes[at], bytes[at + 1]];
  if (first < 0x80) return 1;
  const length = first >= 0xc2 && first <= 0xdf ? 2 : first >= 0xe0 && first <= 0xef ? 3 : first >= 0xf0 && first <= 0xf4 ? 4 : 0;
  for (let more = 1; more < length; more++) if (!(bytes[at + more] >= 0x80 && bytes[at + more] <= 0xbf)) return 0;
  // (no letter in more bytes than it needs, none of those that UTF-16 keeps for pairs, none above the last)
  const isOut = (first === 0xe0 && second < 0xa0) || (first === 0xed && second > 0x9f) || (first === 0xf0 && second < 0x90) || (first === 0xf4 && second > 0x8f);
  return isOut ? 0 : length;
}

// The text of bytes in UTF-8, and how many bytes of them are no text.
function fromUtf8(bytes) {
  const units = [];
  let faults = 0;
  for (let at = 0; at < bytes.length;) {
    const length = lengthInUtf8(bytes, at);
    if (length === 0) {
      units.push(0xdc00 + bytes[at]);
      faults++;
      at++;
      continue;
    }
    let number = length === 1 ? bytes[at] : bytes[at] & (0x7f >> length);
    for (let more = 1; more < length; more++) number = (number << 6) | (bytes[at + more] & 0x3f);
    if (number < 0x10000) units.push(number);
    else units.push(0xd7c0 + (number >> 10), 0xdc00 + (number & 0x3ff));
    at += length;
  }
  return { text: textOfUnits(units), faults };
}

// The text of bytes in UTF-16 behind their mark, and whether all of them are text.
function fromUtf16(bytes) {
  const isLittle = bytes[0] === 0xff;
  const unitAt = at => isLittle ? bytes[at] | (bytes[at + 1] << 8) : (bytes[at] << 8) | bytes[at + 1];
  const units = [];
  let isText = true;
  const spoil = () => {
    units.push(0xfffd);
    isText = false;
  };
  for (let at = 2; at < bytes.length;) {
    if (at + 1 === bytes.length) {
      spoil();
      break;
    }
    const unit = unitAt(at);
    at += 2;
    if (unit < 0xd800 || unit > 0xdfff) {
      units.push(unit);
    } else if (unit >= 0xdc00) {
      spoil();
    } else if (at + 1 >= bytes.length) {
      spoil();
      break;
    } else if (unitAt(at) >= 0xdc00 && unitAt(at) <= 0xdfff) {
      units.push(unit, unitAt(at));
      at += 2;
    } else {
      spoil();
    }
  }
  return { text: textOfUnits(units), isText };
}

// The text of bytes in Windows-1252.
function from1252(bytes) {
  return textOfUnits(Array.from(bytes, byte => {
    if (byte < 0x80 || byte > 0x9f) return byte;
    const letter = LETTERS_OF_1252[byte - 0x80];
    return letter === ' ' ? 0xdc00 + byte : letter.charCodeAt(0);
  }));
}

// The mark of a file, its text, and the encoding if it has bytes that are no text in it; else ''.
function decoded(name, bytes, remarks) {
  if (startsWith(bytes, 0x50, 0x4b, 3, 4) || startsWith(bytes, 0xd0, 0xcf, 0x11, 0xe0)) throw new Hopeless(`${name}: it is a workbook and no CSV: ${AGAIN}`);
  if (startsWith(bytes, 0xff, 0xfe) || startsWith(bytes, 0xfe, 0xff)) {
    const { text, isText } = fromUtf16(bytes);
    return { mark: MARK, text, encoding: isText ? '' : 'UTF-16' };
  }
  const mark = startsWith(bytes, 0xef, 0xbb, 0xbf) ? MARK : '';
  const { text, faults } = fromUtf8(mark ? bytes.subarray(3) : bytes);
  if (text.includes('\0')) throw new Hopeless(`${name}: it has zero bytes, so it is UTF-16 without a mark, or no text: ${AGAIN}`);
  if (faults === 0) return { mark, text, encoding: '' };
  // (text in Windows-1252 is hardly ever also right in UTF-8)
  let beyondAscii = 0;
  for (const letter of text) if (letter > '\x7f') beyondAscii++;
  if (mark || beyondAscii >= 2 * faults) return { mark, text, encoding: 'UTF-8' };
  const other = from1252(bytes);
  if (SPOILED.test(other)) return { mark: MARK, text: other, encoding: 'Windows-1252' };
  const sample = other.match(/[\p{L}\p{N}_]*[^\x00-\x7f][\p{L}\p{N}_]*/u)[0];
  remarks.say(`${name}: it is no UTF-8 and is read as Windows-1252: see whether ${quoted(sample)} is right`);
  return { mark: MARK, text: other, encoding: '' };
}
