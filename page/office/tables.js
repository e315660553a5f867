'use strict';

// Tables that a city's spreadsheets save, read as `tools/sheets.py` reads them, and the tables that are written.
//
// A table has a name, a mark if its file has one, a delimiter, a heading, and rows. A row has the number that it has in the spreadsheet, from 1,
// and its cells, as many as there are columns or more. Rows without content are left out. `first` is the number of the row that is the heading.

const DELIMITERS = [',', ';', '\t'];
const MOST_IN_CELL = 131072;                 // letters
const FORMULA_SIGNS = ['=', '+', '-', '@', '\uff1d', '\uff0b', '\uff0d', '\uff20'];   // those of full width too
const TELEPHONE = /^\+[0-9 \xa0()/-]*$/;
const FEWEST_DIGITS = 6;                     // of a telephone number
const LINE_BREAK = /\r\n|\r|\n/;

// ---- reading

// The delimiter that is most often in the heading, outside quotes.
function delimiterOf(text) {
  const heading = text.split(/\r\n|[\n\r\v\f\x1c-\x1e\x85\u2028\u2029]/).find(line => stripped(line) !== '') ?? '';
  const bare = heading.replace(/"[^"]*"/g, '');
  const counts = DELIMITERS.map(sign => bare.split(sign).length - 1);
  return DELIMITERS[counts.indexOf(Math.max(...counts))];
}

// Reads the rows of CSV line by line, as Python's `csv` does with strict quotes: a blank before a cell is passed over, and a quote in quotes is
// written twice.
class RowReader {
  constructor(delimiter) {
    this.delimiter = delimiter;
    this.begin();
  }

  begin() {
    this.cells = [];
    this.cell = [];
    this.place = 'row begins';
  }

  add(letter) {
    if (this.cell.length >= MOST_IN_CELL) throw new Error(`field larger than field limit (${MOST_IN_CELL})`);
    this.cell.push(letter);
  }

  save() {
    this.cells.push(this.cell.join(''));
    this.cell = [];
  }

  // What ends a cell that has no open quotes. Returns false if this letter doesn't.
  ends(letter) {
    if (letter === this.delimiter) {
      this.save();
      this.place = 'cell begins';
    } else if (letter === '\n' || letter === '\r' || letter === null) {
      this.save();
      this.place = letter === null ? 'row begins' : 'row ends';
    } else return false;
    return true;
  }

  // Takes a letter, or null at the end of a line.
  take(letter) {
    const isEnd = letter === '\n' || letter === '\r';
    if (this.place === 'row begins') {
      if (letter === null) return;
      this.place = isEnd ? 'row ends' : 'cell begins';
      if (isEnd) return;
    }
    if (this.place === 'row ends') {
      if (letter === null) this.place = 'row begins';
    } else if (this.place === 'cell begins') {
      if (letter === '"') this.place = 'quotes';
      else if (letter !== ' ' && !this.ends(letter)) {
        this.add(letter);
        this.place = 'cell';
      }
    } else if (this.place === 'cell') {
      if (!this.ends(letter)) this.add(letter);
    } else if (this.place === 'quotes') {
      if (letter === '"') this.place = 'quote in quotes';
      else if (letter !== null) this.add(letter);
    } else if (letter === '"') {
      this.add(letter);
      this.place = 'quotes';
    } else if (!this.ends(letter)) throw new Error(`'${this.delimiter}' expected after '"'`);
  }

  // Returns the cells of each row of the text, in turn.
  *rows(text) {
    for (const line of text.match(/[^\r\n]*(?:\r\n|\r|\n)|[^\r\n]+$/g) ?? []) {
      for (const letter of line) this.take(letter);
      this.take(null);
      if (this.place === 'row begins') {
        yield this.cells;
        this.begin();
      }
    }
    if (this.cell.length || this.place === 'quotes') throw new Error('unexpected end of data');
  }
}

// The rows of a text that have content, with their numbers.
function recordsOf(name, text, delimiter) {
  const rows = [];
  try {
    let number = 0;
    for (const cells of new RowReader(delimiter).rows(text)) {
      number++;
      if (cells.some(cell => stripped(cell) !== '')) rows.push({ number, cells });
    }
  } catch (error) {
    throw new Hopeless(`${name}: behind row ${rows.length ? rows[rows.length - 1].number : 0} a quote isn't closed, or stands inside a cell (${error.message})`);
  }
  return rows;
}

// Each cell with bytes that are no text: its row, its column, and the first of these bytes.
function spoiledPlaces(rows) {
  const heading = rows.length ? rows[0].cells : [];
  return rows.flatMap(({ number, cells }) => cells.flatMap((cell, place) => {
    const found = cell.match(SPOILED);
    if (!found) return [];
    const isNamed = cells !== heading && place < heading.length && !SPOILED.test(heading[place]);
    const column = isNamed ? quoted(stripped(heading[place])) : place + 1;
    const byte = found[0] === '\ufffd' ? '' : ` has the byte 0x${hex(found[0].charCodeAt(0) - 0xdc00, 2).toUpperCase()}`;
    return [`row ${number}, column ${column}${byte}`];
  }));
}

// Names the places of bytes that are no text in the encoding of the file.
function refuseSpoiled(name, encoding, rows) {
  const why = {
    'UTF-16': 'it begins as UTF-16 and is none',
    'UTF-8': 'it is UTF-8, but for bytes that are no text in it',
    'Windows-1252': 'it is neither UTF-8 nor Windows-1252',
  }[encoding];
  const places = spoiledPlaces(rows);
  const more = places.length > MOST_SHOWN ? `; and ${places.length - MOST_SHOWN} more` : '';
  const where = places.length ? `; ${places.slice(0, MOST_SHOWN).join('; ')}${more}` : '';
  throw new Hopeless(`${name}: ${why}${where}: ${AGAIN}`);
}

// The file of this name and these bytes as a table.
function readTable({ name, bytes }, remarks) {
  const { mark, text, encoding } = decoded(name, bytes, remarks);
  const delimiter = delimiterOf(text);
  const all = recordsOf(name, text, delimiter);
  if (encoding) refuseSpoiled(name, encoding, all);
  if (!all.length) throw new Hopeless(`${name}: it is empty`);
  const heading = all[0].cells.map(stripped);
  const rows = all.slice(1);
  const short = rows.filter(row => row.cells.length < heading.length).map(row => row.number);
  if (short.length) remarks.note(`${name} ${rowsNamed(short)}: fewer cells than the heading; those that are missing are taken as empty`);
  const filled = rows.map(({ number, cells }) => ({ number, cells: [...cells, ...Array(Math.max(0, heading.length - cells.length)).fill('')] }));
  return { name, mark, delimiter, heading, rows: filled, first: all[0].number };
}

// Names each cell that has several lines, since a quote that is opened by mistake makes one cell of the rows up to the next quote. Cells with a
// delimiter in them come first, as such rows have, and of these the ones with the most lines. Cells of one column with as many lines are named
// together.
function lookForLines({ name, delimiter, heading, rows, first }, remarks) {
  const all = [{ number: first, cells: heading }, ...rows];
  const found = all.flatMap(({ number, cells }) => cells.flatMap((cell, place) => {
    const lines = cell.split(LINE_BREAK).length;
    return lines > 1 ? [{ number, place, lines, isPlain: !cell.includes(delimiter) }] : [];
  }));
  const groups = [...grouped(found, ({ place, lines, isPlain }) => `${place} ${lines} ${isPlain}`).values()];
  groups.sort(([one], [other]) => one.isPlain - other.isPlain || other.lines - one.lines || one.place - other.place);
  for (const group of groups) {
    const { place, lines } = group[0];
    const column = place < heading.length ? quoted(heading[place]) : place + 1;
    remarks.say(`${name} ${rowsNamed(group.map(cell => cell.number))}: the cell of column ${column} has ${lines} lines. If a quote opens it by mistake, the `
      + 'rows up to the next quote are inside it and nowhere else');
  }
}

// True if a row has something behind the columns of the heading.
function hasTooMany(table, cells) {
  return cells.slice(table.heading.length).some(cell => stripped(cell) !== '');
}

// The place of the one column with this name.
function columnOf(table, name, neededFor) {
  const count = table.heading.filter(other => other === name).length;
  if (count === 1) return table.heading.indexOf(name);
  const there = count ? `${count} columns are` : 'no column is';
  throw new Hopeless(`${table.name}: ${there} called ${quoted(name)}, ${neededFor}${count ? '' : near(name, table.heading)}`);
}

// ---- writing

function inQuotes(cell) {
  return `"${cell.replaceAll('"', '""')}"`;
}

// The rows as CSV for the program, each ended by LF, with quotes only where they are needed.
function csvText(rows) {
  return rows.map(row => `${row.map(String).map(cell => /[,"\n]/.test(cell) ? inQuotes(cell) : cell).join(',')}\n`).join('');
}

// True for a number as +420 221 714 444, in digits, blanks, dashes, slashes and brackets.
function isTelephone(text) {
  return TELEPHONE.test(text) && text.replace(/[^0-9]/g, '').length >= FEWEST_DIGITS;
}

// The cell as it is, or behind an apostrophe if a spreadsheet might run it as a formula.
function guarded(cell) {
  const runs = /^[\t\r\n]/.test(cell) || FORMULA_SIGNS.includes(withoutBlanksBefore(cell).slice(0, 1));
  return runs && !isTelephone(stripped(cell)) ? `'${cell}` : cell;
}

// The rows as CSV for people, who open it in a spreadsheet: no cell of it runs as a formula, and none ends a row.
function listText(rows, mark, delimiter) {
  const written = cell => [delimiter, '"', '\r', '\n'].some(sign => cell.includes(sign)) ? inQuotes(cell) : cell;
  return mark + rows.map(row => `${row.map(guarded).map(written).join(delimiter)}\n`).join('');
}
