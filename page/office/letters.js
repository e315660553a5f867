'use strict';

// Letters of an earlier call: who has which id and key. Reads a file of letters, and finds the people of a later list in it. It finds whom
// `tools/letters.py` finds, by the rule that is written there, and says what that says.
//
// A letter has the number of its row, an id, a key and its cells. An entry is a row of the list or of the letters as the two are compared:
// its number, and what it says in the columns that both have, folded and as it is spelled.

// ---- reading

// Why a file can't be the letters of an office.
function letterFaults(table, letters) {
  const isWrong = ({ id, key }) => whyNotAName(id) || !/^[!-~]{1,200}$/.test(key);
  const faults = letters.filter(isWrong).map(({ row }) => `${table.name} row ${row}: it has no id, or no key`);
  for (const what of ['id', 'key']) {
    for (const [said, its] of grouped(letters, letter => letter[what])) {
      if (its.length > 1) faults.push(`${table.name} rows ${listed(its.map(letter => String(letter.row)))}: the same ${what} ${quoted(said)}`);
    }
  }
  return faults;
}

// The letters of a file, as a table and rows: each row has an id and a key of its own.
function readLetters(file, remarks) {
  const table = readTable(file, remarks);
  const [id, key] = ['id', 'key'].map(name => columnOf(table, name, 'which the letters of prepare.py have'));
  const rows = table.rows.map(({ number, cells }) => ({ row: number, id: stripped(cells[id]), key: stripped(cells[key]), cells }));
  const faults = rows.length ? letterFaults(table, rows) : [`${table.name}: it has a heading and no row`];
  if (faults.length) throw new Hopeless(...faults);
  return { table, rows };
}

function isOnce(heading, name) {
  return heading.filter(other => other === name).length === 1;
}

// The place of the letters' column with the codes of households, or null. `columns` are those of the list: one of these may be called
// `household` too, and is called `household (people)` in letters that have codes.
function householdPlace({ heading }, columns) {
  const isOfList = columns.includes('household') && !heading.includes('household (people)');
  return isOfList || !isOnce(heading, 'household') ? null : heading.indexOf('household');
}

// ---- which columns both have

// What a column of the list is called in letters with these columns of their own.
function nameInLetters(name, own) {
  return own.includes(name) ? `${name} (people)` : name;
}

// The columns that a list and the letters both have, once each: their names, their places in either file, and which of them are those of a
// name, of an address, of an e-mail and of answers. Each of these is empty if one of its columns isn't in both files.
function sharedColumns(table, letters, uses) {
  const own = ['id', 'key', ...(householdPlace(letters.table, table.heading) === null ? [] : ['household'])];
  const there = letters.table.heading;
  const pairs = table.heading.flatMap((column, place) => {
    const name = nameInLetters(column, own);
    return isOnce(table.heading, column) && isOnce(there, name) ? [[place, there.indexOf(name)]] : [];
  });
  const inList = pairs.map(pair => pair[0]);
  const among = places => places.every(place => inList.includes(place)) ? places.map(place => inList.indexOf(place)) : [];
  const shared = {
    columns: inList.map(place => table.heading[place]), inList, inLetters: pairs.map(pair => pair[1]),
    name: among(uses.name), address: among(uses.address), mail: among(uses.mail), answers: among(uses.answers),
  };
  if (!shared.name.length && !shared.mail.length) {
    throw new Hopeless(`${letters.table.name}: ${table.name} and it have no column of names or e-mails in common, so nobody can be found in it; see --name and `
      + '--email');
  }
  return shared;
}

// A row as it is compared. Letters have an apostrophe before what might run as a formula.
function entryOf(row, cells, places) {
  const spelled = places.map(place => guarded(cells[place]));
  return { row, cells: spelled.map(folded), spelled };
}

function oldEntries(letters, shared) {
  return letters.rows.map(letter => entryOf(letter.row, letter.cells, shared.inLetters));
}

// What the entry says in these columns; empty if there is none, or all are empty.
function saidIn(entry, columns) {
  return stripped(columns.map(column => entry.cells[column]).join('\t'));
}

// ---- who is who

// The rows of the letters by those of the list that have the same key, if no other row of either file has it.
function onlyPairs(fresh, old, keyOf) {
  const there = grouped(old, keyOf);
  return new Map([...grouped(fresh, keyOf)].flatMap(([key, its]) => {
    const others = there.get(key) ?? [];
    return its.length === 1 && others.length === 1 ? [[its[0].row, others[0].row]] : [];
  }));
}

// The name, address, e-mail and answers of an entry, or an empty text if one of them is empty.
function personIn(entry, shared) {
  const parts = [shared.name, shared.address, shared.mail, shared.answers].map(columns => saidIn(entry, columns));
  return parts.every(part => part !== '') ? JSON.stringify(parts) : '';
}

// The pairs that the office says, each a row of the list and an id, which have to be of rows that aren't found yet.
function toldPairs(same, fresh, letters, found) {
  const rowOf = new Map(letters.rows.map(letter => [letter.id, letter.row]));
  const rows = new Set(fresh.map(entry => entry.row)), taken = new Set(found.values());
  const faults = [];
  for (const [row, id] of same) {
    const word = `--same ${row}=${id}`;
    if (!rows.has(row)) faults.push(`${word}: row ${row} isn't one of the people who go into the register`);
    else if (!rowOf.has(id)) faults.push(`${word}: ${letters.table.name} has no id ${quoted(id)}`);
    else if (found.get(row) === rowOf.get(id)) continue;
    else if (found.has(row) || taken.has(rowOf.get(id))) faults.push(`${word}: one of them is the same as another row in all columns`);
    else if (same.filter(([other, one]) => row === other || id === one).length > 1) faults.push(`${word}: row ${row} or ${quoted(id)} is given twice`);
  }
  if (faults.length) throw new Hopeless(...faults);
  return same.map(([row, id]) => [row, rowOf.get(id)]);
}

// The letters of those rows of the list that are in the letters, by row.
function keptLetters(fresh, letters, shared, same) {
  const old = oldEntries(letters, shared);
  const pairs = onlyPairs(fresh, old, entry => saidIn(entry, shared.name) || saidIn(entry, shared.mail) ? JSON.stringify(entry.cells) : '');
  for (const [row, other] of toldPairs(same, fresh, letters, pairs)) pairs.set(row, other);
  const taken = new Set(pairs.values());
  const left = fresh.filter(entry => !pairs.has(entry.row)), leftOld = old.filter(entry => !taken.has(entry.row));
  for (const [row, other] of onlyPairs(left, leftOld, entry => personIn(entry, shared))) pairs.set(row, other);
  const byRow = new Map(letters.rows.map(letter => [letter.row, letter]));
  return new Map([...pairs].map(([row, other]) => [row, byRow.get(other)]));
}

// ---- who may be who

// What two entries of one person may have in common: the name, the e-mail, or all columns but one. Without what an entry doesn't have.
function likeness(entry, shared) {
  const [name, mail] = [lookOf(saidIn(entry, shared.name)), saidIn(entry, shared.mail)];
  const others = entry.cells.length > 2 ? entry.cells.map((_, place) => `${place} ${JSON.stringify(entry.cells.filter((_, other) => other !== place))}`) : [];
  return [...(name ? [`name ${name}`] : []), ...(mail ? [`e-mail ${mail}`] : []), ...others];
}

// Words about the columns in which two entries differ.
function apartIn(entry, other, shared) {
  const differ = shared.columns.flatMap((column, place) => entry.cells[place] === other.cells[place] ? []
    : [`${column} was ${quoted(other.spelled[place])} and is ${quoted(entry.spelled[place])}`]);
  return differ.length ? `: ${differ.join('; ')}` : ': more than one row is as this one';
}

// Names each row that is taken as new, and may be a row of the letters that was corrected.
function lookForCorrected(listName, fresh, letters, shared, kept, remarks) {
  const taken = new Set([...kept.values()].map(letter => letter.row));
  const ids = new Map(letters.rows.map(letter => [letter.row, letter.id]));
  const there = new Map();
  for (const entry of oldEntries(letters, shared).filter(entry => !taken.has(entry.row))) {
    for (const one of likeness(entry, shared)) there.set(one, [...(there.get(one) ?? []), entry]);
  }
  for (const entry of fresh.filter(entry => !kept.has(entry.row))) {
    const likely = new Map(likeness(entry, shared).flatMap(one => there.get(one) ?? []).map(other => [other.row, other]));
    if (!likely.size) continue;
    const rows = [...likely.keys()].sort((a, b) => a - b);
    const names = rows.map(row => ids.get(row));
    const words = names.slice(0, 3).map(name => `--same ${entry.row}=${name}`).join(' or ');
    const apart = likely.size === 1 ? apartIn(entry, likely.get(rows[0]), shared) : '';
    remarks.say(`${listName} row ${entry.row}: new, though it may be ${listed(names)} of ${letters.table.name}${apart}. If so, give ${words}`);
  }
}

// ---- what the old letters hold

// Where there are no old letters.
const NOBODY = { name: '', letters: [], kept: new Map(), gone: [], codes: new Map(), columns: new Map() };

// What the old letters hold: the name of the file; its rows; those of people who are in the list, by the row of the list, and the others;
// the codes of households by id; and the places of the list's columns in it. Names who may be in them, and who isn't in the list any more.
// Without an address the columns that look like one are the address.
function beforeOf(file, table, people, categories, uses, same, remarks) {
  if (!file) return NOBODY;
  const old = readLetters(file, remarks);
  lookForLines(old.table, remarks);
  const shared = sharedColumns(table, old, { ...uses, address: uses.address.length ? uses.address : addressColumns(table, categories, []) });
  const fresh = people.map(person => entryOf(person.row, person.cells, shared.inList));
  const kept = keptLetters(fresh, old, shared, same);
  lookForCorrected(table.name, fresh, old, shared, kept, remarks);
  const ids = new Set([...kept.values()].map(letter => letter.id));
  const gone = old.rows.filter(letter => !ids.has(letter.id));
  for (const letter of gone) {
    remarks.say(`${old.table.name} row ${letter.row}: ${letter.id} isn't among the people of ${table.name} any more. The row stays at the end of letters.csv, `
      + `and a store that was filled before still has ${letter.id}`);
  }
  const place = householdPlace(old.table, table.heading);
  const codes = new Map(old.rows.map(letter => [letter.id, place === null ? '' : stripped(letter.cells[place])]));
  const columns = new Map(shared.inList.map((column, number) => [column, shared.inLetters[number]]));
  return { name: old.table.name, letters: old.rows, kept, gone, codes, columns };
}

// Names the ids whose row of the register isn't what it was, as far as the old letters show it.
function lookForChanges(people, uses, before, owns, remarks) {
  const isChanged = (person, letter) => {
    const cellOf = place => letter.cells[before.columns.get(place)];
    const isOther = (place, number) => before.columns.has(place) && guarded(stripped(cellOf(place))) !== guarded(person.answers[number]);
    return uses.answers.some(isOther) || before.codes.get(letter.id) !== owns.get(person.row).household;
  };
  const kept = people.filter(person => before.kept.has(person.row)).map(person => [person, before.kept.get(person.row)]);
  const changed = kept.filter(([person, letter]) => isChanged(person, letter)).map(([, letter]) => letter.id).sort(byLetters);
  if (!changed.length) return;
  remarks.say(`${before.name}: ${listed(changed)} had another answer or household, so a store that was filled before refuses the new register: `
    + 'fill a new one. Ids and keys stay');
}
