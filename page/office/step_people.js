'use strict';

// The first step: the two tables of the city, the letters of before, the title and the size; what is odd in them; and the files of the office.

// The files that were given, each with a name and bytes. The letters may be those that were saved in this page.
const given = { people: null, quotas: null, letters: null };

// Which rows of the people are whom of the letters, as the form has it: a number of a row and an id each.
let sameTold = [];

const RANDOM_AT_ONCE = 65536;

// Secure random bytes of the browser.
function secureBytes(count) {
  const bytes = new Uint8Array(count);
  for (let at = 0; at < count; at += RANDOM_AT_ONCE) crypto.getRandomValues(bytes.subarray(at, at + RANDOM_AT_ONCE));
  return bytes;
}

// Reads a table for a look at its columns, or returns null.
function tableIfRead(file) {
  try {
    return file && readTable(file, new Remarks());
  } catch (error) {
    if (!(error instanceof Hopeless)) throw error;
    return null;
  }
}

function categoriesIfRead(table) {
  try {
    return table ? quotasOf(table, new Remarks()) : new Map();
  } catch (error) {
    if (!(error instanceof Hopeless)) throw error;
    return new Map();
  }
}

// True if the heading is that of quotas.
function areQuotas(file) {
  try {
    const table = tableIfRead(file);
    return table !== null && quotaColumns(table).length === 4;
  } catch (error) {
    if (!(error instanceof Hopeless)) throw error;
    return false;
  }
}

// True if the heading is that of letters.
function areLetters(file) {
  const heading = tableIfRead(file)?.heading ?? [];
  return heading.includes('id') && heading.includes('key');
}

async function fileWithBytes(file) {
  return { name: file.name, bytes: new Uint8Array(await file.arrayBuffer()) };
}

// Takes a file that was chosen or dropped. `kind` is people, quotas or letters, or null: then its heading decides.
async function takeFile(file, kind) {
  const read = await fileWithBytes(file);
  const its = kind ?? (areQuotas(read) ? 'quotas' : areLetters(read) ? 'letters' : 'people');
  if (its === 'letters') setLetters(read);
  else given[its] = read;
  const count = tableIfRead(read)?.rows.length;
  part(`${its}-name`).textContent = `${read.name}: ${count === undefined ? 'no table' : `${count.toLocaleString('en')} ${count === 1 ? 'row' : 'rows'}`}`;
  showColumns();
  forgetSame();
  forgetMade();
}

// Takes letters of before, or null for none.
function setLetters(letters) {
  given.letters = letters;
  part('letters-none').hidden = !letters;
  part('letters-name').textContent = letters ? 'letters.csv, as it was saved with this assembly' : '';
}

// The letters of an assembly as a file, or null if it has none.
function lettersOf({ texts }) {
  const text = texts['letters.csv'];
  return text ? { name: 'letters.csv', bytes: new TextEncoder().encode(text) } : null;
}

// Takes off whom of the letters rows are: the rows may be others now.
function forgetSame() {
  sameTold = [];
  showSame([]);
}

// The rows that may be somebody of the letters, by what is said of them: the number of the row, the id, and in which columns they differ.
function likelyPairs(said) {
  return said.flatMap(text => {
    const found = text.match(/ row (\d+): new, though it may be .*? of [^:]*?(?:: (.*))?\. If so, give (.*)$/s);
    if (!found) return [];
    const [, row, apart, words] = found;
    return words.slice('--same '.length).split(' or --same ').map(word => ({ row: Number(row), id: word.slice(row.length + 1), apart: apart ?? '' }));
  });
}

// Shows which rows may be whom of the letters, to be ticked: those that are said, behind those that are ticked already.
function showSame(said) {
  const likely = [...sameTold.map(([row, id]) => ({ row, id, apart: '', isTold: true })), ...likelyPairs(said)];
  part('same').hidden = !likely.length;
  part('same-list').replaceChildren(...likely.map(({ row, id, apart, isTold = false }) => {
    const box = element('input', '', { type: 'checkbox', checked: isTold });
    box.dataset.row = row;
    box.dataset.id = id;
    return element('label', [box, ` Row ${row} is ${id}${apart ? `: ${apart}` : ''}`], { className: 'tick' });
  }));
}

// Shows the columns of the people's table, those ticked that look like an address.
function showColumns() {
  const table = tableIfRead(given.people);
  const categories = categoriesIfRead(tableIfRead(given.quotas));
  part('columns').hidden = !table;
  if (!table) return;
  const likely = addressColumns(table, categories, []);
  part('column-list').replaceChildren(...table.heading.flatMap((name, place) => {
    if (categories.has(name) || name === '') return [];
    const box = element('input', '', { type: 'checkbox', value: name, checked: likely.includes(place) });
    box.addEventListener('change', forgetMade);
    return [element('label', [box, ` ${name}`], { className: 'tick' })];
  }));
}

// Takes off what was made of other files or words, and what was missing.
function forgetMade() {
  if (assembly.rounds.some(round => round.isPublished)) return;
  for (const words of part('people-form').querySelectorAll('.wrong')) words.textContent = '';
  for (const field of part('people-form').querySelectorAll('[aria-invalid]')) field.removeAttribute('aria-invalid');
  part('remarks').replaceChildren();
  part('made').replaceChildren();
}

// The words of prepare.py, in those of this page.
function inWordsOfPage(text) {
  return text
    .replace('and no --household is given: so', 'and none is ticked: so')
    .replace(/ To mend this, give --household ".*"$/, ' To mend this, tick them')
    .replace(/and --household doesn't name (it|them): so/, 'and isn’t ticked: so')
    .replace('if it says who lives together, give --household household', 'if it says who lives together, tick it')
    .replace(/ If so, give --same .*$/s, ' If so, tick it above')
    .replace(/^--same (\d+)=(.*?): /s, 'That row $1 is $2: ')
    .replace('; see --name and --email', '');
}

// A remark as a row of a table: the file, the rows and what is said. The reasons for which nothing is made are of the same form.
function remarkRow(text) {
  const [, file, rows, what] = text.match(/^(.+?\.[A-Za-z]+) rows? ([0-9, and]+(?: more)?): (.*)$/s) ?? text.match(/^(.+?\.[A-Za-z]+)(): (.*)$/s) ?? [null, '', '', text];
  return [file, rows, inWordsOfPage(what)];
}

function showRemarks({ isMade, remarks, reasons = [] }) {
  const parts = [];
  const add = (title, texts) => {
    if (texts.length) parts.push(element('h3', title), tableOf(['File', 'Row', 'What'], texts.map(remarkRow)));
  };
  add('This has to be mended first', reasons);
  add('Look at this', remarks.said);
  add('Harmless', remarks.harmless);
  const count = remarks.said.length;
  const mend = 'Mend the rows in your spreadsheets, and choose the files again.';
  if (!isMade) say(part('remarks'), 'Nothing was made', [mend], false, ...parts);
  else if (count) say(part('remarks'), `The files are made. ${count === 1 ? 'One thing wants' : `${count} things want`} a look`, [`${mend} You can also go on.`], true, ...parts);
  else say(part('remarks'), 'The files are made', [], true, ...parts);
}

// What the form asks for, with words for what is missing, which stand beside the fields too.
function askedByForm() {
  const title = part('title').value.trim();
  const size = part('size').value.trim();
  const isSize = /^[0-9]{1,4}$/.test(size) && Number(size) >= 1 && Number(size) <= MOST_MEMBERS;
  const fields = [
    ['people-file', given.people, 'Choose the file of the people.'],
    ['quotas-file', given.quotas, 'Choose the file of the quotas.'],
    ['title', title, 'Give the assembly a title.'],
    ['size', isSize, `Give the number of members of the panel, from 1 to ${MOST_MEMBERS.toLocaleString('en')}.`],
  ];
  for (const [id, isRight, words] of fields) {
    part(id).setAttribute('aria-invalid', String(!isRight));
    part(`${id}-wrong`).textContent = isRight ? '' : words;
  }
  const missing = fields.filter(([, isRight]) => !isRight).map(([, , words]) => words);
  const household = [...part('column-list').querySelectorAll('input:checked')].map(box => box.value);
  sameTold = [...part('same-list').querySelectorAll('input:checked')].map(box => [Number(box.dataset.row), box.dataset.id]);
  return { missing, asked: { household, name: [], email: [], same: sameTold, title, size: Number(size) } };
}

// The assembly of what was made, with its first round.
function assemblyOf(call, made, { title, size }) {
  const { table: { name, mark, delimiter, heading }, people, owns, texts } = made;
  const members = people.map(person => ({ ...owns.get(person.row), cells: person.cells.slice(0, heading.length) }));
  return { ...newAssembly(), title, size, table: { name, mark, delimiter, heading }, people: members, texts, rounds: [newRound(poolOfFiles(call, texts))] };
}

// Makes the files of the office, and the first round. What is published stays as it is.
async function makeFiles() {
  if (assembly.rounds.some(round => round.isPublished)) {
    say(part('remarks'), 'This assembly is published', ['It stays as it is. Save it as a file, and open this page anew for another one.']);
    return;
  }
  const { missing, asked } = askedByForm();
  part('made').replaceChildren();
  if (missing.length) {
    say(part('remarks'), 'Something is missing', missing);
    part('people-form').querySelector('[aria-invalid=true]').focus();
    return;
  }
  const made = prepared(given, asked, secureBytes);
  showRemarks(made);
  showSame(made.remarks.said);
  if (made.isMade) await setAssembly(assemblyOf(await checker, made, asked));
  if (made.remarks.said.length || !made.isMade) goTo(part('remarks').querySelector('.title'));
}

// Saves the letters. From now on whoever is in them keeps id and key, also if the tables are given anew.
function saveLetters() {
  save('letters.csv', assembly.texts['letters.csv']);
  setLetters(lettersOf(assembly));
}

// Shows what was made: how many people, and the files to save.
function showMade() {
  if (!assembly.rounds.length) return;
  const { texts, people, size } = assembly;
  const letters = saveButton('letters.csv', saveLetters);
  const fresh = texts['letters-new.csv'] ? ['letters-new.csv'] : [];
  const others = [...fresh, 'register.csv', 'rules.csv', 'charter.toml'];
  const words = fresh.map(() => 'letters-new.csv has those who are new: write letters to these alone. ');
  const buttons = [letters, ...others.map(name => saveButton(name, () => save(name, texts[name])))];
  part('made').replaceChildren(
    element('p', `${assembly.title}: ${people.length} people, a panel of ${size}.`),
    element('p', `letters.csv says who has which id: what is published has the ids in place of names. Write everybody their id, and keep the file in the drawer. ${words.join('')}`),
    element('p', 'The other files, and the keys, are only for the program at a desk.'),
    element('p', buttons, { className: 'buttons' }),
  );
}

function beginPeople() {
  for (const kind of ['people', 'quotas', 'letters']) {
    const input = part(`${kind}-file`);
    input.addEventListener('change', () => input.files.length && takeFile(input.files[0], kind));
  }
  part('letters-none').addEventListener('click', () => {
    setLetters(null);
    part('letters-file').value = '';
    part('letters-file').focus();
    forgetSame();
    forgetMade();
  });
  for (const id of ['title', 'size']) part(id).addEventListener('input', forgetMade);
  part('people-form').addEventListener('submit', event => {
    event.preventDefault();
    makeFiles();
  });
}
