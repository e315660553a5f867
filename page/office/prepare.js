'use strict';

// The office's files of the two tables that a city has: the rules, the register, the letters and the charter. For the same tables and the same
// random bytes they are those of `tools/prepare.py`, and so is what is said. Nothing of this is proved. The program's own calls read the files.

const MOST_MEMBERS = 1000;                        // the office's limit
const USUAL_PEOPLE = 400, USUAL_MEMBERS = 200;    // the limits if the charter has no `volunteers`
const CHARTER_HEAD = '# What the assembly is called, and how many members its panel has.\n';
const LARGE = `# How many rows the register takes.\nvolunteers = ${MOST_PEOPLE}\n`;

// The text of register.csv, in the order of what the office gives.
function registerText(people, categories, owns, hasHouseholds) {
  const byRow = new Map(people.map(person => [person.row, person]));
  const rows = [...owns].map(([row, own]) => [own.id, own.key, ...byRow.get(row).answers, ...(hasHouseholds ? [own.household] : [])]);
  return csvText([['id', 'key', ...categories.keys(), ...(hasHouseholds ? ['household'] : [])], ...rows]);
}

// The texts of letters.csv, in the order of the people and with those behind who aren't in the list any more; and of letters-new.csv, which is made where
// there are old letters.
function lettersTexts(table, people, owns, hasHouseholds, before) {
  const own = ['id', 'key', ...(hasHouseholds ? ['household'] : [])];
  const heading = [...own, ...table.heading.map(name => nameInLetters(name, own))];
  const rowOf = person => [...own.map(name => owns.get(person.row)[name]), ...person.cells.slice(0, table.heading.length)];
  const cellOf = (letter, place) => before.columns.has(place) ? letter.cells[before.columns.get(place)] : '';
  const ownOf = ({ id, key }) => [id, key, ...(hasHouseholds ? [before.codes.get(id)] : [])];
  const gone = before.gone.map(letter => [...ownOf(letter), ...table.heading.map((_, place) => cellOf(letter, place))]);
  const text = rows => listText([heading, ...rows], table.mark, table.delimiter);
  const texts = { 'letters.csv': text([...people.map(rowOf), ...gone]) };
  if (before.letters.length) texts['letters-new.csv'] = text(people.filter(person => !before.kept.has(person.row)).map(rowOf));
  return texts;
}

// What the letters hold, a line each.
function linesAboutLetters(people, before) {
  const lines = ['letters.csv: who has which id and key; keep it in the drawer'];
  if (!before.letters.length) return lines;
  const fresh = people.length - before.kept.size;
  lines.push(`letters.csv: kept ${before.kept.size}, new ${fresh}, not in the list any more ${before.gone.length}`);
  lines.push(`letters-new.csv: people ${fresh}; write letters to these alone`);
  return lines;
}

// The text of charter.toml for so many people, or null if not all of it is given.
function charterText({ title, size }, people, remarks) {
  if (title === null || size === null) {
    const words = 'charter.toml isn\'t made: that takes --title and --size';
    if (title === size) remarks.note(words);
    else remarks.say(words);
    return null;
  }
  if (people <= USUAL_PEOPLE && size > USUAL_MEMBERS) {
    throw new Hopeless(`the size is ${size}, and with ${people} people a panel has at most ${USUAL_MEMBERS} members`);
  }
  return `${CHARTER_HEAD}title = ${JSON.stringify(title)}\nsize = ${size}\n${people > USUAL_PEOPLE ? LARGE : ''}`;
}

// Makes the files of the people, the quotas and the letters of an earlier call, each a name with bytes; the letters may be null. `asked` has the columns
// of an address, of a name and of an e-mail, which rows have which ids of the letters, a title and a size; lists may be empty, and title and size null. Throws Hopeless if nothing can be made. Returns the texts by name, a line for each that says what it has, and what else the page shows:
// the table of the people, the people and what the office gave them.
function madeFiles(files, asked, remarks, bytes) {
  const whyNot = asked.title === null ? null : whyNotAName(asked.title);
  if (whyNot) throw new Hopeless(`the title can't be taken: ${whyNot}`);
  const quotas = readTable(files.quotas, remarks);
  const table = readTable(files.people, remarks);
  lookForLines(quotas, remarks);
  lookForLines(table, remarks);
  const categories = quotasOf(quotas, remarks);
  if (asked.household.length && categories.has('household')) {
    throw new Hopeless(`${quotas.name}: a category is called 'household', so the register has no column for households: rename it in both files`);
  }
  const uses = usesOf(table, categories, asked);
  lookForAddresses(table, categories, uses.address, remarks);
  const people = keptPeople(table, categories, uses, remarks);
  lookAtQuotas(quotas.name, categories, people, asked.size, remarks);
  const before = beforeOf(files.letters, table, people, categories, uses, asked.same ?? [], remarks);
  const owns = ownsOf(table, people, uses.address, before, remarks, bytes);
  lookForChanges(people, uses, before, owns, remarks);
  const rules = [...categories].flatMap(([category, values]) => [...values].map(([value, bounds]) => [category, value, ...bounds]));
  const hasHouseholds = uses.address.length > 0;
  const texts = {
    'rules.csv': csvText([['category', 'name', 'min', 'max'], ...rules]),
    'register.csv': registerText(people, categories, owns, hasHouseholds),
    ...lettersTexts(table, people, owns, hasHouseholds, before),
  };
  const households = new Set([...owns.values()].map(own => own.household).filter(code => code !== ''));
  const lines = [
    `rules.csv: categories ${categories.size}, values ${rules.length}`,
    `register.csv: people ${people.length} of ${table.rows.length}, households ${households.size}`,
    ...linesAboutLetters(people, before),
  ];
  const charter = charterText(asked, people.length, remarks);
  if (charter !== null) {
    texts['charter.toml'] = charter;
    lines.push(`charter.toml: title ${quoted(asked.title)}, size ${asked.size}${people.length > USUAL_PEOPLE ? `, volunteers ${MOST_PEOPLE}` : ''}`);
  }
  lookForPairs(table, people, 'name', uses.name, remarks);
  lookForPairs(table, people, 'e-mail', uses.mail, remarks);
  return { texts, lines, table, categories, people, owns };
}

// What the call of `tools/prepare.py` would say of these files, line by line, and the texts that it would make; none if nothing can be made.
function prepared(files, asked, bytes) {
  const remarks = new Remarks();
  try {
    const made = madeFiles(files, asked, remarks, bytes);
    return { ...made, isMade: true, remarks, said: remarks.lines() };
  } catch (error) {
    if (!(error instanceof Hopeless)) throw error;
    return { texts: {}, lines: [], isMade: false, remarks, reasons: error.reasons, said: [...remarks.lines(), ...error.reasons, 'nothing was made'] };
  }
}
