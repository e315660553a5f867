'use strict';

// The people of a city's first table: which columns have a use, who goes into the register, and who may be there twice. A person has the number
// of the row, its cells, and the answers in the order of the categories. What `tools/prepare.py` says of people, this says too.

const MOST_PEOPLE = 4000;                    // the office's limit

// How headings of an address are spelled, without blanks and signs: those of a home, those of a place, and a number right behind a street.
const HOME_HEADING = new RegExp('^(?:(home|postal|full)?(street|address|strasse|adresse|anschrift|ulice|adresa|rue|calle|via|indirizzo)(name|line)?[0-9]*'
  + '|(flat|apartment|apt|door|stairs|appartement|wohnung|stiege|tür|byt)(no|number|nr|nummer)?'
  + '|(house|building)(no|number|nr)|haus(nr|nummer))$');
const PLACE_HEADING = new RegExp('^(?:post(al)?code|zip(code)?|postleitzahl|plz|psč|codepostal'
  + '|town|city|village|ort|wohnort|stadt|gemeinde|obec|město|ville)$');
const NUMBER_HEADING = /^(?:number|no|nr|nummer|numéro|číslo(popisné|domu)?|čp)$/;

// ---- columns

// The places of the columns that are asked for, or else of those whose heading looks so and that have no other use.
function columnsLike(table, asked, option, isLike, used) {
  if (asked.length) return asked.map(name => columnOf(table, name, `which ${option} names`));
  return table.heading.flatMap((name, place) => !used.includes(name) && isLike(plain(name)) ? [place] : []);
}

// The columns of the people's table that have a use: those of a name, of an address, of an e-mail and of the answers.
function usesOf(table, categories, asked) {
  const address = asked.household.map(name => columnOf(table, name, 'which --household names'));
  const used = [...categories.keys(), ...asked.household];
  const name = columnsLike(table, asked.name, '--name', heading => heading.endsWith('name') && !HOME_HEADING.test(heading), used);
  const mail = columnsLike(table, asked.email, '--email', heading => heading.includes('mail'), used);
  const answers = [...categories.keys()].map(category => columnOf(table, category, 'which is a category of the quotas'));
  return { name, address, mail, answers };
}

// The places of columns that look like parts of an address and that aren't among those of `home`. A place counts beside a home, and a second place
// not; a number counts right behind a home.
function addressColumns(table, categories, home) {
  const headings = table.heading.map(name => categories.has(name) ? '' : plain(name));
  const placesOf = like => headings.flatMap((name, place) => like.test(name) ? [place] : []);
  const homes = placesOf(HOME_HEADING);
  homes.push(...homes.map(place => place + 1).filter(place => NUMBER_HEADING.test(headings[place] ?? '')));
  let towns = placesOf(PLACE_HEADING);
  if ((!homes.length && !home.length) || towns.some(place => home.includes(place))) towns = [];
  return [...new Set([...homes, ...towns])].filter(place => !home.includes(place)).sort((a, b) => a - b);
}

// Names the columns that look like parts of an address and that --household doesn't name.
function lookForAddresses(table, categories, home, remarks) {
  const household = table.heading.indexOf('household');
  if (household >= 0 && !home.includes(household) && !categories.has('household')) {
    remarks.say(`${table.name}: the column 'household' isn't looked at; if it says who lives together, give --household household`);
  }
  const missed = addressColumns(table, categories, home).map(place => table.heading[place]);
  if (!missed.length) return;
  const looks = `${listed(missed.map(quoted))} look${missed.length === 1 ? 's' : ''} like an address`;
  if (home.length) {
    remarks.say(`${table.name}: ${looks}, and --household doesn't name ${missed.length === 1 ? 'it' : 'them'}: so people of several homes may be taken for one `
      + 'household');
  } else {
    remarks.say(`${table.name}: ${looks}, and no --household is given: so nobody shares a household, and two of one home may be on a panel. To mend this, `
      + `give --household "${missed.join(',')}"`);
  }
}

// ---- who goes into the register

// The people whose answers, at these places, the quotas name. Says of each other row why it was left out.
function peopleOf(table, categories, places, remarks) {
  const people = [];
  for (const { number, cells } of table.rows) {
    const answers = places.map(place => stripped(cells[place]));
    const wrong = hasTooMany(table, cells) ? ['it has more cells than the heading'] : [];
    [...categories].forEach(([category, values], place) => {
      const answer = answers[place];
      if (answer === '') wrong.push(`${category} is empty`);
      else if (!values.has(answer)) wrong.push(`${category} is ${quoted(answer)}, which no quota names${near(answer, values.keys())}`);
    });
    if (wrong.length) remarks.say(`${table.name} row ${number}: left out: ${wrong.join('; ')}`);
    else people.push({ row: number, cells, answers });
  }
  return people;
}

// What a person's cells in these columns say, or an empty text if all of them are empty.
function saidBy(person, places) {
  return stripped(places.map(place => folded(person.cells[place])).join(' '));
}

// A person's cells in these columns, as they are spelled.
function shownBy(person, places) {
  return places.map(place => stripped(person.cells[place])).join(' ');
}

// Says who has the same name, or the same e-mail, as somebody else: of many cases the first ten, and of the others the rows alone.
function lookForPairs(table, people, what, places, remarks) {
  const groups = [...grouped(people, person => saidBy(person, places)).values()].filter(group => group.length > 1);
  for (const group of groups.slice(0, MOST_SHOWN)) {
    remarks.say(`${table.name} ${rowsNamed(group.map(person => person.row))}: the same ${what} ${quoted(shownBy(group[0], places))}; all are in the register. `
      + 'If they are one person, leave one row');
  }
  const others = groups.slice(MOST_SHOWN);
  if (!others.length) return;
  const rows = others.map(group => listed(group.map(person => String(person.row)))).join('; ');
  remarks.say(`${table.name}: the same ${what} in ${others.length} more case${others.length > 1 ? 's' : ''}, of rows ${rows}; all are in the register`);
}

// Names rows whose names, e-mails or addresses look the same and aren't.
function lookForLookalikes(table, people, what, places, remarks) {
  for (const alike of grouped(people, person => lookOf(saidBy(person, places))).values()) {
    const [first, ...others] = [...grouped(alike, person => saidBy(person, places)).values()].map(group => group[0]);
    for (const other of others) {
      const [one, two] = [shownBy(other, places), shownBy(first, places)];
      remarks.say(`${table.name} row ${other.row}: the ${what} ${quoted(one)} looks like that of row ${first.row}, ${quoted(two)}, and has ${unlike(one, two)}`);
    }
  }
}

// The people without rows that are as an earlier one in all columns. Says which these are, and who looks like somebody else.
function withoutRepeats(table, people, uses, remarks) {
  if (!uses.name.length && !uses.mail.length) {
    remarks.say(`${table.name}: no column looks like a name or an e-mail, so who is there twice isn't found; see --name and --email`);
    return people;
  }
  const first = new Map();
  const kept = [];
  for (const person of people) {
    const content = JSON.stringify(person.cells.map(folded));
    if (!first.has(content)) first.set(content, person);
    const earlier = first.get(content);
    if (earlier !== person && (saidBy(person, uses.name) || saidBy(person, uses.mail))) {
      remarks.note(`${table.name} row ${person.row}: left out: the same as row ${earlier.row} in all columns`);
    } else {
      kept.push(person);
    }
  }
  for (const [what, places] of [['name', uses.name], ['e-mail', uses.mail], ['address', uses.address]]) lookForLookalikes(table, kept, what, places, remarks);
  return kept;
}

// The people who go into the register: at least one, and as many as the office takes.
function keptPeople(table, categories, uses, remarks) {
  const people = withoutRepeats(table, peopleOf(table, categories, uses.answers, remarks), uses, remarks);
  if (people.length < 1 || people.length > MOST_PEOPLE) {
    throw new Hopeless(`${table.name}: ${people.length} people are left, and the register takes 1 to ${MOST_PEOPLE}`);
  }
  return people;
}
