'use strict';

// The quotas of a city's second table: read, and looked at. Categories are a map by name, in order, each a map of its values with their bounds.
// What `tools/prepare.py` says of quotas, this says too.

const MOST_CATEGORIES = 20, MOST_VALUES = 50, MOST_BOUND = 999;   // the office's limits

// The places of category, value, min and max in the table of quotas.
function quotaColumns(table) {
  const heading = table.heading.map(folded);
  const category = heading.includes('category') ? 'category' : 'feature';
  const values = ['name', 'value', 'feature'].filter(name => name !== category && heading.includes(name));
  const names = [category, ...(values.length ? values : ['value']), 'min', 'max'];
  if (names.length !== 4 || names.some(name => heading.filter(other => other === name).length !== 1)) {
    throw new Hopeless(`${table.name}: the heading is ${table.heading.map(quoted).join(', ')}; it has to name category (or feature), value (or name), min and `
      + 'max, once each');
  }
  return names.map(name => heading.indexOf(name));
}

// The number of a cell, or null if it is none that the office takes.
function boundOf(cell) {
  return /^[0-9]{1,9}$/.test(cell) && Number(cell) <= MOST_BOUND ? Number(cell) : null;
}

// Why the office refuses a row of the quotas, given those before it.
function ruleFaults(categories, category, value, least, most) {
  const faults = [];
  for (const [what, name] of [['category', category], ['value', value]]) {
    const why = whyNotAName(name);
    if (why) faults.push(`the ${what} ${quoted(name)} can't be taken: ${why}`);
  }
  if (category === 'id' || category === 'key') faults.push(`no category may be called ${quoted(category)}: the register has a column of this name`);
  for (const [what, cell] of [['min', least], ['max', most]]) {
    if (boundOf(cell) === null) faults.push(`${what} is ${quoted(cell)}, which is no whole number from 0 to ${MOST_BOUND}`);
  }
  if (boundOf(least) !== null && boundOf(most) !== null && boundOf(least) > boundOf(most)) faults.push(`min ${least} is above max ${most}`);
  const values = categories.get(category);
  if (values?.has(value)) faults.push(`${quoted(category)} has the value ${quoted(value)} already`);
  if (!values && categories.size === MOST_CATEGORIES) faults.push(`there are more than ${MOST_CATEGORIES} categories`);
  if (values?.size === MOST_VALUES) faults.push(`${quoted(category)} has more than ${MOST_VALUES} values`);
  return faults;
}

// Names spellings that look alike.
function lookForTwins(name, what, spellings, remarks) {
  for (const [first, ...others] of grouped(spellings, lookOf).values()) {
    for (const other of others) remarks.say(`${name}: ${what} ${quoted(other)} and ${quoted(first)} look alike: ${unlike(other, first)}`);
  }
}

// The categories in order, each with its values in order and their least and greatest numbers.
function quotasOf(table, remarks) {
  const places = quotaColumns(table);
  const categories = new Map();
  const faults = table.rows.length ? [] : [`${table.name}: it has a heading and no row`];
  for (const { number, cells } of table.rows) {
    const [category, value, least, most] = places.map(place => stripped(cells[place]));
    const wrong = ruleFaults(categories, category, value, least, most);
    if (hasTooMany(table, cells)) wrong.push('it has more cells than the heading');
    faults.push(...wrong.map(fault => `${table.name} row ${number}: ${fault}`));
    if (wrong.length) continue;
    if (!categories.has(category)) categories.set(category, new Map());
    categories.get(category).set(value, [boundOf(least), boundOf(most)]);
  }
  lookForTwins(table.name, 'the categories', categories.keys(), remarks);
  for (const [category, values] of categories) lookForTwins(table.name, `the values of ${quoted(category)},`, values.keys(), remarks);
  if (faults.length) throw new Hopeless(...faults);
  return categories;
}

// Says which quotas can't be met, as far as a look at each category shows it. `size` may be null.
function lookAtQuotas(name, categories, people, size, remarks) {
  const wrong = [];
  [...categories].forEach(([category, values], place) => {
    const count = value => people.filter(person => person.answers[place] === value).length;
    for (const [value, [least]] of values) {
      if (count(value) < least) wrong.push(`${category} ${quoted(value)} has the minimum ${least}, and the register has ${count(value)} of them`);
    }
    const [low, high] = [0, 1].map(end => [...values.values()].reduce((sum, bounds) => sum + bounds[end], 0));
    if (size !== null && low > size) wrong.push(`the minimums of ${category} sum to ${low}, above the size ${size}`);
    if (size !== null && high < size) wrong.push(`the maximums of ${category} sum to ${high}, below the size ${size}`);
  });
  if (size !== null && people.length < size) wrong.push(`the size is ${size}, and the register has ${people.length} people`);
  for (const sentence of wrong) remarks.say(`${name}: ${sentence}: so there is no panel`);
}
