'use strict';

// What the office gives to each person: an id, a random key and the code of a household. `bytes` is a function that returns as many random bytes
// as it is asked for. With the same bytes `tools/prepare.py` gives the same. `before` is what the letters of an earlier call hold, as `letters` has it.

const KEY_LETTERS = '3479acdefhjkmnprtwxy';   // no two of these look alike
const CROWD = 6;                             // so many people at one address are rather a house than a household

// A random number from 0 up to `until`, without it.
function randomBelow(until, bytes) {
  const bits = until.toString(2).length;
  for (;;) {
    const number = bytes(Math.ceil(bits / 8)).reduce((sum, byte) => sum * 256 + byte, 0);
    const cut = number >> (Math.ceil(bits / 8) * 8 - bits);
    if (cut < until) return cut;
  }
}

// The items in a random order.
function mixed(items, bytes) {
  const left = [...items];
  return items.map((_, taken) => {
    const place = randomBelow(left.length - taken, bytes);
    const item = left[place];
    left[place] = left[left.length - taken - 1];
    return item;
  });
}

// As many codes as are counted, as p01, p02 and so on, behind those that are taken.
function codesOf(letter, count, taken) {
  const numbers = [...taken].filter(code => code.startsWith(letter) && /^[0-9]+$/.test(code.slice(1))).map(code => code.slice(1));
  const last = numbers.map(BigInt).reduce((most, number) => number > most ? number : most, 0n);
  const width = Math.max(String(last + BigInt(count)).length, ...numbers.map(number => number.length));
  return Array.from({ length: count }, (_, place) => letter + String(last + BigInt(place + 1)).padStart(width, '0'));
}

// As many different random keys as are counted, each of four groups of four letters: 20^16 cases. None is taken already.
function keysOf(count, taken, bytes) {
  const keys = new Set(taken);
  const before = keys.size;
  while (keys.size < before + count) {
    const letters = Array.from({ length: 16 }, () => KEY_LETTERS[randomBelow(KEY_LETTERS.length, bytes)]).join('');
    keys.add(letters.match(/..../g).join('-'));
  }
  return [...keys].slice(before);
}

// The people by address; whoever has none is alone.
function homesOf(table, people, places, remarks) {
  const address = person => saidBy(person, places) && JSON.stringify(places.map(place => folded(person.cells[place])));
  const groups = [...grouped(people, address).values()];
  const without = people.filter(person => !saidBy(person, places));
  if (places.length && without.length) remarks.say(`${table.name} ${rowsNamed(without.map(person => person.row))}: no address, so no household`);
  for (const group of groups) {
    if (group.length < CROWD) continue;
    remarks.say(`${table.name} ${rowsNamed(group.map(person => person.row))}: ${group.length} people at one address, of whom at most one will be on a panel. `
      + 'If it is a house of several flats, name the column for the flat too');
  }
  return [...groups, ...without.map(person => [person])];
}

// The code of each person's household by row. It is empty for whoever is alone at an address or has none. `had` are the codes in the old letters by row,
// and `taken` all of them: who lives together keeps the code that one of them had, if nobody else has it now; other homes of several people get new ones.
function householdsOf(homes, had, taken) {
  const codes = homes.map(home => [...new Set(home.map(person => had.get(person.row)).filter(Boolean))]);
  const all = codes.flat();
  const kept = codes.map(its => its.length === 1 && all.filter(code => code === its[0]).length === 1 ? its[0] : '');
  const fresh = codesOf('h', homes.filter((home, place) => home.length > 1 && !kept[place]).length, taken);
  return new Map(homes.flatMap((home, place) => {
    const code = kept[place] || (home.length > 1 ? fresh.shift() : '');
    return home.map(person => [person.row, code]);
  }));
}

// What the office gives to each person, by row, in the order of the register: first those who keep their ids, then the new ones, mixed.
function ownsOf(table, people, home, before, remarks, bytes) {
  const { kept, letters, codes } = before;
  const idOf = person => kept.get(person.row).id;
  const stay = people.filter(person => kept.has(person.row)).sort((a, b) => [...idOf(a)].length - [...idOf(b)].length || byLetters(idOf(a), idOf(b)));
  const fresh = people.filter(person => !kept.has(person.row));
  const ordered = [...stay, ...mixed(fresh, bytes)];
  const ids = codesOf('p', fresh.length, letters.map(letter => letter.id));
  const keys = keysOf(fresh.length, letters.map(letter => letter.key), bytes);
  const had = new Map([...kept].map(([row, letter]) => [row, codes.get(letter.id)]));
  const households = householdsOf(homesOf(table, ordered, home, remarks), had, codes.values());
  return new Map(ordered.map((person, place) => {
    const { id, key } = kept.get(person.row) ?? { id: ids[place - stay.length], key: keys[place - stay.length] };
    return [person.row, { id, key, household: home.length ? households.get(person.row) : '' }];
  }));
}
