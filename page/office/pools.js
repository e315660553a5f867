'use strict';

// The texts of pools: what they say, and with other bounds. docs/FORMATS.md has the form. The proved code reads each text, and refuses one that is no
// pool.

// The lines of a text, in fields.
function linesOf(text) {
  return text.split('\n').slice(0, -1).map(line => line.split('\t'));
}

function textOfLines(lines) {
  return lines.map(fields => `${fields.join('\t')}\n`).join('');
}

// What a pool says: its size; its categories, each with a name and values, each with a name and bounds; the ids; and the standings of those who are
// seated or gone.
function poolIn(text) {
  const pool = { size: 0, categories: [], ids: [], standings: new Map() };
  for (const [word, ...fields] of linesOf(text)) {
    if (word === 'size') pool.size = Number(fields[0]);
    if (word === 'category') pool.categories.push({ name: fields[0], values: [] });
    if (word === 'value') pool.categories[pool.categories.length - 1].values.push({ name: fields[0], least: Number(fields[1]), most: Number(fields[2]) });
    if (word === 'volunteer') pool.ids.push(fields[0]);
    if (word === 'seated' || word === 'gone') pool.standings.set(fields[0], word);
  }
  return pool;
}

// A mark for each volunteer of a pool, for the call of the next pool: 0 if not in the panel, 1 for a member who comes, 2 for one who can't.
function marksOf(text, panel, dropped) {
  return Uint8Array.from(poolIn(text).ids, id => !panel.includes(id) ? 0 : dropped.includes(id) ? 2 : 1);
}

// The pool with other bounds: of each category and value, by name, the least and the greatest number.
function poolWithBounds(text, bounds) {
  let category = '';
  return textOfLines(linesOf(text).map(fields => {
    if (fields[0] === 'category') category = fields[1];
    const other = fields[0] === 'value' ? bounds.get(category)?.get(fields[1]) : undefined;
    return other ? ['value', fields[1], ...other] : fields;
  }));
}

// The pool in the text of a bundle or of a proof: its lines up to the first `end`.
function poolTextIn(text) {
  const begin = text.search(/^pool\t/m);
  return text.slice(begin, text.indexOf('\nend\n', begin) + 5);
}
