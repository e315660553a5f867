'use strict';

// The assembly as a file: the tables of the city and what was made of them, the pools, proofs, digits and dropouts of each round. A file that is
// opened has to fit itself. `call` is that of checker.js.

const FIRST_LINE = 'assembly\t1';
const WARNING = 'This file has names and addresses. Keep it where you keep the letters.';

// What an assembly is before anything was done. A round has a pool, a proof, a number of tickets (0: all), whether it was published, the digits that
// were thrown, whether these count, and the ids of those who can't come.
function newAssembly() {
  return { title: '', size: 0, table: null, people: [], texts: {}, rounds: [] };
}

function newRound(pool) {
  return { pool, proof: '', tickets: 0, isPublished: false, digits: '', isDrawn: false, dropped: [] };
}

function textOfAssembly(assembly) {
  return `${FIRST_LINE}\n${WARNING}\n${JSON.stringify(assembly, null, 1)}\n`;
}

// The parts of a call as the module takes them: texts as bytes, numbers as BigInts, and bytes as they are.
function partsOfCall(parts) {
  return parts.map(part => typeof part === 'string' ? new TextEncoder().encode(part) : typeof part === 'number' ? BigInt(part) : part);
}

// Makes a call with texts, numbers and bytes, and returns a text.
function textTold(call, name, ...parts) {
  const bytes = partsOfCall(parts);
  return new TextDecoder().decode(call(name, ...bytes));
}

// The pool of the first round that the proved code makes of the office's files. Throws if they make none.
function poolOfFiles(call, texts) {
  const pool = textTold(call, 'tell_first_pool', texts['charter.toml'], texts['rules.csv'], texts['register.csv']);
  if (!pool.startsWith('pool\t')) throw new Error(`the files of the office make no pool: ${pool.trimEnd()}`);
  return pool;
}

// What follows from the proof of a round: its bundle and seal. Throws if the proof is not valid, or is of another pool.
function sealedBy(call, round) {
  const verdict = textTold(call, 'tell_verify', round.proof).trimEnd();
  if (verdict !== 'valid') throw new Error(`its proof is not valid: ${verdict}`);
  const bundle = textTold(call, 'tell_bundle', round.proof);
  if (poolTextIn(bundle) !== round.pool) throw new Error('its proof is of another pool');
  return { bundle, seal: textTold(call, 'tell_seal', bundle).trimEnd().split('\t')[1] };
}

// What the digits of a round draw: the lines of the program, and the ids of the panel, or null while they draw none.
function drawnBy(call, { bundle, seal }, { tickets, digits }) {
  const text = tickets ? textTold(call, 'tell_short_draw', tickets, bundle, seal, digits) : textTold(call, 'tell_draw', bundle, seal, digits);
  const [first, panel] = linesOf(text);
  return { text, fields: first, panel: first[0] === 'ticket' ? panel.slice(1) : null };
}

// The pool of the round after a draw: who was gone or can't come is gone, the other members of the panel are seated, and everybody else is open.
function nextPool(call, pool, panel, dropped) {
  return textTold(call, 'tell_next_pool', pool, marksOf(pool, panel, dropped));
}

// The assembly in a text. Throws if the text is none, or doesn't fit itself.
function openedAssembly(call, text) {
  const [first, , ...rest] = text.split('\n');
  if (first !== FIRST_LINE) throw new Error('its first line isn’t that of a saved assembly of this version');
  const assembly = { ...newAssembly(), ...JSON.parse(rest.join('\n')) };
  assembly.rounds.forEach((round, place) => {
    const at = problem => new Error(`in round ${place + 1}, ${problem}`);
    try {
      checkRound(call, assembly, round, place);
    } catch (error) {
      throw error instanceof WantOfMemory ? error : at(error.message);
    }
  });
  return assembly;
}

// Throws if a round doesn't follow from the one before, or its parts don't fit each other.
function checkRound(call, assembly, round, place) {
  const said = textTold(call, 'tell_explain', round.pool);
  if (said.startsWith('input')) throw new Error('the pool is none');
  const ids = poolIn(round.pool).ids;
  const isOfPeople = assembly.people.length === ids.length && assembly.people.every(person => ids.includes(person.id));
  if (!isOfPeople) throw new Error('the pool has other people than the letters');
  if (place > 0) checkFollows(call, assembly.rounds[place - 1], round);
  else if (poolOfFiles(call, assembly.texts) !== round.pool) throw new Error('the pool isn’t that of the office’s files');
  if (!round.proof) {
    if (round.isDrawn || round.isPublished) throw new Error('it is drawn or published, and has no proof');
    return;
  }
  const drawn = drawnBy(call, sealedBy(call, round), round);
  if (round.isDrawn && !drawn.panel) throw new Error('the digits draw no panel');
  if (round.dropped.some(id => !drawn.panel?.includes(id))) throw new Error('somebody who can’t come is not of the panel');
}

// Throws if a round isn't the one after another one. Its bounds may be others.
function checkFollows(call, before, round) {
  if (!before.isDrawn) throw new Error('the round before isn’t drawn');
  const { panel } = drawnBy(call, sealedBy(call, before), before);
  const withoutBounds = pool => linesOf(pool).map(fields => fields[0] === 'value' ? fields.slice(0, 2) : fields).join('\n');
  if (withoutBounds(nextPool(call, before.pool, panel, before.dropped)) !== withoutBounds(round.pool)) throw new Error('the pool isn’t that after the round before');
}

// ---- lists of people

// The rows of the people's table with these ids, as a list for people: the id, the heading and all columns.
function listOf(assembly, ids) {
  const { heading, mark, delimiter } = assembly.table;
  const rows = assembly.people.filter(person => ids.includes(person.id)).map(person => [person.id, ...person.cells]);
  return listText([['id', ...heading], ...rows], mark, delimiter);
}

// Who remains after a draw: everybody of the pool who isn't gone and wasn't drawn.
function remainingOf(round, panel) {
  const { ids, standings } = poolIn(round.pool);
  return ids.filter(id => !panel.includes(id) && standings.get(id) !== 'gone');
}
