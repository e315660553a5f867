'use strict';

// The lottery of a round, with its proof; what to publish; and what to do if there is no panel.

// The limits of the commands `prove`, `why` and `loosen-by-proof` without words.
const PIVOTS = 1000000, NODES = 200000;

const ALL_PUBLISHED = ['The bundle: the lottery with every panel', 'The proof: anybody can add it up', 'The seal: it says that the bundle stays as it is', 'The number of tickets'];

const ticketChoices = () => [...document.querySelectorAll('input[name=tickets]')];

// Finds the lottery of the round, with a proof. One that is published stays, and a search that is running goes on.
async function findLottery() {
  const round = lastRound();
  if (round.isPublished || running) return;
  round.proof = '';
  hideSections('tickets', 'none', 'draw', 'next');
  part('lottery-found').replaceChildren();
  try {
    const { text, seconds } = await longCall(await moduleBytes, 'tell_prove', [PIVOTS, NODES, round.pool], showRunning(part('lottery-state'), 'Looking for the lottery'));
    if (round === lastRound()) await takeProof(round, text, `It took ${seconds.toFixed(1)} seconds, and the proof was checked.`);
  } catch (error) {
    tellFailed(part('lottery-state'), error);
  }
}

// Takes what `prove` answered. `took` says what it took.
async function takeProof(round, text, took) {
  const call = await checker;
  const verdict = textTold(call, 'tell_verify', text).trimEnd();
  if (verdict === 'valid') {
    round.proof = text;
    say(part('lottery-state'), 'The lottery is found', [
      `${took} It makes the smallest chance of anybody as large as it can be, then the second smallest, and so on. No lottery over panels that meet the quotas is fairer in this sense.`,
    ], true);
    setChanged();
    await showLottery();
  } else if (verdict === 'valid\tnone') {
    say(part('lottery-state'), 'No panel meets all quotas', [took]);
    await showWhy(round);
  } else if (text.startsWith('spent\ttrees')) {
    sayNotFound(round, `A lottery is found, and no lottery over panels that meet the quotas is fairer. But no proof of it was found in ${linesOf(text)[0][2]} steps.`);
  } else if (text.startsWith('spent')) {
    sayNotFound(round, 'The search of this page is used up.');
  } else if (text.startsWith('refused')) {
    sayNotFound(round, `A lottery is found, and no lottery over panels that meet the quotas is fairer. But at stage ${linesOf(text)[0][1]} its numbers are too great for a proof.`, WITHOUT_PROOF);
  } else {
    say(part('lottery-state'), 'The pool can’t be read', [text]);
  }
}

// What the program at a desk can do: look longer, or go on without a proof.
const LONGER = 'The program at a desk can look longer: save the pool, give it to sortition prove, with --pivots and --nodes, and choose the proof that it prints.';
const WITHOUT_PROOF = 'This page draws only from a lottery with a proof. The program at a desk needs none: save the pool, give it to sortition lottery, and the bundle that it prints to sortition check.';

// Says why there is no lottery with a proof, and what to do at a desk. A proof that was made there can be chosen.
function sayNotFound(round, why, advice = LONGER) {
  const file = element('input', '', { type: 'file', id: 'proof-file', accept: '.proof' });
  file.addEventListener('change', () => file.files.length && takeProofFile(round, file.files[0]));
  say(part('lottery-state'), 'No lottery with a proof was found', [why, advice], false,
    saveButtons([`round-${assembly.rounds.length}.pool`], () => round.pool),
    element('label', 'The proof that the program printed', { htmlFor: 'proof-file' }), file);
}

async function takeProofFile(round, file) {
  const text = await file.text();
  const isValid = textTold(await checker, 'tell_verify', text).startsWith('valid');
  if (isValid && poolTextIn(text) === round.pool) await takeProof(round, text, 'The proof was checked.');
  else sayNotFound(round, `${file.name} is no proof of this pool.`);
}

// How many tickets there are with one of the choices, and how many dice are thrown for one.
function ticketsOf(call, bundle, choice) {
  const [dice, tickets] = linesOf(choice ? textTold(call, 'tell_short_dice', choice, bundle) : textTold(call, 'tell_dice', bundle));
  return { tickets: BigInt(tickets[1]).toLocaleString('en'), dice: Number(dice[1]) };
}

// Shows how many tickets can be chosen, until the lottery is published.
function showTickets(call, bundle, round) {
  for (const input of ticketChoices()) {
    const choice = Number(input.value);
    const { tickets, dice } = ticketsOf(call, bundle, choice);
    input.checked = choice === round.tickets;
    input.disabled = round.isPublished;
    input.nextElementSibling.textContent = `${choice ? `${tickets} tickets` : `all ${tickets} tickets of the lottery, exactly as fair`}: ${dice} ${dice === 1 ? 'die' : 'dice'} with ten sides`;
  }
  part('tickets').hidden = false;
}

function chooseTickets(choice) {
  const round = lastRound();
  if (!round.isPublished) round.tickets = choice;
  setChanged();
}

// Shows the lottery of the last round: its picture, and what to publish.
async function showLottery() {
  const round = lastRound();
  const call = await checker;
  const { bundle, seal } = sealedBy(call, round);
  part('find').disabled = round.isPublished;
  part('take-back').hidden = assembly.rounds.length === 1 || round.isPublished;
  part('frame').srcdoc = textTold(call, 'tell_page', bundle);
  showTickets(call, bundle, round);
  const name = `round-${assembly.rounds.length}`;
  const files = { [`${name}.bundle`]: () => bundle, [`${name}.proof`]: () => round.proof, [`${name}.html`]: () => textTold(call, 'tell_page', bundle) };
  const ticks = ALL_PUBLISHED.map(words => {
    const box = element('input', '', { type: 'checkbox', checked: round.isPublished, disabled: round.isPublished });
    return element('label', [box, ` ${words}`], { className: 'tick' });
  });
  const publish = element('button', 'All of this is published', { type: 'button', disabled: round.isPublished });
  publish.addEventListener('click', () => {
    if (ticks.every(tick => tick.firstChild.checked)) {
      round.isPublished = true;
      setChanged();
      showLottery();
    } else {
      say(part('published'), 'Not yet', ['Tick what is published. Everything has to be, before the first dice are thrown.']);
    }
  });
  part('lottery-found').replaceChildren(
    element('h3', 'What to publish, before the dice are thrown'),
    element('p', 'The seal:'),
    element('p', [element('code', seal, { id: 'seal' })]),
    saveButtons(Object.keys(files), file => files[file]()),
    element('div', ticks),
    publish,
    element('div', '', { id: 'published', role: 'status' }),
  );
  part('picture').hidden = false;
  if (round.isPublished) await openDraw();
}

// ---- no panel

// The bounds of the form, by category and value.
function boundsGiven() {
  const bounds = new Map();
  for (const row of part('bounds').querySelectorAll('tr[data-value]')) {
    const [category, value] = [row.dataset.category, row.dataset.value];
    if (!bounds.has(category)) bounds.set(category, new Map());
    bounds.get(category).set(value, [...row.querySelectorAll('input')].map(input => input.valueAsNumber));
  }
  return bounds;
}

// Shows the bounds of a pool to be changed; those that are proposed are filled in and marked.
function showBounds(pool, proposed) {
  const rows = pool.categories.flatMap(({ name, values }) => values.map(value => {
    const other = proposed.get(`${name}\t${value.name}`);
    const [least, most] = other ?? [value.least, value.most];
    const input = (number, what) => element('input', '', { type: 'number', min: 0, max: MOST_BOUND, value: number, ariaLabel: `${what} of ${name} ${value.name}` });
    const cells = [element('th', `${name}: ${value.name}`, { scope: 'row' }), element('td', `${value.least} to ${value.most}`),
      element('td', [input(least, 'least')]), element('td', [input(most, 'most')])];
    const row = element('tr', cells, { className: other ? 'proposed' : '' });
    row.dataset.category = name;
    row.dataset.value = value.name;
    return row;
  }));
  const head = element('tr', ['Quota', 'now', 'at least', 'at most'].map(name => element('th', name, { scope: 'col' })));
  part('bounds').replaceChildren(element('table', [element('thead', [head]), element('tbody', rows)]));
}

// Shows why there is no panel, and looks for the bounds to move least.
async function showWhy(round) {
  openSection('none');
  try {
    const why = await longCall(await moduleBytes, 'tell_why', [PIVOTS, NODES, round.pool], showRunning(part('none-state'), 'Looking for the reason'));
    part('why').textContent = why.text;
    const loosened = await longCall(await moduleBytes, 'tell_loosen_by_proof', [PIVOTS, NODES, round.pool], showRunning(part('none-state'), 'Looking for bounds to move'));
    showLoosened(round, loosened.text);
  } catch (error) {
    tellFailed(part('none-state'), error);
    showBounds(poolIn(round.pool), new Map());
  }
}

function showLoosened(round, text) {
  const lines = linesOf(text);
  const bounds = lines.filter(([word]) => word === 'bound');
  showBounds(poolIn(round.pool), new Map(bounds.map(([, category, value, least, most]) => [`${category}\t${value}`, [Number(least), Number(most)]])));
  if (lines[0]?.[0] === 'loosen') {
    say(part('none-state'), 'With these bounds there is a panel', [`The bounds that are marked move by ${lines[0][1]} in all, and no smaller move is enough. Accept them, or change them yourself.`], true);
  } else {
    say(part('none-state'), 'No bounds help', ['Whatever the bounds are, the size and the households alone can’t be met.']);
  }
}

// The pool and the files of the office with other bounds. Those of the first round are made anew.
function withBounds(call, round, bounds) {
  const { rounds, texts } = assembly;
  if (rounds.length > 1) return { pool: poolWithBounds(round.pool, bounds), texts };
  const rules = [...bounds].flatMap(([category, values]) => [...values].map(([value, its]) => [category, value, ...its]));
  const others = { ...texts, 'rules.csv': csvText([['category', 'name', 'min', 'max'], ...rules]) };
  return { pool: poolOfFiles(call, others), texts: others };
}

// Takes the bounds of the form.
async function takeBounds() {
  const round = lastRound();
  const bounds = boundsGiven();
  const areBounds = ([least, most]) => Number.isInteger(least) && Number.isInteger(most) && 0 <= least && least <= most && most <= MOST_BOUND;
  const wrong = [...bounds].flatMap(([category, values]) => [...values].filter(([, its]) => !areBounds(its)).map(([value]) => `${category}: ${value}`));
  if (wrong.length) {
    say(part('none-state'), 'These bounds can’t be', wrong);
    return;
  }
  const { pool, texts } = withBounds(await checker, round, bounds);
  round.pool = pool;
  assembly.texts = texts;
  setChanged();
  hideSections('none');
  part('lottery-state').replaceChildren(element('p', 'The bounds are changed. Look for the lottery again.'));
  part('find').focus();
}

function beginLottery() {
  part('find').addEventListener('click', findLottery);
  for (const input of ticketChoices()) input.addEventListener('change', () => chooseTickets(Number(input.value)));
  part('bounds-form').addEventListener('submit', event => {
    event.preventDefault();
    takeBounds();
  });
}
