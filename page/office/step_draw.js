'use strict';

// The draw with dice, digit by digit; the panel with names; and the next round after dropouts.

// What belongs to the draw that is on the page: the bundle with its seal, and how many dice are thrown at once.
let drawing = null;

async function openDraw() {
  const round = lastRound();
  const call = await checker;
  const sealed = sealedBy(call, round);
  const { tickets, dice } = ticketsOf(call, sealed.bundle, round.tickets);
  drawing = { ...sealed, dice };
  openSection('draw');
  part('how-many').textContent = `There ${tickets === '1' ? 'is one ticket' : `are ${tickets} tickets`}. Throw ${dice === 1 ? '1 die with ten sides, and type its digit' : `${dice} dice with ten sides, one after the other, and type each digit`}.`;
  showDigits(call, round, drawnBy(call, drawing, round));
}

// Changes the digits of the open draw by a function, and shows what they draw. If memory is wanting, they stay.
async function changeDigits(change) {
  const call = await checker;
  const round = lastRound();
  if (!drawing || round.isDrawn) return;
  const digits = change(round.digits);
  if (digits === round.digits) return;
  const drawn = drawnBy(call, drawing, { ...round, digits });
  round.digits = digits;
  setChanged();
  showDigits(call, round, drawn);
}

// Adds a digit, as long as no ticket is drawn.
function addDigit(digit) {
  return changeDigits(digits => part('count').hidden ? digits + digit : digits);
}

function takeBackDigit() {
  return changeDigits(digits => digits.slice(0, -1));
}

// Shows the digits in groups of a throw, and what they draw. The last digit is said with the state, which is read aloud.
function showDigits(call, round, { fields, panel, text }) {
  const groups = round.digits.match(new RegExp(`.{1,${drawing.dice}}`, 'g')) ?? [];
  part('digits').textContent = groups.join(' ') || '–';
  part('back').disabled = round.digits === '' || round.isDrawn;
  part('count').hidden = !panel || round.isDrawn;
  const hadFocus = part('keys').contains(document.activeElement);
  for (const button of document.querySelectorAll('#keys button')) button.disabled = Boolean(panel);
  if (panel && hadFocus) part('draw-title').focus();
  const rest = round.digits.length % drawing.dice;
  if (panel) say(part('draw-state'), `Ticket ${fields[1]}`, [round.isDrawn ? 'This panel is drawn.' : 'Read the digits aloud once more. Then let them count.'], true);
  else if (fields[1] !== 'MoreDigits') say(part('draw-state'), 'No draw', [text]);
  else if (round.digits && rest === 0) say(part('draw-state'), 'Throw all dice again', ['This throw names no ticket, so that each ticket has the same chance.']);
  else part('draw-state').replaceChildren(element('p', rest ? `${round.digits.slice(-1)}. ${drawing.dice - rest} more of this throw.` : ''));
  if (panel && round.isDrawn) showPanel(call, round, panel);
  else part('panel').replaceChildren();
}

// The drawn panel counts from now on.
async function countDraw() {
  const call = await checker;
  const round = lastRound();
  const drawn = drawnBy(call, drawing, round);
  if (!drawn.panel) return;
  round.isDrawn = true;
  setChanged();
  showDigits(call, round, drawn);
  openSection('next');
  showNext();
  goTo(part('panel').querySelector('h3'));
}

function peopleWith(ids) {
  return assembly.people.filter(person => ids.includes(person.id));
}

// The page with the lottery and the drawn panel.
function pageOfDraw(call, { tickets, digits }) {
  const { bundle } = drawing;
  return tickets ? textTold(call, 'tell_short_drawn_page', tickets, bundle, digits) : textTold(call, 'tell_drawn_page', bundle, digits);
}

// Shows the drawn panel with all columns, and the lists to save.
function showPanel(call, round, panel) {
  const before = poolIn(round.pool).standings;
  const rows = peopleWith(panel).map(person => [person.id, before.get(person.id) === 'seated' ? 'seated before' : 'drawn', ...person.cells]);
  const page = `round-${assembly.rounds.length}-drawn.html`;
  const lists = {
    'selected.csv': () => listOf(assembly, panel),
    'remaining.csv': () => listOf(assembly, remainingOf(round, panel)),
    [page]: () => pageOfDraw(call, round),
  };
  part('panel').replaceChildren(
    element('h3', 'The panel'),
    element('div', [tableOf(['id', '', ...assembly.table.heading], rows)], { className: 'wide' }),
    saveButtons(Object.keys(lists), name => lists[name]()),
    element('p', `The two lists have names and addresses. ${page} has ids alone, and may be published.`),
  );
  part('frame').srcdoc = pageOfDraw(call, round);
}

// ---- the next round

function showNext() {
  const round = lastRound();
  checker.then(call => {
    const { panel } = drawnBy(call, sealedBy(call, round), round);
    const words = person => [person.id, ...person.cells.filter(cell => cell !== '').slice(0, 2)].join(' ');
    const box = person => element('input', '', { type: 'checkbox', value: person.id, checked: round.dropped.includes(person.id), ariaLabel: `${words(person)} can’t come` });
    part('members').replaceChildren(element('div', [tableOf(['can’t come', 'id', ...assembly.table.heading], peopleWith(panel).map(person => [box(person), person.id, ...person.cells]))], { className: 'wide' }));
  });
}

async function beginNextRound() {
  const round = lastRound();
  const dropped = [...part('members').querySelectorAll('input:checked')].map(box => box.value);
  if (!dropped.length) {
    say(part('next-state'), 'Nobody is ticked', ['If all members come, the panel is complete, and no round is needed.']);
    return;
  }
  const call = await checker;
  const { panel } = drawnBy(call, sealedBy(call, round), round);
  const next = newRound(nextPool(call, round.pool, panel, dropped));
  round.dropped = dropped;
  assembly.rounds.push(next);
  await setAssembly(assembly);
}

// Takes the last round back, of which nothing is published, and goes to the members of the round before.
async function takeRoundBack() {
  if (assembly.rounds.length === 1 || lastRound().isPublished) return;
  assembly.rounds.pop();
  await setAssembly(assembly);
  goTo(part('next-title'));
}

function beginDraw() {
  part('keys').replaceChildren(...'1234567890'.split('').map(digit => {
    const button = element('button', digit, { type: 'button' });
    button.addEventListener('click', () => addDigit(digit));
    return button;
  }));
  part('back').addEventListener('click', takeBackDigit);
  part('count').addEventListener('click', countDraw);
  part('hall').addEventListener('click', () => {
    part('hall').ariaPressed = String(part('draw').classList.toggle('hall'));
  });
  part('begin-next').addEventListener('click', beginNextRound);
  part('take-back').addEventListener('click', takeRoundBack);
  part('draw').addEventListener('keydown', event => {
    if (event.target.tagName === 'INPUT' || event.ctrlKey || event.altKey || event.metaKey) return;
    if (/^[0-9]$/.test(event.key)) addDigit(event.key);
    else if (event.key === 'Backspace') takeBackDigit();
    else return;
    event.preventDefault();
  });
}
