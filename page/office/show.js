'use strict';

// How parts of the page are made and shown. All text goes in as text, never as HTML.

const part = id => document.getElementById(id);

// Makes an element with content, a text or a list of elements, and attributes.
function element(name, content = '', attributes = {}) {
  const made = document.createElement(name);
  if (Array.isArray(content)) made.append(...content);
  else made.textContent = content;
  for (const [key, value] of Object.entries(attributes)) {
    if (key in made) made[key] = value;
    else made.setAttribute(key, value);
  }
  return made;
}

// Makes a table with a heading and rows of texts or elements.
function tableOf(heading, rows) {
  const head = element('thead', [element('tr', heading.map(name => element('th', name, { scope: 'col' })))]);
  const body = element('tbody', rows.map(row => element('tr', row.map(cell => element('td', typeof cell === 'string' ? cell : [cell])))));
  return element('table', [head, body]);
}

// Shows a title with sentences below it, in good or bad colours. If the part that had the focus goes, the title has it.
function say(place, title, sentences = [], isGood = false, ...more) {
  const hadFocus = place.contains(document.activeElement);
  const heading = element('p', title, { className: isGood ? 'title good' : 'title bad', tabIndex: -1 });
  place.replaceChildren(heading, ...sentences.map(it => element('p', it)), ...more);
  if (hadFocus) heading.focus();
}

// Hands a text to the browser as a file to save.
function save(name, text, kind = 'text/plain') {
  const place = URL.createObjectURL(new Blob([text], { type: `${kind};charset=utf-8` }));
  const link = element('a', '', { href: place, download: name });
  document.body.append(link);
  link.click();
  link.remove();
  setTimeout(() => URL.revokeObjectURL(place), 10000);
}

// Makes a button that saves a file. `saveIt` does it.
function saveButton(name, saveIt) {
  const button = element('button', `Save ${name}`, { type: 'button' });
  button.addEventListener('click', () => {
    saveIt();
    button.classList.add('saved');
  });
  return button;
}

// Makes buttons that save files. `textOf` returns the text of a file.
function saveButtons(names, textOf) {
  return element('p', names.map(name => saveButton(name, () => save(name, textOf(name)))), { className: 'buttons' });
}

// Shows a section, and goes to its heading if it was hidden.
function openSection(id) {
  const section = part(id);
  if (!section.hidden) return;
  section.hidden = false;
  goTo(section.querySelector('h2'));
}

// Goes to a heading, so that what stands below it is seen too.
function goTo(heading) {
  heading.tabIndex = -1;
  heading.focus({ preventScroll: true });
  heading.scrollIntoView({ block: 'center' });
}

function hideSections(...ids) {
  for (const id of ids) part(id).hidden = true;
}

// Shows how a long call goes on: the seconds, which aren't read aloud, and a button that stops it.
function showRunning(place, what) {
  const seconds = element('span', '0 seconds', { role: 'timer', ariaLive: 'off' });
  const stop = element('button', 'Stop', { type: 'button' });
  stop.addEventListener('click', stopLongCall);
  place.replaceChildren(element('p', [element('span', '', { className: 'turning', ariaHidden: 'true' }), ` ${what} … `, seconds]), element('p', [stop]));
  return it => {
    seconds.textContent = it === 1 ? '1 second' : `${it} seconds`;
  };
}

// ---- trouble

const OF_MEMORY = ['Nothing was lost. Save the assembly as a file, close other pages and programs, open this page again, and open the file.',
  'If that doesn’t help, take a computer with more memory.'];

// True if an error says that memory is wanting, in the words of any browser.
function wantsMemory(error) {
  return error instanceof WantOfMemory || error instanceof RangeError || /memory/i.test(error?.message ?? '');
}

// Says what went wrong at a place of the page.
function tellFailed(place, error) {
  if (error instanceof Stopped) say(place, 'Stopped', ['Nothing was lost. You can begin again.']);
  else if (wantsMemory(error)) say(place, 'There is too little memory', OF_MEMORY);
  else say(place, 'It failed', [`This browser reports: ${error?.message ?? error}`, 'Nothing was lost. You can save the assembly as a file.']);
}
