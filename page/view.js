'use strict';

// What the page shows, and when. `checker.js` makes the calls, `words.js` has the words.

const encoder = new TextEncoder();
const decoder = new TextDecoder();
const part = id => document.getElementById(id);
const checker = loadedChecker(Uint8Array.from(atob(part('module').textContent), it => it.charCodeAt(0)));

// The bundle of the file, or null if it has none.
let bundle = null;

// Counts the files that were chosen, so that an older one doesn't come in later.
let chosen = 0;

function element(name, text) {
  const made = document.createElement(name);
  made.textContent = text;
  return made;
}

function beginsWith(bytes, word) {
  return decoder.decode(bytes.subarray(0, word.length)) === word;
}

// Shows a title, sentences, a list of members if there is one, and the text of the program if it told one.
function show(place, { title, words, good, members }, text) {
  const made = [element('p', title), ...words.map(it => element('p', it))];
  made[0].className = good ? 'title good' : 'title bad';
  if (members) {
    const list = document.createElement('ul');
    list.className = 'members';
    list.append(...members.map(it => element('li', it)));
    made.push(list);
  }
  if (text !== undefined) {
    const said = element('p', 'The program says: ');
    said.className = 'said';
    said.append(element('code', text.trimEnd()));
    made.push(said);
  }
  place.replaceChildren(...made);
}

function fail(place, error) {
  const why = error instanceof WantOfMemory ? 'There is too little memory.' : `This browser reports: ${error.message}`;
  show(place, { title: 'Not checked', words: [why] });
}

// Returns the volunteers' ids in the order of their lines.
function idsIn(text) {
  return text.split('\n').map(it => it.split('\t')).filter(it => it[0] === 'volunteer').map(it => it[1]);
}

// Shows the page about the bundle, or about the bundle and the panel that is drawn.
async function showPicture(name, ...words) {
  const call = await checker;
  const text = decoder.decode(call(name, bundle, ...words));
  part('picture').hidden = !text.startsWith('<!DOCTYPE html>');
  part('frame').srcdoc = text;
}

function showChances(text) {
  const rows = text.split('\n').map(it => it.split('\t')).filter(it => it[0] === 'chance');
  part('chances').hidden = rows.length === 0;
  part('rows').replaceChildren(...rows.map(([, id, exact, rounded]) => {
    const row = document.createElement('tr');
    const head = element('th', id);
    head.scope = 'row';
    row.append(head, element('td', exact), element('td', rounded));
    return row;
  }));
}

// Hides what belongs to a bundle.
function hideBundle() {
  for (const id of ['sealed', 'draw', 'chances', 'picture']) part(id).hidden = true;
  part('drawn').replaceChildren();
}

// Shows the seal, the chances and the picture of the bundle, if there is one.
async function showBundle(call) {
  hideBundle();
  if (bundle === null) return;
  const fields = fieldsOf(decoder.decode(call('tell_seal', bundle)));
  if (fields[0] !== 'seal') return;
  part('seal').textContent = fields[1];
  part('sealed').hidden = false;
  part('draw').hidden = false;
  compareSeals();
  showChances(decoder.decode(call('tell_chances', bundle)));
  await showPicture('tell_page');
}

function compareSeals() {
  const given = part('given').value.trim();
  const same = given.toLowerCase() === part('seal').textContent;
  part('compared').textContent = given === '' ? '' : same ? 'It is the seal of this bundle.' : 'It is not the seal of this bundle.';
  part('compared').className = same ? 'good' : 'bad';
}

// Returns the bundle in the text of a cover: its lines behind the first one, up to `done`.
function bundleIn(text) {
  const begin = text.indexOf('\n') + 1;
  return encoder.encode(text.slice(begin, text.indexOf('\ndone\n') + 6));
}

// Shows what `verify` tells of a file, or `check-cover` of a cover, and what belongs to its bundle.
async function check(file) {
  const turn = ++chosen;
  part('answer').hidden = false;
  part('verdict').replaceChildren(element('p', 'Checking …'));
  part('name').textContent = `${file.name}, ${file.size.toLocaleString('en')} bytes`;
  bundle = null;
  hideBundle();
  try {
    const bytes = new Uint8Array(await file.slice(0, MOST_BYTES + 1).arrayBuffer());
    const call = await checker;
    if (turn !== chosen) return;
    const isCover = beginsWith(bytes, 'cover');
    const text = decoder.decode(call(isCover ? 'tell_check_cover' : 'tell_verify', bytes));
    const content = decoder.decode(bytes);
    show(part('verdict'), verdictWords(text, idsIn(content), isCover ? 'cover' : 'proof'), text);
    if (beginsWith(bytes, 'bundle')) {
      bundle = bytes;
      part('verdict').append(element('p', 'The file is a bundle without a proof. What is below is about it, and its lottery is not checked.'));
    } else if (isCover) {
      bundle = text.startsWith('input') ? null : bundleIn(content);
    } else {
      const its = call('tell_bundle', bytes);
      bundle = beginsWith(its, 'bundle') ? its : null;
    }
    await showBundle(call);
  } catch (error) {
    bundle = null;
    fail(part('verdict'), error);
    hideBundle();
  }
}

// Shows the panel that the digits draw.
async function draw() {
  const turn = chosen;
  try {
    const call = await checker;
    if (turn !== chosen || bundle === null) return;
    const seal = encoder.encode(part('given').value.trim());
    const digits = encoder.encode(part('digits').value.trim());
    const text = decoder.decode(call('tell_draw', bundle, seal, digits));
    const said = drawWords(text);
    show(part('drawn'), said, text);
    await (said.members ? showPicture('tell_drawn_page', digits) : showPicture('tell_page'));
  } catch (error) {
    fail(part('drawn'), error);
  }
}

// Takes a panel off the page that other digits or another seal drew.
function forgetDrawn() {
  compareSeals();
  if (!part('drawn').childElementCount) return;
  part('drawn').replaceChildren();
  if (bundle !== null) showPicture('tell_page');
}

function begin() {
  const input = part('file');
  const drop = part('drop');
  input.addEventListener('change', () => input.files.length && check(input.files[0]));
  for (const id of ['given', 'digits']) part(id).addEventListener('input', forgetDrawn);
  part('dice').addEventListener('submit', event => {
    event.preventDefault();
    draw();
  });
  for (const name of ['dragenter', 'dragover', 'dragleave', 'drop']) {
    addEventListener(name, event => {
      event.preventDefault();
      drop.classList.toggle('over', name === 'dragenter' || name === 'dragover');
      if (name === 'drop' && event.dataTransfer.files.length) {
        input.files = event.dataTransfer.files;
        check(input.files[0]);
      }
    });
  }
  // The frame is as high as its page, so that it doesn't scroll by itself.
  const frame = part('frame');
  const fit = () => {
    const body = frame.contentDocument?.body;
    if (body) frame.height = body.offsetHeight + frame.offsetHeight - frame.clientHeight;
  };
  frame.addEventListener('load', fit);
  addEventListener('resize', fit);
}

begin();
