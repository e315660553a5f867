'use strict';

// The page as a whole: the assembly that it holds, and which steps are open.

// The bytes of the module, and the call of checker.js in this page. Long calls go to a worker.
const moduleBytes = Promise.resolve().then(() => Uint8Array.from(atob(part('module').textContent), it => it.charCodeAt(0)));
const checker = moduleBytes.then(loadedChecker);

let assembly = newAssembly();

// True if the assembly has changed since it was saved.
let isChanged = false;

const lastRound = () => assembly.rounds[assembly.rounds.length - 1];

function setChanged() {
  isChanged = true;
  part('trouble').replaceChildren();
  part('keep-state').textContent = 'Not saved yet.';
}

// Takes another assembly, and shows the step that it is at.
async function setAssembly(other) {
  stopLongCall();
  assembly = other;
  drawing = null;
  part('save').disabled = !assembly.rounds.length;
  setChanged();
  showMade();
  hideSections('lottery', 'tickets', 'none', 'draw', 'next');
  part('picture').hidden = true;
  part('find').disabled = false;
  for (const id of ['lottery-state', 'lottery-found', 'none-state', 'panel', 'draw-state', 'next-state']) part(id).replaceChildren();
  if (!assembly.rounds.length) return;
  const round = lastRound();
  const seated = [...poolIn(round.pool).standings.values()].filter(it => it === 'seated').length;
  const free = assembly.size - seated;
  const seats = free === 1 ? 'one seat is' : `${free} seats are`;
  part('round').textContent = assembly.rounds.length === 1 ? 'Round 1.' : `Round ${assembly.rounds.length}: ${seated} members keep their seats, and ${seats} free.`;
  part('take-back').hidden = assembly.rounds.length === 1 || round.isPublished;
  openSection('lottery');
  if (round.proof) await showLottery();
  if (round.isDrawn) {
    openSection('next');
    showNext();
  }
}

async function openFile(file) {
  if (isChanged && assembly.rounds.length) {
    say(part('keep-state'), 'Save this assembly first', ['It isn’t saved yet. Save it as a file, and then open the other one.']);
    return;
  }
  try {
    const opened = openedAssembly(await checker, await file.text());
    await setAssembly(opened);
    isChanged = false;
    setLetters(lettersOf(opened));
    say(part('keep-state'), 'Opened', [`${file.name} fits itself: each proof was checked, each seal computed and each draw drawn again.`], true);
  } catch (error) {
    if (wantsMemory(error)) tellFailed(part('keep-state'), error);
    else say(part('keep-state'), 'The file is refused', [`${file.name}: ${error.message}.`]);
  }
}

function saveFile() {
  save(`${assembly.title || 'assembly'}.assembly`, textOfAssembly(assembly));
  isChanged = false;
  part('keep-state').textContent = 'Saved. It has names and addresses: keep it where you keep the letters.';
}

// Takes files that are dropped anywhere.
async function takeDropped(files) {
  for (const file of files) {
    if (file.name.endsWith('.assembly')) await openFile(file);
    else await takeFile(file, null);
  }
}

// Says what nothing else says. The assembly stays as it is, and can be saved.
function tellTrouble(event) {
  event.preventDefault();
  tellFailed(part('trouble'), event.reason ?? event.error ?? event);
}

function beginOffice() {
  addEventListener('unhandledrejection', tellTrouble);
  addEventListener('error', tellTrouble);
  beginPeople();
  beginLottery();
  beginDraw();
  part('save').addEventListener('click', saveFile);
  part('open').addEventListener('change', () => part('open').files.length && openFile(part('open').files[0]));
  for (const name of ['dragenter', 'dragover', 'dragleave', 'drop']) {
    addEventListener(name, event => {
      event.preventDefault();
      part('drop').classList.toggle('over', name === 'dragenter' || name === 'dragover');
      if (name === 'drop') takeDropped([...event.dataTransfer.files]);
    });
  }
  addEventListener('beforeunload', event => {
    if (isChanged && assembly.rounds.length) event.preventDefault();
  });
  const frame = part('frame');
  const fit = () => {
    const body = frame.contentDocument?.body;
    if (body) frame.height = body.offsetHeight + frame.offsetHeight - frame.clientHeight;
  };
  frame.addEventListener('load', fit);
  frame.parentElement.addEventListener('toggle', fit);
  addEventListener('resize', fit);
}

beginOffice();
