// The page for volunteers, over the desk's routes: /me, /me/seat, /me/withdraw, /public/bundle/N and /public/draw/N. A key stays in a variable of this page and is sent in the field `office-key` alone. Nothing is stored, and nothing of a volunteer
// outlasts a visit of the page.
"use strict";

const of = (id) => document.getElementById(id);

function element(name, text) {
  const made = document.createElement(name);
  made.textContent = text;
  return made;
}

// ---- replies

// How long the page waits for a reply, in milliseconds. The proxy gives up sooner.
const PATIENCE = 60000;

// The status of a reply, and its body to the last byte. Status 0: no whole reply came.
async function reply(path, method, key) {
  const ending = new AbortController();
  const timer = setTimeout(() => ending.abort(), PATIENCE);
  const own = key !== null;
  try {
    const came = await fetch(path, {
      method, headers: own ? { "office-key": key } : {}, cache: own ? "no-store" : "default", credentials: "omit", redirect: "error", signal: ending.signal,
    });
    return { status: came.status, body: await came.arrayBuffer() };
  } catch {
    return { status: 0, body: null };
  } finally {
    clearTimeout(timer);
  }
}

// The value of a JSON text that `isRight` accepts, or null.
function valueOf(body, isRight) {
  try {
    const value = JSON.parse(new TextDecoder().decode(body));
    return isRight(value) ? value : null;
  } catch {
    return null;
  }
}

const isRound = (it) => Number.isInteger(it) && it > 0;
const isText = (it) => typeof it === "string";
const isTruth = (it) => typeof it === "boolean";
const PHASES = { Open: "Its lottery is still to come.", Solved: "Its lottery is made, and not sealed yet.", Sealed: "Its lottery is sealed, and not drawn yet.", Drawn: "It is drawn." };

function isOwn(it) {
  const chance = it.chance === null || (isText(it.chance) && /^[0-9]+\/[1-9][0-9]*$/.test(it.chance));
  return isText(it.id) && isRound(it.round) && Object.keys(PHASES).includes(it.phase) && isTruth(it.withdrawn) && chance && (it.drawn === null || isTruth(it.drawn));
}

function isSeat(it) {
  return isText(it.id) && isTruth(it.seated) && Array.isArray(it.dropped) && it.dropped.every(isRound);
}

function isDraw(it) {
  const tickets = it.tickets === undefined || isText(it.tickets);
  return isText(it.digits) && isText(it.seal) && isText(it.ticket) && tickets && Array.isArray(it.panel) && it.panel.every(isText);
}

const LATER = "Please try again later.";

// Why there is no answer. Only 404 means that something isn't there, and only 401 that nobody has a key: neither is said of another status.
function trouble(status) {
  if (status === 0) return "The office can't be reached. Please see whether you are online, and try again.";
  if (status === 429) return "Too much is asked from your network at this moment. Please try again in a minute.";
  if (status === 502) return `The office's program is closed at this moment, or can't be reached. ${LATER}`;
  if (status === 503 || status === 507) return `The office's program can't answer at this moment. ${LATER}`;
  if (status === 504) return `The office's program didn't answer in time. ${LATER}`;
  return `The office's program gave an answer that this page doesn't know (status ${status}). ${LATER}`;
}

// ---- what is published

// The bundles and draws that came, by round. They never change, so they aren't asked for again.
const bundles = new Map();
const draws = new Map();

// The SHA-256 of bytes, in hexadecimal, or null if the browser doesn't compute it (it does over HTTPS).
async function sealOf(bytes) {
  if (!window.crypto || !window.crypto.subtle) return null;
  const digest = new Uint8Array(await window.crypto.subtle.digest("SHA-256", bytes));
  return Array.from(digest, (byte) => byte.toString(16).padStart(2, "0")).join("");
}

// The bundle of a round: its seal and an address to save it from; or null. The status says why.
async function bundleOf(round) {
  if (!bundles.has(round)) {
    const { status, body } = await reply(`/public/bundle/${round}`, "GET", null);
    if (status !== 200) return { status, bundle: null };
    bundles.set(round, Object.freeze({ seal: await sealOf(body), url: URL.createObjectURL(new Blob([body], { type: "text/plain" })) }));
  }
  return { status: 200, bundle: bundles.get(round) };
}

// The draw of a round, or null. The status says why.
async function drawOf(round) {
  if (!draws.has(round)) {
    const { status, body } = await reply(`/public/draw/${round}`, "GET", null);
    const draw = status === 200 ? valueOf(body, isDraw) : null;
    if (draw === null) return { status, draw };
    draws.set(round, Object.freeze(draw));
  }
  return { status: 200, draw: draws.get(round) };
}

function labelled(label, value) {
  const item = element("li", `${label}: `);
  item.append(element("code", value));
  return item;
}

function itemsOfDraw(seal, { status, draw }) {
  if (status === 404) return [element("li", "This round is not drawn yet.")];
  if (draw === null) return [element("li", `Whether this round is drawn can't be said now. ${trouble(status)}`)];
  const items = [labelled("Digits of the dice", draw.digits), labelled("Ticket", draw.ticket)];
  if (draw.tickets !== undefined) items.push(labelled("Drawn in a round number of tickets", draw.tickets));
  items.push(element("li", `Drawn: ${draw.panel.join(", ")}`));
  if (seal !== null && draw.seal !== seal) items.push(element("li", "The seal of the draw is not that of this lottery. Please tell the office."));
  return items;
}

function sectionOf(round, bundle, draw) {
  const link = element("a", `Save the lottery of round ${round} with its certificate`);
  link.href = bundle.url;
  link.download = `round-${round}.bundle`;
  const save = document.createElement("li");
  save.append(link);
  const list = document.createElement("ul");
  list.append(bundle.seal === null ? element("li", "The seal of this lottery is shown over HTTPS only.") : labelled("Seal of the lottery", bundle.seal));
  list.append(...itemsOfDraw(bundle.seal, draw), save);
  const section = document.createElement("section");
  section.append(element("h3", `Round ${round}`), list);
  return section;
}

// What is said below the rounds, by the status of the first bundle that didn't come.
function endOf(status, count) {
  if (status === 404) return count === 0 ? ["Nothing is published yet."] : [];
  return [`Whether ${count === 0 ? "anything" : "more"} is published can't be said now. ${trouble(status)}`];
}

// How often was looked. A look that ends after a later one began is dropped.
let looks = 0;

async function look() {
  looks += 1;
  const number = looks;
  const sections = [];
  let next = await bundleOf(1);
  while (next.bundle !== null) {
    sections.push(sectionOf(sections.length + 1, next.bundle, await drawOf(sections.length + 1)));
    next = await bundleOf(sections.length + 1);
  }
  if (number !== looks) return;
  of("rounds").replaceChildren(...sections, ...endOf(next.status, sections.length).map((text) => element("p", text)));
}

// ---- where a volunteer stands

// Where the volunteer stands in the last round: `pool`: can be drawn, or was drawn in it; `seat`: has been a member since an earlier round;
// `left`: gave up the seat of `round`; `withdrawn`.
function standingOf(own, seat) {
  if (own.withdrawn) return { name: "withdrawn", round: 0 };
  if (seat.dropped.length > 0) return { name: "left", round: Math.max(...seat.dropped) };
  return { name: seat.seated ? "seat" : "pool", round: 0 };
}

// A chance `a/b` in words. Numbers may be long, so they are whole numbers of any size.
function inWords(chance) {
  const [top, below] = chance.split("/");
  const a = BigInt(top);
  const b = BigInt(below);
  if (a === 0n) return "none";
  if (a === b) return "certain";
  if (2n * a <= b) {
    const one = (2n * b + a) / (2n * a);
    return (one * a === b ? "1 in " : "about 1 in ") + one;
  }
  for (let below10 = 3n; below10 <= 10n; below10 += 1n) {
    const many = (2n * a * below10 + b) / (2n * b);
    if (many < below10 && many * b === a * below10) return `${many} in ${below10}`;
  }
  const ten = (20n * a + b) / (2n * b);
  return ten < 10n ? `about ${ten} in 10` : "above 9 in 10";
}

// What is said of where the volunteer stands.
function whereabouts(own, standing) {
  if (standing.name === "withdrawn") return ["You have withdrawn. You won't be drawn any more."];
  if (standing.name === "left") return [`You were drawn in round ${standing.round}, and no longer have the seat. You won't be drawn again.`];
  if (own.drawn === true && standing.name === "seat") return ["You were drawn in an earlier round, and kept your seat in this one."];
  if (own.drawn === true) return ["You were drawn in this round. The office will write to you."];
  if (standing.name === "seat") return ["You have a seat, and keep it in this round. To give it up, please write to the office."];
  if (own.drawn === false) return ["You were not drawn in this round. If there is another one, you are in its pool."];
  return own.phase === "Open" ? ["You are in the pool."] : ["You are in the pool. It is too late to withdraw here: please write to the office."];
}

function chanceOf(own, standing) {
  if (own.chance !== null) return [`Your chance in this round ${own.phase === "Drawn" ? "was" : "is"} ${inWords(own.chance)} (exactly ${own.chance}).`];
  return standing.name === "pool" && own.drawn === null ? ["Your chance is shown here once the lottery of this round is sealed."] : [];
}

// The record of a volunteer, which nothing changes: the key that it came by, what is shown, and whether a withdrawal is offered.
function recordOf(key, own, seat) {
  const standing = standingOf(own, seat);
  const facts = [`The office is at round ${own.round}. ${PHASES[own.phase]}`, ...whereabouts(own, standing), ...chanceOf(own, standing)];
  return Object.freeze({ key, id: own.id, facts: Object.freeze(facts), mayWithdraw: standing.name === "pool" && own.phase === "Open" });
}

const UNKNOWN = "No volunteer has this key. Compare it with your letter, letter by letter.";

// What is found by a key: a record, or null and what to say in its place. A record has all that is shown, or there is none.
async function found(key) {
  const asked = await reply("/me", "GET", key);
  if (asked.status === 401) return { record: null, told: UNKNOWN };
  const own = asked.status === 200 ? valueOf(asked.body, isOwn) : null;
  if (own === null) return { record: null, told: trouble(asked.status) };
  const seats = await reply("/me/seat", "GET", key);
  const seat = seats.status === 200 ? valueOf(seats.body, isSeat) : null;
  if (seat === null || seat.id !== own.id) return { record: null, told: trouble(seats.status) };
  return { record: recordOf(key, own, seat), told: "" };
}

// ---- what is shown of a volunteer

// The record that is shown, or null. It is only ever replaced as a whole, by `show`, and each button does what it does to this record.
let shown = null;

// Each question and each withdrawal has the next number, and so has each end of one. What comes back for an older number is dropped.
let latest = 0;

function tell(text) {
  of("told").replaceChildren(...(text === "" ? [] : [element("p", text)]));
}

function show(record) {
  shown = record;
  if (of("sure").open) of("sure").close();
  of("own").hidden = record === null;
  of("own-heading").textContent = record === null ? "" : `Volunteer ${record.id}`;
  of("own-facts").replaceChildren(...(record === null ? [] : record.facts.map((fact) => element("li", fact))));
  of("leave").hidden = record === null || !record.mayWithdraw;
}

// While a withdrawal is on its way, nothing else can be asked.
function hold(on) {
  of("key").readOnly = on;
  of("send").disabled = on;
}

// Takes away what is shown, and returns the number of what begins with it.
function begin(text) {
  latest += 1;
  show(null);
  tell(text);
  return latest;
}

// Shows what is found by a key. If `said` isn't empty, it is said in any case.
async function question(key, said) {
  const number = begin(said === "" ? "Asking the office's program." : said);
  const { record, told } = await found(key);
  if (number !== latest) return;
  show(record);
  tell(said === "" ? told : said);
  if (record !== null) of("own-heading").focus();
  else if (document.activeElement === document.body) of("send").focus();
}

// What is known after a withdrawal, by its status. For these statuses the desk, or the proxy, has stored nothing.
const NOTHING_STORED = [400, 401, 404, 405, 413, 429, 503, 507];

function withdrawalTold(status) {
  if (NOTHING_STORED.includes(status)) return `Your withdrawal was not stored. ${status === 401 ? UNKNOWN : trouble(status)}`;
  return "Your withdrawal may be stored, or not: no clear answer came. Ask again to see whether you have withdrawn.";
}

async function withdraw(record) {
  const number = begin("Sending your withdrawal.");
  hold(true);
  const { status, body } = await reply("/me/withdraw", "POST", record.key);
  if (number !== latest) return;
  hold(false);
  if (status === 200 && valueOf(body, (it) => it.id === record.id && it.withdrawn === true) !== null) {
    await question(record.key, `Volunteer ${record.id} has withdrawn.`);
  } else if (status === 409) {
    await question(record.key, "You have not withdrawn: it is too late to do so here. The lottery of this round is made, or you have a seat. Please write to the office.");
  } else {
    tell(withdrawalTold(status));
    of("send").focus();
  }
}

// Takes away the key and all that was shown by it.
function forget() {
  begin("");
  hold(false);
  of("ask").reset();
  of("key").type = "password";
}

of("ask").addEventListener("submit", (event) => {
  event.preventDefault();
  const key = of("key").value.trim();
  // (a key goes as a field of the request: it has printed signs of ASCII alone)
  if (/^[\x21-\x7e]{1,200}$/.test(key)) {
    question(key, "");
  } else {
    begin(key === "" ? "Please type the key that is in your letter." : UNKNOWN);
    of("key").focus();
  }
});
// (another key is typed: what is shown isn't by this one)
of("key").addEventListener("input", () => begin(""));
of("visible").addEventListener("change", () => {
  of("key").type = of("visible").checked ? "text" : "password";
});
of("forget").addEventListener("click", () => {
  forget();
  of("key").focus();
});
of("leave").addEventListener("click", () => {
  if (shown === null) return;
  of("sure-title").textContent = `Withdraw volunteer ${shown.id} for good?`;
  of("sure").showModal();
});
of("stay").addEventListener("click", () => of("sure").close());
of("go").addEventListener("click", () => {
  if (shown !== null) withdraw(shown);
});
of("again").addEventListener("click", look);
// (a browser may keep the page as it is, and show it again by its button "back")
window.addEventListener("pagehide", forget);
window.addEventListener("pageshow", (event) => {
  if (event.persisted) forget();
});
forget();
look();
