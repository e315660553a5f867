'use strict';

// How alike two spellings are, and where they differ. It is Python's `difflib`, step by step, so that the page finds what `prepare.py` finds.
// Spellings are lists of letters here, since a letter may be two units of a string.

// From this length on, letters that are in many places are passed over when likeness is measured.
const LONG_SPELLING = 200;

// Where each letter of a spelling is. In a long one, letters of more than a hundredth of the places are left out, if `leavesOut`.
function placesOfLetters(letters, leavesOut) {
  const places = new Map();
  letters.forEach((letter, place) => places.set(letter, [...(places.get(letter) ?? []), place]));
  if (leavesOut && letters.length >= LONG_SPELLING) {
    const most = Math.floor(letters.length / 100) + 1;
    for (const [letter, its] of places) if (its.length > most) places.delete(letter);
  }
  return places;
}

// Finds the longest run that both have within these bounds: where it begins in the one and in the other, and its length.
function longestRun(one, other, places, from, until, otherFrom, otherUntil) {
  let best = [from, otherFrom, 0];
  let lengths = new Map();
  for (let place = from; place < until; place++) {
    const next = new Map();
    for (const there of places.get(one[place]) ?? []) {
      if (there < otherFrom) continue;
      if (there >= otherUntil) break;
      const length = (lengths.get(there - 1) ?? 0) + 1;
      next.set(there, length);
      if (length > best[2]) best = [place - length + 1, there - length + 1, length];
    }
    lengths = next;
  }
  let [begin, there, length] = best;
  while (begin > from && there > otherFrom && one[begin - 1] === other[there - 1]) {
    begin--;
    there--;
    length++;
  }
  while (begin + length < until && there + length < otherUntil && one[begin + length] === other[there + length]) length++;
  return [begin, there, length];
}

// Returns the runs that both spellings have, in order, as `longestRun` gives them. Runs that touch are one.
function commonRuns(one, other, leavesOut) {
  const places = placesOfLetters(other, leavesOut);
  const open = [[0, one.length, 0, other.length]];
  const found = [];
  while (open.length) {
    const [from, until, otherFrom, otherUntil] = open.pop();
    const run = longestRun(one, other, places, from, until, otherFrom, otherUntil);
    const [begin, there, length] = run;
    if (!length) continue;
    found.push(run);
    if (from < begin && otherFrom < there) open.push([from, begin, otherFrom, there]);
    if (begin + length < until && there + length < otherUntil) open.push([begin + length, until, there + length, otherUntil]);
  }
  found.sort((a, b) => a[0] - b[0] || a[1] - b[1] || a[2] - b[2]);
  const runs = [];
  for (const run of found) {
    const last = runs[runs.length - 1];
    if (last && last[0] + last[2] === run[0] && last[1] + last[2] === run[1]) last[2] += run[2];
    else runs.push([...run]);
  }
  return runs;
}

// Returns where two spellings differ: pairs of what the one and what the other has there.
function differences(one, other) {
  const parts = [];
  let at = 0, there = 0;
  for (const [begin, otherBegin, length] of [...commonRuns(one, other, false), [one.length, other.length, 0]]) {
    if (at < begin || there < otherBegin) parts.push([one.slice(at, begin), other.slice(there, otherBegin)]);
    at = begin + length;
    there = otherBegin + length;
  }
  return parts;
}

// Returns the share of letters that two spellings have in common runs, from 0 to 1.
function shareInCommon(one, other) {
  const all = one.length + other.length;
  const common = commonRuns(one, other, true).reduce((sum, run) => sum + run[2], 0);
  return all ? 2 * common / all : 1;
}

// The greatest share that two spellings could have, by the letters of each in any order.
function mostInCommon(one, other) {
  const left = new Map();
  for (const letter of other) left.set(letter, (left.get(letter) ?? 0) + 1);
  let common = 0;
  for (const letter of one) {
    const count = left.get(letter) ?? 0;
    left.set(letter, count - 1);
    if (count > 0) common++;
  }
  const all = one.length + other.length;
  return all ? 2 * common / all : 1;
}

// Returns the one of `names` that has the greatest share in common with `name`, at least `least`; or null. Of several the last by letters.
function closestName(name, names, least) {
  const letters = [...name];
  let best = null;
  for (const other of names) {
    const its = [...other];
    const lengths = 2 * Math.min(its.length, letters.length) / (its.length + letters.length);
    if (lengths < least || mostInCommon(its, letters) < least) continue;
    const share = shareInCommon(its, letters);
    if (share < least) continue;
    if (!best || share > best.share || (share === best.share && byLetters(other, best.other) > 0)) best = { share, other };
  }
  return best && best.other;
}
