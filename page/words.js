'use strict';

// What the lines of the commands mean, in words. `docs/FORMATS.md` has the kinds and the statuses, `docs/AUDITOR.md` the reasons.

const KINDS = {
  1: 'it is no line that may stand there',
  2: 'it is not the size, a number from 1 to 200, or to 1,000 in a text of version 3',
  3: 'its category is there already',
  4: 'its value is there already',
  5: 'a bound is no number from 0 to 999, or the least is above the most',
  6: 'the volunteer has a value that its category hasn’t got',
  7: 'the volunteer has more or fewer values than there are categories',
  8: 'the volunteer’s id is there already',
  9: 'its id is no volunteer’s, or comes too late',
  10: 'a name or an id is empty, too long or has a control character; or there are too many categories, values or volunteers',
  11: 'it is not UTF-8',
  12: 'the text ends before the line “end” of the pool',
  13: 'it is not the first line of a bundle',
  14: 'it is not the total, a number from 1 to 10^38',
  15: 'it is no right line of a panel',
  16: 'it is no right line of a stage',
  17: 'the bundle ends too early, or goes on behind its end',
  18: 'it is not the first line of a cover',
  19: 'it is no right line of a cover there',
  20: 'the cover ends too early, or goes on behind its end',
  21: 'it is not the first line of a proof',
  22: 'it is no right line of a proof there',
  23: 'the proof ends too early, or goes on behind its end',
};

const REASONS = {
  1: 'A listed panel is no quota panel of the pool.',
  2: 'A panel is listed twice.',
  3: 'The panels’ weights don’t sum to the total.',
  4: 'Somebody unsettled has a weight below 0.',
  5: 'Nobody unsettled has a weight above 0, so the stage settles nobody.',
  6: 'Those whom the stage settles don’t have one common chance.',
  7: 'Somebody unsettled has a lower chance than those whom the stage settles.',
  9: 'A listed panel doesn’t weigh exactly the cap.',
  10: 'Somebody is unsettled after the last stage.',
  11: 'A line is not the next one of its tree, or the tree ends too early.',
  12: 'A line doesn’t show the cap, or names a constraint that the stage hasn’t got.',
  13: 'The cap and the weights of the stage are too great.',
};

// The reasons of a proof that there is no panel, if their words are others.
const REASONS_OF_NONE = {
  12: 'A line doesn’t show that there is no panel, or names a constraint that isn’t there.',
};

// The reasons of a cover, if their words are others.
const REASONS_OF_COVER = {
  12: 'The cause that a line names doesn’t hold.',
};

// Reasons behind which the number of a line of the proof is told; behind the others those of volunteers are.
const TELLS_LINE = new Set(['11', '12']);

// Returns the fields of the first line of a text.
function fieldsOf(text) {
  return text.split('\n')[0].split('\t');
}

// Returns in words why a text was refused as an input.
function inputWords(fields, what) {
  const [, line, kind] = fields;
  if (line === '0' && kind === '10') return 'The file has more than 16,777,216 bytes, which is the most.';
  if (line === '0' && kind === '14') return 'The weights of the panels don’t sum to the total.';
  const fault = KINDS[kind] ?? `its fault is of kind ${kind}`;
  return `This is not the text of ${what}. Line ${line} is the first that is not right: ${fault}.`;
}

// Returns in words why a proof or a cover was refused. `what` is the word for it, and `ids` are the volunteers' ids.
function refusedWords(fields, ids, what) {
  const [, stage, reason, ...shown] = fields;
  const at = stage === '0' ? '' : ` at stage ${stage}`;
  const why = (stage === '0' && REASONS_OF_NONE[reason]) || (what === 'cover' && REASONS_OF_COVER[reason]) || (REASONS[reason] ?? `The reason has the number ${reason}.`);
  const by = !shown.length ? ''
    : TELLS_LINE.has(reason) ? ` It is line ${shown[0]} of the file.`
    : ` Shown by: ${shown.map(number => ids[Number(number)] ?? number).join(', ')}.`;
  const only = stage === '0' && Number(reason) >= 11
    ? 'This proof doesn’t show that there is no panel. Another proof may show it.'
    : Number(reason) >= 11
    ? `This ${what} doesn’t show that the lottery is right. That says nothing against the lottery; another may show it.`
    : Number(reason) >= 4
      ? 'The lottery may be right nevertheless, by other stages.'
      : 'What is listed is no lottery over the quota panels.';
  return { title: `Refused${at}`, words: [why + by, only] };
}

// Returns the title and the words for what `verify` told of a proof, or `check-cover` of a cover.
function verdictWords(text, ids, what) {
  const fields = fieldsOf(text);
  if (fields[0] === 'valid' && fields[1] === 'none') {
    return { title: 'Valid: there is no panel', good: true, words: ['No panel meets all quotas of the pool in this file.'] };
  }
  if (fields[0] === 'valid') {
    return {
      title: 'Valid',
      good: true,
      words: [
        'Every panel of the lottery meets all quotas of the pool in this file.',
        'No other lottery over such panels gives a greater least chance, or the same least chance and a greater second one, and so on.',
        'Whether the pool is the true one, no program can see.',
      ],
    };
  }
  if (fields[0] === 'refused') return refusedWords(fields, ids, what);
  if (fields[0] === 'input') return { title: `Not a ${what}`, words: [inputWords(fields, `a ${what}`)] };
  return { title: 'Not known', words: [] };
}

// Returns the title and the words for what `draw` told.
function drawWords(text) {
  const fields = fieldsOf(text);
  const [word, rule, ...rest] = fields;
  if (word === 'ticket') {
    const members = text.split('\n')[1].split('\t').slice(1);
    return { title: `Ticket ${fields[1]}`, good: true, members, words: [`${fields[2]} digits were read. The panel of this ticket:`] };
  }
  if (rule === 'SealDiffers') return { title: 'Another seal', words: [`The bundle’s seal is ${rest[1]}. The seal that was given is another, so nothing is drawn.`] };
  if (rule === 'BadDigit') return { title: 'Not digits', words: [`Character ${rest[0]} of the digits is none of 0 to 9. Write them without blanks.`] };
  if (rule === 'MoreDigits') return { title: 'Too few digits', words: [`These ${rest[0]} digits draw no ticket. The dice were thrown again: give all digits together.`] };
  if (word === 'input') return { title: 'No draw', words: [inputWords(fields, 'a bundle')] };
  return { title: 'No draw', words: [] };
}
