'use strict';

// How things are said. Texts of the trace and of its labels reach the page as text nodes alone.

const SHORT = 160;
// Control characters, and those that turn the direction of the text around them.
// eslint-disable-next-line no-control-regex
const TURNING = /[\u0000-\u001f\u007f-\u009f\u061c\u200e\u200f\u2028\u2029\u202a-\u202e\u2066-\u2069]/g;

const SVG = 'http://www.w3.org/2000/svg';

function give(element, attributes, children) {
  for (const [name, value] of Object.entries(attributes)) element.setAttribute(name, value);
  element.append(...children);
  return element;
}

function make(tag, attributes = {}, ...children) {
  return give(document.createElement(tag), attributes, children);
}

function shape(tag, attributes = {}, ...children) {
  return give(document.createElementNS(SVG, tag), attributes, children);
}

function byId(id) {
  return document.getElementById(id);
}

// A text that may be hostile, in a box of its own direction; a long one is cut.
function foreign(text, most = SHORT) {
  const told = make('bdi', { class: 'foreign' }, cut(text, most));
  if (text.length > most) told.setAttribute('title', cut(text, 2000));
  return told;
}

// Of a chain of calls the first one tells most, and of a place with words behind it the place; of anything else the end.
function cut(text, most) {
  if (text.length <= most) return text;
  const [call] = text.split(' < ', 1);
  const [word] = text.split(' ', 1);
  for (const part of /:[0-9]+$/.test(word) ? [call, word] : [call]) {
    if (part.length < text.length && part.length + 2 <= most) return `${part} …`;
  }
  const told = /:[0-9]+$/.test(word) ? word : text;
  return told.length <= most ? told : `…${told.slice(told.length - most + 1)}`;
}

// A text for a picture, where nothing can be set apart from what stands beside it.
function plain(text, most) {
  return cut(text.replace(TURNING, '?'), most);
}

const GROUPED = new Intl.NumberFormat('en');

function grouped(number) {
  return GROUPED.format(number);
}

function count(number, one, many = `${one}s`) {
  return `${grouped(number)} ${number === 1 ? one : many}`;
}

// Numbers of events, the first few of them.
function listed(numbers, total = numbers.length, most = 8) {
  const shown = numbers.slice(0, most).join(', ');
  return total > Math.min(most, numbers.length) ? `${shown} and ${grouped(total - Math.min(most, numbers.length))} more` : shown;
}

// An event by its number, its line in the trace, its thread, its label and its words.
function eventNodes(trace, number) {
  const label = trace.label(number);
  const nodes = [`event ${number} (line ${number + 1}, thread ${trace.thread[number]})`];
  if (label !== null) nodes.push(' at ', foreign(label));
  nodes.push(': ', make('code', {}, trace.text(number)));
  return nodes;
}

// An event's number, with its label if it has one.
function placeNodes(trace, number) {
  const label = trace.label(number);
  return label === null ? [`event ${number}`] : [`event ${number} (`, foreign(label), ')'];
}

const CAUSE_WORDS = {
  unflushed: 'no flush of its line follows',
  unfenced: 'flushed, but its thread makes no fence after',
  later: 'stored only after the crash',
};

const REASON_WORDS = {
  safe: 'its line has no store that is not safe already',
  unfenced: 'its thread makes no fence after it; keep it, and add that fence',
  repeated: 'its thread flushes the line again before its fence',
  overtaken: 'another flush saves its stores before its fence',
  empty: 'no flush of its thread waits for it',
  useless: 'all that it completes is safe already',
};

const KIND_WORDS = {
  failure: 'Failed assertions',
  place: 'Never persisted or late, by place',
  never_persisted: 'Never persisted',
  late: 'Saved late',
  hint: 'Hints',
  dropped: 'Does nothing',
  overwritten: 'Overwritten before any flush',
  unwritten: 'Never stored',
};

const KIND_SIGNS = { failure: '✕', place: '▨', never_persisted: '▨', late: '◷', hint: '?', dropped: '▽', overwritten: '≡', unwritten: '∅' };

// What becomes of the stores of a place.
function placeWords(place) {
  const parts = [[place.never_persisted, 'never persisted'], [place.late, 'saved late'], [place.in_time, 'in time'], [place.ignored, 'ignored']];
  const told = parts.filter(([number], at) => number > 0 || at < 3).map(([number, word]) => `${grouped(number)} ${word}`);
  return told.join(', ');
}

// Why a store of this cache line can be lost at the place that is asked about.
function causeNodes(trace, cause, line) {
  if (cause.cause === 'later') return ['The store comes later than the crash.'];
  if (cause.cause === 'unflushed') return [`No flush of cache line ${line} follows the store by then.`];
  const nodes = [`Cache line ${line} is flushed after the store, but thread ${cause.thread} makes no fence after its flush by then: `];
  nodes.push(...eventNodes(trace, cause.flush.event), '.');
  if (cause.other !== null) {
    nodes.push(' A fence completes the flushes of its own thread alone, so this one does not help: ');
    nodes.push(...eventNodes(trace, cause.other.event), '.');
  }
  return nodes;
}

function beforeNodes(trace, before) {
  return before === null ? ['.'] : [', before ', ...placeNodes(trace, before), '.'];
}

// What mends a loss, as explain says it.
function mendNodes(trace, mend) {
  if (mend.mend === 'fence') {
    return [`Fence by thread ${mend.thread} after `, ...placeNodes(trace, mend.after), ...beforeNodes(trace, mend.before)];
  }
  if (mend.mend === 'flush_and_fence') {
    return [
      `Flush cache line ${mend.cache_line} after `, ...placeNodes(trace, mend.after),
      ', and fence by the thread that flushes it', ...beforeNodes(trace, mend.before),
    ];
  }
  const rest = mend.same_line
    ? ' That is enough: stores to one cache line are persisted in their order.'
    : ' Flush its cache line in between, and fence by the thread that flushes it.';
  return ['Make the store of ', ...placeNodes(trace, mend.store), ' earlier', ...beforeNodes(trace, mend.before), rest];
}

function reasonNodes(trace, reason) {
  const nodes = [REASON_WORDS[reason.reason] ?? reason.reason];
  if (reason.by !== null) nodes.push(' (', ...placeNodes(trace, reason.by.event), ')');
  return [...nodes, '.'];
}
