'use strict';

// What is late and what explain hints at: the events of these, their words, and what to do.

// How far off the event that a hint's first one goes with is looked for, as by explain.
const HINT_NEAR = 10_000;

const HINTS = {
  split_word: {
    row: 'word stored in two cache lines',
    told: ({ count: many }) => `${count(many, 'time')} a word is stored in two cache lines, of which a crash can keep one`,
    other: 'other part',
    remedy: 'Lay the word out in one cache line, or let a log or a checksum vouch for both parts.',
  },
  stored_after_flush: {
    row: 'store after the flush of its line',
    told: ({ count: many }) => `${count(many, 'time')} a store comes after the flush of its cache line, which misses it`,
    other: 'flush',
  },
  one_line_short: {
    row: 'flushes end one line short',
    told: ({ count: many }) => `${count(many, 'time')} flushes end one cache line short of what is stored, and miss the rest`,
    other: 'missed store',
  },
  open_at_store: {
    row: 'flush unfenced at a store to another line',
    told: ({ count: many }) => `${count(many, 'time')} a flush is unfenced at a store to another line, which a crash can keep alone`,
    other: 'store',
    remedy: 'If that store may not be saved first, fence before it; isOrderedBefore claims the order.',
  },
  stored_after_mark: {
    row: 'store after the one that publishes',
    told: ({ count: many }) => `${count(many, 'time')} a store comes after the one that publishes, by the same fence: a crash can keep that alone`,
    remedy: 'Store what publishes last: in one cache line stores are saved in their order; else flush and fence the others before it.',
  },
  one_fence_late: {
    row: 'store saved one fence late',
    told: ({ count: many }) => `${count(many, 'store')} ${many === 1 ? 'is' : 'are'} saved one fence late, and a crash can keep what the fence before saves`
      + ` without ${many === 1 ? 'it' : 'them'}`,
  },
};

// Places each of whose stores is saved one fence late, then call paths alone, where their place has no other hint; where explain tells of them,
// and the page has all hints.
function leftPlaces(explained, { asked, more }) {
  if (!tellsAll(asked, 'hint') || (more?.hint ?? 0) > 0) return [];
  const hinted = new Set(explained.filter((entry) => entry.kind === 'hint').map(placeKey));
  const isLeft = (entry) => entry.never_persisted + entry.late === 0 && entry.left > 0 && entry.left === entry.in_time;
  const places = explained.filter((entry) => entry.kind === 'place' && isLeft(entry)).map((entry) => leftOf(entry, entry.label, null));
  const paths = explained.filter((entry) => entry.kind === 'path').map((entry) => leftOf(entry, innermost(entry.label), entry.label));
  return [...places, ...paths].filter((entry) => !hinted.has(placeKey(entry)));
}

// The hint at a place, or at a path of it alone.
function leftOf({ thread, left, first_left: first, saved_before: saved }, label, path) {
  return {
    kind: 'hint', hint: 'one_fence_late', label, path, thread, count: left, first, saved,
  };
}

// Whether another event of the thread goes with a hint's first one: the other part of a word, the flush, or the store.
function goesWith(trace, hint, line, other) {
  const isStore = trace.kind(other) === 'store';
  if (hint === 'split_word') return isStore;
  if (hint === 'open_at_store') return isStore && trace.lineOf[other] !== line;
  if (hint === 'one_line_short') return isStore && trace.addressOfLine(trace.lineOf[other]) === trace.addressOfLine(line) + trace.lineSize;
  return trace.lineOf[other] === line && !isStore && trace.word(other) !== 'clflush';
}

// The event that a hint's first one goes with, 0 where none stands near.
function otherOf(trace, { hint, first }) {
  if (HINTS[hint]?.other === undefined) return 0;
  const [number, by] = [first.event, hint === 'open_at_store' ? 1 : -1];
  for (let other = number + by; other >= 1 && other <= trace.events && Math.abs(other - number) <= HINT_NEAR; other += by) {
    if (trace.thread[other] === trace.thread[number] && goesWith(trace, hint, trace.lineOf[number], other)) return other;
  }
  return 0;
}

// The events that show a hint: its two, the last store that its flush covers, the next fence, and what becomes of its store.
function hintEvents(trace, entry) {
  const [first, other] = [entry.first.event, otherOf(trace, entry)];
  const fence = trace.nextFence(trace.thread[first], first);
  if (entry.hint === 'one_fence_late') return [...storeSlice(trace, first), ...(entry.saved ? [entry.saved.store.event] : [])];
  const flush = ['one_line_short', 'open_at_store'].includes(entry.hint) ? first : entry.hint === 'stored_after_flush' ? other : 0;
  const covered = flush === 0 ? 0 : lastStoreBefore(trace, flush);
  const stores = [first, other].filter((number) => number !== 0 && trace.kind(number) === 'store');
  return [first, other, covered, fence, ...stores.flatMap((store) => tellsOf(trace, store, trace.events))].filter((number) => number !== 0);
}

// The last store to the line of a flush before it, 0 where there is none.
function lastStoreBefore(trace, flush) {
  const { starts, list } = trace.storesOf;
  const line = trace.lineOf[flush];
  const at = firstAbove(list, starts[line], starts[line + 1], flush);
  return at > starts[line] ? list[at - 1] : 0;
}

// The stores that are safe in the end, and that two fences or more of their own thread leave unsafe, by place.
function lateByPlace(trace) {
  const { starts, list } = trace.fencesOf;
  const next = starts.slice();
  const found = new Map();
  for (const store of trace.stores) {
    const thread = trace.thread[store];
    while (next[thread] < starts[thread + 1] && list[next[thread]] < store) next[thread] += 1;
    const second = next[thread] + 1 < starts[thread + 1] ? list[next[thread] + 1] : NEVER;
    if (trace.safe[store] === NEVER || second >= trace.safe[store]) continue;
    const key = placeKey(placeOf(trace, store));
    if (!found.has(key)) found.set(key, []);
    found.get(key).push(store);
  }
  return found;
}

// The late stores of an entry: all of a place, and of another one the first.
function lateMembers(trace, entry) {
  if (!entry.ofPlace) return [entry.first.event];
  trace.late ??= lateByPlace(trace);
  return trace.late.get(placeKey(entry)) ?? [entry.first.event];
}

// How many fences of its own thread leave a store unsafe.
function fencesWaited(trace, store) {
  const { starts, list } = trace.fencesOf;
  const thread = trace.thread[store];
  const by = (number) => firstAbove(list, starts[thread], starts[thread + 1], number);
  return by(Math.min(trace.safe[store], trace.events + 1) - 1) - by(store);
}

// The flush that a thread forgot after an event: of the line of a store.
function ownFlushNodes(trace, after, store) {
  const thread = trace.thread[after];
  const fence = trace.nextFence(thread, after);
  const nodes = [`Flush cache line ${lineAddressOf(trace, store)} by thread ${thread} after `, ...placeNodes(trace, after), ', before its next fence'];
  return fence === 0 ? [...nodes, '.'] : [...nodes, ', ', ...placeNodes(trace, fence), '.'];
}

// The flush and the fence that save a store before another one is made.
function flushAndFenceNodes(trace, store, other) {
  const start = `Flush cache line ${lineAddressOf(trace, store)} by thread ${trace.thread[store]} after `;
  const end = ': after one fence for both a crash can still keep that alone.';
  return [start, ...placeNodes(trace, store), ', and fence, both before ', ...placeNodes(trace, other), end];
}

// Where a crash shows what is late or hinted at: right after a fence that leaves the store unsafe, or after the store that can be kept alone.
// 0 of anything else.
function shownAt(trace, { kind, hint, first }, other) {
  if (hint === 'open_at_store') return other;
  if (kind !== 'late' && !['one_fence_late', 'one_line_short', 'stored_after_flush'].includes(hint)) return 0;
  const thread = trace.thread[first.event];
  const fence = trace.nextFence(thread, first.event);
  return kind === 'late' && fence !== 0 ? trace.nextFence(thread, fence) : fence;
}

function ownerNodes({ label, path, thread }) {
  if (path) return [foreign(path)];
  return label === null ? [`thread ${thread}`] : [foreign(label)];
}

function lateTold(trace, entry) {
  const store = entry.first.event;
  const safe = trace.safe[store];
  const until = safe === NEVER ? 'and it is never safe' : `and it is safe from event ${safe} on`;
  const members = lateMembers(trace, entry);
  const where = entry.label ?? null;
  return {
    headline: `${count(entry.count, 'store')} ${entry.count === 1 ? 'is' : 'are'} saved late${entry.ofPlace ? '' : ', or never'}`,
    why: [`${count(fencesWaited(trace, store), 'fence')} of its thread left ${entry.count === 1 ? 'it' : 'the first one'} unsafe, ${until}.`],
    items: [
      ...(where === null ? [] : item('place', foreign(where))),
      ...item(entry.count === 1 ? 'store' : 'first', ...eventNodes(trace, store)),
      ...(members.length > 1 ? item('stores', listed([...members], members.length, 12)) : []),
    ],
  };
}

// What a crash right after the store at which a flush is open can lose: the last store that the flush covers, if it stands near.
function lostNodes(trace, { hint, first: { event } }, other) {
  const covered = hint === 'open_at_store' && other !== 0 ? lastStoreBefore(trace, event) : 0;
  if (covered === 0 || event - covered > HINT_NEAR) return [];
  return [`a crash after event ${other} can keep that and lose event ${covered}: `, ...eventNodes(trace, covered)];
}

function hintTold(trace, entry) {
  const other = otherOf(trace, entry);
  const lost = lostNodes(trace, entry, other);
  const hint = HINTS[entry.hint];
  return {
    headline: hint?.told(entry) ?? `${entry.hint}: ${count(entry.count, 'time')}`,
    why: ['No rule forbids it, and most often it is a slip.'],
    items: [
      ...item(entry.path ? 'path' : 'place', ...ownerNodes(entry)),
      ...item(entry.count === 1 ? 'event' : 'first', ...eventNodes(trace, entry.first.event)),
      ...(other === 0 ? [] : item(hint.other, ...eventNodes(trace, other))),
      ...(entry.saved ? item('before', ...savedNodes(trace, entry)) : []),
      ...(lost.length > 0 ? item('before', ...lost) : []),
    ],
  };
}

// What a crash keeps without the first store of a place.
function savedNodes(trace, { first, saved: { place, store } }) {
  return [`a crash after event ${place} keeps this store and can lose event ${first.event}: `, ...eventNodes(trace, store.event)];
}

function hintRemedy(trace, entry) {
  const { remedy } = HINTS[entry.hint] ?? { remedy: '' };
  const { event } = entry.first;
  if (remedy !== undefined) return [remedy];
  const kept = entry.saved?.store.event ?? 0;
  if (event < kept) return flushAndFenceNodes(trace, event, kept);
  return ownFlushNodes(trace, event, entry.hint === 'one_line_short' ? otherOf(trace, entry) || event : event);
}
