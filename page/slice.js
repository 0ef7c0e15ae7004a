'use strict';

// The events that show a failed assertion, or stores that are never persisted or late, by the rules of `pmtrim slice`; and those of a hint.

const MOST_SLICE = 24;

// The first flush of a store's line after it and up to a place, of those by one thread where it is given; 0 where there is none.
function flushAfter(trace, store, place, thread = null) {
  const { starts, list } = trace.flushesOf;
  const line = trace.lineOf[store];
  for (let at = firstAbove(list, starts[line], starts[line + 1], store); at < starts[line + 1] && list[at] <= place; at += 1) {
    if (thread === null || trace.thread[list[at]] === thread) return list[at];
  }
  return 0;
}

// The first fence by any thread after an event and up to a place, 0 where there is none.
function fenceAfter(trace, number, place) {
  const at = firstAbove(trace.fences, 0, trace.fences.length, number);
  return at < trace.fences.length && trace.fences[at] <= place ? trace.fences[at] : 0;
}

// The events that tell what becomes of a store up to a place.
function tellsOf(trace, store, place) {
  const safe = trace.safe[store];
  const flush = flushAfter(trace, store, place);
  const found = [store, flush];
  if (safe <= place) found.push(safe);
  if (safe <= place && trace.kind(safe) === 'fence') found.push(flushAfter(trace, store, place, trace.thread[safe]));
  const fence = flush === 0 ? 0 : fenceAfter(trace, flush, place);
  if (fence <= safe) found.push(fence);
  return found.filter((number) => number !== 0);
}

// The slice of an assertion: itself, and what tells of the last store to each byte of its ranges.
function assertionSlice(trace, number) {
  const found = new Set([number]);
  for (const range of trace.ranges(number)) {
    for (const store of new Set(wantedAt(trace, range, number))) {
      if (store !== 0) for (const event of tellsOf(trace, store, number)) found.add(event);
    }
  }
  return [...found].sort((a, b) => a - b);
}

// The slice of a store that is never persisted: what tells of it up to the end, and the first two fences of its thread.
function storeSlice(trace, store) {
  const first = trace.nextFence(trace.thread[store], store);
  const second = first === 0 ? 0 : trace.nextFence(trace.thread[store], first);
  return [...tellsOf(trace, store, trace.events), first, second].filter((number) => number !== 0);
}

// The slices of the first of these stores, as far as there is room.
function storesSlice(trace, stores) {
  let found = new Set();
  for (const store of stores) {
    const joined = new Set([...found, ...storeSlice(trace, store)]);
    if (joined.size > MOST_SLICE) break;
    found = joined;
  }
  return [...found].sort((a, b) => a - b);
}

// The events of a finding that has a slice, as far as there is room: those that it names, and the last others; null of another finding.
function sliceOf(trace, { kind, entry }, named) {
  if (kind === 'never_persisted' || kind === 'late') return storesSlice(trace, membersOf(trace, entry));
  if (kind === 'hint') return [...new Set(hintEvents(trace, entry))].sort((a, b) => a - b);
  if (kind !== 'failure') return null;
  const all = assertionSlice(trace, entry.event.event);
  let over = Math.max(0, all.length - MOST_SLICE);
  return all.filter((number) => {
    if (over === 0 || named.includes(number)) return true;
    over -= 1;
    return false;
  });
}
