'use strict';

// What the side says of a finding, and what mends it.

function item(name, ...children) {
  return [make('dt', {}, name), make('dd', {}, ...children)];
}

// A finding in short, with its reason if it has one, and the rest of what is told of it.
function findingNodes(trace, finding) {
  const { headline, why = [], items } = TOLD[finding.kind](trace, finding.entry);
  const head = [make('p', { class: `headline ${finding.kind}` }, `${KIND_SIGNS[finding.kind]} ${headline}`)];
  if (why.length > 0) head.push(make('p', {}, ...why));
  return { head, rest: make('dl', {}, ...items) };
}

// The address of the cache line of an event.
function lineAddressOf(trace, number) {
  return hex(Math.floor(trace.address[number] / trace.lineSize) * trace.lineSize);
}

const TOLD = {
  failure: (trace, entry) => {
    const lost = entry.lost.store.event;
    return {
      headline: `A crash can violate the assertion of event ${entry.event.event}`,
      why: causeNodes(trace, entry.cause, lineAddressOf(trace, lost)),
      items: [
        ...item('claim', ...eventNodes(trace, entry.event.event)),
        ...item('crash', `right after event ${entry.place}`),
        ...(entry.kept === null ? [] : item('keeps', `byte ${entry.kept.byte} of `, ...eventNodes(trace, entry.kept.store.event))),
        ...item('loses', `byte ${entry.lost.byte} of `, ...eventNodes(trace, lost)),
      ],
    };
  },
  never_persisted: (trace, entry) => ({
    headline: `${count(entry.count, 'store')} to cache line ${entry.cache_line} never persisted: a crash at the end can lose`
      + ` ${entry.count === 1 ? 'it' : 'them'}`,
    why: causeNodes(trace, entry.cause, entry.cache_line),
    items: [
      ...item(entry.count === 1 ? 'store' : 'first', ...eventNodes(trace, entry.first.event)),
      ...(entry.count === 1 ? [] : item('last', ...eventNodes(trace, entry.last.event))),
    ],
  }),
  late: lateTold,
  hint: hintTold,
  dropped: (trace, entry) => ({
    headline: `The ${trace.word(entry.event.event)} of event ${entry.event.event} does nothing`,
    why: reasonNodes(trace, entry.reason),
    items: item('event', ...eventNodes(trace, entry.event.event)),
  }),
  overwritten: (trace, entry) => ({
    headline: `${count(entry.count, 'time')} a store to cache line ${entry.cache_line} is written over before any flush`,
    items: [
      ...item('earlier', ...eventNodes(trace, entry.earlier.event)),
      ...item('later', ...eventNodes(trace, entry.later.event)),
      ...item('same', `${entry.same} of ${entry.count} write the same bytes again`),
    ],
  }),
  unwritten: (trace, entry) => ({
    headline: `The assertion of event ${entry.event.event} speaks of bytes that no store has written`,
    items: [
      ...item('claim', ...eventNodes(trace, entry.event.event)),
      ...item('ranges', entry.ranges.map((range) => `${count(range.length, 'byte')} from ${range.address} on`).join(', ')),
    ],
  }),
};

const REMEDIES = {
  dropped: 'pmtrim trim leaves it out: without all that it leaves out, a crash can leave just what it can leave with it.',
  overwritten: 'Nothing has to be mended. No crash need ever show what the earlier store wrote; if that is not meant, flush between them.',
  unwritten: 'Such an assertion passes, whatever the program does. Look for a wrong address.',
};

// Where the flush and fence go, or what else is to be done.
function remedyNodes(trace, { kind, entry }) {
  if (entry.mend) return mendNodes(trace, entry.mend);
  if (kind === 'late') return ownFlushNodes(trace, entry.first.event);
  if (kind === 'hint') return hintRemedy(trace, entry);
  if (kind === 'dropped' && entry.reason.reason === 'unfenced') {
    return [`Keep the flush, and add the fence of thread ${entry.event.thread} after it: most often that fence was forgotten.`];
  }
  return [REMEDIES[kind]];
}
