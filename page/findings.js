'use strict';

// The findings that explain tells, put together by their causes, and filtered. Each answer in them comes from the program.

const KINDS = ['failure', 'never_persisted', 'late', 'hint', 'dropped', 'overwritten', 'unwritten'];

// The parts of the list, in the order of explain: what is never persisted or late is told by place, unless options choose what is told.
const SECTIONS = ['failure', 'place', 'never_persisted', 'late', 'hint', 'dropped', 'overwritten', 'unwritten'];

// The event by whose number a finding is named in the address of the page.
const NAMED_BY = {
  failure: (entry) => entry.event,
  never_persisted: (entry) => entry.first,
  late: (entry) => entry.first,
  hint: (entry) => entry.first,
  dropped: (entry) => entry.event,
  overwritten: (entry) => entry.earlier,
  unwritten: (entry) => entry.event,
};

// The word before that number: of a hint which one it is, since an event may have two.
function nameOf(entry) {
  return entry.kind === 'hint' ? entry.hint : entry.kind;
}

// All events that a finding speaks of, by their numbers.
function eventsOf(entry) {
  const events = [entry.event, entry.lost?.store, entry.kept?.store, entry.first, entry.last, entry.earlier, entry.later];
  return events.filter(Boolean).map((event) => event.event);
}

// The events that a finding stands for, by which explain's words choose it too: an assertion, a flush or a fence, the stores to one
// cache line that are never persisted for one cause, those of a place that are saved late, or a pair of stores.
function membersOf(trace, entry) {
  if (entry.kind === 'overwritten') return [entry.earlier.event, entry.later.event];
  if (entry.kind === 'late') return lateMembers(trace, entry);
  if (entry.kind === 'hint') return [entry.first.event, otherOf(trace, entry)].filter((number) => number !== 0);
  if (entry.kind !== 'never_persisted') return [entry.event.event];
  const { starts, list } = trace.storesOf;
  const line = trace.lineAt(Number(entry.cache_line));
  const from = firstAbove(list, starts[line], starts[line + 1], entry.first.event - 1);
  const to = firstAbove(list, from, starts[line + 1], entry.last.event);
  return list.subarray(from, to).filter((number) => trace.safe[number] === NEVER);
}

// Whether a finding stands for an event that has one of these bytes; of stores that are overwritten, whether their cache line does.
function hasByte(trace, entry, asked) {
  if (entry.kind !== 'never_persisted' && entry.kind !== 'late') return spansOf(trace, entry).some((own) => overlap(own, asked));
  return membersOf(trace, entry).some((number) => overlap({ address: trace.address[number], length: trace.length[number] }, asked));
}

// The bytes that a finding speaks of.
function spansOf(trace, entry) {
  const line = (address) => [{ address: Math.floor(address / trace.lineSize) * trace.lineSize, length: trace.lineSize }];
  if (entry.kind === 'failure' || entry.kind === 'unwritten') return trace.ranges(entry.event.event);
  if (entry.kind === 'dropped') return entry.event.address === null ? [] : line(Number(entry.event.address));
  if (entry.kind === 'late') return line(trace.address[entry.first.event]);
  if (entry.kind === 'hint') {
    const lines = new Set(membersOf(trace, entry).map((number) => trace.lineOf[number]));
    return [...lines].flatMap((at) => line(trace.addressOfLine(at)));
  }
  return line(Number(entry.cache_line));
}

function ownerOf(trace, number) {
  const label = trace.label(number);
  return label === null ? { label: null, thread: trace.thread[number] } : { label, thread: null };
}

// The innermost frame of a label, without its callers.
function innermost(label) {
  return label === null ? null : label.split(' < ', 1)[0];
}

// The place of the source.
function placeOf(trace, number) {
  const { label, thread } = ownerOf(trace, number);
  return { label: innermost(label), thread };
}

// The same of an event as explain tells it, whose label is not cut.
function originOf({ label, thread }) {
  return label === null ? { label, thread } : { label: innermost(label), thread: null };
}

function causeWords(entry) {
  return CAUSE_WORDS[entry.cause.cause] ?? entry.cause.cause;
}

function overlap(one, other) {
  return one.address < other.address + other.length && other.address < one.address + one.length;
}

// What a finding has in common with others of its cause: words, whose they are, and how many finds it stands for.
const COMMON = {
  failure: (trace, entry) => ({
    words: `${trace.word(entry.event.event)}: ${causeWords(entry)}`,
    owner: originOf(entry.event),
    count: 1,
  }),
  never_persisted: (trace, entry) => ({
    words: `store: ${causeWords(entry)}`,
    owner: originOf(entry.last),
    count: entry.count,
  }),
  dropped: (trace, entry) => {
    const owner = ownerOf(trace, entry.event.event);
    const line = owner.label === null && entry.event.address !== null ? ` of ${hex(spansOf(trace, entry)[0].address)}` : '';
    const reason = REASON_WORDS[entry.reason.reason] ?? entry.reason.reason;
    return { words: `${trace.word(entry.event.event)}${line}: ${reason}`, owner, count: 1 };
  },
  late: (trace, entry) => ({
    words: entry.cache_line === null ? 'saved late, or never' : `store to ${entry.cache_line}: saved late, or never`,
    owner: originOf(entry.first),
    count: entry.count,
  }),
  hint: (trace, entry) => ({
    words: HINTS[entry.hint]?.row ?? entry.hint,
    owner: { label: entry.path ?? entry.label, thread: entry.thread },
    count: entry.count,
  }),
  overwritten: (trace, entry) => ({
    words: 'store written over before any flush',
    owner: originOf(entry.earlier),
    count: entry.count,
  }),
  unwritten: (trace, entry) => ({
    words: `${trace.word(entry.event.event)} on bytes without a store`,
    owner: ownerOf(trace, entry.event.event),
    count: 1,
  }),
};

// How many findings of each kind are not on the page. A cause counts all its failed assertions, of which the page has the first ones of
// all; of causes that are left out there is at least one each.
function leftOut(more, explained) {
  const failures = explained.filter((entry) => entry.kind === 'failure').length;
  const failing = explained.filter((entry) => entry.kind === 'cause').reduce((sum, entry) => sum + entry.count, more.cause ?? 0);
  return Object.fromEntries(KINDS.map((kind) => [kind, kind === 'failure' ? Math.max(0, failing - failures) : more[kind] ?? 0]));
}

// Whether no option chooses what is told, besides this one.
function tellsAll(asked, only = null) {
  return Object.entries(asked ?? {}).every(([name, value]) => value === null || (name === 'only' && value === only));
}

// The key of a place: a label, or a thread.
function placeKey({ label, thread }) {
  return JSON.stringify([label, thread]);
}

// What is late of a place, as an entry of its own.
function lateOf({ label, thread, late, first_late: first }) {
  return { kind: 'late', label, thread, cache_line: null, count: late, first, ofPlace: true };
}

// The entries that the list is made of. Of overwritten stores those with most other bytes come first, as in the text.
function listedEntries(explained, summary, places) {
  const isOther = ({ kind }) => kind === 'overwritten' || (kind === 'late' && places !== null);
  const found = explained.filter((entry) => KINDS.includes(entry.kind) && !isOther(entry));
  const overwritten = explained.filter((entry) => entry.kind === 'overwritten');
  overwritten.sort((a, b) => b.count - b.same - (a.count - a.same) || b.count - a.count);
  const late = (places ?? []).filter((place) => place.late > 0).map(lateOf);
  return [...found, ...late, ...leftPlaces(explained, summary), ...overwritten];
}

class Findings {
  constructor(trace, explained) {
    this.trace = trace;
    trace.learnRanges(explained);
    const summary = explained.find((entry) => entry.kind === 'summary') ?? {};
    const troubled = explained.filter((entry) => entry.kind === 'place' && entry.never_persisted + entry.late > 0);
    this.places = tellsAll(summary.asked) ? troubled : null;
    this.summary = { ...summary, more: { ...leftOut(summary.more ?? {}, explained), ...this.leftPlaces(summary.more ?? {}, explained) } };
    this.all = listedEntries(explained, summary, this.places).map((entry, order) => this.finding(entry, order));
    // Each cause with all its failed assertions, also those that are not on the page.
    this.causes = new Map(explained.filter((entry) => entry.kind === 'cause').map((cause) => [this.causeKey(cause), cause]));
    this.filter({});
  }

  // How many places with stores that are lost or late are not on the page, where these are told by place: they come first of all.
  leftPlaces(more, explained) {
    if (this.places === null) return {};
    const isAll = explained.some((entry) => entry.kind === 'place' && entry.never_persisted + entry.late === 0);
    return { late: 0, place: isAll ? 0 : more.place ?? 0 };
  }

  causeKey({ assertion, why, label, thread }) {
    return this.key('failure', { words: `${assertion}: ${CAUSE_WORDS[why] ?? why}`, owner: { label, thread } });
  }

  key(section, { words, owner }) {
    return JSON.stringify([section, section === 'place' ? null : words, owner.label, owner.thread]);
  }

  finding(entry, order) {
    const common = COMMON[entry.kind](this.trace, entry);
    const { words, owner, count: stands } = common;
    const isOfPlace = this.places !== null && (entry.kind === 'never_persisted' || entry.kind === 'late');
    const section = isOfPlace ? 'place' : entry.kind;
    const number = NAMED_BY[entry.kind](entry).event;
    return { kind: entry.kind, name: nameOf(entry), section, order, entry, number, words, owner, stands, key: this.key(section, common) };
  }

  // Keeps the findings that meet all that is asked for, and puts those of one cause or place together, in the order of explain.
  filter(asked) {
    this.isWhole = Object.values(asked).every((value) => value === undefined || value === null || value === '');
    const met = this.all.filter((finding) => this.meets(finding, asked));
    const groups = new Map();
    for (const finding of met) {
      if (!groups.has(finding.key)) groups.set(finding.key, { ...finding, members: [], stands: 0, place: null });
      const group = groups.get(finding.key);
      group.members.push(finding);
      group.stands += finding.stands;
    }
    this.nameOfPlaces(groups, met);
    for (const group of groups.values()) this.order(group);
    const rank = (group) => SECTIONS.indexOf(group.section);
    this.groups = [...groups.values()].sort((a, b) => rank(a) - rank(b) || a.order - b.order || b.stands - a.stands || a.number - b.number);
    this.shown = [...new Set(this.groups.flatMap((group) => group.members))];
  }

  // Gives each place its counts. One whose lost stores are all told with those of another place, of the same cache lines, has that entry.
  nameOfPlaces(groups, met) {
    for (const place of this.places ?? []) {
      const key = this.key('place', { owner: place });
      const { label, thread } = place;
      const group = groups.get(key) ?? { section: 'place', key, owner: { label, thread }, members: [], stands: 0 };
      const isTold = place.first_never_persisted === null || group.members.some((finding) => finding.kind === 'never_persisted');
      const loss = isTold ? undefined : met.find((finding) => this.hasLoss(finding, place.first_never_persisted.event));
      if (loss !== undefined) group.members.unshift(loss);
      if (group.members.length === 0) continue;
      const { kind, number } = group.members[0];
      const stands = this.isWhole ? place.never_persisted + place.late : group.stands;
      groups.set(key, { ...group, kind, number, place, words: placeWords(place), stands });
    }
  }

  // Whether the entry is of this store, which is never persisted.
  hasLoss({ kind, entry }, store) {
    if (kind !== 'never_persisted' || store < entry.first.event || store > entry.last.event) return false;
    return Number(entry.cache_line) === this.trace.addressOfLine(this.trace.lineOf[store]);
  }

  // Where a group stands in its part of the list, before others by how many they are.
  order(group) {
    if (group.section === 'place') group.order = group.place === null ? Infinity : this.places.indexOf(group.place);
    else if (group.section === 'overwritten') this.orderByOthers(group);
    else if (group.section !== 'hint') group.order = 0;
    if (group.section === 'failure' && this.isWhole) group.stands = this.causes.get(group.key)?.count ?? group.stands;
  }

  orderByOthers(group) {
    const others = group.members.reduce((sum, { entry }) => sum + entry.count - entry.same, 0);
    group.order = -others;
    group.words = `written over before any flush, ${grouped(others)} with other bytes`;
  }

  meets(finding, asked) {
    const { trace } = this;
    const { entry } = finding;
    if (asked.kind && finding.kind !== asked.kind) return false;
    if (asked.thread !== undefined && !membersOf(trace, entry).some((number) => trace.thread[number] === asked.thread)) return false;
    if (asked.line && !spansOf(trace, entry).some((own) => overlap(own, asked.line))) return false;
    if (asked.range && !hasByte(trace, entry, asked.range)) return false;
    return !asked.text || this.searched(finding).includes(asked.text);
  }

  // What the text of the filter is looked for in; it is put together once.
  searched(finding) {
    if (finding.searched === undefined) {
      const { trace } = this;
      const events = eventsOf(finding.entry).map((number) => `${trace.label(number) ?? ''}\nevent ${number}\n${trace.text(number)}`);
      finding.searched = [finding.words, finding.owner.label ?? '', KIND_WORDS[finding.kind], ...events].join('\n').toLowerCase();
    }
    return finding.searched;
  }

  find(name, number) {
    return this.all.find((finding) => finding.name === name && finding.number === number) ?? null;
  }

  // The group of a finding, the first one of several.
  groupOf(finding) {
    return this.groups.find((group) => group.members.includes(finding)) ?? null;
  }

  // The finding that stands so many behind this one; the first where this one is not shown.
  step(finding, by) {
    const at = this.shown.indexOf(finding);
    if (at < 0) return this.shown[0] ?? null;
    return this.shown[at + by] ?? null;
  }
}

// A range as in a trace, A:N, or null.
function readRange(text) {
  const found = /^0x([0-9a-f]{1,12}):([0-9]{1,15})$/i.exec(text.trim());
  return found === null ? null : { address: parseInt(found[1], 16), length: Number(found[2]) };
}

// The bytes of the cache line of an address, or null.
function readLine(text, size) {
  const found = /^(?:0x)?([0-9a-f]{1,12})$/i.exec(text.trim());
  return found === null ? null : { address: Math.floor(parseInt(found[1], 16) / size) * size, length: size };
}
