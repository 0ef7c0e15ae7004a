'use strict';

// The lines of source files round the places that labels name, where the page has them.

const MOST_SHOWN_PLACES = 24;
const SOURCE_AROUND = 5;

// The places of a label: its words FILE:LINE, the event's own first, then those of its callers.
function placesOf(label) {
  const found = [];
  for (const word of (label ?? '').split(' ')) {
    const parts = /^([^]+):([1-9][0-9]{0,6})$/.exec(word);
    if (parts !== null) found.push({ file: parts[1], line: Number(parts[2]) });
  }
  return found;
}

// The events of whose places lines are shown: those that a finding names and where its mend goes, and the last flush of its lines,
// which may have missed one; else the last event before the crash.
function sourceEvents(trace, view) {
  if (view.finding === null) return view.place === 0 ? [] : [view.place];
  const { entry } = view.finding;
  const found = [...eventsOf(entry), entry.mend?.after, entry.mend?.before, entry.mend?.store, entry.cause?.flush?.event];
  const flushes = view.focus.lines.map((line) => trace.lastFlush(line, view.place));
  return [...new Set([...found, Math.max(0, ...flushes)])].filter((number) => Number.isInteger(number) && number > 0);
}

function eventList(numbers) {
  return `${numbers.length === 1 ? 'event' : 'events'} ${listed(numbers)}`;
}

class Source {
  constructor(trace, block) {
    this.trace = trace;
    this.has = block !== null;
    this.isWhole = block?.all ?? true;
    this.files = new Map((block?.files ?? []).map(({ name, why }) => [name, { why, parts: [] }]));
    const files = [...this.files.values()];
    for (const { file, first, lines } of block?.parts ?? []) files[file].parts.push({ first, lines: lines.split('\n') });
  }

  // The lines round a place, or words that say why there are none.
  linesAt({ file, line }, around = SOURCE_AROUND) {
    const leftOut = `${line} is left out, by the limits of this page`;
    const found = this.files.get(file);
    if (found === undefined) return leftOut;
    if (found.why !== '') return found.why;
    const part = found.parts.find(({ first, lines }) => first <= line && line < first + lines.length);
    if (part === undefined) return this.isWhole ? `it has no line ${line}` : leftOut;
    const from = Math.max(part.first, line - around);
    const to = Math.min(part.first + part.lines.length - 1, line + around);
    return part.lines.slice(from - part.first, to - part.first + 1).map((text, at) => ({ number: from + at, text }));
  }

  // The places of these events, each once, with the events whose label begins with it.
  placesOf(events) {
    const found = new Map();
    for (const number of events) {
      placesOf(this.trace.label(number)).forEach(({ file, line }, depth) => {
        const key = JSON.stringify([file, line]);
        if (!found.has(key)) found.set(key, { file, line, own: [], callers: [] });
        found.get(key)[depth === 0 ? 'own' : 'callers'].push(number);
      });
    }
    return [...found.values()].sort((a, b) => (a.own.length === 0) - (b.own.length === 0));
  }

  write(box, view) {
    const places = this.placesOf(sourceEvents(this.trace, view));
    const nodes = places.slice(0, MOST_SHOWN_PLACES).map((place) => this.placeNode(place));
    const more = places.length - nodes.length;
    if (places.length === 0) nodes.push(make('p', {}, 'The labels of these events name no source line, as list.c:57 does.'));
    if (more > 0) nodes.push(make('p', {}, `${count(more, 'more place')} of these events.`));
    box.replaceChildren(...nodes);
  }

  placeNode(place) {
    const isOwn = place.own.length > 0;
    const whose = isOwn ? eventList(place.own) : `caller, of ${eventList(place.callers)}`;
    const head = make('summary', {}, foreign(`${place.file}:${place.line}`, 80), ' ', make('span', { class: 'soft' }, whose));
    const data = { class: 'place', 'data-file': place.file, 'data-line': place.line };
    const found = this.linesAt(place);
    if (typeof found === 'string') return make('details', { ...data, open: '' }, head, make('p', { class: 'note' }, `Not shown: ${found}.`));
    return make('details', { ...data, ...(isOwn ? { open: '' } : {}) }, head, this.linesNode(found, place.line));
  }

  // Lines as an editor shows them, with one marked.
  linesNode(lines, here) {
    const rows = lines.map(({ number, text }) => this.row(number, text, number === here));
    return make('div', { class: 'source-text', tabindex: 0, role: 'group', 'aria-label': 'Source lines' }, ...rows);
  }

  // The text of the source line of an event, without the space before it; null where the page has none.
  textOf(number) {
    const [place] = this.has ? placesOf(this.trace.label(number)) : [];
    const found = place === undefined ? '' : this.linesAt(place, 0);
    return typeof found === 'string' ? null : shownLine(found[0].text).trim();
  }

  row(number, text, isHere) {
    const shown = shownLine(text);
    const sign = make('span', { class: 'soft' }, `${isHere ? '▸' : ' '}${String(number).padStart(5)} `);
    return make('div', { class: isHere ? 'here' : '', ...(isHere ? { 'aria-current': 'true' } : {}) }, sign, make('bdi', { dir: 'ltr' }, shown));
  }
}

// A line of source without what turns the direction or has no shape.
function shownLine(text) {
  return text.replaceAll('\t', '    ').replace(TURNING, '?');
}
