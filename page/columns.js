'use strict';

// Which events the picture shows as columns, which cache lines as rows, and where the columns stand.

const MOST_COLUMNS = 160;
const MOST_MATTERING = 120;
const MOST_FOCUS_LINES = 12;
const MOST_LINES = 40;
const MOST_THREADS = 16;
const NEAR = 40;
const WIDE = 110;
const NARROW = 64;
const GAP = 40;

// What the picture is about: lines, and events that must be in it, with the last event that matters.
function focusOf(trace, finding) {
  if (finding === null) return { lines: [], anchors: [], end: trace.events };
  const { entry, kind } = finding;
  const anchors = eventsOf(entry);
  const lines = new Set();
  let end = trace.events;
  if (kind === 'failure' || kind === 'unwritten') end = entry.event.event;
  if (kind === 'failure' || kind === 'never_persisted') anchors.push(entry.cause.flush?.event, entry.cause.other?.event);
  if (kind === 'dropped') {
    if (entry.reason.by !== null) anchors.push(entry.reason.by.event);
    const { event, thread } = entry.event;
    anchors.push(trace.nextFence(thread, event));
    if (trace.kind(event) === 'fence') for (const number of waitingFor(trace, event)) anchors.push(number);
  }
  const known = [...new Set(anchors)].filter((number) => number >= 1 && number <= trace.events);
  for (const number of known) {
    if (trace.lineOf[number] !== NO_LINE && lines.size < MOST_FOCUS_LINES) lines.add(trace.lineOf[number]);
  }
  const wanted = (line) => lines.size < MOST_FOCUS_LINES && (kind === 'unwritten' || trace.isStored(line, end));
  for (const span of kind === 'dropped' ? [] : spansOf(trace, entry)) {
    for (const line of trace.linesOfRange(span)) if (wanted(line)) lines.add(line);
  }
  return { lines: [...lines], anchors: known.sort((a, b) => a - b), end };
}

// The last few flushes of a fence's thread since its fence before.
function waitingFor(trace, fence) {
  const found = [];
  const thread = trace.thread[fence];
  for (let number = fence - 1; number >= 1 && number > fence - 2000 && found.length < 6; number -= 1) {
    if (trace.thread[number] !== thread) continue;
    if (trace.kind(number) === 'fence') break;
    if (trace.kind(number) === 'flush') found.push(number);
  }
  return found;
}

// The elements of a list of rising numbers that stand nearest to an event.
function near(list, starts, index, number) {
  const at = firstAbove(list, starts[index], starts[index + 1], number);
  return list.subarray(Math.max(starts[index], at - NEAR), Math.min(starts[index + 1], at + NEAR));
}

// The events that matter to a finding: its slice, if it has one; else the stores and flushes of its lines next to the events that it
// names, and the fences that the flushes wait for.
function matteringEvents(trace, finding, focus) {
  return sliceOf(trace, finding, focus.anchors) ?? eventsNear(trace, focus);
}

function eventsNear(trace, focus) {
  const chosen = new Set(focus.anchors);
  for (const anchor of focus.anchors) {
    for (const line of focus.lines) {
      for (const lists of [trace.storesOf, trace.flushesOf]) {
        for (const number of near(lists.list, lists.starts, line, anchor)) if (number <= focus.end) chosen.add(number);
      }
    }
  }
  const distance = (number) => Math.min(...focus.anchors.map((anchor) => Math.abs(anchor - number)));
  const nearest = [...chosen].map((number) => [distance(number), number]).sort((a, b) => a[0] - b[0] || a[1] - b[1]);
  const kept = new Set(nearest.slice(0, MOST_MATTERING - 20).map((pair) => pair[1]));
  for (const number of [...kept]) {
    const fence = trace.kind(number) === 'flush' ? trace.nextFence(trace.thread[number], number) : 0;
    if (fence !== 0 && fence <= focus.end && kept.size < MOST_MATTERING) kept.add(fence);
  }
  return [...kept].sort((a, b) => a - b);
}

// The columns of a view: single events, or bins of them where the stretch has too many.
function columnsOf(trace, view) {
  if (view.mattering !== null) return { bins: false, columns: view.mattering.map((number) => ({ first: number, last: number })) };
  const length = view.to - view.from + 1;
  const columns = [];
  if (length <= MOST_COLUMNS) {
    for (let number = view.from; number <= view.to; number += 1) columns.push({ first: number, last: number });
    return { bins: false, columns };
  }
  for (let bin = 0; bin < MOST_COLUMNS; bin += 1) {
    const first = view.from + Math.floor((bin * length) / MOST_COLUMNS);
    columns.push({ first, last: view.from + Math.floor(((bin + 1) * length) / MOST_COLUMNS) - 1 });
  }
  return { bins: true, columns };
}

// Where the columns stand from left to right, with gaps where events are left out.
class Layout {
  constructor(trace, { bins, columns }, room) {
    this.bins = bins;
    this.columns = columns;
    this.gaps = [];
    const fair = Math.floor((room - (bins ? 0 : 2 * GAP)) / Math.max(1, columns.length));
    const width = bins ? Math.max(3, room / columns.length) : Math.max(NARROW, Math.min(WIDE, fair));
    let x = 0;
    let last = 0;
    for (const column of columns) {
      if (column.first > last + 1) x = this.gap(x, last + 1, column.first - 1);
      Object.assign(column, { x, width, middle: x + width / 2 });
      x += width;
      last = column.last;
    }
    if (last < trace.events) x = this.gap(x, last + 1, trace.events);
    this.width = Math.max(x, 60);
  }

  gap(x, first, last) {
    this.gaps.push({ x, width: GAP, middle: x + GAP / 2, first, last });
    return x + GAP;
  }

  // How many columns come by an event.
  by(number) {
    let low = 0;
    let high = this.columns.length;
    while (low < high) {
      const middle = (low + high) >>> 1;
      if (this.columns[middle].first > number) high = middle;
      else low = middle + 1;
    }
    return low;
  }

  column(number) {
    const column = this.columns[this.by(number) - 1];
    return column !== undefined && number <= column.last ? column : null;
  }

  gapAt(number) {
    return this.gaps.find((gap) => gap.first <= number && number <= gap.last) ?? null;
  }

  // The middle of an event's column, or of the gap that it is in.
  x(number) {
    return (this.column(number) ?? this.gapAt(number))?.middle ?? this.width;
  }

  // The edge between the columns of a place and of the next event.
  edge(place) {
    const column = this.column(place);
    if (column !== null && !this.bins) return column.x + column.width;
    if (column !== null) return column.x + (column.width * (place - column.first + 1)) / (column.last - column.first + 1);
    const gap = this.gapAt(place);
    if (gap === null) return 0;
    return place === gap.last ? gap.x + gap.width : gap.middle;
  }

  // The place that stands so far to the right, with a part of the way to the next one.
  placeAt(x) {
    const column = this.columnAt(x);
    if (column !== null) return column.first - 1 + ((x - column.x) / column.width) * (column.last - column.first + 1);
    return (this.gaps.find((gap) => gap.x <= x && x < gap.x + gap.width)?.first ?? 1) - 1;
  }

  // How far to the right such a place stands.
  xOfPlace(place) {
    const column = this.column(Math.floor(place) + 1);
    if (column === null) return this.edge(Math.floor(place));
    return column.x + (column.width * (place - column.first + 1)) / (column.last - column.first + 1);
  }

  columnAt(x) {
    return this.columns.find((column) => column.x <= x && x < column.x + column.width) ?? null;
  }
}

// The threads with an event among the columns, with their counts by column, and the lines: those of the focus first, then those
// with most events here.
function rowsOf(trace, layout, focus, most) {
  const threads = new Uint32Array(256 * layout.columns.length);
  const counts = new Uint32Array(trace.lineCount);
  layout.columns.forEach((column, at) => {
    for (let number = column.first; number <= column.last; number += 1) {
      threads[at * 256 + trace.thread[number]] += 1;
      if (trace.lineOf[number] !== NO_LINE) counts[trace.lineOf[number]] += 1;
    }
  });
  for (const line of focus.lines) counts[line] = 0;
  const byAddress = (a, b) => trace.addressOfLine(a) - trace.addressOfLine(b);
  const { top, all } = greatest(counts, Math.max(0, most - focus.lines.length));
  const seen = new Set();
  threads.forEach((number, index) => {
    if (number > 0) seen.add(index % 256);
  });
  const used = [...seen].sort((a, b) => a - b);
  return {
    counts: threads,
    threads: used.slice(0, MOST_THREADS),
    moreThreads: used.slice(MOST_THREADS),
    lines: [...[...focus.lines].sort(byAddress), ...top.sort(byAddress)],
    moreLines: all - top.length,
  };
}

// The indices of the greatest counts, and how many are more than 0.
function greatest(counts, most) {
  const top = [];
  let all = 0;
  for (let index = 0; index < counts.length; index += 1) {
    if (counts[index] === 0) continue;
    all += 1;
    if (top.length === most && (most === 0 || counts[top[most - 1]] >= counts[index])) continue;
    if (top.length === most) top.pop();
    let at = top.length;
    while (at > 0 && counts[top[at - 1]] < counts[index]) at -= 1;
    top.splice(at, 0, index);
  }
  return { top, all };
}
