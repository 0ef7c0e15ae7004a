'use strict';

// The picture of the stretch: a row for each thread and cache line, bars of stores from their place to where they are safe.

const HEAD = 58;
const THREAD_ROW = 28;
const LINE_HEAD = 18;
const LEVEL = 20;
const BAR = 14;
const FOLDED = 16;
const MOST_LEVELS = 6;
const LETTER = 6.7;
const NAMES = 150;
// How far a tag reaches behind the crash, with some room.
const TAG = 42;
// How many pixels a printed page has from left to right.
const PRINTED = 1000;

// What the mend of a finding puts in, by which thread, and after which event: a fence behind the last flush of the range, a flush behind
// the last store that is lost. A fence of the flush's thread that stands there is not missing.
function missingOf(trace, { entry, kind }, shown) {
  const { mend } = entry;
  const isFailure = kind === 'failure';
  if (mend.mend === 'store_first') {
    const kinds = mend.same_line ? ['store'] : ['store', 'flush', 'fence'];
    return { after: mend.before - 1, thread: trace.thread[mend.store], kinds };
  }
  if (mend.mend === 'fence') {
    const lines = new Set(isFailure ? trace.linesOfRange(trace.ranges(entry.event.event)[0]) : []);
    const isOne = (number) => number < mend.before && trace.thread[number] === mend.thread && lines.has(trace.lineOf[number]);
    const flushes = shown.filter((number) => trace.kind(number) === 'flush' && isOne(number));
    return { after: Math.max(mend.after, ...flushes), thread: mend.thread, kinds: ['fence'] };
  }
  const thread = trace.thread[mend.after];
  const fence = trace.nextFence(thread, mend.after);
  const isFenced = fence !== 0 && (mend.before === null || fence < mend.before);
  const end = isFenced ? fence : mend.before;
  const lost = isFailure ? lostStores(trace, entry).filter((store) => store < end && trace.lineOf[store] === trace.lineOf[mend.after]) : [];
  return { after: Math.max(mend.after, ...lost), thread, kinds: isFenced ? ['flush'] : ['flush', 'fence'] };
}

class Sheet {
  constructor(trace, box, onPlace, onStretch) {
    this.trace = trace;
    this.box = box;
    this.onPlace = onPlace;
    this.onStretch = onStretch;
    this.folded = new Set();
  }

  // Draws the stretch of a view: {from, to, place, finding, own, mattering, focus, most}.
  draw(view) {
    const { trace } = this;
    this.view = view;
    this.layout = new Layout(trace, columnsOf(trace, view), Math.max(300, this.box.clientWidth - NAMES - 4));
    this.rows = rowsOf(trace, this.layout, view.focus, view.most);
    this.parts = { names: make('div', { class: 'names' }), cells: shape('g'), head: shape('g') };
    this.height = 4;
    this.middles = new Map();
    for (const thread of this.rows.threads) this.threadRow([thread], `thread ${thread}`);
    if (this.rows.moreThreads.length > 0) this.threadRow(this.rows.moreThreads, `${this.rows.moreThreads.length} more threads`);
    for (const line of this.rows.lines) this.lineRow(line);
    this.drawHead();
    this.drawMissing();
    this.put();
    this.place(view);
  }

  put() {
    const { names, cells, head } = this.parts;
    const { width } = this.layout;
    names.style.height = `${this.height}px`;
    this.crashHead = shape('g');
    this.crashCells = shape('g');
    const sized = (height, ...children) => shape('svg', { width, height, viewBox: `0 0 ${width} ${height}` }, ...children);
    const top = make('div', { class: 'sheet-head' }, sized(HEAD, head, this.crashHead));
    const middle = make('div', { class: 'sheet-cells' }, sized(this.height, cells, this.crashCells));
    middle.addEventListener('click', (event) => this.click(event, middle));
    top.addEventListener('click', (event) => this.click(event, top));
    this.box.style.setProperty('--fit', String(Math.min(1, PRINTED / (width + NAMES))));
    this.box.replaceChildren(make('div', { class: 'sheet-grid' }, make('div', { class: 'corner' }, 'event'), top, names, middle));
  }

  click(event, part) {
    const column = this.layout.columnAt(event.clientX - part.getBoundingClientRect().left);
    if (column === null) return;
    if (this.layout.bins) this.onStretch(column.first, column.last);
    else this.onPlace(column.last);
  }

  drawHead() {
    const { head } = this.parts;
    for (const column of this.layout.columns) {
      if (!this.layout.bins) head.append(this.title(column));
    }
    for (const gap of this.layout.gaps) {
      const told = `events ${gap.first} to ${gap.last} are left out here`;
      head.append(shape('text', { class: 'mid soft', x: gap.middle, y: 18 }, '…', shape('title', {}, told)));
      head.append(shape('text', { class: 'mid soft tiny', x: gap.middle, y: 32 }, short(gap.last - gap.first + 1)));
      this.parts.cells.prepend(shape('path', { class: 'cut', d: `M${gap.middle} 0V${this.height}` }));
    }
    if (this.layout.bins) this.binTitles();
  }

  // The number of an event, its word and its label.
  title(column) {
    const number = column.first;
    const word = this.trace.word(number);
    const label = this.trace.label(number);
    const lines = word === 'isOrderedBefore' ? ['isOrdered', 'Before'] : [word];
    const group = shape('g', { class: 'event', 'data-event': number });
    group.append(shape('title', {}, this.told(number)));
    group.append(shape('rect', { class: 'touch', x: column.x, y: 0, width: column.width, height: HEAD }));
    group.append(shape('text', { class: 'mid strong', x: column.middle, y: 14 }, String(number)));
    lines.forEach((line, at) => group.append(shape('text', { class: 'mid', x: column.middle, y: 27 + 11 * at }, line)));
    if (label !== null) {
      const most = Math.floor((column.width - 4) / 5.6);
      group.append(shape('text', { class: 'mid tiny soft', x: column.middle, y: 51 }, plain(withoutFolder(label), most)));
    }
    return group;
  }

  told(number) {
    const label = this.trace.label(number);
    const state = stateOf(this.trace, number);
    const at = label === null ? '' : ` at ${plain(label, SHORT)}`;
    return `event ${number}${at}: ${this.trace.text(number)}${state === '' ? '' : `; ${state}`}`;
  }

  binTitles() {
    const { columns } = this.layout;
    const every = Math.max(1, Math.ceil(90 / columns[0].width));
    columns.forEach((column, at) => {
      if (at % every !== 0 || at + every > columns.length) return;
      this.parts.head.append(
        shape('text', { class: 'tiny', x: column.x + 2, y: 26 }, grouped(column.first)),
        shape('path', { class: 'rule', d: `M${column.x} 30v${HEAD - 30}` }),
      );
    });
    const each = columns[0].last - columns[0].first + 1;
    const told = `each column is about ${count(each, 'event')}; choose one to come closer`;
    this.parts.head.append(shape('text', { class: 'tiny soft', x: 2, y: 12 }, told));
  }

  name(top, height, ...children) {
    const name = make('div', { class: 'row-name' }, ...children);
    name.style.top = `${top}px`;
    name.style.height = `${height}px`;
    this.parts.names.append(name);
    return name;
  }

  // A row of signs: what the threads do.
  threadRow(threads, name) {
    const top = this.height;
    const y = top + THREAD_ROW / 2;
    this.height += THREAD_ROW;
    for (const thread of threads) this.middles.set(thread, y);
    this.name(top, THREAD_ROW, make('span', {}, name));
    this.parts.cells.append(shape('path', { class: 'rule', d: `M0 ${y}H${this.layout.width}` }));
    if (this.layout.bins) {
      this.parts.cells.append(shape('path', { class: 'dot', d: this.density(threads, top + 3, THREAD_ROW - 6) }));
      return;
    }
    const shown = this.layout.columns.filter((column) => threads.includes(this.trace.thread[column.first]));
    if (threads.length === 1) for (const column of shown) if (this.trace.kind(column.first) === 'flush') this.wait(column, y);
    for (const column of shown) this.parts.cells.append(this.sign(column.first, column.middle, y, 1));
  }

  // How many events of these threads each bin has, as steps.
  density(threads, top, height) {
    const countAt = (at) => threads.reduce((total, thread) => total + this.rows.counts[at * 256 + thread], 0);
    const found = this.layout.columns.map((column, at) => countAt(at));
    const most = Math.max(1, ...found);
    return this.layout.columns.map((column, at) => {
      if (found[at] === 0) return '';
      const tall = Math.max(2, (found[at] / most) * height);
      return `M${column.x} ${top + height - tall}h${column.width - 0.5}v${tall}h${0.5 - column.width}z`;
    }).join('');
  }

  // From a flush to the next fence of its thread, the one that it waits for.
  wait(column, y) {
    const { trace, layout } = this;
    if (trace.word(column.first) === 'clflush') return;
    const fence = trace.nextFence(trace.thread[column.first], column.first);
    const end = fence === 0 ? layout.width : layout.x(fence);
    this.parts.cells.append(shape('path', { class: fence === 0 ? 'wait never' : 'wait', d: `M${column.middle} ${y}H${end}` }));
  }

  // The sign of an event: a square, a triangle, a bar or a circle.
  sign(number, x, y, size) {
    const { trace } = this;
    const kind = trace.kind(number);
    const reason = trace.reason(number);
    const group = shape('g', { class: `sign ${kind}`, 'data-event': number, transform: `translate(${x} ${y}) scale(${size})` });
    group.append(shape('title', {}, this.told(number)));
    if (kind === 'store') group.append(shape('rect', { class: 'dot', x: -4, y: -4, width: 8, height: 8 }));
    if (kind === 'flush') {
      const look = reason === null ? 'mark' : reason === 'unfenced' ? 'mark bad' : 'mark hollow';
      group.append(shape('path', { class: look, d: 'M-7 -6H7L0 7Z' }));
      if (reason === 'unfenced') group.append(shape('path', { class: 'shout', d: 'M0 -4.5V0M0 1.5V3' }));
    }
    if (kind === 'fence') {
      group.append(shape('rect', { class: reason === null ? 'mark' : 'mark hollow', x: -3, y: -9, width: 6, height: 18 }));
    }
    if (kind === 'assertion') {
      const [look, mark, d] = trace.fails[number] ? ['fail', 'cross', 'M-4 -4L4 4M4 -4L-4 4'] : ['pass', 'tick', 'M-4 0L-1 4L4 -4'];
      group.append(shape('circle', { class: look, r: 8 }), shape('path', { class: mark, d }));
    }
    return group;
  }

  // What the finding wants put in: each event as a dashed sign in the row of its thread, between two columns, with a word over them.
  drawMissing() {
    const { finding } = this.view;
    if (!finding?.entry.mend || this.layout.bins) return;
    const { after, thread, kinds } = missingOf(this.trace, finding, this.layout.columns.map((column) => column.first));
    const x = Math.max(12, Math.min(this.layout.width - 12, this.layout.edge(after)));
    const y = this.middles.get(thread);
    if (y === undefined) return;
    const words = kinds.map((kind) => ({ store: 'store', flush: 'clwb', fence: 'sfence' })[kind]).join(', ');
    this.parts.head.append(shape('text', { class: 'mid tiny missing-word', x, y: 40 }, `${words} here`));
    kinds.forEach((kind, at) => {
      const middle = x + 15 * at - 7.5 * (kinds.length - 1);
      const d = { store: 'M-4 -4h8v8h-8z', flush: 'M-7 -6H7L0 7Z', fence: 'M-3 -9h6v18h-6z' }[kind];
      const looks = { class: 'mark missing', 'data-missing': kind, 'data-thread': thread, 'data-after': after, d };
      this.parts.cells.append(shape('path', { ...looks, transform: `translate(${middle} ${y})` }, shape('title', {}, `missing: ${words}`)));
    });
  }

  // A cache line: its flushes above, and bars of its stores below; folded, the bars alone and thin.
  lineRow(line) {
    const { trace, layout } = this;
    const address = hex(trace.addressOfLine(line));
    const isFolded = this.folded.has(line) || layout.bins;
    const bars = layout.bins ? [] : this.bars(line);
    const levels = Math.max(1, ...bars.map((bar) => bar.level + 1));
    const top = this.height;
    const height = isFolded ? FOLDED + 4 : LINE_HEAD + levels * LEVEL + 4;
    this.height += height;
    const row = shape('g', { class: 'line', 'data-line': address });
    row.append(shape('rect', { class: 'band', x: 0, y: top, width: layout.width, height: height - 2 }));
    this.lineName(line, address, top, height, isFolded);
    if (layout.bins) row.append(...this.binnedLine(line, top + 3));
    for (const bar of bars) row.append(isFolded ? this.thinBar(bar, top + 3) : this.bar(bar, top + LINE_HEAD + bar.level * LEVEL));
    if (!isFolded) {
      for (const column of layout.columns) {
        if (trace.lineOf[column.first] !== line || trace.kind(column.first) !== 'flush') continue;
        row.append(this.sign(column.first, column.middle, top + 9, 0.75));
        row.append(shape('text', { class: 'tiny', x: column.middle + 8, y: top + 12 }, `T${trace.thread[column.first]}`));
      }
    }
    this.parts.cells.append(row);
  }

  lineName(line, address, top, height, isFolded) {
    if (this.layout.bins) {
      this.name(top, height, make('span', {}, address));
      return;
    }
    const looks = { type: 'button', class: 'fold', 'aria-expanded': String(!isFolded), 'aria-label': `cache line ${address}` };
    const fold = make('button', looks, `${isFolded ? '▸' : '▾'} ${address}`);
    fold.addEventListener('click', () => {
      if (isFolded) this.folded.delete(line);
      else this.folded.add(line);
      this.draw(this.view);
      this.box.querySelector(`button.fold[aria-label="cache line ${address}"]`)?.focus();
    });
    const name = this.name(top, height, fold);
    if (!isFolded) for (const claim of this.claims(line)) name.append(make('span', { class: 'claim' }, claim));
  }

  // Which bytes of a line the chosen assertion speaks of.
  claims(line) {
    const { trace, view } = this;
    if (view.finding === null || (view.finding.kind !== 'failure' && view.finding.kind !== 'unwritten')) return [];
    const ranges = trace.ranges(view.finding.entry.event.event);
    const start = trace.addressOfLine(line);
    return ranges.flatMap((range, at) => {
      const low = Math.max(range.address, start) - start;
      const high = Math.min(range.address + range.length, start + trace.lineSize) - start - 1;
      const name = ranges.length === 1 ? 'claimed' : ['first', 'second'][at];
      return low <= high ? [`${name} +${low} to +${high}`] : [];
    });
  }

  // The bars of a line: its stores in sight that are safe from one place on, and those from before that are not safe yet.
  bars(line) {
    const { trace, layout } = this;
    const bars = [...this.earlierBars(line)];
    for (const column of layout.columns) {
      const number = column.first;
      if (trace.lineOf[number] !== line || trace.kind(number) !== 'store') continue;
      const last = bars.at(-1);
      if (last !== undefined && last.safe === trace.safe[number]) last.stores.push(number);
      else bars.push({ stores: [number], safe: trace.safe[number], start: column.middle, earlier: 0 });
    }
    const ends = [];
    for (const bar of bars) {
      bar.end = bar.safe > trace.events ? layout.width : layout.x(bar.safe);
      let level = ends.findIndex((end) => end <= bar.start);
      if (level < 0) level = Math.min(ends.length, MOST_LEVELS - 1);
      bar.level = level;
      ends[level] = bar.end;
    }
    for (const bar of bars) {
      const next = bars.find((other) => other.level === bar.level && other.start >= bar.end && other !== bar);
      bar.rest = next === undefined ? layout.width : next.start - 2;
    }
    return bars;
  }

  earlierBars(line) {
    const { trace, layout } = this;
    const first = layout.columns[0]?.first ?? 1;
    const state = trace.state(line, first - 1);
    const bars = [];
    for (let at = state.safe; at < state.end && bars.length < 3;) {
      const safe = trace.safe[trace.storesOf.list[at]];
      const begin = at;
      while (at < state.end && trace.safe[trace.storesOf.list[at]] === safe) at += 1;
      bars.push({ stores: [], safe, start: 0, earlier: at - begin, first: trace.storesOf.list[begin] });
    }
    return bars;
  }

  bar(bar, y) {
    const { trace, layout } = this;
    const ever = bar.safe <= trace.events;
    const group = shape('g', { class: 'store', 'data-event': bar.stores[0] ?? bar.first, 'data-safe': ever ? bar.safe : 'never' });
    const all = bar.stores.length + bar.earlier;
    const own = `${bar.stores.length === 1 ? 'store' : 'stores'} ${listed(bar.stores)}`;
    const names = bar.earlier > 0 ? `${count(bar.earlier, 'earlier store')} from ${bar.first} on` : own;
    const until = ever ? `safe from event ${bar.safe} on` : 'never safe by the end of the trace';
    const details = bar.stores.slice(0, 8).map((number) => this.told(number));
    group.append(shape('title', {}, [`${names}: ${until}`, ...details].join('\n')));
    group.append(shape('rect', { class: 'unsafe', x: bar.start, y, width: Math.max(2, bar.end - bar.start), height: BAR }));
    if (ever && bar.rest > bar.end) group.append(this.safeBar(bar, y + BAR - 4, 4));
    for (const number of bar.stores) {
      group.append(shape('path', { class: 'tickmark', 'data-store': number, d: `M${layout.x(number)} ${y - 3}v${BAR + 3}` }));
    }
    const isOne = all === 1 && bar.earlier === 0;
    this.words(group, bar, y, isOne ? [`${bar.stores[0]}: not safe`, `${bar.stores[0]}`] : [`${names}: not safe`, names, `${all} stores`]);
    return group;
  }

  safeBar(bar, y, height) {
    return shape('rect', { class: 'safe', x: bar.end, y, width: bar.rest - bar.end, height });
  }

  // The widest part of a bar between its ticks.
  widest(bar) {
    const edges = [bar.start, ...bar.stores.map((number) => this.layout.x(number)), bar.end];
    const parts = edges.slice(1).map((end, at) => ({ start: edges[at], room: end - edges[at] }));
    return parts.reduce((widest, part) => (part.room > widest.room ? part : widest));
  }

  // The longest of the words that has room in a bar, and where it is safe behind it.
  words(group, bar, y, choices) {
    const { start, room } = this.widest(bar);
    const told = choices.find((choice) => choice.length * LETTER <= room - 8);
    if (told !== undefined) group.append(shape('text', { class: 'halo', x: start + 5, y: y + 11 }, told));
    if (bar.safe > this.trace.events) return;
    const safe = [`safe from ${bar.safe} on`, 'safe'].find((choice) => choice.length * LETTER + 14 <= bar.rest - bar.end);
    if (safe !== undefined) group.append(shape('text', { class: 'safe-word', x: bar.end + 6, y: y + 8 }, safe));
  }

  thinBar(bar, y) {
    const group = shape('g', { class: 'store', 'data-event': bar.stores[0] ?? bar.first });
    group.append(shape('rect', { class: 'unsafe', x: bar.start, y: y + 2, width: Math.max(2, bar.end - bar.start), height: 7 }));
    if (bar.safe <= this.trace.events && bar.rest > bar.end) group.append(this.safeBar(bar, y + 4, 3));
    return group;
  }

  // A line among bins: hatched where one of its stores is not safe after the bin, thin where all are.
  binnedLine(line, y) {
    const runs = [];
    for (const column of this.layout.columns) {
      const state = this.trace.state(line, column.last);
      const look = state.end === state.begin ? null : state.safe < state.end ? 'unsafe' : 'safe';
      const run = runs.at(-1);
      if (run !== undefined && run.look === look) run.end = column.x + column.width;
      else runs.push({ look, start: column.x, end: column.x + column.width });
    }
    return runs.filter((run) => run.look !== null).map((run) => {
      const [top, height] = run.look === 'unsafe' ? [y + 1, 11] : [y + 5, 4];
      return shape('rect', { class: run.look, x: run.start, y: top, width: run.end - run.start, height });
    });
  }

  // Shows the crash at a place, and the event that is chosen; of a failure's own crash what it loses and keeps.
  place({ place, own, event }) {
    const x = Math.min(this.layout.width - 1, Math.max(1, this.layout.edge(place)));
    const line = shape('path', { class: 'crash-line', d: `M${x} ${HEAD - 20}V${HEAD}` });
    this.crashHead.replaceChildren(line, shape('path', { class: 'crash-top', d: `M${x - 6} ${HEAD - 20}h12l-6 9z` }));
    this.crashCells.replaceChildren(shape('path', { class: 'crash-line', 'data-place': place, d: `M${x} 0V${this.height}` }));
    this.mark(event);
    for (const text of this.box.querySelectorAll('text[data-x]')) give(text, { x: text.dataset.x, visibility: 'visible' }, []);
    for (const bar of this.parts.cells.querySelectorAll('g.store')) this.makeRoom(bar, x, 5);
    if (own !== null && !this.layout.bins) this.tags(own, x);
  }

  // Marks the column of the event that is chosen.
  mark(event) {
    const column = this.layout.bins ? null : this.layout.column(event);
    this.parts.chosen?.forEach((shown) => shown.remove());
    const box = (height) => shape('rect', { class: 'chosen', x: column.x + 1, y: 0, width: column.width - 2, height });
    this.parts.chosen = column === null ? [] : [box(HEAD), box(this.height)];
    this.parts.chosen.forEach((shown, at) => [this.parts.head, this.parts.cells][at].append(shown));
  }

  // What stands at a pointer: the place, its part of the picture, and where it is seen.
  anchorAt(x) {
    const { layout, box } = this;
    const seen = x - box.getBoundingClientRect().left - NAMES;
    const at = Math.max(0, Math.min(layout.width - 1, seen + box.scrollLeft));
    return { number: layout.placeAt(at), part: at / layout.width, x: seen };
  }

  // Scrolls so that a place stands where it stood.
  hold(number, x) {
    this.box.scrollLeft = this.layout.xOfPlace(number) - x;
  }

  // Scrolls to the end on the side to which the stretch was moved, so that what comes next is seen.
  toEnd(by) {
    this.box.scrollLeft = by > 0 ? this.box.scrollWidth : 0;
  }

  // Whether there is more of the picture to the left or right, so that the wheel scrolls it.
  scrolls(by) {
    const { scrollLeft, scrollWidth, clientWidth } = this.box;
    return by < 0 ? scrollLeft > 0 : scrollLeft + clientWidth < scrollWidth - 1;
  }

  // Marks each store that the crash loses and the one that it keeps, with a word in each of their rows.
  tags(own, x) {
    const words = new Set();
    for (const [name, number] of [...lostStores(this.trace, own).map((store) => ['lost', store]), ['kept', own.kept?.store.event]]) {
      const mark = number === undefined ? null : this.parts.cells.querySelector(`.tickmark[data-store="${number}"]`);
      if (mark === null) continue;
      const [, at, top] = /^M([\d.]+) ([\d.]+)/.exec(mark.getAttribute('d'));
      const sign = name === 'lost' ? `M${at - 4} ${top - 2}l8 8m0 -8l-8 8` : `M${at - 4} ${Number(top) + 2}l3 4l5 -8`;
      this.crashCells.append(shape('path', { class: name, 'data-store': number, d: sign }));
      if (words.has(`${name} ${top}`)) continue;
      words.add(`${name} ${top}`);
      this.makeRoom(mark.parentNode, x, TAG);
      this.crashCells.append(
        shape('rect', { class: `tag ${name}`, x: x + 3, y: Number(top) + 2, width: 34, height: 16, rx: 3 }),
        shape('text', { class: 'tag-word', x: x + 7, y: Number(top) + 14 }, name),
      );
    }
  }

  // Moves the words of a bar behind the crash, if they would stand under its line or its tag. Without room there they are not shown under a
  // tag.
  makeRoom(bar, x, room) {
    const text = bar.querySelector('text.halo');
    const wide = text === null ? 0 : text.textContent.length * LETTER;
    const [left, box] = [Number(text?.getAttribute('x')), bar.querySelector('.unsafe')];
    if (text === null || left + wide < x || left >= x + room) return;
    text.dataset.x ??= String(left);
    const ticks = [...bar.querySelectorAll('.tickmark')].map((tick) => Number(/^M([\d.]+)/.exec(tick.getAttribute('d'))[1]));
    const end = Math.min(Number(box.getAttribute('x')) + Number(box.getAttribute('width')), ...ticks.filter((tick) => tick > x));
    if (x + room + wide <= end) give(text, { x: x + room }, []);
    else if (room === TAG) give(text, { visibility: 'hidden' }, []);
  }

  // Scrolls so that a place stands in sight.
  reveal(place) {
    const x = this.layout.edge(place);
    const room = this.box.clientWidth - NAMES;
    if (x < this.box.scrollLeft + 40 || x > this.box.scrollLeft + room - 60) this.box.scrollLeft = Math.max(0, x - room * 0.7);
  }
}

// A label without the folder of its file.
function withoutFolder(label) {
  const [word] = label.split(' ', 1);
  return label.slice(word.lastIndexOf('/') + 1);
}

function short(number) {
  if (number >= 1e6) return `${(number / 1e6).toFixed(1)}M`;
  return number >= 1e4 ? `${Math.round(number / 1e3)}k` : String(number);
}

// What the program says of an event: from where on a store is safe, that a flush or fence does nothing, or a verdict.
function stateOf(trace, number) {
  const kind = trace.kind(number);
  if (kind === 'store') {
    const safe = trace.safe[number];
    return safe > trace.events ? 'never persisted by the end of the trace' : `safe from event ${safe} on`;
  }
  if (kind === 'assertion') return trace.fails[number] ? 'fails: a crash can violate it' : 'passes';
  const reason = trace.reason(number);
  return reason === null ? '' : `does nothing: ${REASON_WORDS[reason]}`;
}
