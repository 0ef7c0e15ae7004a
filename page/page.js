'use strict';

// The page: what is chosen, by mouse, keys and address, and what is drawn anew for it.

const ADDRESS_WAIT = 200;
// Of a longer trace the browser first paints the picture that stands there without script.
const SHOWN_AT_ONCE = 50_000;

class Page {
  constructor() {
    this.trace = new Trace(readBlock('about'), readBlock('columns'), textOfBlock('labels'));
    this.findings = new Findings(this.trace, readEntries());
    this.strip = new Strip(this.trace, byId('strip'), (from, to) => this.stretch(from, to));
    this.crash = new Crash(this.trace, this.strip.unsafe);
    this.sheet = new Sheet(this.trace, byId('sheet'), (place) => this.goTo(place), (from, to) => this.stretch(from, to));
    this.source = new Source(this.trace, readBlock('sources'));
    this.list = new List(this.trace, this.findings, (finding) => this.choose(finding));
    this.card = new Card(this.trace, this.source, byId('event'));
    this.view = { from: 1, to: 1, place: 0, event: 0, finding: null, own: null, mattering: null };
    Object.assign(this.view, { focus: focusOf(this.trace, null), most: MOST_FOCUS_LINES });
  }

  start() {
    byId('still').remove();
    byId('page').hidden = false;
    new Head(this.trace, this.findings, this.source).write();
    byId('source').hidden = !this.source.has;
    this.listen();
    this.list.write();
    this.readAddress(true);
    document.documentElement.dataset.ready = String(Math.round(performance.now()));
  }

  // What is chosen.

  // Chooses a finding, and shows what matters to it and its crash.
  choose(finding, place = null) {
    const { trace } = this;
    const focus = focusOf(trace, finding);
    const own = finding?.kind === 'failure' ? finding.entry : null;
    const crash = place ?? own?.place ?? this.placeOf(finding);
    const mattering = finding === null ? null : matteringEvents(trace, finding, focus);
    const more = own === null ? 0 : assertionSlice(trace, finding.number).length - mattering.length;
    const from = mattering?.at(0) ?? 1;
    const to = mattering?.at(-1) ?? Math.min(trace.events, 60);
    const event = place ?? (finding === null ? 0 : eventToShow(finding));
    this.view = {
      ...this.view, finding, focus, mattering, more, from, to, event, place: crash, own: own !== null && own.place === crash ? own : null,
    };
    this.drawAll();
  }

  // The place of a finding that has no crash of its own: the end for what is never persisted, where a crash shows what is late or hinted at,
  // else right after its events.
  placeOf(finding) {
    if (finding === null) return 0;
    if (finding.kind === 'never_persisted') return this.trace.events;
    return Math.max(...eventsOf(finding.entry), shownAt(this.trace, finding.entry, otherOf(this.trace, finding.entry)));
  }

  // Shows a stretch as it is, with all of its events.
  stretch(from, to) {
    const { events } = this.trace;
    const length = Math.min(events, Math.max(1, to - from + 1));
    const low = Math.max(1, Math.min(from, events - length + 1));
    this.view = { ...this.view, mattering: null, from: low, to: low + length - 1 };
    this.drawAll();
  }

  // Moves the crash; the stretch follows where the place is not in it.
  goTo(place) {
    const { trace, view } = this;
    if (!Number.isFinite(place)) return;
    const to = Math.max(0, Math.min(trace.events, Math.round(place)));
    const entry = view.finding?.kind === 'failure' ? view.finding.entry : null;
    this.view = { ...view, place: to, event: to, own: entry !== null && entry.place === to ? entry : null };
    if (to < view.from - 1 || to > view.to) {
      const length = view.mattering === null ? view.to - view.from + 1 : 60;
      const from = Math.max(1, to - Math.floor(length / 2));
      this.stretch(from, from + length - 1);
      return;
    }
    this.sheet.place(this.view);
    this.sheet.reveal(to);
    this.afterPlace();
  }

  step(by) {
    const finding = this.findings.step(this.view.finding, by);
    if (finding !== null) this.choose(finding);
  }

  // To the first finding of the next cause, or of the one before.
  stepCause(by) {
    const { groups } = this.findings;
    const at = this.view.finding === null ? -1 : groups.indexOf(this.findings.groupOf(this.view.finding));
    const group = groups[at < 0 ? 0 : at + by];
    if (group !== undefined) this.choose(group.members[0]);
  }

  // By so many columns of the picture.
  stepColumn(by) {
    const { layout } = this.sheet;
    const at = layout.by(this.view.place) - 1 + by;
    if (at < 0) this.goTo(layout.columns[0].first - 1);
    else if (at < layout.columns.length) this.goTo(layout.columns[at].last);
  }

  // Closer or wider, with an event at the same part of what is drawn; without one the crash, or the middle.
  zoom(factor, anchor = null) {
    const { from, to, place } = this.view;
    const held = anchor ?? anchorOf(from, to, place);
    const [first, last] = zoomed(this.view, this.trace.events, factor, held);
    this.stretch(first, last);
    if (held.x !== null) this.sheet.hold(held.number, held.x);
  }

  move(part) {
    const { from, to } = this.view;
    const by = Math.sign(part) * Math.max(1, Math.round((to - from + 1) * Math.abs(part)));
    this.stretch(from + by, to + by);
  }

  // What is drawn.

  drawAll() {
    this.sheet.draw(this.view);
    this.sheet.reveal(this.view.place);
    this.writeFinding();
    this.list.mark(this.view.finding);
    this.writeTold();
    this.afterPlace();
  }

  afterPlace() {
    const { view } = this;
    this.strip.draw();
    this.strip.show(view);
    this.crash.draw(view);
    give(byId('slider'), { min: Math.min(Math.max(0, view.from - 1), view.place), max: Math.max(view.to, view.place) }, []);
    byId('slider').value = String(view.place);
    byId('slider').setAttribute('aria-valuetext', `after event ${view.place}`);
    byId('place').value = String(view.place);
    byId('from').value = String(view.from);
    byId('to').value = String(view.to);
    byId('own-crash').hidden = view.finding?.kind !== 'failure';
    byId('own-crash').disabled = view.own !== null;
    if (byId('list').open) this.writeList();
    this.card.write(view.event);
    this.writeSource();
    this.writeAddress();
  }

  writeTold() {
    const { view } = this;
    const { layout, rows } = this.sheet;
    const isPart = view.mattering !== null && layout.gaps.length > 0;
    const left = isPart ? '; dots stand for others' : '';
    const columns = layout.columns.length;
    const drawn = layout.bins ? `${count(view.to - view.from + 1, 'event')} in ${columns} columns` : count(columns, 'event');
    const more = isPart && view.more > 0 ? `; pmtrim slice --failure ${view.finding.number} has ${grouped(view.more)} more that tell of it` : '';
    const told = `Events ${grouped(view.from)} to ${grouped(view.to)}: ${drawn}${left}${more}.`;
    byId('picture-told').textContent = this.trace.events === 0 ? 'The trace has no events.' : told;
    showSigns(byId('sheet'), byId('signs'));
    byId('matter').checked = view.mattering !== null;
    byId('matter').disabled = view.finding === null;
    byId('more-lines').hidden = rows.moreLines === 0 || view.mattering !== null;
    const lines = count(rows.moreLines, 'further cache line');
    byId('more-lines').textContent = view.most < MOST_LINES ? `Show more of ${lines}` : `${lines} folded away; show fewer`;
  }

  // The source lines of what is chosen, where they are asked for.
  writeSource() {
    if (byId('source').open) this.source.write(byId('source-places'), this.view);
  }

  writeFinding() {
    const { finding } = this.view;
    const { shown } = this.findings;
    const at = finding === null ? -1 : shown.indexOf(finding);
    byId('previous').disabled = at === 0 || shown.length === 0;
    byId('next').disabled = at === shown.length - 1 || shown.length === 0;
    if (finding === null) {
      byId('finding-place').textContent = shown.length === 0 ? '' : 'Choose a cause, or go to the next finding.';
      byId('told').replaceChildren();
      byId('details').replaceChildren();
      byId('mend').replaceChildren(make('p', {}, 'No finding is chosen.'));
      return;
    }
    const group = this.list.groupOf(finding);
    const all = `${at + 1} of ${count(shown.length, 'finding')}`;
    const told = (members) => `${members.indexOf(finding) + 1} of ${members.length} ${group.section === 'place' ? 'at this place' : 'with this cause'}; ${all}`;
    byId('finding-place').textContent = group === null ? 'not among those that the filters leave' : told(group.members);
    const { head, rest } = findingNodes(this.trace, finding);
    byId('told').replaceChildren(...head);
    byId('details').replaceChildren(rest);
    byId('mend').replaceChildren(make('p', { class: 'mend' }, ...remedyNodes(this.trace, finding)));
  }

  writeList() {
    const rows = this.sheet.layout.columns.slice(0, MOST_COLUMNS).map((column) => {
      const button = make('button', { type: 'button' }, 'crash after it');
      button.addEventListener('click', () => this.goTo(column.last));
      if (this.sheet.layout.bins) return make('li', {}, `events ${column.first} to ${column.last} `, button);
      const number = column.first;
      const state = stateOf(this.trace, number);
      const line = this.source.textOf(number);
      const code = line === null ? [] : [make('br'), make('code', { class: 'soft' }, make('bdi', { dir: 'ltr' }, line))];
      return make('li', { 'data-event': number }, ...eventNodes(this.trace, number), state === '' ? ' ' : `; ${state} `, button, ...code);
    });
    byId('events').replaceChildren(make('ul', {}, ...rows));
  }

  // By what it is chosen.

  listen() {
    const on = (id, event, does) => byId(id).addEventListener(event, does);
    on('next', 'click', () => this.step(1));
    on('previous', 'click', () => this.step(-1));
    on('earlier', 'click', () => this.move(-0.5));
    on('later', 'click', () => this.move(0.5));
    on('closer', 'click', () => this.zoom(0.5));
    on('wider', 'click', () => this.zoom(2));
    on('whole', 'click', () => this.stretch(1, this.trace.events));
    on('back', 'click', () => this.goTo(this.view.place - 1));
    on('on', 'click', () => this.goTo(this.view.place + 1));
    on('slider', 'input', () => this.goTo(Number(byId('slider').value)));
    on('place', 'change', () => this.goTo(byId('place').valueAsNumber));
    on('own-crash', 'click', () => this.choose(this.view.finding));
    for (const id of ['from', 'to']) on(id, 'change', () => this.stretchOfFields());
    on('matter', 'change', () => this.toggleMatter());
    on('more-lines', 'click', () => {
      this.view = { ...this.view, most: this.view.most < MOST_LINES ? MOST_LINES : MOST_FOCUS_LINES };
      this.drawAll();
    });
    on('list', 'toggle', () => this.writeList());
    on('source', 'toggle', () => this.writeSource());
    on('filters', 'input', () => this.filter());
    on('filters', 'submit', (event) => event.preventDefault());
    on('filters', 'reset', () => setTimeout(() => this.filter()));
    on('strip', 'keydown', (event) => this.stripKey(event));
    on('sheet', 'keydown', (event) => this.sheetKey(event));
    listenToWheel(byId('strip'), this.wheelOf((x) => this.strip.anchorAt(x, this.view), () => false));
    listenToWheel(byId('sheet'), this.wheelOf((x) => this.sheet.anchorAt(x), (by) => this.sheet.scrolls(by)));
    document.addEventListener('keydown', (event) => this.key(event));
    window.addEventListener('hashchange', () => this.readAddress(false));
    window.addEventListener('resize', () => this.drawAll());
    this.fillChoices();
  }

  // What the wheel does over a drawing: which event stands at a pointer, and whether the drawing scrolls so by itself.
  wheelOf(anchorAt, scrolls) {
    return {
      scrolls,
      zoom: (factor, x) => this.zoom(factor, anchorAt(x)),
      move: (by) => {
        this.move(by);
        this.sheet.toEnd(by);
      },
    };
  }

  stretchOfFields() {
    const from = byId('from').valueAsNumber;
    const to = byId('to').valueAsNumber;
    if (Number.isFinite(from) && Number.isFinite(to)) this.stretch(Math.min(from, to), Math.max(from, to));
  }

  toggleMatter() {
    const { view } = this;
    if (!byId('matter').checked) this.stretch(view.from, view.to);
    else if (view.finding !== null) this.choose(view.finding, view.place);
  }

  fillChoices() {
    const kinds = KINDS.filter((kind) => this.findings.all.some((finding) => finding.kind === kind));
    const option = (value, text) => make('option', { value }, text);
    byId('filter-kind').replaceChildren(option('', 'all kinds'), ...kinds.map((kind) => option(kind, KIND_WORDS[kind])));
    const threads = new Set();
    for (const finding of this.findings.all) for (const number of membersOf(this.trace, finding.entry)) threads.add(this.trace.thread[number]);
    const rising = [...threads].sort((a, b) => a - b);
    byId('filter-thread').replaceChildren(option('', 'all threads'), ...rising.map((thread) => option(thread, `thread ${thread}`)));
  }

  filter() {
    const asked = { kind: byId('filter-kind').value, text: byId('filter-text').value.trim().toLowerCase() };
    if (byId('filter-thread').value !== '') asked.thread = Number(byId('filter-thread').value);
    const { lineSize } = this.trace;
    for (const [name, read] of [['line', (text) => readLine(text, lineSize)], ['range', readRange]]) {
      const field = byId(`filter-${name}`);
      const text = field.value.trim();
      asked[name] = text === '' ? null : read(text);
      field.setAttribute('aria-invalid', String(text !== '' && asked[name] === null));
    }
    this.findings.filter(asked);
    this.list.write();
    this.list.mark();
    this.writeFinding();
  }

  key(event) {
    if (event.ctrlKey || event.metaKey || event.altKey) return;
    const field = event.target.closest?.('input:not([type=range]):not([type=checkbox]), select, textarea');
    if (event.key === 'Escape' && field) field.blur();
    if (field) return;
    if (event.key === 'n') this.step(1);
    else if (event.key === 'N') this.stepCause(1);
    else if (event.key === 'P') this.stepCause(-1);
    else if (event.key === 'p') this.step(-1);
    else if (event.key === 'c') byId('slider').focus();
    else if (event.key === 's') byId('source').open = this.source.has && !byId('source').open;
    else if (event.key === '+' || event.key === '=') this.zoom(0.5);
    else if (event.key === '-') this.zoom(2);
    else if (event.key === '0') this.stretch(1, this.trace.events);
    else if (event.key === '/') {
      event.preventDefault();
      byId('filter-text').focus();
    }
  }

  stripKey(event) {
    const { events } = this.trace;
    const length = this.view.to - this.view.from + 1;
    const does = {
      ArrowLeft: () => this.move(-0.5),
      ArrowRight: () => this.move(0.5),
      PageUp: () => this.move(-1),
      PageDown: () => this.move(1),
      Home: () => this.stretch(1, length),
      End: () => this.stretch(events - length + 1, events),
    }[event.key];
    if (does === undefined) return;
    event.preventDefault();
    does();
  }

  sheetKey(event) {
    if (event.target !== byId('sheet')) return;
    const by = { ArrowLeft: -1, ArrowRight: 1 }[event.key];
    if (by === undefined) return;
    event.preventDefault();
    if (event.shiftKey) this.move(by / 2);
    else this.stepColumn(by);
  }

  // The address: `#failure=3`, `#place=12`, `#failure=3&place=2`, `&from=1&to=60`.

  writeAddress() {
    const { finding, place, from, to, mattering, own } = this.view;
    const parts = [];
    if (finding !== null) parts.push(`${finding.name}=${finding.number}`);
    if (own === null) parts.push(`place=${place}`);
    if (mattering === null) parts.push(`from=${from}`, `to=${to}`);
    const address = `#${parts.join('&')}`;
    clearTimeout(this.waiting);
    this.waiting = setTimeout(() => {
      if (location.hash !== address) history.replaceState(null, '', address);
    }, ADDRESS_WAIT);
  }

  readAddress(isFirst) {
    const asked = new URLSearchParams(location.hash.slice(1));
    const number = (name) => (/^[0-9]{1,7}$/.test(asked.get(name) ?? '') ? Number(asked.get(name)) : null);
    const kind = [...KINDS, ...Object.keys(HINTS)].find((name) => asked.has(name));
    const found = kind === undefined ? null : this.findings.find(kind, number(kind));
    const place = number('place') === null ? null : Math.min(this.trace.events, number('place'));
    if (found === null && place === null && number('from') === null) {
      if (isFirst) this.choose(this.findings.shown[0] ?? null);
      return;
    }
    this.choose(found, place);
    if (number('from') !== null && number('to') !== null) this.stretch(number('from'), number('to'));
    else if (found === null) this.goTo(place);
  }
}

let page = null;

function begin() {
  page = new Page();
  page.start();
}

if (document.hidden || readBlock('about').events <= SHOWN_AT_ONCE) begin();
else requestAnimationFrame(() => setTimeout(begin));
