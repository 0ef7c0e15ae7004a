'use strict';

// The crash at a place: of each line what is safe, and the bytes that it leaves. At the place of a failed assertion the program's own
// crash is shown; at any other place the safe stores, laid over each other in their order.

const MOST_ROWS = 40;
const MOST_RUNS = 60;
const MOST_RANGES = 4;

// The lines that are not safe at a place, the first few by their first store, and how many there are.
function unsafeAt(trace, place, total) {
  const found = new Set();
  const { stores, safe, lineOf } = trace;
  if (total > 0) {
    for (let index = firstAbove(stores, 0, stores.length, place) - 1; index >= 0 && found.size < Math.min(MOST_ROWS, total); index -= 1) {
      if (safe[stores[index]] > place) found.add(lineOf[stores[index]]);
    }
  }
  return [...found].sort((a, b) => trace.addressOfLine(a) - trace.addressOfLine(b));
}

// A row of the lines: its address, how many stores are persisted for sure, and which may be lost.
function lineRowOf(trace, line, place) {
  const state = trace.state(line, place);
  const lost = [...trace.storesOf.list.subarray(state.safe, Math.min(state.end, state.safe + 8))];
  return { address: hex(trace.addressOfLine(line)), safe: state.safe - state.begin, stores: state.end - state.begin, lost };
}

// How many stores of a line the program's own crash leaves persisted: those that are safe, but all of the line of the kept store.
function persistedIn(trace, own, line) {
  const { begin, safe, end } = trace.state(line, own.place);
  const isKept = own.kept !== null && trace.lineOf[own.kept.store.event] === line;
  return (isKept ? end : safe) - begin;
}

// The stores that the program's own crash loses of the range that is to be kept: the last ones to its bytes, those that come after the
// crash and, of each line, those behind the stores that are persisted.
function lostStores(trace, own) {
  const last = new Set(wantedAt(trace, trace.ranges(own.event.event)[0], own.event.event));
  return [...last].filter((store) => {
    if (store === 0 || store > own.place) return store !== 0;
    const { starts, list } = trace.storesOf;
    const line = trace.lineOf[store];
    const before = firstAbove(list, starts[line], starts[line + 1], store - 1) - starts[line];
    return before >= persistedIn(trace, own, line);
  });
}

// The rows of the program's own crash: the lines that the finding is about, and the others that lose a store, the first few.
function ownRows(trace, own, focus) {
  const about = focus.lines.map((line) => hex(trace.addressOfLine(line)));
  const rows = [...new Set([...about, ...own.lines.map((line) => line.cache_line)])].slice(0, MOST_ROWS).map((address) => {
    const line = trace.lineAt(Number(address));
    const begin = trace.storesOf.starts[line];
    const stores = trace.state(line, own.place).end - begin;
    const safe = persistedIn(trace, own, line);
    return { address, safe, stores, lost: [...trace.storesOf.list.subarray(begin + safe, begin + Math.min(safe + 8, stores))] };
  });
  return rows.sort((a, b) => Number(a.address) - Number(b.address));
}

function placeRows(trace, place, focus, total) {
  const lines = [...new Set([...focus.lines, ...unsafeAt(trace, place, total)])];
  return lines.sort((a, b) => trace.addressOfLine(a) - trace.addressOfLine(b)).map((line) => lineRowOf(trace, line, place));
}

function lineTable(rows, own) {
  const words = own ? ['persisted', 'lost'] : ['safe', 'may be lost'];
  const head = make('tr', {}, ...['cache line', 'state', `stores ${words[0]}`, words[1]].map((text) => make('th', { scope: 'col' }, text)));
  const body = rows.map((row) => {
    const left = row.stores - row.safe;
    let state = ['bad', '✕', words[1]];
    if (row.stores === 0) state = ['none', '·', 'no store yet'];
    else if (left === 0) state = ['good', '✓', own ? 'all kept' : 'all safe'];
    const cells = [
      make('th', { scope: 'row' }, make('code', { class: 'span' }, row.address)),
      make('td', { class: `${state[0]} span` }, `${state[1]} ${state[2]}`),
      make('td', { class: 'span' }, `${grouped(row.safe)} of ${grouped(row.stores)}`),
      make('td', {}, left === 0 ? '' : listed(row.lost, left)),
    ];
    return make('tr', { 'data-line': row.address, 'data-safe': row.safe, 'data-stores': row.stores }, ...cells);
  });
  return make('table', {}, make('thead', {}, head), make('tbody', {}, ...body));
}

// Of each byte of a range the store that it is from, and its value; 0 and null where memory has no store persisted there.
function bytesOwn(own, index) {
  const { stores, values } = own.ranges[index];
  return { stores: stores.map((store) => store ?? 0), values };
}

function bytesAt(trace, range, place) {
  const stores = trace.lastStores(range, (line) => {
    const state = trace.state(line, place);
    return [state.begin, state.safe];
  });
  const values = trace.about.values ? [...stores].map((store, at) => (store === 0 ? null : trace.byteOf(store, range.address + at))) : null;
  return { stores, values };
}

// The last store to each byte by an event, which an assertion there speaks of.
function wantedAt(trace, range, number) {
  return trace.lastStores(range, (line) => {
    const state = trace.state(line, number);
    return [state.begin, state.end];
  });
}

function byteText(value) {
  return value === null ? '--' : value.toString(16).padStart(2, '0');
}

// Bytes in rows of eight.
function inRows(bytes) {
  return bytes.replace(/((?:\S+ ){7}\S+) /g, '$1\n');
}

// Runs of bytes that are from one store, and of which one store is the last by the assertion.
function runsOf(range, held, wanted) {
  const runs = [];
  for (let at = 0; at < range.length; at += 1) {
    const store = held.stores[at];
    const last = runs.at(-1);
    if (last !== undefined && last.store === store && last.wanted === wanted[at]) last.length += 1;
    else runs.push({ at, address: range.address + at, length: 1, store, wanted: wanted[at] });
  }
  for (const run of runs) {
    const from = run.address - range.address;
    const values = held.values === null ? null : held.values.slice(from, from + run.length);
    run.bytes = values === null ? '(left out)' : values.map(byteText).join(' ');
  }
  return runs;
}

function fromNodes(trace, number) {
  const label = trace.label(number);
  return label === null ? [`event ${number}`] : [`event ${number}`, make('br'), make('span', { class: 'soft' }, foreign(label, 40))];
}

function runRow(trace, run) {
  const span = run.length === 1 ? `+${run.at}` : `+${run.at} to +${run.at + run.length - 1}`;
  const from = run.store === 0 ? ['none'] : fromNodes(trace, run.store);
  let state = ['good', '✓ the same'];
  if (run.wanted === 0) state = ['none', '· never stored'];
  else if (run.wanted !== run.store) state = ['bad', `✕ event ${run.wanted}, lost`];
  const bytes = run.store === 0 && run.length > 8 ? `-- (${run.length} times)` : inRows(run.bytes);
  const data = { address: hex(run.address), length: run.length, store: run.store, bytes: run.bytes.replaceAll(' ', '') };
  const row = make(
    'tr', {},
    make('th', { scope: 'row' }, make('code', { class: 'span', title: hex(run.address) }, span)),
    make('td', {}, make('code', { class: 'data' }, bytes)),
    make('td', {}, ...from),
    make('td', { class: `${state[0]} span` }, state[1]),
  );
  Object.assign(row.dataset, data);
  return row;
}

function byteTable(trace, name, range, held, wanted) {
  const runs = runsOf(range, held, wanted);
  const head = make('tr', {}, ...['bytes', 'value', 'from', 'last store'].map((text) => make('th', { scope: 'col' }, text)));
  const body = make('tbody', {}, ...runs.slice(0, MOST_RUNS).map((run) => runRow(trace, run)));
  const box = make('div', { class: 'range', 'data-address': hex(range.address), 'data-length': range.length });
  box.append(make('h4', {}, `${name}: ${count(range.length, 'byte')} from ${hex(range.address)} on`));
  box.append(make('table', {}, make('thead', {}, head), body));
  if (runs.length > MOST_RUNS) {
    const more = make('button', { type: 'button' }, `Show ${count(runs.length - MOST_RUNS, 'more row')}`);
    more.addEventListener('click', () => {
      body.append(...runs.slice(MOST_RUNS).map((run) => runRow(trace, run)));
      more.remove();
    });
    box.append(more);
  }
  return box;
}

// The assertion at a place or next after it; without one the last, and 0 where there is none.
function assertionAt(trace, place) {
  const { assertions } = trace;
  return assertions[Math.min(assertions.length - 1, firstAbove(assertions, 0, assertions.length, place - 1))] ?? 0;
}

// The ranges whose bytes are shown: those of the chosen assertion; else those of the finding's cache line; else those of the next
// assertion.
function shownRanges(trace, finding, place) {
  if (finding === null) {
    const number = assertionAt(trace, place);
    const name = `Claimed by event ${number}, which ${trace.fails[number] ? 'fails' : 'passes'}`;
    return number === 0 ? [] : trace.ranges(number).map((range) => ({ range, name }));
  }
  const ranges = spansOf(trace, finding.entry).slice(0, MOST_RANGES);
  if (finding.kind !== 'failure' && finding.kind !== 'unwritten') return ranges.map((range) => ({ range, name: 'Its cache line' }));
  return ranges.map((range, at) => ({ range, name: ranges.length === 1 ? 'Claimed' : ['First range', 'Second range'][at] }));
}

class Crash {
  constructor(trace, unsafe) {
    this.trace = trace;
    this.unsafe = unsafe;
  }

  draw(view) {
    const { trace } = this;
    const { place, own, focus, finding } = view;
    const total = this.unsafe[place];
    const rows = own === null ? placeRows(trace, place, focus, total) : ownRows(trace, own, focus);
    const none = make('p', {}, 'No cache line has a store that may be lost.');
    byId('lines').replaceChildren(rows.length === 0 ? none : lineTable(rows, own !== null), this.rest(rows, own, total));
    byId('crash-told').replaceChildren(...this.told(view));
    const end = finding !== null && finding.kind === 'failure' ? finding.entry.event.event : place;
    const tables = shownRanges(trace, finding, place).map(({ range, name }, at) => {
      const held = own === null ? bytesAt(trace, range, place) : bytesOwn(own, at);
      return byteTable(trace, name, range, held, wantedAt(trace, range, Math.max(place, end)));
    });
    const nothing = make('p', {}, 'The trace has no assertion. Choose a finding: the bytes of its cache line are shown here.');
    byId('bytes').replaceChildren(...(tables.length > 0 ? tables : [nothing]));
  }

  rest(rows, own, total) {
    const all = own === null ? total : own.lines.length + own.more_lines;
    const left = all - rows.filter((row) => row.safe < row.stores).length;
    const whole = own === null ? '' : ` ${count(own.whole_lines, 'cache line loses', 'cache lines lose')} nothing.`;
    const more = left > 0 ? `${count(left, 'more line')} with stores that ${own === null ? 'may be lost' : 'are lost'}.` : '';
    return make('p', { class: 'soft' }, `${more}${whole}`);
  }

  told({ place, own }) {
    if (own === null) {
      const lines = this.unsafe[place];
      const safe = lines === 0 ? 'Each store up to here is safe.' : `${count(lines, 'cache line')} with stores that may be lost.`;
      const bytes = ' The bytes are those of the stores that are safe, laid over each other in their order; a crash may keep more.';
      return [make('strong', {}, `A crash right after event ${place}. `), safe, bytes];
    }
    const nodes = [make('strong', {}, `The crash of this failure, right after event ${place}. `)];
    const byteOf = ({ byte, store }) => [` byte ${byte} of `, ...placeNodes(this.trace, store.event)];
    if (own.kept !== null) nodes.push(make('span', { class: 'good' }, '✓ keeps'), ...byteOf(own.kept), '; ');
    nodes.push(make('span', { class: 'bad' }, '✕ loses'), ...byteOf(own.lost), '. The program tells its bytes.');
    return nodes;
  }
}
