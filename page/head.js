'use strict';

// What stands around the picture and does not change: the counts, what is left out, what is proved, and the signs.

class Head {
  constructor(trace, findings, sources) {
    this.trace = trace;
    this.findings = findings;
    this.sources = sources;
  }

  write() {
    const { about } = this.trace;
    const { summary } = this.findings;
    document.title = `${cut(about.name.replace(TURNING, '?'), 80)} - pmtrim explain`;
    byId('title').replaceChildren('pmtrim explain: ', foreign(about.name));
    const flushes = `${grouped(summary.flushes_dropped)} of ${count(summary.flushes, 'flush', 'flushes')}`;
    const fences = `${grouped(summary.fences_dropped)} of ${count(summary.fences, 'fence')}`;
    const lines = `${count(summary.cache_lines, 'cache line')} of ${about.line_size} bytes`;
    const told = [
      `${count(about.events, 'event')}, ${count(summary.threads, 'thread')}, ${lines}`,
      `✕ ${grouped(summary.failing)} of ${count(summary.assertions, 'assertion')} can be violated by a crash`,
      `▨ ${grouped(summary.never_persisted)} of ${count(summary.stores, 'store')} never persisted`,
      `▽ ${flushes} and ${fences} do nothing`,
    ];
    byId('summary').replaceChildren(...told.map((text) => make('span', {}, text)));
    const key = '✕ is where an assertion fails, the frame what the picture shows, the dashed line the crash. Draw a frame to choose a stretch.'
      + ' Ctrl and the wheel zoom, Shift and the wheel move the stretch.';
    byId('strip-key').textContent = key;
    byId('strip').setAttribute('title', key);
    byId('proved').replaceChildren(...this.provedNodes(about));
    byId('summary').append(...this.leftOut(about, summary).map((text) => make('span', { class: 'note' }, ...text)));
  }

  // What is not on the page: by the words that were given, by the limit, and for size.
  leftOut(about, summary) {
    const found = [];
    const asked = Object.entries(summary.asked ?? {}).filter(([, value]) => value !== null);
    const spelled = (value) => (typeof value === 'object' ? `${value.address}:${value.length}` : String(value));
    const told = ([name, value]) => [` ${name} `, foreign(spelled(value)), ';'];
    if (asked.length > 0) found.push(['Only what was asked for:', ...asked.flatMap(told), ' the counts are of the whole trace']);
    const [never, over] = [summary.ignored_never_persisted ?? 0, summary.ignored_overwritten ?? 0];
    if (never + over > 0) found.push([`Ignored, as asked: ${grouped(never)} never persisted, ${grouped(over)} overwritten`]);
    const more = Object.entries(summary.more ?? {}).filter(([, left]) => left > 0);
    const kinds = more.map(([kind, left]) => `${grouped(left)} of ${KIND_WORDS[kind] ?? kind}`).join(', ');
    if (more.length > 0) found.push([`Not on this page, by its limit: ${kinds} (--limit says how many)`]);
    if (summary.assertions === 0) found.push(['The trace has no assertion: what is saved too late is not found without one']);
    if (!this.sources.isWhole) found.push(['Not all source lines that labels name are here: a page has at most two million bytes of them']);
    const labels = about.labels_left_out;
    const stands = this.trace.labelled.length > 0 ? '; … stands for each' : '';
    if (labels > 0) found.push([`The labels of ${count(labels, 'event')} are left out for size${stands}`]);
    if (this.trace.labelsCut()) found.push([`Labels are cut at ${grouped(MOST_LABEL)} bytes`]);
    if (!about.ranges) found.push(['The ranges of assertions are left out for size, but for those of the findings']);
    if (!about.values) found.push(['The bytes of stores are left out for size, but for those of the failures']);
    return found;
  }

  provedNodes(about) {
    return [
      make('p', {}, `${about.program} wrote this page. Its proved functions gave the verdicts, the crash of each failed assertion with its`
        + ' bytes, the causes, what mends a loss, what does nothing, and from which place on each store is safe. They speak of the trace'
        + ' whose bytes have this SHA-256:'),
      make('p', {}, make('code', { id: 'sha256' }, about.sha256)),
      make('p', {}, 'The script of this page looks these up, puts those of one cause together, and draws them; it decides nothing. What it'
        + ' does is tested, not proved: which events and lines are in sight and where they stand, the strip, the filters, and at a place that'
        + ' the slider chooses the bytes, which are those of the safe stores laid over each other.'),
    ];
  }
}

// The signs of the picture, each with the elements that have it, its word, and what it is.
const SIGNS = [
  ['.unsafe', [['unsafe', 'M-12 -6h24v12h-24z']], 'not safe', 'a crash may lose the store'],
  ['.safe', [['safe', 'M-12 -2h24v5h-24z']], 'safe', 'no crash loses the store'],
  ['.sign .dot', [['dot', 'M-4 -4h8v8h-8z']], 'store', 'a store'],
  ['.sign path.mark:not(.hollow, .bad)', [['mark', 'M-7 -6H7L0 7Z']], 'flush', 'a flush'],
  ['.sign rect.mark:not(.hollow)', [['mark', 'M-3 -8h6v16h-6z']], 'fence', 'a fence'],
  ['.sign .hollow', [['mark hollow', 'M-7 -6H7L0 7Z']], 'does nothing', 'a hollow flush or fence does nothing'],
  ['.sign .bad', [['mark bad', 'M-7 -6H7L0 7Z'], ['shout', 'M0 -4.5V0M0 1.5V3']], 'fence missing', 'a flush whose fence is missing: add the fence'],
  ['.wait', [['wait', 'M-12 0H12']], 'waits', 'from a flush to the next fence of its thread; dashed: none comes'],
  ['.sign .pass', [['pass', 'M-7 0a7 7 0 1 0 14 0a7 7 0 1 0 -14 0'], ['tick', 'M-4 0L-1 4L4 -4']], 'passes', 'an assertion that passes'],
  ['.sign .fail', [['fail', 'M-7 0a7 7 0 1 0 14 0a7 7 0 1 0 -14 0'], ['cross', 'M-4 -4L4 4M4 -4L-4 4']], 'fails', 'an assertion that fails'],
  ['.crash-line', [['crash-line', 'M0 -8V8']], 'crash', 'the crash'],
  ['path.lost', [['lost', 'M-4 -4L4 4M4 -4L-4 4']], 'lost', 'a store that the crash loses'],
];

// Tells the signs that are in the picture, in one row.
function showSigns(sheet, box) {
  const sign = (paths) => shape(
    'svg', { width: 26, height: 16, viewBox: '-13 -8 26 16', 'aria-hidden': 'true' },
    ...paths.map(([name, path]) => shape('path', { class: name, d: path })),
  );
  const shown = SIGNS.filter(([having]) => sheet.querySelector(having) !== null);
  box.replaceChildren(...shown.map(([, paths, text, title]) => make('span', { title }, sign(paths), text)));
}
