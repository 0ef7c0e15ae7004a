'use strict';

// The whole trace as a strip, binned: how many stores come, how many cache lines are not safe, and where assertions fail; and in it
// the stretch that the picture shows, and the crash.

const STRIP = { height: 54, stores: [12, 9], unsafe: [33, 11], fails: 49 };
const MOST_BINS = 600;

class Strip {
  constructor(trace, box, onChoose) {
    this.trace = trace;
    this.box = box;
    this.onChoose = onChoose;
    this.unsafe = trace.unsafeLines();
    this.width = 0;
    box.addEventListener('pointerdown', (event) => this.press(event));
    box.addEventListener('pointermove', (event) => this.drag(event));
    box.addEventListener('pointerup', (event) => this.release(event));
  }

  // The bins of the trace: how many stores each has, the most lines that are not safe in it, and whether an assertion fails there.
  bins() {
    const { trace } = this;
    const bins = Math.max(1, Math.min(MOST_BINS, Math.floor(this.width / 2), trace.events));
    const found = { bins, stores: new Uint32Array(bins), unsafe: new Uint32Array(bins), fails: new Uint32Array(bins) };
    for (let bin = 0; bin < bins; bin += 1) {
      const end = Math.floor(((bin + 1) * trace.events) / bins);
      let most = 0;
      for (let number = Math.floor((bin * trace.events) / bins) + 1; number <= end; number += 1) {
        if (this.unsafe[number] > most) most = this.unsafe[number];
        if (trace.kinds[number] === STORE) found.stores[bin] += 1;
        if (trace.fails[number]) found.fails[bin] += 1;
      }
      found.unsafe[bin] = most;
    }
    return found;
  }

  x(place) {
    return (place / Math.max(1, this.trace.events)) * this.width;
  }

  numberAt(x) {
    const part = Math.min(1, Math.max(0, x / Math.max(1, this.width)));
    return Math.min(this.trace.events, Math.max(1, Math.ceil(part * this.trace.events)));
  }

  // What stands at a pointer: the place, and its part of the stretch that is shown.
  anchorAt(x, { from, to }) {
    const seen = x - this.box.getBoundingClientRect().left;
    const number = (seen / Math.max(1, this.width)) * this.trace.events;
    return { number, part: Math.min(1, Math.max(0, (number - from + 1) / (to - from + 1))), x: null };
  }

  // Draws the bins anew where the width changed.
  draw() {
    const width = Math.max(200, this.box.clientWidth);
    if (width === this.width) return;
    this.width = width;
    const found = this.bins();
    const svg = shape('svg', { width, height: STRIP.height, viewBox: `0 0 ${width} ${STRIP.height}`, 'aria-hidden': 'true' });
    const name = (y, text) => shape('text', { class: 'strip-name', x: 3, y }, text);
    svg.append(
      name(STRIP.stores[0] - 2, `stores${this.most(found.stores, found.bins)}`),
      name(STRIP.unsafe[0] - 2, `cache lines that are not safe, up to ${grouped(Math.max(...found.unsafe))}`),
      shape('path', { class: 'strip-stores', d: this.steps(found.stores, found.bins, STRIP.stores) }),
      shape('path', { class: 'strip-unsafe', d: this.steps(found.unsafe, found.bins, STRIP.unsafe) }),
      shape('path', { class: 'strip-fails', d: this.crosses(found.fails, found.bins) }),
    );
    this.stretch = shape('rect', { class: 'strip-stretch', y: 1, height: STRIP.height - 2 });
    this.crash = shape('path', { class: 'strip-crash' });
    svg.append(this.stretch, this.crash);
    this.box.replaceChildren(svg);
    this.show(this.shown ?? { from: 1, to: 1, place: 0 });
  }

  most(counts, bins) {
    return bins < this.trace.events ? `, up to ${Math.max(...counts)} in ${count(Math.ceil(this.trace.events / bins), 'event')}` : '';
  }

  steps(counts, bins, [top, height]) {
    const most = Math.max(1, ...counts);
    const wide = this.width / bins;
    const parts = [];
    counts.forEach((number, bin) => {
      if (number === 0) return;
      const tall = Math.max(1.5, (number / most) * height);
      const [x, y, w, h] = [bin * wide, top + height - tall, wide, tall].map((value) => value.toFixed(2));
      parts.push(`M${x} ${y}h${w}v${h}h-${w}z`);
    });
    return parts.join('');
  }

  crosses(counts, bins) {
    const wide = this.width / bins;
    let last = -9;
    const parts = [];
    counts.forEach((number, bin) => {
      const x = (bin + 0.5) * wide;
      if (number === 0 || x - last < 7) return;
      last = x;
      parts.push(`M${(x - 3).toFixed(1)} ${STRIP.fails - 3}l6 6m0 -6l-6 6`);
    });
    return parts.join('');
  }

  // Shows the stretch and the crash.
  show(state) {
    this.shown = state;
    const { from, to, place } = state;
    const left = this.x(from - 1);
    const wide = Math.max(6, this.x(to) - left);
    give(this.stretch, { x: Math.min(left, this.width - wide).toFixed(1), width: wide.toFixed(1) }, []);
    this.crash.setAttribute('d', `M${this.x(place).toFixed(1)} 0v${STRIP.height}`);
    const { events } = this.trace;
    give(this.box, { 'aria-valuemin': Math.min(1, events), 'aria-valuemax': events, 'aria-valuenow': from }, []);
    this.box.setAttribute('aria-valuetext', `events ${from} to ${to} of ${events}, crash after event ${place}`);
  }

  press(event) {
    if (event.button !== 0) return;
    this.start = this.numberAt(event.clientX - this.box.getBoundingClientRect().left);
    this.box.setPointerCapture(event.pointerId);
  }

  drag(event) {
    if (this.start === undefined) return;
    const end = this.numberAt(event.clientX - this.box.getBoundingClientRect().left);
    this.show({ ...this.shown, from: Math.min(this.start, end), to: Math.max(this.start, end) });
  }

  // A stretch that was drawn is chosen; a click moves the one that is shown.
  release(event) {
    if (this.start === undefined) return;
    const end = this.numberAt(event.clientX - this.box.getBoundingClientRect().left);
    const start = this.start;
    this.start = undefined;
    if (Math.abs(this.x(end) - this.x(start)) >= 4 && start !== end) {
      this.onChoose(Math.min(start, end), Math.max(start, end));
    } else {
      this.onChoose(end - 30, end + 29);
    }
  }
}
