'use strict';

// The event that is chosen: its words, what becomes of it, and its line of source with a few around it.

const CARD_AROUND = 2;

// The event of a finding that is shown at first: where the mend goes, if it has one; else the one that names it.
function eventToShow({ entry, number }) {
  return entry.mend?.after ?? entry.mend?.store ?? number;
}

class Card {
  constructor(trace, source, box) {
    this.trace = trace;
    this.source = source;
    this.box = box;
  }

  write(number) {
    this.box.hidden = number === 0;
    if (number === 0 || number === this.shown) return;
    this.shown = number;
    const state = stateOf(this.trace, number);
    const told = make('p', {}, ...eventNodes(this.trace, number), state === '' ? '' : `; ${state}`);
    this.box.dataset.event = String(number);
    this.box.replaceChildren(told, ...this.sourceNodes(number));
  }

  // The lines of source round the event's own place, or why there are none.
  sourceNodes(number) {
    const [place] = placesOf(this.trace.label(number));
    if (!this.source.has || place === undefined) return [];
    const found = this.source.linesAt(place, CARD_AROUND);
    if (typeof found === 'string') return [make('p', { class: 'key' }, `Its source line is not shown: ${found}.`)];
    return [this.source.linesNode(found, place.line)];
  }
}
