'use strict';

// The wheel over the strip and the picture, as over a map in a page: with Ctrl it zooms at the pointer, with Shift it moves the stretch.
// Without them it scrolls the page.

const LEAST_STRETCH = 4;
// How far a wheel turns by one notch, in pixels; how much closer one comes by it, and how much of the stretch it moves.
const NOTCH = 100;
const LINE_PIXELS = 16;
const CLOSER = 1.5;
const MOVED = 0.2;

// What stays where it is if no pointer says: the crash, or the middle. A number is that of a place, with a part of the way to the next one.
function anchorOf(from, to, place) {
  const number = place >= from && place <= to ? place : Math.round((from + to) / 2);
  return { number, part: 0.5, x: null };
}

// The stretch that is so many times as long, with the event at the same part of it. Of columns that leave events out it is as long as there
// are columns if one comes closer, and as all between them if one goes farther.
function zoomed({ from, to, mattering }, events, factor, { number, part }) {
  const all = to - from + 1;
  const drawn = mattering !== null && factor < 1 ? Math.min(all, mattering.length) : all;
  const length = Math.min(events, Math.max(LEAST_STRETCH, rounded(drawn, factor)));
  const first = Math.round(number - part * length) + 1;
  return [first, first + length - 1];
}

// A length so many times as long, and another one at least.
function rounded(length, factor) {
  const found = Math.round(length * factor);
  if (found !== length || factor === 1) return found;
  return factor < 1 ? length - 1 : length + 1;
}

// How far the wheel was turned, in pixels.
function turned(event) {
  const by = event.deltaY === 0 ? event.deltaX : event.deltaY;
  return event.deltaMode === WheelEvent.DOM_DELTA_PIXEL ? by : by * LINE_PIXELS;
}

// Listens to the wheel over a box. What is turned between two pictures of the browser is taken at once.
function listenToWheel(box, { scrolls, zoom, move }) {
  let sum = 0;
  let waiting = null;
  const take = (does) => {
    waiting = null;
    const notches = Math.max(-4, Math.min(4, sum / NOTCH));
    sum = 0;
    does(notches);
  };
  box.addEventListener('wheel', (event) => {
    const isZoom = event.ctrlKey || event.metaKey;
    if (!isZoom && (!event.shiftKey || scrolls(turned(event)))) return;
    event.preventDefault();
    sum += turned(event);
    const { clientX } = event;
    const does = isZoom ? (notches) => zoom(CLOSER ** notches, clientX) : (notches) => move(notches * MOVED);
    waiting ??= requestAnimationFrame(() => take(does));
  }, { passive: false });
}
