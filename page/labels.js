'use strict';

// Where the texts of labels stand in the text of their block, which may have a million of them.

const BACKSLASH = 92;

// Where the strings in this part of a text of JSON begin; at the end, where one behind a comma would. Only commas stand between them.
function startsOf(text, from, end) {
  const starts = new Uint32Array(Math.floor((end - from + 1) / 3) + 1);
  let count = 0;
  let index = from;
  while (index < end) {
    starts[count] = index;
    count += 1;
    let close = text.indexOf('"', index + 1);
    while (isEscaped(text, close)) close = text.indexOf('"', close + 1);
    index = close + 2;
  }
  starts[count] = index;
  return starts.subarray(0, count + 1);
}

// Whether the quotation mark is one of the text itself: with an odd number of backslashes before it.
function isEscaped(text, mark) {
  let first = mark;
  while (text.charCodeAt(first - 1) === BACKSLASH) first -= 1;
  return (mark - first) % 2 === 1;
}
