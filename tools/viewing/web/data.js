// What the page is told: the text of the output, its items, and what was followed in them.

const data = JSON.parse(document.getElementById("data").textContent);
const text = document.getElementById("output").textContent;
const element = (name) => document.getElementById(name);

/** Words of 32 bits from base64, the lowest byte first; with `short`, of 16 bits. */
function numbersOf(base, short) {
  const letters = atob(base);
  const bytes = new Uint8Array(letters.length);
  for (let at = 0; at < letters.length; at += 1) bytes[at] = letters.charCodeAt(at);
  return short ? new Uint16Array(bytes.buffer) : new Uint32Array(bytes.buffer);
}

/** Where each line begins in the text; one more for the end. */
function linesOf() {
  const begins = [];
  let at = 0;
  while (at <= text.length) {
    begins.push(at);
    const next = text.indexOf("\n", at);
    if (next < 0) break;
    at = next + 1;
  }
  begins.push(text.length + 1);
  return Uint32Array.from(begins);
}

/** The step of each item: the digits that begin its line. */
function stepsOf(begins) {
  const steps = new Uint32Array(data.items);
  for (let item = 0; item < data.items; item += 1) {
    let step = 0;
    for (let at = begins[data.first + item]; ; at += 1) {
      const digit = text.charCodeAt(at) - 48;
      if (digit < 0 || digit > 9) break;
      step = step * 10 + digit;
    }
    steps[item] = step;
  }
  return steps;
}

/** A row with its lists as numbers. */
function rowOf(row) {
  for (const name of ["running", "serving", "preempted", "pending", "jobs"]) row[name] = numbersOf(row[name]);
  for (const layer of row.sections) layer.spans = numbersOf(layer.spans);
  row.depths = 1 + Math.max(-1, ...row.sections.map((layer) => layer.depth));
  return row;
}

/** The marks of each row, three numbers each: step, kind and line. */
function marksOf(all) {
  const lists = data.rows.map(() => []);
  for (let at = 0; at < all.length; at += 4) lists[all[at + 1]].push(all[at], all[at + 2], all[at + 3]);
  return lists.map((list) => Uint32Array.from(list));
}

const lineBegins = linesOf();
const itemSteps = stepsOf(lineBegins);
const itemRows = numbersOf(data.itemRows, true);
const rows = data.rows.map(rowOf);
const shownRows = data.order.map((number) => rows[number]);
marksOf(numbersOf(data.marks)).forEach((list, number) => { rows[number].marks = list; });
const arrows = numbersOf(data.arrows);
const stackChanges = numbersOf(data.stack);
const ticks = numbersOf(data.ticks);
const alarms = numbersOf(data.alarms);
const inputs = data.inputs.map((input) => ({ ...input, found: numbersOf(input.found) }));
const runEnd = Math.max(data.end, 1);

/** The text of a line, counted from 0. */
function lineText(line) {
  return text.slice(lineBegins[line], lineBegins[line + 1] - 1);
}

/** The text of an item. */
function itemText(item) {
  return lineText(data.first + item);
}

/** The first part of a list, of `stride` numbers each, whose number at `field` is not below a value. */
function firstAt(list, stride, field, value) {
  let low = 0;
  let high = list.length / stride;
  while (low < high) {
    const middle = (low + high) >> 1;
    if (list[middle * stride + field] < value) low = middle + 1;
    else high = middle;
  }
  return low;
}
