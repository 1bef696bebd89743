// The picture: the overview, the ruler with ticks and alarms, rows, arrows, inputs, and the stack against its bound.

const MANY_ARROWS = 700;
const RULER = 22;
const CLOCK = 17;
const STACK = 84;
const STACK_ROOM = 1.24;
const OVERVIEW = 26;
const INPUT = 18;
const layout = placeRows();
const arrowReach = reachOf();
let areArrowsShown = true;
let chosenItem = -1;
let pointer = null;
let isAsked = false;
let drawTime = 0;

/** For each arrow the farthest end of those up to it, so that those that reach into sight are found. */
function reachOf() {
  const reach = new Uint32Array(arrows.length / 5);
  let farthest = 0;
  for (let at = 0; at < reach.length; at += 1) {
    farthest = Math.max(farthest, arrows[at * 5 + 3]);
    reach[at] = farthest;
  }
  return reach;
}

/** A round number of steps or bytes, not below one. */
function roundAbove(number) {
  const power = 10 ** Math.floor(Math.log10(Math.max(number, 1)));
  return [1, 2, 5, 10].map((part) => part * power).find((part) => part >= number);
}

/** The steps at the top, and the ticks and alarms below. */
function drawRuler() {
  const hasClock = ticks.length > 0 || alarms.length > 0;
  const context = wiped(element("ruler"), RULER + (hasClock ? CLOCK : 0));
  const apart = roundAbove((sight.steps * 76) / sight.width);
  const begin = Math.max(Math.ceil(sight.begin / apart), 0) * apart;
  for (let step = begin; step <= Math.min(sight.begin + sight.steps, runEnd); step += apart) {
    const place = placeOf(step);
    context.fillStyle = colours.line.text;
    context.fillRect(place, RULER - 7, 1, 7);
    context.fillStyle = colours.faint.text;
    const words = String(step);
    if (place + 5 + context.measureText(words).width < sight.width) context.fillText(words, place + 3, RULER / 2 - 1);
  }
  context.fillStyle = colours.line.text;
  context.fillRect(0, RULER - 1, sight.width, 1);
  if (hasClock) drawClock(context);
}

/** Ticks as strokes, with the time where there is room, and alarms as diamonds. */
function drawClock(context) {
  const last = firstAt(ticks, 1, 0, sight.begin + sight.steps);
  let drawnTo = -9;
  let writtenTo = -9;
  for (let tick = firstAt(ticks, 1, 0, sight.begin); tick < last; tick += 1) {
    if (ticks[tick + 1] === ticks[tick]) continue;
    const place = placeOf(ticks[tick]);
    if (place - drawnTo < 1) continue;
    context.fillStyle = colours.faint.text;
    context.fillRect(place, RULER + 1, 1, CLOCK - 2);
    drawnTo = place;
    if (place < writtenTo) continue;
    const words = "t=" + (tick + 1);
    context.fillText(words, place + 7, RULER + 9);
    writtenTo = place + context.measureText(words).width + 16;
  }
  drawAlarms(context);
}

/** Alarms as diamonds. */
function drawAlarms(context) {
  const last = firstAt(alarms, 1, 0, sight.begin + sight.steps);
  context.fillStyle = colours.alarm.text;
  let drawnTo = -9;
  for (let at = firstAt(alarms, 1, 0, sight.begin); at < last; at += 1) {
    const place = placeOf(alarms[at]);
    if (place - drawnTo < 1) continue;
    drawnTo = place;
    context.beginPath();
    context.moveTo(place, RULER + 3);
    context.lineTo(place + 4, RULER + 8);
    context.lineTo(place, RULER + 13);
    context.lineTo(place - 4, RULER + 8);
    context.fill();
  }
}

/** One arrow from a row's step to another's. */
function drawArrow(context, at) {
  const from = places.get(rows[arrows[at]]);
  const to = places.get(rows[arrows[at + 2]]);
  if (!from || !to) return;
  const left = placeOf(arrows[at + 1] + 0.5);
  const right = placeOf(arrows[at + 3] + 0.5);
  const down = to.middle >= from.middle;
  const begin = from.bar + (down ? BAR : 0);
  const end = to.bar + (down ? 0 : BAR);
  const bend = Math.max(Math.min((right - left) / 2, 60), 10);
  context.beginPath();
  context.moveTo(left, begin);
  const lean = down ? 12 : -12;
  context.bezierCurveTo(left + bend / 3, begin + lean, right - bend, end - lean, right - 1, end);
  context.stroke();
  context.beginPath();
  context.moveTo(right, end);
  context.lineTo(right - 6, end + (down ? -4.5 : 4.5));
  context.lineTo(right - 1.5, end + (down ? -7 : 7));
  context.fill();
  drawn.arrows += 1;
}

/** The arrows in sight, where they are few enough to be told apart; else how many there are. */
function drawArrows(context) {
  const end = sight.begin + sight.steps;
  const found = [];
  const from = areArrowsShown ? firstAt(arrowReach, 1, 0, sight.begin) : arrowReach.length;
  for (let at = from; at < arrowReach.length; at += 1) {
    if (arrows[at * 5 + 3] >= sight.begin && arrows[at * 5 + 1] < end) found.push(at * 5);
    if (found.length > MANY_ARROWS) break;
  }
  element("clock").dataset.arrows = found.length > MANY_ARROWS ? "More messages than can be drawn: come closer" : "";
  if (found.length > MANY_ARROWS) return;
  context.lineWidth = 1.3;
  context.globalAlpha = found.length > 120 ? 0.6 : 0.9;
  for (const at of found) {
    const isTimer = rows[arrows[at]].kind === "timer" || rows[arrows[at + 2]].kind === "timer";
    context.strokeStyle = context.fillStyle = colours[isTimer ? "armed" : "arrow"].text;
    drawArrow(context, at);
  }
  context.globalAlpha = 1;
}

/** The rows with all that stands in them. */
function drawRows() {
  const context = wiped(element("rows"), layout.height);
  drawLines(context);
  beginLanes(layout.lanes);
  for (const row of shownRows) fillRow(row);
  const strips = shownRows.flatMap((row) => {
    const { marks, pending, preempted, bar, sections } = places.get(row).strips;
    return [marks, pending, preempted, bar, ...sections];
  });
  putLanes(context, strips);
  for (const row of shownRows) {
    drawJobs(context, row);
    drawSections(context, row);
  }
  drawArrows(context);
  for (const row of shownRows) drawMarks(context, row);
  drawChosen(context, layout.height);
}

/** The chosen item's step, and the pointer's. */
function drawChosen(context, height) {
  if (chosenItem >= 0) {
    context.fillStyle = colours.chosen.text;
    context.fillRect(placeOf(itemSteps[chosenItem]), 0, 1.5, height);
  }
  if (pointer !== null) {
    context.fillStyle = colours.faint.text;
    context.fillRect(pointer, 0, 1, height);
  }
}

/** The values of inputs: a stroke at each take that finds one, and the value where there is room before the next. */
function drawInputs() {
  const context = wiped(element("inputs"), inputs.length * INPUT);
  inputs.forEach(({ found }, number) => {
    const top = number * INPUT;
    context.fillStyle = colours.line.text;
    context.fillRect(0, top, sight.width, 1);
    const last = firstAt(found, 2, 0, sight.begin + sight.steps);
    const first = Math.max(firstAt(found, 2, 0, sight.begin) - 1, 0);
    if (last - first > MANY_MARKS) return;
    for (let at = first; at < last; at += 1) {
      const place = placeOf(found[at * 2]);
      const next = Math.min(at * 2 + 2 < found.length ? placeOf(found[at * 2 + 2]) : sight.width, sight.width);
      const left = Math.max(place, 0) + 4;
      const words = String(found[at * 2 + 1]);
      context.fillStyle = colours.emit.text;
      if (place >= 0) context.fillRect(wholePixel(place), top + 3, 1.4, INPUT - 5);
      context.fillStyle = colours.ink.text;
      if (next - left > context.measureText(words).width) context.fillText(words, left, top + INPUT / 2 + 0.5);
      drawn.inputs += 1;
    }
  });
  drawChosen(context, inputs.length * INPUT);
}

const BLOCK = 32;
const stackBlocks = blocksOf();

/** The greatest and the least stack of each block of changes. */
function blocksOf() {
  const count = Math.ceil(stackChanges.length / 2 / BLOCK);
  const most = new Uint32Array(count);
  const least = new Uint32Array(count).fill(0xffffffff);
  for (let at = 0; at * 2 < stackChanges.length; at += 1) {
    const block = Math.floor(at / BLOCK);
    most[block] = Math.max(most[block], stackChanges[at * 2 + 1]);
    least[block] = Math.min(least[block], stackChanges[at * 2 + 1]);
  }
  return { most, least };
}

/** The greatest and the least stack of the changes from one to another, both counted. */
function stackOf(first, last) {
  let most = 0;
  let least = 0xffffffff;
  let at = first;
  while (at <= last) {
    const block = at / BLOCK;
    const isWhole = at % BLOCK === 0 && at + BLOCK - 1 <= last;
    most = Math.max(most, isWhole ? stackBlocks.most[block] : stackChanges[at * 2 + 1]);
    least = Math.min(least, isWhole ? stackBlocks.least[block] : stackChanges[at * 2 + 1]);
    at += isWhole ? BLOCK : 1;
  }
  return { most, least };
}

/** For each pixel in sight the greatest and the least stack in use; none before the run and behind it. */
function stackShares(across) {
  const steps = sight.steps / across;
  const shares = [];
  let first = Math.max(firstAt(stackChanges, 2, 0, sight.begin) - 1, 0);
  for (let pixel = 0; pixel < across; pixel += 1) {
    const begin = sight.begin + pixel * steps;
    let last = first;
    while ((last + 1) * 2 < stackChanges.length && stackChanges[(last + 1) * 2] < begin + steps) last += 1;
    shares.push(begin + steps <= 0 || begin >= runEnd ? null : stackOf(first, last));
    first = last;
  }
  return shares;
}

/** The stack in use, in bytes, against its bound. */
function drawStack() {
  const context = wiped(element("stack"), STACK);
  const top = Math.max(data.bound || 0, data.deepest, 1) * STACK_ROOM;
  const heightOf = (bytes) => STACK - 1 - (bytes / top) * (STACK - 12);
  const across = Math.round(sight.width * sight.ratio);
  const wide = 1 / sight.ratio;
  context.fillStyle = colours.stack.text;
  const shares = stackShares(across);
  for (const [name, alpha] of [["most", 0.4], ["least", 0.75]]) {
    context.globalAlpha = alpha;
    shares.forEach((share, pixel) => {
      if (share === null) return;
      const top = heightOf(share[name]);
      context.fillRect(pixel * wide, top, wide, STACK - top);
    });
  }
  context.globalAlpha = 1;
  if (data.bound !== null) {
    context.strokeStyle = colours.bad.text;
    context.setLineDash([5, 4]);
    context.beginPath();
    context.moveTo(0, heightOf(data.bound));
    context.lineTo(sight.width, heightOf(data.bound));
    context.stroke();
    context.setLineDash([]);
    context.fillStyle = colours.bad.text;
    context.textAlign = "right";
    context.fillText("bound " + data.bound, sight.width - 4, heightOf(data.bound) - 7);
    context.textAlign = "left";
  }
  context.fillStyle = colours.faint.text;
  context.fillText("stack in use", 4, 8);
  drawChosen(context, STACK);
}

/** Everything that is in sight, and how long it took by the page's clock. */
function draw() {
  isAsked = false;
  const begun = performance.now();
  drawRuler();
  drawRows();
  drawInputs();
  drawStack();
  drawOverview();
  drawTime = performance.now() - begun;
  const more = element("clock").dataset.arrows;
  element("clock").textContent = (more ? more + ". " : "") + "Drawn in " + drawTime.toFixed(1) + " ms.";
}

/** Draws before the next frame. */
function askDraw() {
  if (!isAsked) requestAnimationFrame(draw);
  isAsked = true;
}
