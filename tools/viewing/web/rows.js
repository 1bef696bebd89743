// The rows: a task each, with what waits above its bar and its sections below.

const MARKS = 13;
const PENDING = 3;
const BAR = 15;
const DEPTH = 11;
const GAP = 7;
const MANY_MARKS = 300;
const MANY_JOBS = 400;
const MERGED = 6;
const drawn = { jobs: 0, marks: 0, arrows: 0, sections: 0, inputs: 0 };
const places = new Map();

/** Where each row stands: its top, its bar's top, and the strips of its lanes. */
function placeRows() {
  let top = 2;
  let lane = 0;
  for (const row of shownRows) {
    const bar = top + MARKS + PENDING + 1;
    const strips = {
      marks: { lane: lane, top: top + MARKS - 8, height: 6 },
      pending: { lane: lane + 1, top: top + MARKS, height: PENDING },
      preempted: { lane: lane + 2, top: bar + 5, height: BAR - 10 },
      bar: { lane: lane + 3, top: bar, height: BAR },
      sections: Array.from({ length: row.depths }, (_, depth) => (
        { lane: lane + 4 + depth, top: bar + BAR + 1 + depth * DEPTH, height: DEPTH - 1 })),
    };
    lane += 4 + row.depths;
    const height = MARKS + PENDING + BAR + 1 + row.depths * DEPTH + GAP;
    places.set(row, { top, bar, middle: bar + BAR / 2, height, strips });
    top += height;
  }
  return { height: top, lanes: lane };
}

/** Whether a row is the thread's that waits, where there is no `idle`. */
function isWaiting(row) {
  return row.kind === "thread" && row.name === "the thread";
}

/** The layers of a row's lanes, made once. */
function layersOf(row) {
  if (!row.layers) {
    row.layers = {
      pending: [layerOf(row.pending, "pending")],
      preempted: [layerOf(row.preempted, "preempted")],
      bar: [layerOf(row.serving, "serving"), layerOf(row.running, isWaiting(row) ? "waiting" : "running")],
      sections: row.sections.map((layer) => layerOf(layer.spans, lockColours[layer.lock])),
    };
  }
  return row.layers;
}

/** Fills the lanes of a row. */
function fillRow(row) {
  const { strips } = places.get(row);
  const layers = layersOf(row);
  fillMarks(row);
  for (const name of ["pending", "preempted", "bar"]) fillLane(strips[name], layers[name]);
  strips.sections.forEach((strip, depth) => {
    fillLane(strip, layers.sections.filter((_, number) => row.sections[number].depth === depth));
  });
}

/** The lines between the rows. */
function drawLines(context) {
  context.fillStyle = colours.line.text;
  for (const row of shownRows) {
    const place = places.get(row);
    context.fillRect(0, place.top + place.height - 4, sight.width, 1);
  }
}

/** A place moved to the next pixel's edge. */
function wholePixel(place) {
  return Math.round(place * sight.ratio) / sight.ratio;
}

/** A thin gap before each job, where there is room, so that each run of a task is told from the next. */
function drawJobs(context, row) {
  const { bar } = places.get(row);
  const end = sight.begin + sight.steps;
  const first = firstAt(row.jobs, 3, 0, sight.begin);
  const last = firstAt(row.jobs, 3, 0, end);
  if (last - first > MANY_JOBS) return;
  context.fillStyle = colours.paper.text;
  for (let job = first; job < last; job += 1) {
    const place = placeOf(row.jobs[job * 3]);
    if (place > 0) context.fillRect(wholePixel(place), bar, 1, BAR);
    drawn.jobs += 1;
  }
}

/** The names of sections, where they are wide enough. */
function drawSections(context, row) {
  context.font = "9px " + sight.font;
  for (const { depth, lock, spans } of row.sections) {
    const strip = places.get(row).strips.sections[depth];
    const first = firstAt(spans, 2, 1, sight.begin);
    const last = firstAt(spans, 2, 0, sight.begin + sight.steps);
    if (last - first > MANY_JOBS) continue;
    const { name } = data.locks[lock];
    const wide = context.measureText(name).width + 6;
    context.fillStyle = colours.paper.text;
    for (let at = first; at < last; at += 1) {
      const left = Math.max(placeOf(spans[at * 2]), 0);
      const room = Math.min(placeOf(spans[at * 2 + 1]), sight.width) - left;
      if (room > 3 && left > 0) context.fillRect(wholePixel(left), strip.top, 1, strip.height);
      if (room >= wide) context.fillText(name, left + 3, strip.top + strip.height / 2 + 0.5);
      drawn.sections += 1;
    }
  }
}

/** The sign of a mark, at a place above its row's bar. */
function drawSign(context, kind, place, top) {
  const middle = top + MARKS - 4;
  context.beginPath();
  if (kind === 0) {
    context.fillStyle = colours.emit.text;
    context.arc(place, middle, 2.5, 0, 7);
    context.fill();
  } else if (kind === 3 || kind === MERGED) {
    context.fillStyle = context.strokeStyle = colours[MARK_COLOURS[kind]].text;
    context.lineWidth = 1.4;
    context.moveTo(place - 3, middle - 3);
    context.lineTo(place + 3, middle - 3);
    context.lineTo(place, middle + 4);
    context.closePath();
    if (kind === 3) context.fill();
    else context.stroke();
  } else {
    context.strokeStyle = colours[kind < 3 ? "bad" : "armed"].text;
    context.lineWidth = 1.6;
    context.moveTo(place - 3, middle - 3);
    context.lineTo(place + 3, middle + 3);
    if (kind < 5) context.moveTo(place + 3, middle - 3);
    if (kind < 5) context.lineTo(place - 3, middle + 3);
    context.stroke();
  }
}

const MARK_COLOURS = ["emit", "bad", "bad", "arrival", "armed", "armed", "bad"];
const SAID = ["", "full", "trap", "", "cancel", "move", "merged"];
const LEGEND_MARKS = [[3, "request", "\u25bc"], [MERGED, "request that is merged", "\u25bd"], [0, "emit", "\u25cf"],
  [1, "full: no place for a message", "\u2715"], [2, "trap", "\u2715"], [4, "cancel", "\u2715"],
  [5, "move", "\u2572"]];

/** The words beside a mark: an emitted value, or what happened. */
function markWords(kind, line) {
  return kind === 0 ? lineText(line).split(" ")[2] : SAID[kind];
}

/** The marks of a row in sight: the numbers of the first and of the one behind the last. */
function marksInSight(row) {
  return [firstAt(row.marks, 3, 0, sight.begin), firstAt(row.marks, 3, 0, sight.begin + sight.steps)];
}

/** Where a row has many marks in sight, each pixel that has some has the colour of its first. */
function fillMarks(row) {
  const [first, last] = marksInSight(row);
  if (last - first <= MANY_MARKS) return;
  const steps = sight.steps / lanes.across;
  let at = first;
  for (let pixel = 0; pixel < lanes.across && at < last; pixel += 1) {
    const end = sight.begin + (pixel + 1) * steps;
    if (row.marks[at * 3] >= end) continue;
    addShare(pixel, 1, colours[MARK_COLOURS[row.marks[at * 3 + 1]]].parts);
    at = firstAt(row.marks, 3, 0, end);
  }
  endLane(places.get(row).strips.marks.lane);
}

/** The marks of a row in sight, where they are few, with their words where there is room before the next. */
function drawMarks(context, row) {
  const [first, last] = marksInSight(row);
  if (last - first > MANY_MARKS) return;
  const { top } = places.get(row);
  context.font = "10px " + sight.font;
  let next = sight.width + 40;
  const merged = [];
  for (let at = last - 1; at >= first; at -= 1) {
    const kind = row.marks[at * 3 + 1];
    const place = placeOf(row.marks[at * 3] + (kind === 3 || kind === MERGED ? 0 : 0.5));
    if (kind === MERGED) merged.push(place);
    else drawSign(context, kind, place, top);
    const words = markWords(kind, row.marks[at * 3 + 2]);
    if (words && next - place > 9 + context.measureText(words).width) {
      context.fillStyle = colours.ink.text;
      context.fillText(words, place + 5, top + MARKS - 5);
    }
    next = place - 4;
    drawn.marks += 1;
  }
  // They may stand at the step of the request before, and are to be seen there.
  for (const place of merged) drawSign(context, MERGED, place, top);
}
