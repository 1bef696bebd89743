// A check of the page by itself, asked for by #check in the address: what was drawn, read from the pixels of the
// picture, and how long drawing takes by the page's clock. The figures are written into the page as JSON.

const faults = [];
window.addEventListener("error", (event) => faults.push(event.message));

/** Whether a pixel of the rows, at a place and a height, is painted. */
function isPainted(context, place, height) {
  const { ratio } = sight;
  const at = context.getImageData(Math.floor(place * ratio), Math.floor(height * ratio), 1, 1).data;
  const { parts } = colours.paper;
  const near = Math.abs(at[0] - parts[0]) + Math.abs(at[1] - parts[1]) + Math.abs(at[2] - parts[2]) < 12;
  return at[3] > 40 && !near;
}

/** The step at which what is painted at a height begins or ends, followed through the pixels from inside. */
function edgeOf(height, step, direction) {
  const inside = direction < 0 ? step + 0.5 : step - 0.5;
  look(inside - 10, 20);
  draw();
  const context = element("rows").getContext("2d");
  let place = placeOf(inside) + (direction < 0 ? 3 : -3);
  if (!isPainted(context, place, height)) return -1;
  while (place > 0 && place < sight.width - 1 && isPainted(context, place, height)) place += direction;
  return Math.round(stepAt(place));
}

/** Ten of a list, spread over it. */
function tenOf(list) {
  const number = Math.min(list.length, 10);
  return Array.from({ length: number }, (_, each) => list[Math.floor((each * list.length) / number)]);
}

/** Ten jobs, spread over the run: their rows, and where their bars begin and end in the picture. */
function tenJobs() {
  const all = [];
  for (const row of shownRows.filter((each) => each.kind !== "thread")) {
    for (let at = 0; at < row.jobs.length; at += 3) all.push({ row, begin: row.jobs[at], end: row.jobs[at + 1] });
  }
  all.sort((one, other) => one.begin - other.begin);
  return tenOf(all).map(({ row, begin, end }) => {
    const { middle } = places.get(row);
    return { interrupt: row.interrupt, begin: edgeOf(middle, begin, -1), end: edgeOf(middle, end, 1) };
  });
}

/** Ten sections, spread over rows and the run: their names, and where they begin and end in the picture. */
function tenSections() {
  const all = [];
  for (const row of shownRows) {
    for (const { depth, lock, spans } of row.sections) {
      for (let at = 0; at < spans.length; at += 2) all.push({ row, depth, lock, begin: spans[at], end: spans[at + 1] });
    }
  }
  areArrowsShown = false;
  const found = tenOf(all).map(({ row, depth, lock, begin, end }) => {
    const strip = places.get(row).strips.sections[depth];
    const height = strip.top + strip.height - 1.5;
    return { name: data.locks[lock].name, begin: edgeOf(height, begin, -1), end: edgeOf(height, end, 1) };
  });
  areArrowsShown = true;
  return found;
}

/** At ten changes of the stack, spread over the run, the bytes that the picture shows, and what a pixel stands for. */
function tenDepths() {
  const top = Math.max(data.bound || 0, data.deepest, 1) * STACK_ROOM;
  const pixel = top / (STACK - 12) / sight.ratio;
  const changes = Array.from({ length: stackChanges.length / 2 }, (_, at) => stackChanges[at * 2]);
  return tenOf(changes).map((step) => {
    look(step - 10, 20);
    draw();
    const context = element("stack").getContext("2d");
    let height = STACK * sight.ratio - 1;
    const column = Math.floor(placeOf(step + 0.5) * sight.ratio);
    while (height > 0 && context.getImageData(column, height, 1, 1).data[3] > 60) height -= 1;
    return { step, bytes: (STACK * sight.ratio - 1 - height - 1) * pixel, pixel };
  });
}

/** How many jobs of each interrupt are drawn, piece by piece, and how many arrows and marks of the whole run. */
function countDrawn() {
  const jobs = {};
  const steps = Math.max(runEnd / 60, Math.min(runEnd, 400));
  for (let begin = 0; begin < runEnd; begin += steps) {
    sight.begin = begin;
    sight.steps = Math.min(steps, runEnd - begin);
    for (const row of shownRows) {
      drawn.jobs = 0;
      drawJobs(element("rows").getContext("2d"), row);
      jobs[row.interrupt || row.name] = (jobs[row.interrupt || row.name] || 0) + drawn.jobs;
    }
  }
  lookWhole();
  drawn.arrows = drawn.marks = drawn.inputs = 0;
  drawRows();
  drawInputs();
  return { jobs, arrows: drawn.arrows, marks: drawn.marks, inputs: drawn.inputs };
}

/** Ten items, spread over the run: a click where one stands, and the line that is shown then. */
function tenClicks() {
  return tenOf(Array.from({ length: data.items }, (_, item) => item)).map((item) => {
    const row = rows[itemRows[item]];
    showStep(itemSteps[item]);
    const height = places.has(row) ? places.get(row).middle : -1;
    choose(itemAt(placeOf(itemSteps[item] + 0.5), height), false);
    return { step: itemSteps[item], said: element("chosen").textContent };
  });
}

/** Whether the upper edge of the sign of a request at a step is drawn in red, as that of a merged one is. */
function isRedAt(row, step) {
  look(step - 10, 20);
  draw();
  const height = (places.get(row).top + MARKS - 7) * sight.ratio;
  const place = placeOf(step) * sight.ratio;
  const [red, green] = element("rows").getContext("2d").getImageData(Math.floor(place), Math.floor(height), 1, 1).data;
  return red - green > 40;
}

/** The requests by their kind: how many there are, and of up to ten the colours, for steps that have one kind alone. */
function requestSigns() {
  const found = { arrived: 0, merged: 0, red: 0, looked: 0, redArrived: 0 };
  areArrowsShown = false;
  for (const row of shownRows) {
    const all = Array.from({ length: row.marks.length / 3 }, (_, at) => [row.marks[at * 3], row.marks[at * 3 + 1]]);
    const merged = all.filter(([, kind]) => kind === MERGED).map(([step]) => step);
    const arrived = all.filter(([step, kind]) => kind === 3 && !merged.includes(step)).map(([step]) => step);
    found.arrived += all.filter(([, kind]) => kind === 3).length;
    found.merged += merged.length;
    found.looked += tenOf(merged).length;
    found.red += tenOf(merged).filter((step) => isRedAt(row, step)).length;
    found.redArrived += tenOf(arrived).filter((step) => isRedAt(row, step)).length;
  }
  areArrowsShown = true;
  return found;
}

/** Finds the words of the last item. */
function findLast() {
  const words = itemText(data.items - 1).split(" ").slice(1).join(" ");
  chosenItem = data.items - 2;
  find(words, false);
  return { words, said: element("chosen").textContent, found: element("found").textContent };
}

/** Sends an event to a part of the page, at a place of it. */
function send(target, kind, name, more) {
  const box = target.getBoundingClientRect ? target.getBoundingClientRect() : { left: 0, top: 0 };
  const { place = 0, height = 0, ...rest } = more;
  const at = { clientX: box.left + place, clientY: box.top + height, bubbles: true, cancelable: true };
  target.dispatchEvent(new kind(name, { ...at, ...rest }));
}

/** What the wheel, a drag, a click, keys, the search and the buttons do, each told by what has changed. */
function tryHands() {
  const canvas = element("rows");
  const middle = sight.width / 2;
  const key = (name) => send(document, KeyboardEvent, "keydown", { key: name });
  const changes = (read, act) => { const before = read(); act(); return before !== read(); };
  const drag = (far) => {
    send(canvas, PointerEvent, "pointerdown", { place: middle, height: 9 });
    send(canvas, PointerEvent, "pointermove", { place: middle + far, height: 9 });
    send(canvas, PointerEvent, "pointerup", { place: middle + far, height: 9 });
  };
  lookWhole();
  const hands = {};
  hands.wheel = changes(() => sight.steps, () => send(canvas, WheelEvent, "wheel", { place: middle, deltaY: -700 }));
  hands.sideways = changes(() => sight.begin, () => send(canvas, WheelEvent, "wheel", { place: middle, deltaX: 40 }));
  hands.drag = changes(() => sight.begin, () => drag(60));
  chosenItem = -1;
  hands.click = changes(() => chosenItem, () => drag(0));
  hands.tip = !element("tip").hidden && element("tip").textContent.startsWith("step ");
  hands.next = changes(() => chosenItem, () => key("."));
  hands.key = changes(() => sight.steps, () => key("0"));
  hands.arrows = changes(() => areArrowsShown, () => key("a"));
  key("a");
  hands.closer = changes(() => sight.steps, () => element("closer").click());
  hands.whole = changes(() => sight.steps, () => element("whole").click());
  element("wanted").value = itemText(0).split(" ").slice(1).join(" ");
  hands.search = changes(() => element("found").textContent, () => element("search").requestSubmit());
  hands.overview = changes(() => sight.begin, () => {
    zoom(8, 0);
    send(element("overview"), PointerEvent, "pointerdown", { place: sight.width * 0.9, height: 9 });
  });
  send(element("overview"), PointerEvent, "pointerup", { place: sight.width * 0.9, height: 9 });
  send(canvas, PointerEvent, "pointerleave", {});
  hands.theme = changes(() => colours.paper.text, () => element("theme").click());
  element("theme").click();
  return hands;
}

/** The longest time of a redraw, over places and widths: issued, and with the pixels read back. */
function timeDraws() {
  let longest = 0;
  let longestRead = 0;
  const widths = [1.04, 0.5, 0.1, 0.01, 0.001].map((part) => runEnd * part);
  for (const steps of widths) {
    for (const part of [0, 0.31, 0.62, 0.9]) {
      look(part * (runEnd - steps), steps);
      const begun = performance.now();
      draw();
      longest = Math.max(longest, performance.now() - begun);
      element("rows").getContext("2d").getImageData(0, 0, 1, 1);
      longestRead = Math.max(longestRead, performance.now() - begun);
    }
  }
  return { longest, longestRead };
}

/** Makes the check, and writes its figures. */
function check() {
  const opened = performance.now();
  const root = document.documentElement;
  const figures = { width: window.innerWidth, ratio: sight.ratio, across: sight.width, opened };
  figures.fits = root.scrollWidth <= root.clientWidth;
  figures.paper = getComputedStyle(document.body).backgroundColor;
  figures.items = data.items;
  figures.counts = countDrawn();
  figures.ten = tenJobs();
  figures.sections = tenSections();
  figures.depths = tenDepths();
  figures.signs = requestSigns();
  figures.legend = Array.from(element("legend").children, (entry) => entry.textContent);
  figures.names = element("names").textContent;
  figures.clicks = tenClicks();
  figures.last = findLast();
  figures.hands = tryHands();
  figures.times = timeDraws();
  lookWhole();
  draw();
  figures.faults = faults;
  const checked = element("checked");
  checked.textContent = JSON.stringify(figures);
  checked.hidden = false;
}
