// Beside the picture: the overview, the names of rows, the tip at the pointer, the lines of the output, and finding.

const LINES_AROUND = 8;
const overviewShares = { across: 0, shares: null };
let finding = { words: "", items: [] };

/** For each pixel of the whole run the share of its steps in which a handler ran. */
function wholeShares(across) {
  const shares = new Float32Array(across + 1);
  const scale = across / runEnd;
  const add = (spans) => {
    for (let at = 0; at < spans.length; at += 2) {
      const from = spans[at] * scale;
      const to = spans[at + 1] * scale;
      for (let pixel = Math.floor(from); pixel <= Math.min(Math.floor(to), across - 1); pixel += 1) {
        shares[pixel] += Math.min(to, pixel + 1) - Math.max(from, pixel);
      }
    }
  };
  for (const row of rows.filter((each) => each.kind !== "thread")) {
    add(row.running);
    add(row.serving);
  }
  return shares;
}

/** The whole run as one strip, and what of it is in sight. */
function drawOverview() {
  const context = wiped(element("overview"), OVERVIEW);
  const across = Math.round(sight.width * sight.ratio);
  if (overviewShares.across !== across) {
    overviewShares.across = across;
    overviewShares.shares = wholeShares(across);
  }
  const wide = 1 / sight.ratio;
  context.fillStyle = colours.running.text;
  for (let pixel = 0; pixel < across; pixel += 1) {
    const share = Math.min(overviewShares.shares[pixel], 1);
    if (share > 0) context.fillRect(pixel * wide, (OVERVIEW - 3) * (1 - share), wide, (OVERVIEW - 3) * share);
  }
  const left = Math.max((sight.begin / runEnd) * sight.width, 0);
  const right = Math.min(((sight.begin + sight.steps) / runEnd) * sight.width, sight.width);
  context.strokeStyle = colours.chosen.text;
  context.lineWidth = 2;
  context.strokeRect(left + 1, 1, Math.max(right - left - 2, 2), OVERVIEW - 4);
}

/** A piece of the page with words and a class. */
function piece(kind, words, name) {
  const made = document.createElement(kind);
  made.textContent = words;
  if (name) made.className = name;
  return made;
}

/** The names of the rows, at the height of their bars, with the interrupt and the priority beside. */
function writeNames() {
  const names = element("names");
  const above = OVERVIEW + RULER + (ticks.length > 0 || alarms.length > 0 ? CLOCK : 0);
  names.replaceChildren();
  const label = (top, height, name, more) => {
    const made = piece("div", "", height < BAR + 18 ? "name small" : "name");
    made.style.top = top + "px";
    made.style.height = height + "px";
    made.append(piece("b", name), piece("span", more));
    made.title = [name, more].filter(Boolean).join(" ");
    names.append(made);
  };
  label(OVERVIEW, RULER, "core step", "");
  if (ticks.length > 0 || alarms.length > 0) label(OVERVIEW + RULER, CLOCK, "ticks, alarms", "");
  for (const row of shownRows) {
    const { bar } = places.get(row);
    const served = row.interrupt !== null && row.interrupt !== row.name ? row.interrupt : "";
    const more = [served, row.kind !== "thread" && row.priority !== null ? "priority " + row.priority : "",
      row.load !== null ? "load " + row.load : ""];
    label(above + bar - 9, BAR + 18, row.name, more.filter(Boolean).join(", "));
  }
  const bound = data.bound !== null ? " of " + data.bound : "";
  inputs.forEach(({ name, row }, number) => {
    label(above + layout.height + number * INPUT, INPUT, name, "input of " + rows[row].name);
  });
  label(above + layout.height + inputs.length * INPUT, STACK, "stack", data.deepest + bound + " bytes");
}

/** An entry of the legend: a patch of a colour, or a sign in it, and what it means. */
function legendEntry(colour, words, sign) {
  const entry = piece("li", words);
  const swatch = piece("i", sign || "", sign ? "sign" : "swatch");
  swatch.style[sign ? "color" : "background"] = `var(--${colour})`;
  entry.prepend(swatch);
  element("legend").append(entry);
}

/** What the colours and signs of this run mean. */
function writeLegend() {
  const bars = [["running", "runs"], ["serving", "its dispatcher"], ["preempted", "preempted"],
    ["pending", "pending"], ["queue", "section of a queue"], ["arrow", "message"], ["armed", "armed message"]];
  const absent = new Set(alarms.length > 0 ? [] : ["armed"]);
  if (arrows.length === 0) absent.add("arrow");
  if (!rows.some((row) => row.serving.length > 0)) absent.add("serving");
  if (!data.locks.some((lock) => lock.name.includes("."))) absent.add("queue");
  for (const [colour, words] of bars.filter(([each]) => !absent.has(each))) legendEntry(colour, words);
  const kinds = new Set(rows.flatMap((row) => Array.from(row.marks.filter((_, at) => at % 3 === 1))));
  LEGEND_MARKS.filter(([kind]) => kinds.has(kind)).forEach(([kind, words, sign]) => {
    legendEntry(MARK_COLOURS[kind], words, sign);
  });
  if (alarms.length > 0) legendEntry("alarm", "alarm", "\u25c6");
  if (data.bound !== null) legendEntry("bad", "stack bound", "\u2508");
  data.locks.filter((lock) => !lock.name.includes(".")).forEach((lock, number) => {
    legendEntry(`lock${number % 8}`, "lock " + lock.name);
  });
}

/** Chooses an item: its line stands below, with those around it, and a line in the picture. */
function choose(item, isToShow) {
  if (data.items === 0) return;
  chosenItem = Math.min(Math.max(item, 0), data.items - 1);
  const line = data.first + chosenItem;
  const all = element("lines");
  all.replaceChildren();
  const last = lineBegins.length - 2;
  for (let at = Math.max(line - LINES_AROUND, 0); at <= Math.min(line + LINES_AROUND, last); at += 1) {
    const made = piece("span", String(at + 1).padStart(8) + "  " + lineText(at) + "\n", at === line ? "here" : "");
    if (at >= data.first && at < data.first + data.items) made.dataset.item = at - data.first;
    all.append(made);
  }
  element("chosen").textContent = `Line ${line + 1}, item ${chosenItem + 1} of ${data.items}: ${lineText(line)}`;
  if (isToShow) showStep(itemSteps[chosenItem]);
  else askDraw();
}

/** The row at a height of the picture, or none. */
function rowAt(height) {
  return shownRows.find((row) => {
    const place = places.get(row);
    return height >= place.top && height < place.top + place.height;
  });
}

/** The item nearest to a place: of the row there is one within a few pixels, else of any row. */
function itemAt(place, height) {
  const step = stepAt(place);
  const row = rows.indexOf(rowAt(height));
  const reach = (7 * sight.steps) / sight.width;
  const first = firstAt(itemSteps, 1, 0, Math.max(step - reach - 1, 0));
  let best = Math.max(firstAt(itemSteps, 1, 0, Math.max(step, 0) + 1e-9) - 1, 0);
  let least = Infinity;
  for (let item = first; item < data.items && itemSteps[item] <= step + reach && item < first + 5000; item += 1) {
    const apart = Math.abs(itemSteps[item] + 0.5 - step);
    if (itemRows[item] === row && apart < least) {
      least = apart;
      best = item;
    }
  }
  return best;
}

/** The items that have these words one after the other; with a number first, those of that step. */
function itemsWith(words) {
  const found = [];
  const isStep = /^\d/.test(words);
  const end = lineBegins[data.first + data.items];
  let at = text.indexOf(words, lineBegins[data.first]);
  while (at >= 0 && at < end) {
    const line = firstAt(lineBegins, 1, 0, at + 1) - 1;
    const before = at === lineBegins[line] ? "\n" : text[at - 1];
    const isWhole = !(text.charCodeAt(at + words.length) > 32);
    if (isWhole && before === (isStep ? "\n" : " ")) found.push(line - data.first);
    at = text.indexOf(words, isWhole ? lineBegins[line + 1] : at + 1);
  }
  return found;
}

/** Finds the next item with the words, or the one before. */
function find(words, isBack) {
  const trimmed = words.trim().replace(/\s+/g, " ");
  if (trimmed === "") return;
  if (finding.words !== trimmed) finding = { words: trimmed, items: itemsOf(trimmed) };
  const { items } = finding;
  if (items.length === 0) {
    element("found").textContent = "none";
    return;
  }
  let number = isBack ? firstAt(items, 1, 0, chosenItem) - 1 : firstAt(items, 1, 0, chosenItem + 1);
  number = (number + items.length) % items.length;
  element("found").textContent = `${number + 1} of ${items.length}`;
  choose(items[number], true);
}

/** The items that are meant: those with the words, or for a number the first item at or after that step. */
function itemsOf(words) {
  const items = itemsWith(words);
  if (items.length > 0 || !/^\d+$/.test(words)) return items;
  return [Math.min(firstAt(itemSteps, 1, 0, Number(words)), data.items - 1)];
}

/** What stands in the tip: the step, and the job of the row there. */
function tipWords(place, height) {
  const step = Math.floor(stepAt(place));
  if (step < 0 || step >= runEnd) return "";
  const row = rowAt(height);
  const lines = ["step " + step];
  if (row) {
    const job = firstAt(row.jobs, 3, 0, step + 1) - 1;
    lines.push(row.name + (row.interrupt && row.interrupt !== row.name ? ` (${row.interrupt})` : ""));
    if (job >= 0 && row.jobs[job * 3 + 1] > step) {
      const [begin, end] = row.jobs.slice(job * 3, job * 3 + 2);
      const own = layersOf(row).bar.reduce((sum, layer) => sum + coveredBetween(layer, begin, end), 0);
      lines.push(`from ${begin} to ${end - 1}: ${end - begin} steps, ${own} of them its own`);
      for (const { lock, spans } of row.sections) {
        const at = firstAt(spans, 2, 1, step + 1);
        if (at * 2 < spans.length && spans[at * 2] <= step) lines.push("inside " + data.locks[lock].name);
      }
    }
  }
  return lines.join("\n");
}
