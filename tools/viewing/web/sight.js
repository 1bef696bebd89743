// What is in sight: from which step on, how many steps, and how wide the picture is; and the colours.

const sight = { begin: 0, steps: runEnd, width: 0, ratio: 1, font: "sans-serif" };
const drawing = { willReadFrequently: location.hash.includes("check") };
const FEWEST = 8;
let colours = {};

/** The place of a step, in pixels from the left of the picture. */
function placeOf(step) {
  return ((step - sight.begin) * sight.width) / sight.steps;
}

/** The step at a place. */
function stepAt(place) {
  return sight.begin + (place * sight.steps) / sight.width;
}

/** Sees so many steps from one on, within the run and a little around it. */
function look(begin, steps) {
  const most = runEnd * 1.04 + 2;
  sight.steps = Math.min(Math.max(steps, Math.min(FEWEST, most)), most);
  const around = sight.steps * 0.02;
  sight.begin = Math.min(Math.max(begin, -around), Math.max(runEnd + around - sight.steps, -around));
  askDraw();
}

/** Sees the whole run. */
function lookWhole() {
  look(-runEnd * 0.02, runEnd * 1.04);
}

/** Comes closer by a factor, or goes farther by one below 1; the step at a place stays there. */
function zoom(factor, place) {
  const step = stepAt(place);
  const steps = Math.min(Math.max(sight.steps / factor, FEWEST), runEnd * 1.04 + 2);
  look(step - (place * steps) / sight.width, steps);
}

/** Moves by a part of what is in sight. */
function move(part) {
  look(sight.begin + sight.steps * part, sight.steps);
}

/** Brings a step into the middle, close enough to tell steps apart. */
function showStep(step) {
  const steps = Math.min(sight.steps, Math.max(sight.width / 5, 40));
  const inside = step > sight.begin + sight.steps * 0.1 && step < sight.begin + sight.steps * 0.9;
  if (inside && steps === sight.steps) askDraw();
  else look(step - steps / 2, steps);
}

/** The colours of the style, as text and as red, green and blue. */
function readColours() {
  const style = getComputedStyle(document.documentElement);
  const names = ["paper", "ink", "faint", "line", "running", "waiting", "serving", "preempted", "pending", "queue",
    "arrow", "armed", "emit", "bad", "stack", "chosen", "alarm", "arrival",
    "lock0", "lock1", "lock2", "lock3", "lock4", "lock5", "lock6", "lock7"];
  sight.font = getComputedStyle(document.body).fontFamily;
  colours = {};
  for (const name of names) {
    const value = style.getPropertyValue("--" + name).trim();
    const parts = [1, 3, 5].map((at) => parseInt(value.slice(at, at + 2), 16));
    colours[name] = { text: value, parts };
  }
}

const lockColours = data.locks.map((lock, number) => {
  const before = data.locks.slice(0, number).filter((other) => !other.name.includes(".")).length;
  return lock.name.includes(".") ? "queue" : "lock" + (before % 8);
});

/** A canvas of so many pixels high, as wide as the picture, wiped. */
function wiped(canvas, height) {
  const { width, ratio } = sight;
  const across = Math.round(width * ratio);
  const down = Math.round(height * ratio);
  if (canvas.width !== across || canvas.height !== down) {
    canvas.width = across;
    canvas.height = down;
    canvas.style.height = height + "px";
  }
  const context = canvas.getContext("2d", drawing);
  context.setTransform(ratio, 0, 0, ratio, 0, 0);
  context.clearRect(0, 0, width, height);
  context.font = "11px " + sight.font;
  context.textBaseline = "middle";
  return context;
}
