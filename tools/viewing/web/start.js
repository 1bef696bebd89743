// Sets the page up, and follows the wheel, the pointer and the keys.

/** Takes the width that there is, and draws anew. */
function measure() {
  sight.width = Math.max(element("pictures").clientWidth, 50);
  sight.ratio = Math.min(window.devicePixelRatio || 1, 3);
  for (const name of ["overview", "ruler", "rows", "inputs", "stack"]) element(name).style.width = sight.width + "px";
  draw();
  writeNames();
}

/** Goes over to the other of light and dark. */
function turnTheme(name) {
  const root = document.documentElement;
  const own = matchMedia("(prefers-color-scheme: dark)").matches ? "dark" : "light";
  const isDark = (root.dataset.theme || own) === "dark";
  root.dataset.theme = name || (isDark ? "light" : "dark");
  readColours();
  askDraw();
}

/** Follows the wheel: closer or farther at the pointer; sideways, or with Shift, it moves. */
function followWheel(event) {
  event.preventDefault();
  const sideways = event.shiftKey ? event.deltaY || event.deltaX : event.deltaX;
  if (Math.abs(sideways) > Math.abs(event.shiftKey ? 0 : event.deltaY)) move(sideways / sight.width);
  else zoom(Math.exp(-event.deltaY * (event.deltaMode === 1 ? 0.06 : 0.002)), event.offsetX);
}

/** Follows the pointer on a canvas: a drag moves, a click chooses an item. */
function followPointer(canvas) {
  let grip = null;
  canvas.addEventListener("pointerdown", (event) => {
    if (event.isTrusted) canvas.setPointerCapture(event.pointerId);
    grip = { place: event.offsetX, begin: sight.begin, far: 0 };
  });
  canvas.addEventListener("pointermove", (event) => {
    pointer = event.offsetX;
    if (grip !== null) {
      grip.far = Math.max(grip.far, Math.abs(event.offsetX - grip.place));
      if (grip.far > 4) look(grip.begin - ((event.offsetX - grip.place) * sight.steps) / sight.width, sight.steps);
    }
    showTip(event, canvas.id === "rows" ? event.offsetY : -1);
    askDraw();
  });
  canvas.addEventListener("pointerup", (event) => {
    if (grip !== null && grip.far <= 4) choose(itemAt(event.offsetX, canvas.id === "rows" ? event.offsetY : -1), false);
    grip = null;
  });
  canvas.addEventListener("pointerleave", () => {
    pointer = null;
    element("tip").hidden = true;
    askDraw();
  });
  canvas.addEventListener("wheel", followWheel, { passive: false });
  canvas.addEventListener("dblclick", (event) => zoom(4, event.offsetX));
}

/** Puts the tip beside the pointer. */
function showTip(event, height) {
  const tip = element("tip");
  const chart = element("chart").getBoundingClientRect();
  tip.textContent = tipWords(event.offsetX, height);
  tip.hidden = tip.textContent === "";
  const left = event.clientX - chart.left + 14;
  tip.style.left = Math.min(left, chart.width - tip.offsetWidth - 8) + "px";
  tip.style.top = event.clientY - chart.top + 14 + "px";
}

/** Follows the pointer on the overview: what is in sight goes there. */
function followOverview() {
  const canvas = element("overview");
  let isHeld = false;
  const go = (event) => look((event.offsetX / sight.width) * runEnd - sight.steps / 2, sight.steps);
  canvas.addEventListener("pointerdown", (event) => {
    if (event.isTrusted) canvas.setPointerCapture(event.pointerId);
    isHeld = true;
    go(event);
  });
  canvas.addEventListener("pointermove", (event) => { if (isHeld) go(event); });
  canvas.addEventListener("pointerup", () => { isHeld = false; });
  canvas.addEventListener("wheel", followWheel, { passive: false });
}

/** Shows the arrows, or leaves them out. */
function turnArrows() {
  areArrowsShown = !areArrowsShown;
  askDraw();
}

/** Follows the keys, where nothing is being written. */
function followKeys() {
  const middle = () => sight.width / 2;
  const keys = {
    "+": () => zoom(2, middle()), "=": () => zoom(2, middle()), "-": () => zoom(0.5, middle()), 0: lookWhole,
    ArrowLeft: () => move(-0.2), ArrowRight: () => move(0.2), PageUp: () => move(-0.9), PageDown: () => move(0.9),
    "/": () => element("wanted").focus(), n: () => find(finding.words, false), N: () => find(finding.words, true),
    a: turnArrows, ".": () => choose(chosenItem + 1, true), ",": () => choose(chosenItem - 1, true),
  };
  document.addEventListener("keydown", (event) => {
    if (event.target.tagName === "INPUT" || event.ctrlKey || event.metaKey || event.altKey) return;
    const act = keys[event.key];
    if (!act) return;
    event.preventDefault();
    act();
  });
}

/** Follows the buttons, the search and the lines. */
function followControls() {
  element("closer").onclick = () => zoom(2, sight.width / 2);
  element("farther").onclick = () => zoom(0.5, sight.width / 2);
  element("whole").onclick = lookWhole;
  element("theme").onclick = () => turnTheme();
  element("before").onclick = () => find(element("wanted").value, true);
  element("search").onsubmit = (event) => {
    event.preventDefault();
    find(element("wanted").value, false);
  };
  element("wanted").onkeydown = (event) => {
    if (event.key !== "Enter" || !event.shiftKey) return;
    event.preventDefault();
    find(element("wanted").value, true);
  };
  element("lines").onclick = (event) => {
    if (event.target.dataset.item !== undefined) choose(Number(event.target.dataset.item), true);
  };
}

/** What the address asks for behind its #: dark, light, look=BEGIN+STEPS, find=WORDS, check. */
function followAddress() {
  const wishes = decodeURIComponent(location.hash.slice(1)).split("&").filter(Boolean);
  for (const wish of wishes) {
    const [name, value] = wish.split("=");
    if (name === "dark" || name === "light") turnTheme(name);
    if (name === "look") look(...value.split("+").map(Number));
    if (name === "find") find(value.replace(/\+/g, " "), false);
  }
  draw();
  if (wishes.includes("check")) check();
}

element("figures").textContent = data.head.join("; ");
element("head").textContent = data.head.join("; ") + ".";
readColours();
writeLegend();
rows.forEach(layersOf);
lookWhole();
measure();
for (const name of ["rows", "ruler", "inputs", "stack"]) followPointer(element(name));
followOverview();
followKeys();
followControls();
matchMedia("(prefers-color-scheme: dark)").addEventListener("change", () => {
  readColours();
  askDraw();
});
new ResizeObserver(measure).observe(element("pictures"));
followAddress();
