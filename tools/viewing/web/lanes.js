// Lanes: strips of one pixel's height, each pixel coloured by the share of its steps that spans cover. What a pixel
// costs does not grow with the run, and no span is too short to be seen.

const LEAST_SHARE = 0.22;
const lanes = { canvas: document.createElement("canvas"), image: null, across: 0, count: 0 };
let covered = new Float32Array(0);
let mixed = [new Float32Array(0), new Float32Array(0), new Float32Array(0)];

/** Spans of one colour: a flat list begin, end, .. and how many steps those before each one cover. */
function layerOf(spans, colour) {
  const sums = new Float64Array(spans.length / 2 + 1);
  for (let at = 0; at < spans.length; at += 2) sums[at / 2 + 1] = sums[at / 2] + spans[at + 1] - spans[at];
  return { spans, sums, colour };
}

/** Makes room for so many lanes of the picture's width in device pixels. */
function beginLanes(count) {
  const across = Math.max(Math.round(sight.width * sight.ratio), 1);
  if (lanes.across !== across || lanes.count !== count) {
    lanes.canvas.width = across;
    lanes.canvas.height = Math.max(count, 1);
    lanes.image = lanes.canvas.getContext("2d").createImageData(across, Math.max(count, 1));
    lanes.across = across;
    lanes.count = count;
    covered = new Float32Array(across);
    mixed = [0, 1, 2].map(() => new Float32Array(across));
  }
  lanes.image.data.fill(0);
}

/** The first place from one on, of a list of spans, that begins at a step or behind it, in growing strides. */
function nextFrom(spans, from, step) {
  const count = spans.length / 2;
  let stride = 1;
  let low = from;
  while (low + stride < count && spans[(low + stride) * 2] < step) {
    low += stride;
    stride *= 2;
  }
  let high = Math.min(low + stride, count);
  while (low < high) {
    const middle = (low + high) >> 1;
    if (spans[middle * 2] < step) low = middle + 1;
    else high = middle;
  }
  return low;
}

/** The steps that a layer covers up to a step, where the spans before `at` are those that begin before it. */
function coveredUpTo(layer, at, step) {
  return at === 0 ? 0 : layer.sums[at] - Math.max(layer.spans[at * 2 - 1] - step, 0);
}

/** The steps that a layer covers from one step to another. */
function coveredBetween(layer, begin, end) {
  const upTo = (step) => coveredUpTo(layer, firstAt(layer.spans, 2, 0, step), step);
  return upTo(end) - upTo(begin);
}

/** Adds the shares of a layer to each pixel. */
function coverLayer(layer) {
  const { spans } = layer;
  const { parts } = colours[layer.colour];
  const steps = sight.steps / lanes.across;
  let at = firstAt(spans, 2, 0, sight.begin);
  let before = coveredUpTo(layer, at, sight.begin);
  for (let pixel = 0; pixel < lanes.across; pixel += 1) {
    const step = sight.begin + (pixel + 1) * steps;
    if (at * 2 < spans.length && spans[at * 2] < step) at = nextFrom(spans, at, step);
    const now = coveredUpTo(layer, at, step);
    const share = (now - before) / steps;
    before = now;
    if (share > 0.0005) addShare(pixel, share, parts);
  }
}

/** Adds a share in a colour to a pixel. */
function addShare(pixel, share, parts) {
  covered[pixel] += share;
  mixed[0][pixel] += share * parts[0];
  mixed[1][pixel] += share * parts[1];
  mixed[2][pixel] += share * parts[2];
}

/** Writes what was added into a lane, and begins anew. */
function endLane(lane) {
  const bytes = lanes.image.data;
  let at = lane * lanes.across * 4;
  for (let pixel = 0; pixel < lanes.across; pixel += 1, at += 4) {
    const share = covered[pixel];
    if (share > 0) {
      bytes[at] = mixed[0][pixel] / share;
      bytes[at + 1] = mixed[1][pixel] / share;
      bytes[at + 2] = mixed[2][pixel] / share;
      bytes[at + 3] = 255 * Math.max(Math.min(share, 1), LEAST_SHARE);
    }
  }
  covered.fill(0);
  for (const part of mixed) part.fill(0);
}

/** Fills a lane with some layers. */
function fillLane(strip, layers) {
  layers.forEach(coverLayer);
  endLane(strip.lane);
}

/** Puts all lanes into their strips: each has a lane, a top and a height in pixels of the page. */
function putLanes(context, strips) {
  lanes.canvas.getContext("2d").putImageData(lanes.image, 0, 0);
  context.imageSmoothingEnabled = false;
  for (const strip of strips) {
    context.drawImage(lanes.canvas, 0, strip.lane, lanes.across, 1, 0, strip.top, sight.width, strip.height);
  }
}
