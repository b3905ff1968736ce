// What the forms say that a picture has, each drawn as it is there.
const FORMS = {
  log: [
    ['g .pill', 'a least stamp'], ['g .dip', 'behind its clock'], ['g .box', 'not above an event before it'], ['g .slant', 'lower than the least stamp'],
    ['g .peak', 'ahead of the least stamp'], ['g .hexagon', 'rolled over: C was full'],
  ],
  script: [['g .pill', 'an event']],
};
const LINES = [
  ['.m', 'a message'], ['.e, .o', 'a message from or to an event that is not drawn'], ['.x', 'a message that did not arrive'], ['.p, .v', 'the chain that explains a stamp'],
];

function sample(part, text) {
  const item = element('li', ''), svg = svgElement('svg', { class: 'hlc', viewBox: '-18 -16 36 32', width: 36, height: 32, 'aria-hidden': 'true' });
  svg.append(part);
  item.append(svg, ` ${text}`);
  return item;
}

// The dot of a form, without its number.
function dotSample(shape) {
  const dot = svgElement('g', { class: 'd' });
  dot.append(shape.cloneNode());
  return dot;
}

// (a step along a lane is shown as one by a message, and what leaves as what comes in, which has its head at the end)
const SAMPLES = { v: 'p', o: 'e' };
const lineSample = line => svgElement('polyline', { class: SAMPLES[line.classList[0]] ?? line.classList[0], points: '-16,0 14,0' });

function showLegend() {
  const svg = diagram?.svg, items = [];
  for (const [selector, text] of (svg && FORMS[kind()]) || []) {
    const shape = svg.querySelector(`${selector}`);
    if (shape) items.push(sample(dotSample(shape), text));
  }
  const ring = svg?.querySelector('g .r');
  if (ring) items.push(sample(dotSample(ring), 'a cause: the clock rule was broken there'));
  for (const [selector, text] of svg ? LINES : []) {
    const line = svg.querySelector(selector);
    if (line) items.push(sample(lineSample(line), text));
  }
  at('legend').hidden = !items.length;
  at('forms').replaceChildren(...items);
}
