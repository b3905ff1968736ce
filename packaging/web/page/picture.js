// The picture: shown as elements of the page, zoomed, and gone over by keys.

// The elements that a picture of the program consists of. Anything else isn't shown.
const PICTURE = new Set('svg title desc defs marker path rect text line polyline g polygon'.split(' '));

// The size of the picture, its dots from top to bottom, and which dots a message leads from and to, by their heights.
let scale = 1, dots = [], dotAt = new Map(), sentTo = new Map(), sentFrom = new Map();

// The picture as elements, if it has no other than the program draws. Its styles go into a sheet of the page, which the page's policy allows.
function pictureOf(text) {
  const [whole, style] = /<style[^<>]*>([^<]*)<\/style>/.exec(text);
  const svg = new DOMParser().parseFromString(text.replace(whole, ''), 'image/svg+xml').documentElement;
  for (const part of [svg, ...svg.querySelectorAll('*')]) {
    const strange = !PICTURE.has(part.localName) || [...part.attributes].some(({ name }) => name.startsWith('on') || name.endsWith('href'));
    if (strange) throw new Error(`a picture with ${part.localName}`);
  }
  const sheet = new CSSStyleSheet();
  sheet.replaceSync(style);
  document.adoptedStyleSheets = [sheet];
  return document.adoptNode(svg);
}

function showPicture() {
  at('picture-part').hidden = !told.picture && told.drawn !== NO_EVENT;
  at('told').textContent = '';
  svgText = told.picture ?? '';
  showSvg();
}

// Shows the picture of the text that there is.
function showSvg() {
  diagram = undefined;
  at('picture').replaceChildren();
  pointAt(undefined);
  if (!svgText) return showLegend();
  let svg;
  try {
    svg = pictureOf(svgText);
  } catch (fault) {
    return say(`The picture isn't shown: ${fault.message}.`);
  }
  svg.setAttribute('role', 'group');
  diagram = new Diagram(svg);
  if (other) markLone(diagram, other.here, false);
  // (a long picture is filtered before it is shown, since showing takes long)
  tryFilters();
  at('picture').replaceChildren(svg);
  freshen();
  showLegend();
}

// What hangs on which dots there are, and where.
function freshen() {
  readPicture(diagram.svg);
  zoom(scale);
}

// The picture as it is saved: as the program draws it, or what the filters leave of that.
function pictureToSave() {
  if (!diagram || diagram.isWhole) return svgText;
  const svg = diagram.svg.cloneNode(true), [style] = /<style.*<\/style>/s.exec(svgText);
  return new XMLSerializer().serializeToString(svg).replace('<desc>', `${style}<desc>`);
}

const heightOf = dot => dot.transform.baseVal[0].matrix.f;

// Of the dots one is a stop of the Tab key, and arrows go from it to others.
function readPicture(svg) {
  dots = [...svg.querySelectorAll('g[id]')].sort((one, other) => heightOf(one) - heightOf(other));
  dotAt = new Map(dots.map(dot => [heightOf(dot), dot]));
  [sentTo, sentFrom] = [new Map(), new Map()];
  for (const { points } of svg.querySelectorAll('polyline.m, polyline.p')) {
    const [from, to] = [points[0].y, points[points.length - 1].y].map(height => dotAt.get(height));
    if (!from || !to) continue;
    if (!sentTo.has(from)) sentTo.set(from, to);
    sentFrom.set(to, from);
  }
  for (const dot of dots) dot.setAttribute('role', 'button');
  markHits();
  beTabStop(dots.find(dot => dot.classList.contains('k')) ?? dots[0]);
}

function beTabStop(stop) {
  for (const dot of dots) dot.setAttribute('tabindex', dot === stop ? 0 : -1);
}

// The dot that a key leads to from another one: to its neighbours, or along a message.
function dotBy(key, dot) {
  const place = dots.indexOf(dot);
  const next = { ArrowUp: dots[place - 1], ArrowDown: dots[place + 1], Home: dots[0], End: dots.at(-1), ArrowRight: sentTo.get(dot), ArrowLeft: sentFrom.get(dot) };
  return next[key];
}

const MOVES = ['ArrowUp', 'ArrowDown', 'ArrowLeft', 'ArrowRight', 'Home', 'End'];

function moveTo(dot) {
  beTabStop(dot);
  dot.focus();
}

function seek(event, draws) {
  for (const dot of at('picture').querySelectorAll('.sought')) dot.classList.remove('sought');
  if (event < 0 || !told.lines || told.stale) return;
  reveal(event);
  const dot = at('picture').querySelector(`#e${event}`);
  if (!dot) return draws ? drawAround(event) : undefined;
  dot.classList.add('sought');
  beTabStop(dot);
  const box = dot.getBoundingClientRect(), frame = at('picture').getBoundingClientRect();
  if (box.top < frame.top || box.bottom > frame.bottom) at('picture').scrollTop += box.top - frame.top - frame.height / 2;
  if (box.left < frame.left || box.right > frame.right) at('picture').scrollLeft += box.left - frame.left - frame.width / 2;
}

const boxOf = svg => svg.getAttribute('viewBox').split(' ').map(Number);

// Makes the picture so large, and keeps what stands at a place of its frame there.
function zoom(factor, x = 0, y = 0) {
  const before = scale, frame = at('picture'), svg = frame.querySelector('svg');
  scale = Math.min(8, Math.max(0.05, factor));
  if (!svg) return;
  const [left, top] = [frame.scrollLeft + x, frame.scrollTop + y];
  for (const each of document.querySelectorAll('#picture svg, #other svg')) {
    const [, , width, height] = boxOf(each);
    setAll(each, { width: width * scale, height: height * scale });
  }
  if (before !== scale) frame.scrollTo((left * scale) / before - x, (top * scale) / before - y);
}

function fit() {
  const svg = at('picture').querySelector('svg');
  if (!svg) return;
  const [, , width, height] = boxOf(svg), frame = at('picture');
  zoom(Math.min(frame.clientWidth / width, Math.max(frame.clientHeight, window.innerHeight * 0.5) / height));
}

// Makes the picture as large as the frame is wide, by where its texts end.
function fitWidth() {
  const svg = at('picture').querySelector('svg');
  if (!svg) return;
  const ends = [...svg.querySelectorAll(':scope > text:not(.h)')].map(text => Number(text.getAttribute('x')) + text.getComputedTextLength());
  zoom(Math.min(2.4, Math.max(0.6, at('picture').clientWidth / (Math.max(300, ...ends) + 16))));
}

const dotOf = event => event.target.closest?.('#picture g[id]');
const numberOf = dot => Number(dot.id.slice(1));

// Tells of an event that is pointed at, as its title has it.
function pointAt(dot) {
  at('pointed').textContent = dot?.querySelector('title')?.textContent ?? '';
}
