// A picture as lanes, rows and arrows, which can be laid out anew with some of them.
const TOP = 60, FIRST_ROW = 84, ROW_HEIGHT = 34, SVG = 'http://www.w3.org/2000/svg';

const svgElement = (name, attributes, text = '') => {
  const made = document.createElementNS(SVG, name);
  for (const [key, value] of Object.entries(attributes)) made.setAttribute(key, value);
  made.textContent = text;
  return made;
};

const numbersOf = (element, ...names) => names.map(name => Number(element.getAttribute(name)));
const setAll = (element, values) => Object.entries(values).forEach(([name, value]) => element.setAttribute(name, value));
const pointsOf = line => line.getAttribute('points').split(' ').map(point => point.split(',').map(Number));

// What the title of a dot tells in a line of its own.
const toldIn = (title, name) => new RegExp(`^${name}: (.*)$`, 'm').exec(title)?.[1] ?? '';

class Diagram {
  constructor(svg) {
    const [, , width, height] = boxOf(svg);
    Object.assign(this, { svg, width, height, lanes: [], rows: [], rowAt: new Map() });
    for (const name of svg.querySelectorAll(':scope > text.n')) this.lanes.push({ name: name.querySelector('title').textContent, x: Number(name.getAttribute('x')) });
    this.apart = this.lanes.length > 1 ? this.lanes[1].x - this.lanes[0].x : 0;
    this.column = Number(svg.querySelectorAll(':scope > .h')[1]?.getAttribute('x') ?? 0);
    for (const dot of svg.querySelectorAll(':scope > g[id]')) this.addRow(dot);
    this.count = Number(/ of (\d+)\./.exec(svg.querySelector('.h')?.textContent ?? '')?.[1] ?? this.rows.length);
    // (rows that count the events left out of a chain have no dot: such a picture stays as it is)
    this.parts = [...svg.children].map(element => ({ element, place: this.placing(element) }));
    this.isWhole = true;
  }

  laneAt(x) {
    const place = this.apart ? Math.round((x - this.lanes[0].x) / this.apart) : 0;
    return this.lanes[Math.min(this.lanes.length - 1, Math.max(0, place))];
  }

  addRow(dot) {
    const [, x, y] = /\(([\d.]+),([\d.]+)\)/.exec(dot.getAttribute('transform')).map(Number), title = dot.querySelector('title').textContent;
    const lane = this.laneAt(x), clock = toldIn(title, 'clock'), stamp = toldIn(title, 'stamp') || toldIn(title, 'claimed');
    const row = { dot, y, lane, clock, stamp, title, event: Number(dot.id.slice(1)), isMarked: dot.classList.contains('k'), isCause: Boolean(dot.querySelector('.r')) };
    Object.assign(row, { before: lane.last, sends: [], hasMessage: false });
    lane.last = row;
    this.rows.push(row);
    this.rowAt.set(y, row);
  }

  rowOf(event) {
    this.byEvent ??= new Map(this.rows.map(row => [row.event, row]));
    return this.byEvent.get(event);
  }

  // Puts a mark at the beginning of a row.
  mark(row, text) {
    const element = svgElement('text', { class: 'mark', x: 6, y: Number(heightOf(row.dot)), dy: 5 }, text);
    this.parts.push({ element, place: to => to.y.has(row) && !to.folded.has(row) && (setAll(element, { y: to.y.get(row) }), true) });
    if (row.dot.parentNode) this.svg.append(element);
  }

  unmark() {
    for (const { element } of this.parts.filter(part => part.element.matches('.mark'))) element.remove();
    this.parts = this.parts.filter(part => !part.element.matches('.mark'));
  }

  // How a part is placed in a new layout: whether it is shown there.
  placing(element) {
    const { localName } = element, style = element.getAttribute('class');
    if (localName === 'g') return this.placingOfDot(element);
    if (localName === 'polyline') return this.placingOfArrow(element);
    if (localName === 'text') return this.placingOfText(element, style);
    if (localName === 'rect' && style === 'w') return to => (setAll(element, { width: to.width, height: to.height }), true);
    if (localName === 'rect') return this.placingOfBand(element);
    if (localName === 'line' && style === 'l') return this.placingOfLane(element);
    if (localName === 'line') return this.placingOfStep(element);
    return () => true;
  }

  placingOfDot(element) {
    const row = this.rowAt.get(heightOf(element));
    return to => to.y.has(row) && !to.folded.has(row) && (setAll(element, { transform: `translate(${to.x.get(row.lane)},${to.y.get(row)})` }), true);
  }

  placingOfText(element, style) {
    const [x, y] = numbersOf(element, 'x', 'y');
    if (style === 'h') return to => (y === 22 || setAll(element, { x: x - to.left }), true);
    if (style === 'n') return to => to.x.has(this.laneAt(x)) && (setAll(element, { x: to.x.get(this.laneAt(x)) }), true);
    if (style === 'y') return this.placingOfTimes(element, x, y);
    const isNumber = style === 'f', row = this.rowAt.get(isNumber ? y + 3 : y);
    if (isNumber) return to => to.y.has(row) && (setAll(element, { x: to.across(x), y: to.y.get(row) - 3 }), true);
    return to => to.y.has(row) && !to.folded.has(row) && (setAll(element, { x: x - to.left, y: to.y.get(row) }), true);
  }

  // How often the message failed to arrive whose cross comes before.
  placingOfTimes(element, x, y) {
    const [[, from]] = pointsOf(element.previousElementSibling), row = this.rowAt.get(from);
    return to => to.y.has(row) && to.across(x) !== undefined && (setAll(element, { x: to.across(x), y: to.down(y - 4) + 4 }), true);
  }

  placingOfBand(element) {
    const row = this.rowAt.get(Number(element.getAttribute('y')) + ROW_HEIGHT / 2);
    return to => to.y.has(row) && !to.folded.has(row) && (setAll(element, { y: to.y.get(row) - ROW_HEIGHT / 2, width: to.width }), true);
  }

  placingOfLane(element) {
    const lane = this.laneAt(Number(element.getAttribute('x1')));
    return to => to.x.has(lane) && (setAll(element, { x1: to.x.get(lane), x2: to.x.get(lane), y2: to.height }), true);
  }

  // A step of the chain along a lane, between two dots or to a border.
  placingOfStep(element) {
    const [x, y1, y2] = numbersOf(element, 'x1', 'y1', 'y2'), lane = this.laneAt(x), ends = [y1, y2].filter(y => this.rowAt.has(y)).map(y => this.rowAt.get(y));
    return to => to.x.has(lane) && ends.every(row => to.y.has(row)) && (setAll(element, { x1: to.x.get(lane), x2: to.x.get(lane), y1: to.down(y1), y2: to.down(y2) }), true);
  }

  placingOfArrow(element) {
    const points = pointsOf(element), [from, end] = [points[0], points.at(-1)].map(([, y]) => this.rowAt.get(y));
    for (const row of [from, end]) if (row) row.hasMessage = true;
    if (from && end) from.sends.push(end);
    return to => {
      if ([from, end].some(row => row && !to.y.has(row))) return false;
      const placed = points.map(([x, y]) => [to.across(x), to.down(y)]);
      if (placed[0][0] === undefined || placed.at(-1)[0] === undefined) return false;
      element.setAttribute('points', placed.filter(([x]) => x !== undefined).map(point => point.join(',')).join(' '));
      return true;
    };
  }

  // Lays out these rows alone, some of them as one row for several, on these lanes.
  lay(items, lanes) {
    const x = new Map(lanes.map((lane, place) => [lane, this.lanes[0].x + place * this.apart]));
    const y = new Map(items.map(({ row }, place) => [row, FIRST_ROW + place * ROW_HEIGHT])), heights = items.map(({ row }) => row.y);
    const left = (this.lanes.length - lanes.length) * this.apart, height = FIRST_ROW + items.length * ROW_HEIGHT;
    const gap = from => FIRST_ROW + (placeOf(heights, from) + 0.5) * ROW_HEIGHT;
    const to = {
      x, y, left, height, width: this.width - left, folded: new Set(items.filter(item => item.fold).map(({ row }) => row)),
      across: from => { const lane = this.laneAt(from); return x.has(lane) ? x.get(lane) + from - lane.x : undefined; },
      down: from => (from === TOP ? TOP : from === this.height ? height : y.get(this.rowAt.get(from)) ?? gap(from)),
    };
    const shown = this.parts.filter(part => part.place(to)).map(part => part.element);
    const folds = items.filter(item => item.fold).flatMap(item => this.foldedRow(item, x.get(item.row.lane), y.get(item.row), left));
    setAll(this.svg, { viewBox: `0 0 ${to.width} ${height}` });
    this.svg.replaceChildren(...shown, ...folds);
    this.items = items;
    this.isWhole = items.length === this.rows.length && !to.folded.size;
  }

  // One dot with their number for several events of a node, and a row that says which they are.
  foldedRow({ row, fold }, x, y, left) {
    const half = 11 + 4 * Math.max(0, String(fold.length).length - 2), last = fold.at(-1);
    const dot = svgElement('g', { id: `f${row.event}`, class: 'd fold', tabindex: '-1', transform: `translate(${x},${y})` });
    dot.append(svgElement('title', {}, `${several(fold.length, 'event')} of ${row.lane.name}, folded\n${row.title}\n..\n${last.title}`));
    dot.append(svgElement('rect', { class: 'pill', x: -half, y: -11, width: 2 * half, height: 22 }), svgElement('text', { y: 4 }, String(fold.length)));
    return [dot, svgElement('text', { x: this.column - left, y, dy: 4 }, `${several(fold.length, 'event')}, ${row.stamp} to ${last.stamp}`)];
  }
}
