// Filters: which of the events that are drawn are shown, and which of them as one.
const MOST_ROWS = 2000, FEWEST_FOLDED = 2;

// The picture that is shown, the nodes that are hidden, by the names of their lanes, and the first events of what was unfolded.
let diagram, hiddenNodes = new Set(), unfolded = new Set();

const FILTERS = { shown: 'all', of: '', node: '', group: '', 'clock-from': '', 'clock-to': '', folds: false };
const filterValues = () => Object.fromEntries(Object.entries(FILTERS).map(([id, usual]) => [id, usual === false ? at(id).checked : at(id).value.trim()]));
const isFiltered = () => { const it = filterValues(); return hiddenNodes.size > 0 || it.folds || it.shown !== 'all' || it['clock-from'] !== '' || it['clock-to'] !== ''; };

function resetFilters() {
  for (const [id, usual] of Object.entries(FILTERS)) {
    if (usual === false) at(id).checked = false;
    else at(id).value = usual;
    at(id).removeAttribute('aria-invalid');
  }
  [hiddenNodes, unfolded] = [new Set(), new Set()];
}

// The filters that count, as parts of an address, and from one.
function filtersInto(parts) {
  const it = filterValues(), named = { node: ['node'], group: ['group'], of: ['message', 'past', 'future'] };
  for (const [id, usual] of Object.entries(FILTERS)) if (it[id] !== usual && (named[id] ?? [it.shown]).includes(it.shown)) parts.set(id, it[id] === true ? '1' : it[id]);
  for (const name of hiddenNodes) parts.append('hide', name);
}

function takeFilters(parts) {
  for (const [id, usual] of Object.entries(FILTERS)) {
    if (usual === false) at(id).checked = parts.get(id) === '1';
    else if (id === 'node' || id === 'group') at(id).dataset.asked = parts.get(id) ?? '';
    else at(id).value = (id === 'shown' && !Object.hasOwn(CHOICES, parts.get(id) ?? '') ? undefined : parts.get(id)) ?? usual;
  }
  hiddenNodes = new Set(parts.getAll('hide'));
}

// All that can be reached from a row along steps that `next` gives.
function reached(first, next) {
  const found = new Set(first ? [first] : []), open = [...found];
  for (let row = open.pop(); row; row = open.pop())
    for (const other of next(row)) if (!found.has(other)) {
      found.add(other);
      open.push(other);
    }
  return found;
}

// Of rows the sends of what they received, and the next ones on their lanes.
function neighbours(rows) {
  const sentBy = new Map(), after = new Map();
  for (const row of rows) {
    for (const receive of row.sends) sentBy.set(receive, row);
    if (row.before) after.set(row.before, row);
  }
  return { sentBy, after };
}

const present = rows => rows.filter(row => row);

// The event that is asked for, by its name: the dots are named by it.
function eventAsked() {
  const event = at('of').value.trim() === '' ? String(chosen.at(-1) ?? '') : namedEvent('of');
  return event === '' ? undefined : Number(event);
}

// The rows of each choice of what is shown.
const CHOICES = {
  all: rows => new Set(rows),
  node(rows, { sentBy }) {
    const own = rows.filter(row => row.lane.name === at('node').value);
    return new Set(own.flatMap(row => [row, ...row.sends, ...present([sentBy.get(row)])]));
  },
  message(rows, { sentBy }) {
    const row = diagram.rowOf(eventAsked()), send = sentBy.get(row) ?? row;
    return new Set(send ? [send, ...send.sends] : []);
  },
  past: (rows, { sentBy }) => reached(diagram.rowOf(eventAsked()), row => present([row.before, sentBy.get(row)])),
  future: (rows, { after }) => reached(diagram.rowOf(eventAsked()), row => present([after.get(row), ...row.sends])),
  causes: rows => new Set(rows.filter(row => row.isCause)),
  group: rowsOfGroup,
};

function isWithin(row, least, most) {
  if (least === '' && most === '') return true;
  const clock = row.clock || /\d+/.exec(row.stamp)?.[0];
  return clock !== undefined && (least === '' || BigInt(clock) >= BigInt(least)) && (most === '' || BigInt(clock) <= BigInt(most));
}

// The rows as they are laid out: events of a node with nothing of note between its messages are folded.
function folded(rows, areFolded) {
  const items = [], open = new Map();
  for (const row of rows) {
    const isPlain = areFolded && !row.hasMessage && !row.isMarked && !row.isCause && !row.dot.matches('.hit, .sought, .lone');
    const run = isPlain ? open.get(row.lane) : undefined;
    if (run) run.fold.push(row);
    else items.push({ row, fold: [row] });
    if (isPlain) open.set(row.lane, run ?? items.at(-1));
    else open.delete(row.lane);
  }
  return items.flatMap(({ row, fold }) => (fold.length >= FEWEST_FOLDED && !unfolded.has(row.event) ? [{ row, fold }] : fold.map(each => ({ row: each }))))
    .sort((one, other) => one.row.y - other.row.y);
}

// Lays out the picture with what the filters leave, and says how much that is.
function applyFilters() {
  if (!diagram?.rows.length) return;
  showNodes();
  showGroups();
  const it = filterValues();
  for (const name of ['clock-from', 'clock-to']) if (!/^\d{0,20}$/.test(it[name])) refuse(name, 'a whole number.');
  const chosenRows = CHOICES[it.shown](diagram.rows, neighbours(diagram.rows));
  const rows = diagram.rows.filter(row => chosenRows.has(row) && !hiddenNodes.has(row.lane.name) && isWithin(row, it['clock-from'], it['clock-to']));
  const items = folded(rows, it.folds), shown = items.slice(0, MOST_ROWS);
  const lanes = diagram.lanes.filter(lane => (isFiltered() && it.shown !== 'all' ? shown.some(({ row }) => row.lane === lane) : !hiddenNodes.has(lane.name)));
  if (isFiltered() || !diagram.isWhole) diagram.lay(shown, lanes);
  const left = diagram.count > diagram.rows.length ? `, of ${counted(diagram.count)} in all` : '', cut = items.length > shown.length ? `; the first ${several(shown.length, 'row')} of ${counted(items.length)}` : '';
  at('unfilter').hidden = !isFiltered();
  at('filtered').textContent = isFiltered() ? `${counted(rows.length)} of the ${several(diagram.rows.length, 'event')} that are drawn${left}${cut}` : '';
  if (diagram.svg.isConnected) freshen();
}

// Of the nodes some are hidden.
function showNodes() {
  at('shown').querySelector('[value=causes]').hidden = kind() !== 'log';
  at('of-node').hidden = at('shown').value !== 'node';
  at('of-event').hidden = !['message', 'past', 'future'].includes(at('shown').value);
  const names = [...new Set(diagram.lanes.map(lane => lane.name))], key = JSON.stringify(names);
  if (at('lanes').dataset.names !== key) {
    at('lanes').dataset.names = key;
    const chosenNode = at('node').dataset.asked || at('node').value;
    at('node').dataset.asked = '';
    at('node').replaceChildren(...names.map(name => element('option', name, { value: name })));
    if (names.includes(chosenNode)) at('node').value = chosenNode;
    at('lanes').replaceChildren(...names.map(nodeSwitch));
  }
  for (const box of at('lanes').querySelectorAll('input')) box.checked = !hiddenNodes.has(box.value);
}

function nodeSwitch(name) {
  const label = element('label', ''), box = element('input', '', { type: 'checkbox', value: name });
  box.addEventListener('change', () => {
    if (box.checked) hiddenNodes.delete(name);
    else hiddenNodes.add(name);
    filter();
  });
  label.append(box, ` ${name}`);
  return label;
}

// The event about which the filters need more than the usual rows, if they do: that which is drawn about, or the first one.
function moreAbout() {
  const isAround = at('around').value.trim() !== '', usual = isAround ? 40 : 500;
  if (!isFiltered() || at('only').checked || at('from').value.trim() || at('to').value.trim() || !(diagram?.count > usual)) return '';
  return isAround ? namedEvent('around') : String(diagram.rows[0]?.event ?? 0);
}

// What is asked of the filters is shown, and drawn first if it has to be.
async function filter() {
  const it = optionsOrSay();
  if (!diagram || !it) return;
  if ((moreAbout() !== '') !== Boolean(told.hasMore)) await redraw();
  else tryFilters();
  keepInAddress(it);
  announce(at('filtered').textContent || 'All events that are drawn are shown.');
}

function tryFilters() {
  try {
    applyFilters();
    if (kind() === 'log' && areCausesTold()) narrowCauses();
  } catch (fault) {
    if (!(fault instanceof RangeError)) throw fault;
    say(fault.message);
  }
}

async function unfilter() {
  resetFilters();
  await filter();
  at('filters').querySelector('summary').focus({ preventScroll: true });
}

function unfold(event) {
  unfolded.add(event);
  tryFilters();
  moveTo(diagram.rowOf(event).dot);
}

// Shows an event that the picture has and the filters hide: unfolds it, or shows all.
function reveal(event) {
  const row = diagram?.rowOf(event);
  if (!row || row.dot.isConnected) return;
  const run = diagram.items?.find(item => item.fold?.includes(row));
  if (run) unfolded.add(run.row.event);
  else resetFilters();
  tryFilters();
}

function listenToFilters() {
  for (const id of Object.keys(FILTERS)) at(id).addEventListener('change', () => { unfolded = new Set(); filter(); });
  at('unfilter').addEventListener('click', unfilter);
}
