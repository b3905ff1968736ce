// What all parts of the page use: elements, texts, and what the page says.
const at = id => document.getElementById(id);
const element = (name, text, more = {}) => Object.assign(document.createElement(name), { textContent: text }, more);
const decode = bytes => new TextDecoder().decode(bytes);
const encode = text => new TextEncoder().encode(text);
const counted = number => number.toLocaleString('en');
const several = (number, what) => `${counted(number)} ${what}${number === 1 ? '' : 's'}`;

// What each kind of text is, and what its events are called.
const KINDS = {
  script: { text: 'script.csv', picture: 'history.svg', event: 'event' },
  trace: { text: 'trace.csv' },
  log: { text: 'log.csv', picture: 'log.svg', event: 'line' },
};
const kind = () => at('kind').value;

// What the statuses of the module say.
const WORDS = {
  1: 'hlc: no such event', 2: 'Stamps in this log are broken: with --strict the status is 3.', 3: 'hlc: bad log', 5: 'hlc: bad settings',
  6: 'hlc: too many records', 7: 'hlc: out of memory', 8: 'hlc: over the limit',
};
const NO_EVENT = 1, BROKEN = 2, BAD_LOG = 3;

// The one region that a screen reader speaks of by itself.
const announce = text => { at('live').textContent = text; };

function say(text) {
  at('said').textContent = text;
  announce(text);
}

function button(text, act) {
  const made = element('button', text, { type: 'button' });
  made.addEventListener('click', act);
  return made;
}

function save(name, parts, type = 'text/csv') {
  const link = element('a', '', { href: URL.createObjectURL(new Blob(parts, { type })), download: name });
  link.click();
  setTimeout(() => URL.revokeObjectURL(link.href), 60000);
}

// The place of the last item that is at most this one.
function placeOf(items, item) {
  let low = 0, high = items.length;
  while (low < high) {
    const middle = (low + high) >> 1;
    if (items[middle] <= item) low = middle + 1;
    else high = middle;
  }
  return low - 1;
}

// A CSV text of rows, as fields, and fields as a row.
function rowsOf(text) {
  const rows = [];
  for (const [row] of text.matchAll(/(?:"(?:[^"]|"")*"|[^"\n])*\n/g))
    rows.push([...row.slice(0, -1).matchAll(/(?:^|,)(?:"((?:[^"]|"")*)"|([^,]*))/g)].map(([, quoted, bare]) => (quoted === undefined ? bare : quoted.replace(/""/g, '"'))));
  return rows;
}

const csvField = field => (/[",\n\r]/.test(field) ? `"${field.replaceAll('"', '""')}"` : field);
const csvRow = fields => `${fields.map(csvField).join(',')}\n`;
