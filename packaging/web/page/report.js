// The report of an audit as tables, and what of it stands beside the lines.

// Of the rows of an audit, what they are called, what their fields are, and which of these are lines.
const REPORT = {
  bad: ['No log', ['line', 'why', 'field'], [0]],
  count: ['Verdicts', ['verdict', 'stamps'], []],
  cause: ['Where the clock rule was broken', ['line', 'node', 'how', 'than', '', 'in the words of the report'], [0]],
  node: ['Nodes', ['node', 'events', 'ahead', 'line', 'origin'], [3, 4]],
  messages: ['Messages', ['sent', 'received', 'repeated', 'open'], []],
  skew: ['Skews between clocks', ['from', 'to', 'ahead', 'send', 'receive'], [3, 4]],
  unsent: ['Unsent messages', ['taken as local'], []],
  resent: ['Messages sent again', ['sends'], []],
  outside: ['Receives from outside', ['events'], []],
  unread: ['Events without a reading', ['events'], []],
  unstamped: ['Receives without a stamp', ['events'], []],
  units: ['Units', ['readings', 'L'], []],
  skipped: ['Lines that tell of no event', ['lines', 'the first'], [1]],
  'left-out': ['Records left out', ['why', 'records', 'the first'], [2]],
  group: ['Causes in groups', ['causes', 'node, and how', 'the first', ''], [4]],
  over: ['Claims over the limit', ['node', 'events', 'line', 'ahead', 'origin'], [2, 4]],
  chain: ['Chains', ['line', 'l', 'c', 'chain'], [0, 3]],
  check: ['Checks', ['line', 'chain?'], [0]],
  relation: ['Relations', ['line', 'line', 'relation'], [0, 1]],
  influenced: ['Influenced', ['line', 'lines'], [0, 1]],
  drift: ['Drifts', ['node', 'ahead', 'line', 'origin'], [2, 3]],
  claimed: ['Claimed stamps', ['line', 'l', 'c', 'way'], [0, 3]],
  event: ['Events', ['line', 'node', 'reading', 'l', 'c', 'least l', 'least c', 'verdict', 'label'], [0]],
  path: ['Paths', ['line', 'line', 'path'], [0, 1, 2]],
  tainted: ['Tainted', ['line', 'lines'], [0, 1]],
  first: ['First to break a rule', ['node', 'how', 'line'], [2]],
  refused: ['Refused questions', ['why'], []],
};
// Those whose last field goes on as a list, and those that answer questions.
const LISTS = ['chain', 'influenced', 'claimed', 'path', 'tainted'];
const REPLIES = ['chain', 'check', 'relation', 'influenced', 'drift', 'claimed', 'event', 'path', 'tainted', 'first', 'refused'];

// Whether a field is a line: one that the table says, or what a cause isn't above, or whose message it carried.
function isLine(word, place, fields) {
  if (word === 'cause' && place === 3) return ['not-above', 'carried'].includes(fields[2]);
  return REPORT[word][2].includes(place);
}

// What a field is shown as: a link, if it names a line.
function shownField(word, place, fields) {
  const line = isLine(word, place, fields) ? now().lineOf(fields[place]) : undefined;
  return line === undefined ? fields[place] : lineLink(line);
}

// The rest of a row is a list of lines.
function listCell(word, fields, first) {
  const cell = document.createElement('td');
  const link = name => {
    const line = now().lineOf(name);
    return [line === undefined ? name : lineLink(line), ' '];
  };
  fill(cell, fields.slice(first), link, { name: `${word}.csv`, row: name => [name] });
  return cell;
}

function rowOf(word, fields) {
  if (word === 'group') return groupRow(fields);
  const row = document.createElement('tr'), heads = REPORT[word][1];
  const single = LISTS.includes(word) ? heads.length - 1 : fields.length;
  for (let place = 0; place < single; place++) {
    const cell = document.createElement('td');
    cell.append(shownField(word, place, fields));
    row.append(cell);
  }
  if (single < fields.length) row.append(listCell(word, fields, single));
  while (row.cells.length < heads.length) row.insertCell();
  if (word === 'cause') row.lastChild.textContent = told.causeWords.get(`${lineInText(fields[0])}\n${fields[2]}`) ?? '';
  return row;
}

function tableOf(word, rows) {
  const [name, heads] = REPORT[word], table = Object.assign(document.createElement('table'), { id: `table-${word}` }), top = table.createTHead().insertRow();
  table.append(element('caption', rows.length > FIRST_SHOWN ? `${name}: ${counted(rows.length)}` : name));
  for (const head of heads) top.append(element('th', head, { scope: 'col' }));
  const foot = document.createElement('tr');
  foot.insertCell().colSpan = heads.length;
  fill(table.createTBody(), rows, fields => [rowOf(word, fields)], { name: `${word}.csv`, row: fields => [word, ...fields] }, foot);
  return table;
}

// Puts a row beside a line, after those that are there.
function addNote(line, row) {
  const before = told.notes.get(line);
  told.notes.set(line, before ? `${before} ${row}` : row);
}

function showReport() {
  const tables = new Map(), replies = [];
  told.notes = new Map();
  // (groups are there whether the answers have them or not)
  for (const [word, ...fields] of [...rowsOf(told.causeGroups), ...rowsOf(decode(told.answers)).filter(([word]) => word !== 'group')]) {
    if (!Object.hasOwn(REPORT, word)) continue;
    if (!tables.has(word)) tables.set(word, []);
    tables.get(word).push(fields);
    if (REPLIES.includes(word)) replies.push([word, ...fields.slice(0, 40), ...(fields.length > 40 ? ['..'] : [])].join(','));
    const line = ['cause', 'bad'].includes(word) ? now().lineOf(fields[0]) : undefined;
    if (line !== undefined) addNote(line, [word, ...fields.slice(1)].join(','));
  }
  // (each question has one answer, in the same order)
  if (replies.length === told.questions.length) told.questions.forEach((line, place) => addNote(line, replies[place]));
  // (of a log without events only its messages are counted)
  told.isEmpty = tables.size === 1 && tables.has('messages');
  told.tables = tables;
  told.groupWords = wordsOfGroups(told.words ?? '', groupsTold());
  told.causeWords = wordsOfCauses(groupsTold(), told.groupWords);
  const words = [...new Set(['group', 'cause', ...tables.keys()])].filter(word => tables.has(word));
  at('tables').replaceChildren(...words.map(word => tableOf(word, tables.get(word))));
  at('narrowed').hidden = true;
}
