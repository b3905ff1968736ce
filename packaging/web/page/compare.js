// Another execution beside this one: the same script with another limit, or another text. Events that only one of them has are marked.
const LONE = '\u25c6', OTHERWISE = '\u2260';

// What stands beside: its name, the text and the options that it was asked with, what was told, and its picture.
let other;

async function compareWith(name, changes) {
  const it = optionsOrSay();
  if (!it || !told.lines) return;
  if (told.stale) return answer();
  const began = performance.now();
  const asked = { ...it, from: '', to: '', around: '', explain: '', only: false, ...changes }, isSameText = !changes.bytes;
  const found = await during(async stage => {
    await sendText();
    const answered = await send('work', asked, stage);
    return { told: answered, there: await send('events', asked), here: await send('events', it) };
  });
  if (!found) return;
  if (found.told.picture === undefined) return say(`${name} has no picture: ${WORDS[found.told.status] ?? 'it is no such text'}.`);
  other = { name, asked, isSameText, told: found.told, own: found.here, others: found.there, ...matched(found.here, found.there, isSameText) };
  document.body.classList.add('comparing');
  at('there').hidden = at('h-here').hidden = at('apart').hidden = false;
  at('h-there').textContent = name;
  at('h-here').textContent = isSameText ? (it.limit === '' ? 'As it is, without a limit' : `As it is, with a limit of ${it.limit}`) : 'As it is';
  showOther();
  markLone(diagram, other.here, false);
  at('said').textContent = `Compared in ${(performance.now() - began).toFixed(0)} ms.`;
  showDifferences();
}

// The events of two texts by what both call them: by their lines in the same text, and else by node and name, the first of one with the first of the other.
function matched(here, there, isSameText) {
  const keysOf = ({ numbers, nodes, names, lines }) => {
    const seen = new Map(), keys = new Map();
    for (let place = 0; place < numbers.length; place++) {
      const name = `${nodes[place]}\n${names[place]}`, nth = seen.get(name) ?? 0;
      seen.set(name, nth + 1);
      keys.set(numbers[place], isSameText ? `line ${lines[place]}` : `${name}\n${nth}`);
    }
    return keys;
  };
  const [own, others] = [keysOf(here), keysOf(there)], turned = keys => new Map([...keys].map(([number, key]) => [key, number]));
  const partners = (keys, of) => new Map([...keys].map(([number, key]) => [number, of.get(key)]));
  return { here: partners(own, turned(others)), there: partners(others, turned(own)) };
}

function showOther() {
  const svg = pictureOf(other.told.picture);
  at('other').replaceChildren(svg);
  svg.setAttribute('role', 'group');
  other.diagram = new Diagram(svg);
  for (const { dot } of other.diagram.rows) setAll(dot, { id: `other-${dot.id}`, tabindex: -1 });
  markLone(other.diagram, other.there, true);
  zoom(scale);
}

// Marks what the other execution lacks, or stamps otherwise where it is the same script.
function markLone(picture, partners, isThere) {
  if (!other || !picture) return;
  const facing = isThere ? diagram : other.diagram;
  for (const row of picture.rows) {
    const partner = partners.get(row.event), stamp = partner === undefined ? undefined : facing?.rowOf(partner)?.stamp;
    const mark = partner === undefined ? LONE : other.isSameText && stamp !== undefined && stamp !== row.stamp ? OTHERWISE : '';
    row.dot.classList.toggle('lone', mark === LONE);
    if (mark) picture.mark(row, mark);
  }
}

const loneIn = partners => [...partners].filter(([, partner]) => partner === undefined).map(([number]) => number);

// How the record of a line was answered, without the number of its event, which depends on the events before it.
function answerOn(found, place) {
  const [word, ...fields] = rowsOf(`${decode(found.answers.subarray(found.groups[place], found.groups[place + 1]))}`)[0] ?? [];
  return word === 'event' ? { text: `event ${fields[0]}, ${pair(fields[1], fields[2])}`, key: fields.slice(1).join() } : { text: [word, ...fields].join(', '), key: [word, ...fields].join() };
}

function showDifferences() {
  const here = loneIn(other.here), there = loneIn(other.there), rows = [];
  const marks = other.isSameText ? `${LONE} stands before an event that the other execution lacks, and ${OTHERWISE} before one that has another stamp there.` : `${LONE} stands before an event that the other one lacks.`;
  const text = `${several(here.length, 'event')} ${here.length === 1 ? 'is' : 'are'} here alone, and ${several(there.length, 'event')} there alone. ${marks}`;
  at('compared').textContent = text;
  announce(text);
  if (other.isSameText) {
    for (const place of told.steps) {
      const [own, others] = [told, other.told].map(found => answerOn(found, place));
      if (own.key !== others.key) rows.push([told.lines[place], own.text, others.text]);
    }
  } else {
    const named = ({ numbers, nodes, names }, number) => { const place = numbers.indexOf(number); return `${nodes[place]}: ${JSON.parse(`[${names[place]}]`).filter(part => part).join(' ')}`; };
    for (const number of here) rows.push([lineOfEvent(number), named(other.own, number), '']);
    for (const number of there) rows.push([undefined, '', `line ${number}, ${named(other.others, number)}`]);
  }
  showDifferenceTable(rows);
}

function showDifferenceTable(rows) {
  const table = document.createElement('table'), top = table.createTHead().insertRow(), foot = document.createElement('tr');
  table.append(element('caption', rows.length ? 'Where the two differ' : 'The two have the same events'));
  for (const head of ['line', 'here', other.name]) top.append(element('th', head, { scope: 'col' }));
  foot.insertCell().colSpan = 3;
  const made = ([line, left, right]) => {
    const row = document.createElement('tr');
    row.insertCell().append(line === undefined ? '' : lineLink(line));
    for (const text of [left, right]) row.append(element('td', text));
    return [row];
  };
  fill(table.createTBody(), rows, made, { name: 'differences.csv', row: ([line, left, right]) => [line === undefined ? '' : now().nameOf(line), left, right] }, foot);
  at('differences').replaceChildren(table);
}

function endCompare() {
  if (!other) return;
  other = undefined;
  document.body.classList.remove('comparing');
  for (const id of ['there', 'h-here', 'apart']) at(id).hidden = true;
  for (const id of ['other', 'differences', 'compared']) at(id).replaceChildren();
  for (const row of diagram?.rows ?? []) row.dot.classList.remove('lone');
  diagram?.unmark();
}

async function compareFiles() {
  const given = [...at('other-files').files];
  if (!given.length) return;
  const files = [];
  for (const file of given) files.push({ name: nameAmong(file.name, files.map(it => it.name)), bytes: new Uint8Array(await file.arrayBuffer()) });
  at('other-files').value = '';
  return compareWith(files.map(file => file.name).join(', '), { bytes: joined(files).bytes });
}

function compareLimit() {
  try {
    const limit = number('other-limit');
    return compareWith(limit === '' ? 'Without a limit' : `With a limit of ${limit}`, { limit });
  } catch (fault) {
    say(fault.message);
  }
}

function listenToCompare() {
  at('beside-limit').addEventListener('click', compareLimit);
  at('other-limit').addEventListener('keydown', event => { if (event.key === 'Enter') compareLimit(); });
  at('other-files').addEventListener('change', compareFiles);
  at('apart').addEventListener('click', endCompare);
}
