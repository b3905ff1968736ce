// Events that are clicked on: their chains, how two of them are related, and what is drawn about one.
const RELATION = { before: 'happened before', after: 'happened after', same: 'is', concurrent: 'is concurrent with' };

function eventLink(number) {
  if (kind() === 'log') return lineLink(number - 1);
  const line = told.eventLines?.[number];
  return line === undefined ? String(number) : namedLink(line, String(number), `event ${number}`);
}

// Names an event in a sentence.
const named = event => (kind() === 'log' ? ['the event of line ', eventLink(event)] : ['event ', eventLink(event)]);

const sentence = ([first, ...more]) => [first[0].toUpperCase() + first.slice(1), ...more];

// An event as the answers name it.
const eventOf = name => (kind() === 'log' ? now().lineOf(name) + 1 : Number(name));

// The events of a chain or a way, with arrows between them.
function wayOf(names) {
  const way = element('span', '');
  fill(way, names, (name, place) => [place ? ' → ' : '', eventLink(eventOf(name))], { name: 'chain.csv', row: name => [name] });
  return way;
}

// Asks after the text, of the events that it tells of.
async function askAfter(...questions) {
  const it = optionsOrSay();
  if (!it) return [];
  const found = await during(async () => {
    await sendText();
    return send('ask', { ...it, questions: questions.map(question => csvRow(question).trimEnd()) });
  });
  return found?.rows ?? [];
}

function tell(...parts) {
  at('told').replaceChildren(...parts);
  announce(at('told').textContent.slice(0, 500));
}

// Writes out the chain of the event that was chosen.
async function writeChain() {
  const [event] = chosen, name = eventName(event);
  const [row, claimed] = await askAfter(['explain', name], ...(kind() === 'log' ? [['claimed', name]] : []));
  if (chosen[0] !== event || chosen.length !== 1) return;
  if (row?.[0] !== 'chain' || row[1] !== name) {
    const missing = kind() === 'log' ? `There is no event on line ${name}.` : `There is no event ${name}.`;
    return tell(row?.[0] === 'refused' ? missing : `The ${kind()} ends within a quoted field, so nothing can be asked after it.`);
  }
  const [, , l, c, ...chain] = row, what = kind() === 'log' ? ` has the least stamp (${l}, ${c})` : ` (${l}, ${c}) has that stamp`;
  const why = c === '0' ? [`it read ${l} itself.`] : ['of the chain ', wayOf(chain), ': ', ...named(eventOf(chain[0])), ` read ${l}, and each step had to count one.`];
  tell(...sentence(named(event)), what, ' because ', ...why, ...claimedWay(row, claimed));
}

// Of an event that claims another stamp than the least one: the way on which its L came.
function claimedWay([, , ...least], claimed) {
  if (claimed?.[0] !== 'claimed' || (claimed[2] === least[0] && claimed[3] === least[1])) return [];
  const [, , l, c, ...way] = claimed;
  return [` It claims (${l}, ${c})`, ...(way.length > 1 ? [', whose L was passed along ', wayOf(way)] : []), '.'];
}

async function writeRelation() {
  const [first, second] = chosen, [row] = await askAfter(['relation', eventName(first), eventName(second)]);
  const how = row?.[0] === 'relation' && RELATION[row[3]];
  if (how) tell(...sentence(named(first)), ` ${how} `, ...named(second), '.');
}

// A first event is explained, and a second one compared with it; then it begins again.
async function choose(event) {
  if (told.stale) return answer();
  if (chosen.length === 1 && chosen[0] !== event) {
    chosen.push(event);
    return writeRelation();
  }
  const again = chosen.length === 1;
  at('explain').value = again ? '' : eventName(event);
  await redraw();
  const dot = at('picture').querySelector(`#e${event}`);
  if (!dot) return;
  beTabStop(dot);
  dot.focus({ preventScroll: true });
}

// Draws anew, with the events and the chain that are asked for.
async function redraw() {
  const it = optionsOrSay();
  if (!it || !told.lines || told.drawn === undefined) return;
  if (told.stale) return answer();
  const began = performance.now();
  it.about = moreAbout();
  const drawn = await during(async () => {
    await sendText();
    return send('picture', it);
  });
  if (!drawn) return;
  told.drawn = drawn.status;
  told.hasMore = it.about !== '';
  told.picture = decode(drawn.bytes);
  if (drawn.around) lookAround(it.around = drawn.around);
  chosen = it.explain === '' ? [] : [Number(it.explain)];
  say(`${notes()}Drawn in ${(performance.now() - began).toFixed(0)} ms.`);
  const { scrollLeft, scrollTop } = at('picture');
  showPicture();
  at('picture').scrollTo(scrollLeft, scrollTop);
  showLine(it);
  keepInAddress(it);
  if (chosen.length) await writeChain();
}

// Draws about an event that the picture doesn't show, if the text has it, and shows that.
async function drawAround(event) {
  if (told.drawn === undefined || !(await hasEvent(event))) return;
  at('only').checked = false;
  lookAround(event);
  await redraw();
  seek(event, false);
}

async function hasEvent(event) {
  if (kind() !== 'log') return event < (told.eventLines?.length ?? 0);
  const [row] = await askAfter(['event', now().nameOf(event - 1)]);
  return row?.[0] === 'event';
}
