// A script that is played step by step: what each record did, the tables of the nodes after it, and why a stamp is what it is.
const MOST_TABLES = 12, STEP_EVENTS = 40;

// The step that is shown, of those of the script; none while it isn't played.
let step = -1, scaleBefore = 1;
const isStepping = () => step >= 0;

const pair = (l, c) => `(${l}, ${c})`;

// What a record asks for, in words.
const ACTS = {
  write: ([, node, , key, value]) => `Node ${node} writes ${key} = ${value}.`,
  erase: ([, node, , key]) => `Node ${node} erases ${key}.`,
  send: ([, node, , target, key]) => `Node ${node} sends its ${key} to node ${target}.`,
  sync: ([, node, , target]) => `Node ${node} sends its whole table to node ${target}.`,
  deliver: ([, node, , send]) => `The message of event ${send} comes to node ${node}.`,
  pull: ([, node]) => `Node ${node} takes its oldest message, or writes if there is none.`,
  lose: ([, send]) => `The message of event ${send} is lost.`,
};

async function startSteps() {
  if (told.stale || !told.steps) await answer();
  if (!told.steps?.length) return say('There is nothing to play: no record of the text acts.');
  scaleBefore = scale;
  document.body.classList.add('stepping');
  for (const id of ['step-part', 'picture-part']) at(id).hidden = false;
  await showStep(0);
  at('step-on').focus();
}

function endSteps() {
  step = -1;
  document.body.classList.remove('stepping');
  at('step-part').hidden = true;
  showPicture();
  zoom(scaleBefore);
  at('play').focus();
}

// Goes on to another step, if there is one.
const goBy = by => { if (isStepping()) showStep(Math.min(told.steps.length - 1, Math.max(0, step + by))); };

async function showStep(place) {
  const it = optionsOrSay();
  if (!it) return;
  step = place;
  const found = await during(async () => {
    await sendText();
    return send('step', { ...it, record: told.steps[place], events: STEP_EVENTS });
  });
  if (!found || step !== place) return;
  svgText = found.picture;
  showSvg();
  fitWidth();
  showStepText(found, place);
  const dot = found.event === undefined ? undefined : at('picture').querySelector(`#e${found.event}`);
  if (dot) at('picture').scrollTop = at('picture').scrollHeight;
}

function showStepText({ record, answer: [word, ...fields], event, tables, sources }, place) {
  const act = ACTS[record[0]]?.(record) ?? '';
  at('step-count').textContent = `${counted(place + 1)} of ${counted(told.steps.length)}`;
  at('step-record').textContent = record.map(csvField).join(',');
  const what = word === 'event' ? `${act} Event ${event} has the stamp ${pair(fields[1], fields[2])}.` : word === 'refused' ? `${act} It is refused: ${fields[0].replaceAll('-', ' ')}. Nothing changes.` : act;
  const why = word === 'event' ? whyStamp(record, fields, sources) : '';
  at('step-said').textContent = what;
  at('step-why').textContent = why;
  // (of many nodes those that know something are shown)
  const shown = tables.filter(([node, rows]) => tables.length <= MOST_TABLES || rows.length || node === record[1]);
  at('step-tables').replaceChildren(...shown.slice(0, MOST_TABLES).map(([node, rows]) => stepTable(node, rows, record)));
  announce(`${what} ${why}`);
}

// Why an event has its stamp: the greatest L of its clock, its node's event before, and what it took in; and whether C had to count.
function whyStamp(record, [, l, c], { before, message }) {
  const reading = record[2];
  const parts = [`its clock read ${reading}`, ...(before ? [`its last stamp was ${pair(...before)}`] : []), ...(message ? [`the message carried ${pair(...message)}`] : [])];
  const all = parts.length > 1 ? `${parts.slice(0, -1).join(', ')}, and ${parts.at(-1)}` : parts[0];
  const first = `${all[0].toUpperCase()}${all.slice(1)}.`;
  if (c === '0') return `${first} The clock is above all of these, so L is what it read, and C is 0.`;
  const from = [before, message].filter(stamp => stamp && stamp[0] === l), greatest = from.map(stamp => stamp[1]).sort((one, other) => other - one)[0];
  const ahead = BigInt(l) - BigInt(reading);
  return `${first} The greatest L is ${l}${ahead > 0n ? `, ${ahead} ahead of its clock` : ''}, and C is one more than ${greatest}, since a stamp has to rise.`;
}

function stepTable(node, rows, record) {
  const table = document.createElement('table'), top = table.createTHead().insertRow();
  table.append(element('caption', `Node ${node}`));
  for (const head of ['key', 'value', 'stamp']) top.append(element('th', head, { scope: 'col' }));
  const body = table.createTBody();
  for (const [word, key, l, c, , , value] of rows) {
    const row = body.insertRow();
    for (const text of [key, word === 'gone' ? 'erased' : value, pair(l, c)]) row.append(element('td', text));
  }
  if (!rows.length) body.insertRow().append(element('td', 'nothing yet', { colSpan: 3 }));
  table.classList.toggle('acting', record[1] === node && record[0] !== 'lose');
  return table;
}

function listenToSteps() {
  for (const [id, act] of [['play', startSteps], ['step-on', () => goBy(1)], ['step-back', () => goBy(-1)], ['step-end', endSteps]]) at(id).addEventListener('click', act);
  addEventListener('keydown', event => {
    if (!isStepping() || event.ctrlKey || event.metaKey || event.altKey) return;
    if (event.key === 'Escape') return endSteps();
    const by = { ' ': event.shiftKey ? -1 : 1, PageDown: 1, PageUp: -1 }[event.key];
    // (a dot or a button that has the focus is pressed by Enter)
    if (!by || event.target.matches('input, textarea, select, a')) return;
    event.preventDefault();
    event.stopPropagation();
    goBy(by);
  }, { capture: true });
  // (a button that has the focus would be pressed when the key goes up)
  addEventListener('keyup', event => { if (isStepping() && event.key === ' ' && event.target.matches('button')) event.preventDefault(); }, { capture: true });
}
