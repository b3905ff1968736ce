// What was answered: the answers as text, beside their lines, and which records are refused.
const MOST_SHOWN = 100000;

let told = {}, svgText = '', chosen = [];

// What the statuses of the answer and of the picture say.
const notes = () => [...new Set([told.status, told.drawn])].filter(status => WORDS[status]).map(status => `${WORDS[status]}\n`).join('');

function forget() {
  told = {};
  svgText = '';
  chosen = [];
  at('main').classList.remove('outdated');
  diagram = undefined;
  [hits, hitLines, sought] = [[], new Set(), undefined];
  resetFilters();
  endCompare();
  for (const id of ['report-part', 'words-part', 'picture-part', 'answers-part', 'conclusion', 'hint', 'narrowed']) at(id).hidden = true;
  for (const id of ['tables', 'words', 'picture', 'answers', 'faults', 'told', 'pointed', 'line', 'found', 'conclusion', 'filtered']) at(id).replaceChildren();
  showHere();
}

// Leaves what was answered before, greyed, until the next answer: to another text, or to one that begins as it does.
function fade(text = '', from = 0) {
  told.stale = { text, from };
  at('main').classList.add('outdated');
  showHere();
}

// Leaves what was answered to a text that is gone, without what was looked for in it.
function leave() {
  if (!told.lines) return forget();
  chosen = [];
  [hits, hitLines, sought] = [[], new Set(), undefined];
  resetFilters();
  endCompare();
  for (const id of ['found', 'filtered', 'told']) at(id).replaceChildren();
  at('unfilter').hidden = true;
  fade();
}

// The event of a line, as its dot is named: by its number, or of a log by the line itself.
const eventAt = line => {
  if (kind() === 'log') return line + 1;
  if (!told.eventLines) return -1;
  const place = placeOf(told.eventLines, line);
  return place >= 0 && told.eventLines[place] === line ? place : -1;
};

// The line on which the record of an event begins.
const lineOfEvent = event => (kind() === 'log' ? event - 1 : told.eventLines?.[event]);

// The program's own words for a log that it answered.
async function wordsFor(it, { answers }, stage) {
  if (!answers.length) return {};
  stage('putting it in words');
  const { status, words } = await send('tell', it);
  return { words, wordsStatus: status };
}

async function answer(first = '') {
  const it = optionsOrSay();
  if (!it) return;
  const began = performance.now(), content = now();
  const found = await during(async stage => {
    await sendText();
    const worked = await send('work', it, stage);
    return it.kind === 'log' ? { ...worked, ...(await wordsFor(it, worked, stage)) } : worked;
  });
  if (!found) return;
  if (now() !== content) return say('The text has changed since: answer again.');
  told = found;
  told.text = at('text').value;
  endCompare();
  at('main').classList.remove('outdated');
  if (told.around) lookAround(it.around = told.around);
  chosen = it.explain ? [Number(it.explain)] : [];
  const spent = performance.now() - began;
  say(`${typeof first === 'string' && first ? `${first}\n` : ''}${notes()}${several(told.lines.length, 'record')} in ${spent < 10 ? spent.toFixed(1) : spent.toFixed(0)} ms.`);
  showAnswers(it);
  if (told.isEmpty) say(`hlc: no events\n${at('said').textContent}`);
  showPicture();
  showLine(it);
  keepInAddress(it);
  conclude(it);
  if (moreAbout() !== '') await redraw();
  if (chosen.length) await writeChain();
}

function showAnswers(it) {
  const text = decode(told.answers.subarray(0, MOST_SHOWN));
  at('answers-part').hidden = false;
  at('answers').textContent = text + (told.answers.length > MOST_SHOWN ? `\n.. ${several(told.answers.length, 'byte')} in all: save them to see the rest.` : '');
  told.notes = undefined;
  at('faults').replaceChildren();
  at('report-part').hidden = it.kind !== 'log';
  at('tables').replaceChildren();
  if (it.kind === 'log') showReport();
  showWords(it);
  if (it.kind === 'trace') noteBadTrace();
  if (it.kind === 'script' && told.status === 0 && told.groups.length !== told.lines.length + 1) told.notes = new Map();
  if (it.kind === 'script' && told.refused.length) showFaults(`${counted(told.refused.length)} refused: lines`, told.refused);
  showHere();
}

function showFaults(what, lines) {
  const list = element('span', '');
  fill(list, lines, line => [lineLink(line), ' '], { name: 'refused.csv', row: line => [now().nameOf(line)] });
  at('faults').replaceChildren(`${what} `, list);
}

// The one row of a trace that is none, which names a place.
function noteBadTrace() {
  const [row] = rowsOf(decode(told.answers.subarray(0, 100)));
  if (row?.[0] !== 'bad') return;
  const line = told.lines[Number(row[1])];
  told.notes = new Map([[line, row.join(',')]]);
  showFaults('No trace: line', Uint32Array.of(line));
}
