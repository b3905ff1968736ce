// Which rows answer which records.

// Where in the answers those to each record begin: a table and a snapshot have as many rows more as they say.
function groupsOf(answers, rows) {
  const groups = new Numbers();
  for (let row = 0; row < rows.starts.length; row++) {
    const at = rows.starts[row];
    groups.push(at);
    if (isWord(answers, at, 'table,') || isWord(answers, at, 'snapshot,')) row += Number(fieldsOf(answers.subarray(at, rows.ends[row]))[2]);
  }
  groups.push(answers.length);
  return groups.done();
}

// The same where each row is an answer of its own.
function eachRow(answers, rows) {
  const groups = new Uint32Array(rows.starts.length + 1);
  groups.set(rows.starts);
  groups[rows.starts.length] = answers.length;
  return groups;
}

// The lines of the events of a script by their numbers, and the places of the records that are refused.
function eventsOf(answers, groups, lines) {
  const eventLines = new Numbers(), refused = new Numbers();
  for (let place = 0; place + 1 < groups.length; place++) {
    if (isWord(answers, groups[place], 'event,')) eventLines.push(lines[place]);
    if (isWord(answers, groups[place], 'refused,')) refused.push(lines[place]);
  }
  return { eventLines: eventLines.done(), refused: refused.done() };
}

// The lines on which questions of a log begin.
const QUESTIONS = ['explain,', 'check,', 'relation,', 'influenced,', 'drift,', 'claimed,', 'event,', 'why,', 'tainted,', 'first,'];

function questionsOf(bytes, records) {
  const lines = new Numbers();
  for (let place = 0; place < records.starts.length; place++)
    if (QUESTIONS.some(word => isWord(bytes, records.starts[place], word))) lines.push(records.lines[place]);
  return lines.done();
}

// Where the rows of groups begin in what an audit with groups found: they stand below all else, and an audit without them leaves the rest.
function groupRowsAt(answers, rows) {
  let place = rows.starts.length;
  while (place > 0 && isWord(answers, rows.starts[place - 1], 'group,')) place--;
  return place < rows.starts.length ? rows.starts[place] : answers.length;
}

// Where in the answers to a text of one kind those to each record begin.
const groupsBy = (kind, answers, rows) => (kind === 'script' ? groupsOf(answers, rows) : eachRow(answers, rows));
