// What came out, in a sentence on top: of a log in the program's words, and of a script and a trace, of which it has none, in the page's.

// The verdicts that mean that the clock rule is broken.
const BREAKS = ['behind', 'not-above'];

const lineLinkIn = line => namedLink(line, `line ${now().nameOf(line)}`);

function concludeScript() {
  const refused = told.refused.length, were = refused === 1 ? 'was' : 'were';
  return [`${several(told.eventLines.length, 'event')}. `, ...(refused ? [`${several(refused, 'record')} ${were} refused, the first on `, lineLinkIn(told.refused[0]), '.'] : ['No record was refused.'])];
}

// (a row for each event, with its verdict)
function concludeTrace() {
  let count = 0, wrong = 0, least = 0, first;
  for (const [, verdict] of decode(told.answers).matchAll(/^verdict,\d+,([a-z-]+)/gm)) {
    if (verdict === 'least') least++;
    if (BREAKS.includes(verdict)) {
      wrong++;
      first ??= told.lines[count];
    }
    count++;
  }
  if (!count) return [told.answers.length ? 'This is no trace.' : 'There is no event.'];
  if (wrong) return [`${several(wrong, 'stamp')} of ${counted(count)} ${wrong === 1 ? 'breaks' : 'break'} the clock rule, the first on `, lineLinkIn(first), '.'];
  return [`No stamp of ${counted(count)} breaks the clock rule. ${counted(least)} of them are the least ones.`];
}

// What may be wrong with the options by which lines of JSON were read.
function hintOnLines() {
  if (!at('jsonl').checked) return told.status === BAD_LOG && isOfJson() ? 'Its lines are of JSON: say so, above.' : '';
  const isBad = told.tables.get('bad')?.[0]?.[1] === 'field', lacksEvents = !told.tables.has('count') && told.tables.has('skipped');
  return isBad || lacksEvents ? 'Fields and kinds, above, say where in a line an event stands.' : '';
}

// Of a log the program says it itself.
const concludeLog = () => (told.words ? withLinks(firstPart(told.words)) : [WORDS[told.wordsStatus] ?? 'There is no answer.']);

function conclude(it) {
  const parts = it.kind !== 'script' && !told.answers.length && told.status ? [WORDS[told.status] ?? 'There is no answer.'] : { script: concludeScript, trace: concludeTrace, log: concludeLog }[it.kind]();
  const hint = it.kind === 'log' && told.words ? hintOnLines() : '';
  at('conclusion').hidden = false;
  at('conclusion').replaceChildren(...parts);
  at('conclusion').classList.toggle('wrong', it.kind === 'log' ? told.status !== 0 : it.kind === 'trace' && /^\d.* breaks? the|^This is no/.test(at('conclusion').textContent));
  at('hint').hidden = !hint;
  at('hint').textContent = hint;
  announce(`${at('conclusion').textContent} ${hint}`);
}
