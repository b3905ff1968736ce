// What the page asks for: it holds the text, answers it, draws it, and asks after it.
let text = new Uint8Array(0);

// What answers a text of each kind, what it is called meanwhile, with which statuses it answers, and what draws such a text.
const KINDS = {
  script: { answer: commands.run, stage: 'answering', done: [OK], draw: commands.draw },
  trace: { answer: commands.judge, stage: 'judging', done: [OK] },
  log: { answer: commands.audit, stage: 'auditing', done: [OK, BROKEN, OVER_LIMIT], draw: commands['draw-log'] },
};

// A text and questions after it, on lines of their own.
function withTail(bytes, tail) {
  const ended = !bytes.length || bytes[bytes.length - 1] === 10;
  const more = new TextEncoder().encode((ended ? '' : '\n') + tail.join('\n') + '\n');
  const all = new Uint8Array(bytes.length + more.length);
  all.set(bytes);
  all.set(more, bytes.length);
  return all;
}

// The answers to questions that are asked after a script, or beside a log: the last rows.
function ask(it) {
  const { answer, done } = KINDS[it.kind];
  const { status, bytes } = it.kind === 'log' ? answer(text, { ...it, asked: it.questions, report: false, groups: false }) : answer(withTail(text, it.questions), it);
  const groups = groupsBy(it.kind, bytes, recordsOf(bytes)), count = groups.length - 1;
  const last = it.questions.map((_, place) => fieldsOf(bytes.subarray(groups[count - it.questions.length + place], groups[count - it.questions.length + place + 1] - 1)));
  return { status, rows: done.includes(status) && count >= it.questions.length ? last : [] };
}

const hasDot = (picture, event) => decode(picture).includes(` id="e${event}"`);

// The picture of a text: if it doesn't say which events are to be drawn, those about the one to explain, where that isn't among the first.
function drawn(bytes, it) {
  const { draw } = KINDS[it.kind], picture = draw(bytes, it);
  const isAsked = it.only || isGiven(it.about) || [it.from, it.to, it.around].some(isGiven);
  if (isAsked || picture.status !== OK || !isGiven(it.explain) || hasDot(picture.bytes, it.explain)) return picture;
  return { ...draw(bytes, { ...it, around: it.explain }), around: Number(it.explain) };
}

// What an audit tells people of a log, as text; or nothing, where there is no answer.
function tell(it) {
  const { status, bytes } = commands.audit(text, { ...it, output: 'text' });
  return { status, words: decode(bytes) };
}

// All that the page shows of a text of one kind, stage by stage.
function work(it, stage) {
  const bytes = it.bytes ?? text;
  stage('finding the records');
  const records = recordsBy(bytes, it);
  const kind = KINDS[it.kind];
  stage(kind.stage);
  const { status, bytes: found } = kind.answer(bytes, { ...it, groups: true });
  stage('finding the answers');
  const grouped = it.kind === 'log' ? groupRowsAt(found, recordsOf(found)) : found.length, answers = it.groups ? found : found.slice(0, grouped);
  const groups = groupsBy(it.kind, answers, recordsOf(answers));
  const told = { status, answers, groups, lines: records.lines, ...eventsOf(answers, groups, records.lines), questions: it.kind === 'log' && !it.jsonl ? questionsOf(bytes, records) : [] };
  told.causeGroups = decode(found.subarray(grouped));
  if (it.kind === 'script') told.steps = stepsOf(bytes, records);
  if (!kind.draw || !kind.done.includes(status)) return told;
  stage('drawing');
  const picture = drawn(bytes, it);
  return { ...told, drawn: picture.status, picture: decode(picture.bytes), around: picture.around };
}

onmessage = async ({ data: { id, kind, it } }) => {
  try {
    const stage = name => postMessage({ id, stage: name });
    let told = {};
    if (kind === 'module') exports = (await WebAssembly.instantiate(it, {})).exports;
    else if (kind === 'text') text = it;
    else if (kind === 'work') told = work(it, stage);
    else if (kind === 'search') told = search(it);
    else if (kind === 'ask') told = ask(it);
    else if (kind === 'tell') told = tell(it);
    else if (kind === 'step') told = step(it);
    else if (kind === 'events') told = events(it);
    else if (kind === 'picture') told = drawn(text, it);
    else told = commands[kind](it.bytes ?? text, it);
    postMessage({ id, told });
  } catch (fault) {
    postMessage({ id, fault: isRefusal(fault) ? 'out of memory' : String(fault) });
  }
};
