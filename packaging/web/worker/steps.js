// The steps of a script: its records that act, and what each of them did.
const ACTS = ['write,', 'erase,', 'send,', 'sync,', 'deliver,', 'pull,', 'lose,'];

function stepsOf(bytes, records) {
  const steps = new Numbers();
  for (let place = 0; place < records.starts.length; place++) if (ACTS.some(word => isWord(bytes, records.starts[place], word))) steps.push(place);
  return steps.done();
}

const recordAt = (bytes, records, place) => fieldsOf(bytes.subarray(records.starts[place], records.ends[place]));

// The answers to a script as rows of fields, a list of them for each record.
function answersTo(bytes, it) {
  const { bytes: answers } = commands.run(bytes, it), groups = groupsOf(answers, recordsOf(answers));
  return Array.from(groups.subarray(0, -1), (start, place) => {
    const part = answers.subarray(start, groups[place + 1]), rows = recordsOf(part);
    return Array.from(rows.starts, (_, row) => recordAt(part, rows, row));
  });
}

// The stamps that a record of a node is to be above: of its event before, and of the message that it takes in.
function sourcesOf([word, node, , sent], before, records, answers, it) {
  const events = answers.slice(0, before).map(([row]) => row).filter(row => row[0] === 'event'), stampOf = row => row?.slice(2);
  const last = answers.slice(0, before).findLastIndex(([row], place) => row[0] === 'event' && Number(recordAt(text, records, place)[1]) === Number(node));
  const first = word === 'pull' ? answersTo(withTail(text.subarray(0, records.starts[before]), [`inbox,${node}`]), it).at(-1)[0][2] : sent;
  return { before: last < 0 ? undefined : stampOf(answers[last][0]), message: ['deliver', 'pull'].includes(word) ? stampOf(events[Number(first)]) : undefined };
}

// What is shown of a step: its record, its answer, its event, the tables of the nodes after it, and the picture up to then.
function step(it) {
  const records = recordsOf(text), place = it.record, bytes = text.subarray(0, records.ends[place]), record = recordAt(text, records, place);
  const nodes = Array.from({ length: it.nodes }, (_, node) => String(node));
  const answers = answersTo(withTail(bytes, nodes.map(node => `table,${node}`)), it), [answer] = answers[place];
  const count = answers.slice(0, place + 1).filter(([row]) => row[0] === 'event').length, event = answer[0] === 'event' ? count - 1 : undefined;
  const view = count ? { explain: event ?? '', from: Math.max(0, count - it.events), to: count - 1 } : { explain: '', from: '', to: '' };
  const picture = draw(bytes, { ...it, ...view, around: '', about: '', only: false });
  const tables = nodes.map((node, row) => [node, (answers[place + 1 + row] ?? []).slice(1)]);
  return { record, answer, event, tables, sources: sourcesOf(record, place, records, answers, it), picture: decode(picture.bytes) };
}
