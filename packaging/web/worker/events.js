// What the events of a text are called, by which those of two executions are matched.
const LOGGED = ['local', 'send', 'receive', 'restart'];

// Of an event of a script: what its record asks, but for the reading.
const nameInScript = ([word, , , ...rest]) => csvJoined([word, ...rest]);

// Of an event of a log: its word and its label, which stands after the stamp and the message, or in a column of its own.
function nameInLog(fields, columns, form) {
  const [word] = fields, after = (form ? 4 : 5) + (word === 'send' || word === 'receive' ? 1 : 0);
  return csvJoined([word, (columns ? fields[columns.indexOf('label')] : fields[after]) ?? '']);
}

const csvJoined = fields => fields.map(field => JSON.stringify(field)).join();

// The events of a text as the picture names them, each with its node and its name.
function events(it) {
  const bytes = it.bytes ?? text, records = recordsBy(bytes, it), numbers = new Numbers(), nodes = [], names = [], lines = new Numbers(), header = new Header();
  const answered = it.kind === 'script' ? answersTo(bytes, it) : [];
  const add = (number, node, name, line) => {
    numbers.push(number);
    lines.push(line);
    nodes.push(node);
    names.push(name);
  };
  for (let place = 0; place < records.starts.length; place++) {
    const line = records.lines[place], told = it.jsonl ? eventIn(bytes.subarray(records.starts[place], records.ends[place]), it) : null;
    if (told) add(line + 1, told.node, csvJoined([told.kind, told.label]), line);
    if (it.jsonl) continue;
    const fields = recordAt(bytes, records, place);
    header.take(fields);
    const { columns } = header;
    if (it.kind === 'script' && answered[place]?.[0]?.[0] === 'event') add(numbers.length, fields[1], nameInScript(fields), line);
    if (it.kind === 'log' && LOGGED.includes(fields[0])) add(line + 1, columns ? fields[columns.indexOf('node')] : fields[1], nameInLog(fields, columns, it.form), line);
  }
  return { numbers: numbers.done(), nodes, names, lines: lines.done() };
}
