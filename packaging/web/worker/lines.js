// Lines of JSON: each that isn't blank is a record, and what it tells of an event is read as the module does.
function recordsBy(bytes, it) {
  if (!it.jsonl) return recordsOf(bytes);
  const starts = new Numbers(), ends = new Numbers(), lines = new Numbers();
  for (let line = 0, start = 0; start < bytes.length; line++) {
    const feed = bytes.indexOf(10, start), end = feed < 0 ? bytes.length : feed;
    if (bytes.subarray(start, end).some(byte => byte !== 32 && byte !== 9 && byte !== 13)) {
      starts.push(start);
      ends.push(end);
      lines.push(line);
    }
    start = end + 1;
  }
  return { starts: starts.done(), ends: ends.done(), lines: lines.done() };
}

// What an object says in a column: by the last path that is given for it.
function columnOf(value, name, word, it) {
  let keys = [name];
  for (const [, whose, column, path] of (it.fields ?? []).map(text => /^(?:([a-z]+)\.)?([a-z_]+)=\.(.*)$/s.exec(text) ?? []))
    if (column === name && (!whose || whose === word)) keys = path.split('.');
  const found = keys.reduce((inner, key) => (inner && Object.hasOwn(inner, key) ? inner[key] : undefined), value);
  return typeof found === 'string' || Number.isInteger(found) ? String(found) : '';
}

function eventIn(bytes, it) {
  let value;
  try {
    value = JSON.parse(decode(bytes));
  } catch {
    return null;
  }
  const said = columnOf(value, 'kind', undefined, it), given = (it.kinds ?? []).map(text => text.split('=')).find(([, values]) => values?.split(',').includes(said));
  const kind = given ? given[0] : said;
  return LOGGED.includes(kind) ? { kind, node: columnOf(value, 'node', kind, it), label: columnOf(value, 'label', kind, it) } : null;
}
