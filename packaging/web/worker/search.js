// The search for records.

// Which field of a record is its node, its key, its label. In a file with a header, that names the columns of an event.
function placeOf(what, word, count, columns) {
  if (columns && what !== 'key' && ['local', 'send', 'receive', 'restart'].includes(word)) return columns.indexOf(what);
  const places = {
    node: { snapshot: 3, lose: -1, explain: -1, check: -1, relation: -1, influenced: -1, why: -1, tainted: -1, claimed: -1, event: -1 },
    key: { write: 3, erase: 3, send: 4, pull: 3, get: 2 },
    label: { local: count - 1, send: count - 1, receive: count - 1, restart: count - 1 },
  };
  return places[what][word] ?? (what === 'node' ? 1 : -1);
}

// The lines of the records that have all of some words: `node:`, `key:` and `label:` ask for one field. Of a line of JSON each word may be anywhere.
function search(it) {
  const { words } = it, records = recordsBy(text, it), found = new Numbers(), header = new Header();
  const wanted = words.toLowerCase().split(/\s+/).filter(word => word);
  for (let place = 0; wanted.length && place < records.starts.length; place++) {
    const bytes = text.subarray(records.starts[place], records.ends[place]), event = it.jsonl ? eventIn(bytes, it) : null;
    const told = it.jsonl ? [decode(bytes)] : fieldsOf(bytes), fields = told.map(field => field.toLowerCase());
    header.take(told);
    const has = word => {
      const [, what, value] = /^(node|key|label):(.*)$/s.exec(word) ?? [];
      if (!what) return fields.some(field => field.includes(word));
      const field = it.jsonl ? event?.[what]?.toLowerCase() : fields[placeOf(what, fields[0], fields.length, header.columns)];
      return field !== undefined && (what === 'label' ? field.includes(value) : field === value);
    };
    if (wanted.every(has)) found.push(records.lines[place]);
  }
  return { lines: found.done() };
}
