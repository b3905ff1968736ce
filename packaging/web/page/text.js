// The text: what is edited, or bytes that are kept as they are; and what was there before it.
const MOST_FILE = 100000000, MOST_EDITED = 1000000, MOST_LINES = 3000, MOST_UNDONE = 20;

// The bytes that are kept, what was edited last, the name of the one file that the text is, that of the example, and whether it was changed since.
let kept, edited, ownName = '', exampleName = '', past = [], lastPut, isChanged = false;

// The text as it is now.
function now() {
  if (kept) return kept;
  const { value } = at('text');
  if (edited?.value !== value) edited = { value, content: new Content(encode(value)) };
  return edited.content;
}

const usualName = () => (kind() === 'log' && at('jsonl').checked ? 'log.jsonl' : KINDS[kind()].text);
const fileName = () => ownName || usualName();

function putBytes(bytes, name) {
  const editable = isEditable(bytes);
  kept = editable ? undefined : new Content(bytes);
  ownName = name;
  exampleName = '';
  isChanged = false;
  at('text').value = editable ? decode(bytes) : '';
  at('text').hidden = !editable;
  at('kept').hidden = editable;
  cursor = 0;
  at('text').setSelectionRange(0, 0);
  at('text').scrollTop = at('kept').scrollTop = 0;
  at('whole').hidden = editable;
  at('whole').textContent = editable ? '' : `${several(bytes.length, 'byte')}, ${several(kept.count, 'line')}: kept as they are and not edited, since the text is long, or isn't UTF-8 with line feeds.`;
  showFiles();
  leave();
}

// Puts another text in the place of this one, which comes back if that is undone.
function replaceText(bytes, name = '') {
  const before = { bytes: now().bytes, name: ownName, example: exampleName, kind: kind(), options: optionValues() };
  if (before.bytes.length) past = [...past, before].slice(-MOST_UNDONE);
  while (past.reduce((sum, it) => sum + it.bytes.length, 0) > MOST_FILE) past.shift();
  at('undo').hidden = !past.length;
  putBytes(bytes, name);
  lastPut = at('text').value;
}

function undo() {
  const before = past.pop();
  if (!before) return;
  at('undo').hidden = !past.length;
  at('kind').value = before.kind;
  setOptions(before.options);
  putBytes(before.bytes, before.name);
  exampleName = before.example;
  lastPut = at('text').value;
  return answer('The text from before is back.');
}

// ---- files ----

// The names of the files that the text consists of, each with its first line and the end of its lines.
function filesNow() {
  const content = now();
  if (!content.files.length) return ownName ? [{ name: ownName, first: 0, end: content.count }] : [];
  return content.files.map(({ name, line }, place) => ({ name, first: line + 1, end: content.marks[place + 1] ?? content.count, isLast: place + 1 === content.files.length }));
}

// How many lines a file has, without the empty one before the next mark.
function linesOf({ first, end, isLast }) {
  const isEmpty = isLast === false && end > first && now().lineStarts[end] - now().lineStarts[end - 1] === 1;
  return Math.max(0, end - first - (isEmpty ? 1 : 0));
}

// The bytes of a file: a line feed stands between it and the next mark.
function bytesOf(file) {
  const bytes = now().lines(file.first, file.end);
  return file.isLast === false && bytes.at(-1) === 10 ? bytes.subarray(0, -1) : bytes;
}

// A name as a mark can have it, which no other file has.
function nameAmong(name, names) {
  let clean = name.replace(/[\0-\x1f\x7f]/g, '_') || '_';
  while (encode(clean).length > 240) clean = clean.slice(1);
  let free = clean;
  for (let number = 2; names.includes(free); number++) free = `${clean} (${number})`;
  return free;
}

// Files one after another with their names, as `tail -n +1` puts them; one file alone has no mark.
function joined(files) {
  if (files.length === 1) return { bytes: files[0].bytes, name: files[0].name };
  const parts = files.flatMap(({ name, bytes }, place) => [encode(`${place ? '\n' : ''}${csvField(`==> ${name} <==`)}\n`), bytes]);
  return { bytes: concat(parts), name: '' };
}

function concat(parts) {
  const all = new Uint8Array(parts.reduce((sum, part) => sum + part.length, 0));
  let place = 0;
  for (const part of parts) {
    all.set(part, place);
    place += part.length;
  }
  return all;
}

// Takes files, in the place of the text or after the files that are there.
async function take(given, after) {
  const old = after ? filesNow().map(file => ({ name: file.name, bytes: bytesOf(file) })) : [];
  if (after && !old.length && now().bytes.length) old.push({ name: fileName(), bytes: now().bytes });
  const whole = old.reduce((sum, file) => sum + file.bytes.length, 0) + [...given].reduce((sum, file) => sum + file.size, 0);
  if (whole > MOST_FILE) return say(`${given.length === 1 && !old.length ? given[0].name + ' has' : 'Together these files have'} ${counted(whole)} bytes. This page takes files of 100 MB at most.`);
  const files = [...old];
  for (const file of given) files.push({ name: nameAmong(file.name, files.map(it => it.name)), bytes: new Uint8Array(await file.arrayBuffer()) });
  const all = joined(files);
  replaceText(all.bytes, all.name);
  if (!old.length) takeKind();
  const names = given.length > 5 ? several(given.length, 'file') : files.slice(old.length).map(file => file.name).join(', ');
  return answer(`${names} ${given.length === 1 ? 'was' : 'were'} ${old.length ? 'added' : 'read'}, as a ${kind()}.`);
}

function removeFile(place) {
  const files = filesNow().map(file => ({ name: file.name, bytes: bytesOf(file) }));
  const [gone] = files.splice(place, 1), all = files.length ? joined(files) : { bytes: new Uint8Array(0), name: '' };
  replaceText(all.bytes, all.name);
  return answer(`${gone.name} was removed.`);
}

function showFiles() {
  const files = filesNow();
  const row = (file, place) => {
    const item = element('li', ''), remove = button('×', () => removeFile(place));
    remove.setAttribute('aria-label', `Remove ${file.name}`);
    item.append(namedLink(file.first, file.name), ` ${several(linesOf(file), 'line')} `, remove);
    return item;
  };
  fill(at('files'), files.entries(), ([place, file]) => [row(file, place)], { name: 'files.csv', row: ([, file]) => [file.name] });
  at('add').hidden = !now().bytes.length;
}
