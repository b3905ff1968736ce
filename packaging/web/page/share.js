// The same as command lines, as a link, and as files.
const MOST_LINK = 200000, MOST_TYPED = 2000;

const quoted = text => `'${text.replaceAll("'", "'\\''")}'`;

// The words that say which part is drawn, as the program takes them.
function viewWords(it) {
  const shown = name => (/^[\w.:/-]+$/.test(eventName(it[name])) ? eventName(it[name]) : quoted(eventName(it[name])));
  const word = (name, value) => (it[name] === '' ? '' : ` --${name} ${value}`);
  if (it.only) return `${word('explain', shown('explain'))} --only-chain`;
  const part = it.around === '' ? ['from', 'to'].map(name => (it[name] === '' ? '' : word(name, shown(name)))).join('')
    : it.kind === 'log' ? word('around', shown('around')) : ` --from ${Math.max(0, it.around - 19)} --to ${Number(it.around) + 20}`;
  return (it.explain === '' ? '' : word('explain', shown('explain'))) + part;
}

// The words that say how a log is read.
function readingWords(it) {
  const option = (name, value) => (value ? ` --${name} ${value}` : ''), many = (name, texts = []) => texts.map(text => ` --${name} ${quoted(text)}`).join('');
  const form = it.form === 33 ? ' --dotted' : option('packed', it.form), receives = it.receives === 'tick' ? '' : it.receives;
  const lines = it.jsonl ? ` --jsonl${many('field', it.fields)}${many('kind', it.kinds)}` : '', units = option('reading-unit', it['reading-unit']) + option('l-unit', it['l-unit']);
  return `${form}${option('tolerance', it.tolerance)}${option('receives', receives)}${it.unsent ? ' --unsent local' : ''}${lines}${units}${option('resent', it.resent)}${it.bad ? ` --${it.bad}` : ''}`;
}

function commandLines(it) {
  if (it.kind === 'trace') return ['hlc judge'];
  const option = name => (it[name] === '' ? '' : ` --${name} ${it[name]}`);
  if (it.kind === 'log') {
    const reading = readingWords(it);
    return [`hlc audit${reading}${option('limit')}${told.status === BROKEN ? ' --strict' : ''}${it.report ? ' --report' : ''}${it.groups ? ' --groups' : ''}`, `hlc draw-log${reading}${viewWords(it)}`];
  }
  const settings = ` --nodes ${it.nodes} --capacity ${it.capacity}${option('limit')}`;
  return [`hlc run${settings}`, `hlc draw${settings}${viewWords(it)}`];
}

// Whether the text is that of its files, one after another, as `tail` puts them.
const isOfFiles = () => !isChanged && filesNow().length > 1 && filesNow().every(file => !/[",]/.test(file.name));

function commandText(it) {
  const { bytes } = now(), lines = commandLines(it), names = filesNow().map(file => quoted(file.name));
  if (isOfFiles()) return lines.map(line => `tail -n +1 ${names.join(' ')} | ${line}\n`).join('');
  if (kept || (ownName && !isChanged) || bytes.length > MOST_TYPED) return lines.map(line => `${line} < ${quoted(fileName())}\n`).join('');
  return `printf %s ${quoted(decode(bytes))} > ${usualName()}\n${lines.map(line => `${line} < ${usualName()}\n`).join('')}`;
}

const showLine = it => { at('line').textContent = commandText(it); };

// The options as the fragment of an address, and an example by its name.
function fragmentOf(it) {
  const parts = new URLSearchParams({ kind: it.kind });
  for (const name of ['nodes', 'capacity', 'limit', 'tolerance']) if (it[name] !== undefined && it[name] !== '') parts.set(name, it[name]);
  for (const name of VIEW) if (it[name] !== undefined && it[name] !== '') parts.set(name, eventName(it[name]));
  if (it.only) parts.set('only', '1');
  if (it.kind === 'log') {
    parts.set('stamps', at('stamps').value);
    if (it.form && it.form !== 33) parts.set('bits', it.form);
    if (it.receives !== 'tick') parts.set('receives', it.receives);
    for (const name of ['unsent', 'report', 'jsonl', 'groups']) if (it[name]) parts.set(name, '1');
    for (const name of ['reading-unit', 'l-unit', 'resent', 'bad']) if (it[name]) parts.set(name, it[name]);
    for (const name of ['fields', 'kinds']) if (it[name]?.length) parts.set(name, it[name].join('\n'));
  }
  if (it.kind !== 'trace') filtersInto(parts);
  return parts;
}

// The history that a script leaves as a log, and the events of a log or of that history with their vectors, as other tools read them.
async function saveEvents(command, name, vector) {
  const it = optionsOrSay();
  if (!it) return;
  const found = await during(() => send(command, { ...it, vector, bytes: now().bytes }));
  if (!found) return;
  if (found.status) return say(`Nothing is saved. ${WORDS[found.status]}`);
  save(name, [found.bytes]);
}

const saveLog = () => saveEvents('trace', 'history.log', false);
const saveVectors = () => (kind() === 'log' ? saveEvents('vectors', 'log.vectors', true) : saveEvents('trace', 'history.vectors', true));

let ownFragment = '';

function putInAddress(parts) {
  ownFragment = `#${parts}`;
  try {
    history.replaceState(null, '', ownFragment);
  } catch {
    location.replace(ownFragment);
  }
}

// Keeps the options in the address, and never the text: a link with the text has to be asked for.
function keepInAddress(it) {
  const parts = fragmentOf(it);
  if (exampleName) parts.set('example', exampleName);
  putInAddress(parts);
}

// A text that came in the address doesn't stay there, whether it is answered or not.
function forgetText(parts) {
  const rest = new URLSearchParams(parts);
  rest.delete('text');
  if (parts.has('text')) putInAddress(rest);
}

// Takes a case from the address.
function takeFromAddress() {
  if (location.hash === ownFragment || !location.hash.includes('=')) return false;
  const parts = new URLSearchParams(location.hash.slice(1));
  if (!Object.hasOwn(KINDS, parts.get('kind'))) {
    if (parts.has('kind')) say(`The address asks for a text of the kind ${parts.get('kind').slice(0, 40)}, which there isn't: there are script, trace and log.`);
    return false;
  }
  const example = examples.find(it => it.name === parts.get('example'));
  const text = parts.get('text') ?? example?.text ?? '';
  forgetText(parts);
  replaceText(encode(text));
  at('kind').value = parts.get('kind');
  const given = Object.fromEntries([...parts].filter(([name]) => Object.hasOwn(DEFAULTS, name)));
  for (const [id, value] of Object.entries(given)) if (at(id).options && ![...at(id).options].some(option => option.value === value)) delete given[id];
  setOptions(given);
  takeFilters(parts);
  if (!parts.has('text') && example) exampleName = example.name;
  if (text) answer();
  else say('The address has options and no text: paste one, or open files.');
  return true;
}

// Copies a text, or shows and selects it where it can't be copied.
async function copy(text, what, box = 'line') {
  const copied = said => { at('copied').textContent = said; announce(said); };
  try {
    await navigator.clipboard.writeText(text);
    copied(`${what} was copied.`);
  } catch {
    if (box === 'line') at('line').textContent = text;
    getSelection().selectAllChildren(at(box));
    copied(`${what} stands below, selected: copy it from there.`);
  }
}

// The address with the text in it.
function linkOf(it) {
  const parts = fragmentOf(it);
  parts.set('text', decode(now().bytes));
  return `${location.href.replace(/#.*/s, '')}#${parts}`;
}

function copyLink() {
  const it = optionsOrSay();
  if (!it) return;
  if (kept || now().bytes.length > MOST_LINK) at('copied').textContent = 'The text is too long for a link, or no UTF-8: save it, and send the file.';
  else copy(linkOf(it), 'The link, with the whole text in it,');
}
