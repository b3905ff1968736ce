// The options: what the controls say, within their limits.
const NUMBERS = {
  nodes: [2n, 64n], capacity: [1n, 16777216n], limit: [0n, 9223372036854775807n, true], tolerance: [0n, 9223372036854775807n, true],
  bits: [1n, 32n],
  'other-limit': [0n, 9223372036854775807n, true],
  'storm-nodes': [2n, 64n], 'storm-steps': [1n, 16384n], 'storm-seed': [0n, 9223372036854775807n],
};
// Those that name an event: of a script by its number, and of a log by its line.
const VIEW = ['explain', 'from', 'to', 'around'], EVENTS = { script: [0n, 16777216n, true], log: [1n, 4294967294n, true] };
const DEFAULTS = {
  nodes: '3', capacity: '1024', limit: '', tolerance: '', bits: '12', stamps: 'pair', receives: 'tick', unsent: false, report: false,
  jsonl: false, fields: '', kinds: '', 'reading-unit': '', 'l-unit': '', resent: '', bad: '', groups: false,
  explain: '', from: '', to: '', around: '', only: false,
};
// Those that stand together where a log is read otherwise than at the beginning.
const READING = ['tolerance', 'receives', 'unsent', 'reading-unit', 'l-unit', 'resent', 'bad', 'groups'];
const isSwitch = id => typeof DEFAULTS[id] === 'boolean';

// What the controls show, and what they are to show: what isn't given is as at the beginning.
const optionValues = () => Object.fromEntries(Object.keys(DEFAULTS).map(id => [id, isSwitch(id) ? at(id).checked : at(id).value]));

function setOptions(values) {
  for (const [id, usual] of Object.entries(DEFAULTS)) {
    const value = values[id] ?? usual;
    if (isSwitch(id)) at(id).checked = value === true || value === '1';
    else at(id).value = value;
    at(id).removeAttribute('aria-invalid');
  }
  if (READING.some(id => (isSwitch(id) ? at(id).checked : at(id).value !== DEFAULTS[id]))) at('reading').open = true;
  showOptions();
}

const nameOfControl = id => at(id).labels[0].firstChild.textContent.trim();

function refuse(id, why) {
  at(id).setAttribute('aria-invalid', 'true');
  throw new RangeError(`${nameOfControl(id)}: ${why}`);
}

// The number of an option, as the command line takes it: digits within the limits, or nothing where it may be left out.
function number(id) {
  const [least, most, optional] = NUMBERS[id] ?? EVENTS[kind()], value = at(id).value.trim();
  const right = value === '' ? Boolean(optional) : /^\d{1,20}$/.test(value) && BigInt(value) >= least && BigInt(value) <= most;
  at(id).setAttribute('aria-invalid', String(!right));
  if (!right) refuse(id, `a whole number from ${least} to ${most}.`);
  return value;
}

// The texts of an option that may be given more than once, one a line.
function textsOf(id, form, like) {
  const texts = at(id).value.split('\n').map(text => text.trim()).filter(text => text);
  const wrong = texts.find(text => !form.test(text));
  at(id).setAttribute('aria-invalid', String(wrong !== undefined));
  if (wrong !== undefined) refuse(id, `${wrong} isn't of the form ${like}.`);
  return texts;
}

// How lines of JSON are read.
const FIELD = /^(?:kind|(?:(?:local|send|receive|restart)\.)?(?:node|reading|l|c|stamp|message|from|carried|carried_l|carried_c|seq|label))=(?:\.[^.]+)+$/, KIND = /^(?:local|send|receive|restart)=[^,]+(?:,[^,]+)*$/;

function jsonOptions() {
  if (!at('jsonl').checked) return { jsonl: false };
  return { jsonl: true, fields: textsOf('fields', FIELD, 'NAME=.PATH, as l=.hlc.l or receive.message=.rpc'), kinds: textsOf('kinds', KIND, 'WORD=VALUE,VALUE, as send=posted') };
}

// The event that is named, of a log by its line counted over all files.
function namedEvent(id) {
  const value = at(id).value.trim();
  if (kind() !== 'log' || value === '' || !now().files.length) return number(id);
  const line = now().lineOf(value);
  at(id).setAttribute('aria-invalid', String(line === undefined));
  if (line === undefined) refuse(id, `there is no line ${value} in these files; a line is named as NAME:LINE.`);
  return String(line + 1);
}

function options() {
  const it = { kind: kind(), limit: kind() === 'trace' ? '' : number('limit') };
  if (kind() in EVENTS) for (const name of VIEW) it[name] = namedEvent(name);
  it.only = at('only').checked && Boolean(it.explain);
  if (kind() === 'script') {
    Object.assign(it, { nodes: Number(number('nodes')), capacity: Number(number('capacity')) });
    if (it.from !== '' && it.to !== '' && BigInt(it.from) > BigInt(it.to)) throw new RangeError('hlc: --from is above --to');
  }
  if (kind() === 'log') {
    const form = at('stamps').value;
    Object.assign(it, { form: form === 'packed' ? Number(number('bits')) : form === 'dotted' ? 33 : 0, tolerance: number('tolerance'), receives: at('receives').value, unsent: at('unsent').checked, report: at('report').checked });
    for (const name of ['reading-unit', 'l-unit', 'resent', 'bad']) it[name] = at(name).value;
    if (!it['reading-unit'] !== !it['l-unit']) refuse(it['l-unit'] ? 'reading-unit' : 'l-unit', 'one unit needs the other.');
    Object.assign(it, jsonOptions(), { groups: at('groups').checked });
  }
  return it;
}

// What the options allow, or nothing, and it says why.
function optionsOrSay() {
  try {
    return options();
  } catch (fault) {
    say(fault.message);
  }
}

function showOptions() {
  for (const part of document.querySelectorAll('.for')) part.hidden = !part.classList.contains(kind());
  at('bits-label').hidden = at('stamps').value !== 'packed';
  at('of-json').hidden = kind() !== 'log' || !at('jsonl').checked;
  at('chain-of').textContent = `Chain of ${KINDS[kind()].event}`;
}

// How an event is named in the controls and on the command line.
const eventName = event => (kind() === 'log' ? now().nameOf(event - 1) : String(event));

// Asks for the rows about an event, in the place of those from one to another.
function lookAround(event) {
  at('from').value = at('to').value = '';
  at('around').value = eventName(event);
}
