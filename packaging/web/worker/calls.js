// The module, and calls of its exports.
let exports;

const NO_EVENT = 0xffffffff, NO_LIMIT = 0xffffffffffffffffn, ROWS = 40, MORE_ROWS = 20000;
const memory = () => new Uint8Array(exports.memory.buffer);

class NoMemory extends Error {}

function block(size) {
  const at = Number(exports.page_alloc(BigInt(size)));
  if (!at) throw new NoMemory();
  return at;
}

const release = at => { if (at) exports.page_free(BigInt(at)); };

// The statuses that hlc_page has: up to BAD_LOG, and with OVER_LIMIT, an answer stands in the room.
const OK = 0, BROKEN = 2, BAD_LOG = 3, ROOM = 4, MEMORY = 7, OVER_LIMIT = 8;
const hasAnswer = status => status <= BAD_LOG || status === OVER_LIMIT;

// Whether memory was refused: by the module's heap, or by the browser to this worker.
const isRefusal = fault => fault instanceof NoMemory || (fault instanceof RangeError && /alloc|length|memory/i.test(fault.message));

// What is lent to a call: blocks of the module's memory, which are released after it. A slice is a place and a length.
class Lent {
  blocks = [];
  block(size) {
    this.blocks.push(block(size));
    return this.blocks.at(-1);
  }
  bytes(bytes) {
    const at = this.block(bytes.length + 1);
    memory().set(bytes, at);
    return [BigInt(at), BigInt(bytes.length)];
  }
  words(words, more = 0) {
    const at = this.block(8 * words.length + more + 1), view = new DataView(exports.memory.buffer);
    words.forEach((word, place) => view.setBigUint64(at + 8 * place, word, true));
    return at;
  }
  texts(texts = []) {
    return [BigInt(this.words(texts.flatMap(text => this.bytes(new TextEncoder().encode(text))))), BigInt(texts.length)];
  }
  // A log as `PageLog` has it.
  log(bytes, it) {
    const words = [...this.bytes(bytes), ...this.texts(it.fields), ...this.texts(it.kinds), BigInt(it.tolerance || 0)], at = this.words(words, 32);
    const numbers = [it.form, ...[['receives', RECEIVES], ['unsent', [false, true]], ['resent', RESENT], ['bad', FAULTS], ['reading-unit', UNITS], ['l-unit', UNITS], ['jsonl', [false, true]]].map(([name, known]) => Math.max(known.indexOf(it[name]), 0))];
    const view = new DataView(exports.memory.buffer, at + 8 * words.length);
    numbers.forEach((number, place) => view.setUint32(4 * place, number, true));
    return [BigInt(at)];
  }
  release() {
    for (const at of this.blocks) release(at);
  }
}

const RECEIVES = ['tick', 'merge', 'merge-clock'], RESENT = ['', 'first', 'last'], FAULTS = ['', 'lenient', 'all-faults'], UNITS = ['', 's', 'ms', 'us', 'ns', 'ntp64'];
// The forms of an audit's output; what isn't given is rows of CSV.
const OUTPUTS = ['csv', 'json', 'text'];

// Calls an export with what `lend` lends to it: the status, and the bytes of the answer. The room grows to what is told.
function call(name, size, lend) {
  const lent = new Lent();
  let room = 0;
  try {
    const given = lend(lent), told = lent.block(8);
    for (;;) {
      room = block(size);
      const status = exports[name](...given, BigInt(room), BigInt(size), BigInt(told));
      const length = Number(new DataView(exports.memory.buffer).getBigUint64(told, true));
      if (status !== ROOM) return { status, bytes: memory().slice(room, room + (hasAnswer(status) ? length : 0)) };
      size = length;
      release(room);
      room = 0;
    }
  } catch (fault) {
    if (isRefusal(fault)) return { status: MEMORY, bytes: new Uint8Array(0) };
    throw fault;
  } finally {
    release(room);
    lent.release();
  }
}

const roomOf = bytes => 65536 + 2 * bytes.length;
const callOf = (name, bytes, numbers) => call(name, roomOf(bytes), lent => [...lent.bytes(bytes), ...numbers]);
const callOfLog = (name, bytes, it, numbers = []) => call(name, roomOf(bytes), lent => [...lent.log(bytes, it), ...numbers]);

const isGiven = value => value !== undefined && value !== '';
const limit = it => (isGiven(it.limit) ? BigInt(it.limit) : NO_LIMIT);
const settings = it => [it.nodes, it.capacity, limit(it)];
const event = number => (isGiven(number) ? Number(number) : NO_EVENT);
const view = it => [event(it.explain), event(it.from), event(it.to)];

// Of a script the rows about an event are those of the events about it.
const eventsAround = (it, about, rows) => (isGiven(about) ? { ...it, from: Math.max(0, about - rows / 2 + 1), to: Number(about) + rows / 2 } : it);

function draw(bytes, it) {
  if (it.only) return callOf('hlc_page_draw_chain', bytes, [...settings(it), event(it.explain)]);
  return callOf('hlc_page_draw', bytes, [...settings(it), ...view(isGiven(it.about) ? eventsAround(it, it.about, MORE_ROWS) : eventsAround(it, it.around, ROWS))]);
}

function drawLog(bytes, it) {
  const about = (line, rows, explained = event(it.explain)) => callOfLog('hlc_page_draw_log_around', bytes, it, [explained, event(line), rows]);
  if (it.only) return about(it.explain, 0, NO_EVENT);
  if (isGiven(it.about)) return about(it.about, MORE_ROWS);
  if (isGiven(it.around)) return about(it.around, it.rows ?? ROWS);
  return callOfLog('hlc_page_draw_log', bytes, it, view(it));
}

function audit(bytes, it) {
  const numbers = [limit(it), it.report ? 1 : 0, it.groups ? 1 : 0, Math.max(OUTPUTS.indexOf(it.output), 0)];
  return call('hlc_page_audit', roomOf(bytes), lent => [...lent.log(bytes, it), ...lent.texts(it.asked), ...numbers]);
}

// The calls by the names of the program's commands.
const commands = {
  run: (bytes, it) => callOf('hlc_page_run', bytes, settings(it)),
  draw,
  trace: (bytes, it) => callOf('hlc_page_trace', bytes, [...settings(it), it.vector ? 1 : 0]),
  judge: bytes => callOf('hlc_page_judge', bytes, []),
  audit,
  'draw-log': drawLog,
  vectors: (bytes, it) => callOfLog('hlc_page_vectors', bytes, it),
  storm: (_, it) => call('hlc_page_storm', 65536, () => [it.nodes, it.steps, BigInt(it.seed)]),
};
