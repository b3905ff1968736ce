// The records of a text and the rows of an answer: where they begin and end, and their fields.

// A list of numbers that grows.
class Numbers {
  constructor() {
    this.items = new Uint32Array(1024);
    this.length = 0;
  }
  push(number) {
    if (this.length === this.items.length) {
      const wider = new Uint32Array(2 * this.length);
      wider.set(this.items);
      this.items = wider;
    }
    this.items[this.length++] = number;
  }
  done() {
    return this.items.slice(0, this.length);
  }
}

// Where the records of CSV begin and end, and on which lines, counted from 0. A line ends with a line feed or a carriage return, or both, as the program counts.
function recordsOf(bytes) {
  const starts = new Numbers(), ends = new Numbers(), lines = new Numbers();
  let line = 0, at = bytes[0] === 0xef && bytes[1] === 0xbb && bytes[2] === 0xbf ? 3 : 0;
  // between records, at the start of a field, in a bare one, in a quoted one, after a quotation mark in a quoted one
  const BETWEEN = 0, FIELD = 1, BARE = 2, QUOTED = 3, MARK = 4;
  let state = BETWEEN;
  for (; at < bytes.length; at++) {
    const byte = bytes[at], ends_line = byte === 10 || byte === 13;
    if (state === BETWEEN && !ends_line) {
      starts.push(at);
      lines.push(line);
      state = FIELD;
    }
    if (state === QUOTED) {
      if (byte === 34) state = MARK;
    } else if (state === MARK && byte === 34) state = QUOTED;
    else if (ends_line) {
      if (state !== BETWEEN) ends.push(at);
      state = BETWEEN;
    } else if (byte === 44) state = FIELD;
    else state = state === FIELD && byte === 34 ? QUOTED : BARE;
    if (byte === 10 || (byte === 13 && bytes[at + 1] !== 10)) line++;
  }
  if (ends.length < starts.length) ends.push(bytes.length);
  return { starts: starts.done(), ends: ends.done(), lines: lines.done() };
}

const decode = bytes => new TextDecoder().decode(bytes);

// The fields of a record.
function fieldsOf(bytes) {
  const fields = [];
  let field = '', quoted = false, fresh = true;
  const letters = decode(bytes);
  for (let at = 0; at < letters.length; at++) {
    const letter = letters[at];
    if (quoted) {
      if (letter !== '"') field += letter;
      else if (letters[at + 1] === '"') field += letters[++at];
      else quoted = false;
    } else if (letter === '"' && fresh) [quoted, fresh] = [true, false];
    else if (letter === ',') {
      fields.push(field);
      [field, fresh] = ['', true];
    } else [field, fresh] = [field + letter, false];
  }
  fields.push(field);
  return fields;
}

const isWord = (bytes, at, word) => [...word].every((letter, place) => bytes[at + place] === letter.charCodeAt(0));

// Which columns the events of a log have, record by record: those that the header of their file names; a file without one has none.
class Header {
  columns = null;
  begins = true;
  take(fields) {
    const isMark = fields.length === 1 && /^==> .+ <==$/s.test(fields[0]);
    if (isMark || this.begins) this.columns = fields[0] === 'kind' ? fields : null;
    this.begins = isMark;
  }
}
