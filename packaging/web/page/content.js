// A text as bytes: where its lines begin, and which files it was put together of.

// Where lines begin: each after a line feed, or after a carriage return without one.
function lineStartsOf(bytes) {
  let starts = new Uint32Array(1024), length = 1;
  for (let at = 0; at < bytes.length; at++) {
    if (bytes[at] !== 10 && (bytes[at] !== 13 || bytes[at + 1] === 10)) continue;
    if (length === starts.length) {
      const wider = new Uint32Array(2 * length);
      wider.set(starts);
      starts = wider;
    }
    starts[length++] = at + 1;
  }
  return starts.slice(0, length);
}

// The name that a line marks a file by: `==> NAME <==`, quoted as a field of CSV where it has to be.
function markedName(line) {
  const [, bare, quoted] = /^\ufeff?(?:==> ([^,"]+) <==|"==> ((?:[^"]|"")+) <==")\r?$/.exec(line) ?? [];
  const name = bare ?? quoted?.replaceAll('""', '"');
  return name !== undefined && encode(name).length <= 256 ? name : undefined;
}

// The files that a text was put together of: their names, and the lines of their marks.
function filesIn(bytes, lineStarts) {
  const files = [];
  for (let line = 0; line < lineStarts.length; line++) {
    let start = lineStarts[line];
    if (!line && bytes[0] === 0xef) start += 3;
    if (bytes[start] === 34) start++;
    if (bytes[start] !== 61 || bytes[start + 1] !== 61 || bytes[start + 2] !== 62) continue;
    const name = markedName(decode(bytes.subarray(lineStarts[line], Math.min((lineStarts[line + 1] ?? bytes.length + 1) - 1, lineStarts[line] + 2000))));
    if (name !== undefined) files.push({ name, line });
  }
  return files;
}

class Content {
  constructor(bytes) {
    this.bytes = bytes;
    this.lineStarts = lineStartsOf(bytes);
    this.files = filesIn(bytes, this.lineStarts);
    this.marks = this.files.map(file => file.line);
  }

  // How many lines it has: after the last line feed there is none.
  get count() {
    return this.lineStarts.length - (this.lineStarts.at(-1) === this.bytes.length ? 1 : 0);
  }

  // What is between two lines.
  lines(first, end) {
    return this.bytes.subarray(this.lineStarts[first], this.lineStarts[end] ?? this.bytes.length);
  }

  // How the program names a line: by its file, if the text was put together of several.
  nameOf(line) {
    const file = this.files[placeOf(this.marks, line)];
    return file ? `${file.name}:${line - file.line}` : String(line + 1);
  }

  // The number of a line within its file, as an editor of that file has it.
  numberOf(line) {
    return line - (this.marks[placeOf(this.marks, line)] ?? -1);
  }

  // The line of which this is the name, if it is one.
  lineOf(name) {
    const [, file, number] = /^(?:(.*):)?(\d{1,10})$/s.exec(name) ?? [];
    if (number === undefined) return undefined;
    const first = file === undefined ? -1 : this.files.find(it => it.name === file)?.line;
    const line = first === undefined ? -1 : first + Number(number);
    // (a file ends where the next one is marked)
    const end = this.marks.find(mark => mark > Math.max(first, -1)) ?? Infinity;
    return line > Math.max(first, -1) && line < Math.min(end, 4294967294) ? line : undefined;
  }
}

// Texts that an editor is too slow for, or would change, aren't edited: too long, with other line ends than line feeds, or no UTF-8.
function isEditable(bytes) {
  if (bytes.length > MOST_EDITED || lineStartsOf(bytes).length > MOST_LINES || bytes.includes(13) || bytes.includes(0)) return false;
  try {
    return !new TextDecoder('utf-8', { fatal: true, ignoreBOM: true }).decode(bytes).includes('\ufeff');
  } catch {
    return false;
  }
}
