// Which kind of text it is, told from its first records.
const MOST_READ = 65536;
const IN_SCRIPTS = new Set('write erase deliver pull lose get table snapshot inbox'.split(' '));
const isNumber = field => /^\d+$/.test(field);

// The kind that a record is of, if it is of one alone.
function kindOfRecord([word, ...fields]) {
  const areNumbers = fields.every(isNumber);
  if (IN_SCRIPTS.has(word)) return 'script';
  if (word === 'sync') return fields.length === 3 ? 'script' : 'trace';
  if (word === 'send' && fields.length === 4) {
    if (areNumbers) return 'trace';
    return fields.slice(0, 3).every(isNumber) && Number(fields[2]) < 64 ? 'script' : 'log';
  }
  const isOfLogs = ['kind', 'restart', 'send'].includes(word) || (['local', 'receive'].includes(word) && !areNumbers);
  return isOfLogs || markedName(csvRow([word, ...fields]).slice(0, -1)) !== undefined ? 'log' : undefined;
}

// How stamps are written in the records of a log: with a dot, as one number, or in two fields.
function stampsIn(records) {
  if (records.some(fields => fields.some(field => /^\d+\.\d{10}$/.test(field)))) return 'dotted';
  const header = records.find(([word]) => word === 'kind'), local = records.find(([word]) => word === 'local');
  if (header) return header.includes('stamp') ? 'packed' : 'pair';
  return local && (local.length === 4 || !isNumber(local[4])) ? 'packed' : 'pair';
}

// The first lines that are neither blank nor marks of files.
const firstLines = () => decode(now().bytes.subarray(0, MOST_READ)).replace('\ufeff', '').split('\n').filter(line => line.trim() && markedName(line) === undefined);

// Whether the first one of them begins as an object does.
const isOfJson = () => /^\s*\{/.test(firstLines()[0]);

// What a line says, if it is an object.
function objectIn(line) {
  try {
    return Object(JSON.parse(line));
  } catch {
    return {};
  }
}

// Where texts and numbers stand in an object, each by its path.
const pathsIn = (value, path = '') => Object.entries(value).flatMap(([key, inner]) => (inner && typeof inner === 'object' && !Array.isArray(inner) ? pathsIn(inner, `${path}.${key}`) : [`${path}.${key}`]));

// Takes a log as lines of JSON, and says at which keys its first lines have something.
function takeLines() {
  const objects = firstLines().slice(0, 200).map(objectIn);
  at('kind').value = 'log';
  setOptions({ jsonl: true, stamps: objects.some(({ stamp }) => /^\d+$/.test(stamp)) ? 'packed' : 'pair' });
  at('paths').textContent = `Here there are ${[...new Set(objects.flatMap(it => pathsIn(it)))].slice(0, 60).join(' ')}`;
}

// Takes the text as what most of its first records tell, with the options as at the beginning.
function takeKind() {
  if (isOfJson()) return takeLines();
  const records = rowsOf(`${decode(now().bytes.subarray(0, MOST_READ)).replace('\ufeff', '')}\n`);
  const counts = { script: 0, trace: 0, log: records.some(([word]) => word === 'local') ? 0.5 : 0 };
  for (const fields of records) {
    const found = kindOfRecord(fields);
    if (found) counts[found]++;
  }
  const [[found, most]] = Object.entries(counts).sort(([, one], [, other]) => other - one);
  if (most) at('kind').value = found;
  setOptions({ stamps: kind() === 'log' ? stampsIn(records) : 'pair' });
}
