// The program's own words for a log: its text for people, what it says first, and what it says of groups and of their first causes.
const GROUPS_BEGIN = '\nCauses, by node and rule, and the first three of each:\n', FIRST_OF_GROUP = 3;

// A name as the text shows it: printable ASCII as it is, a backslash twice, and each other byte, and an apostrophe, by its number.
const plainInText = name => Array.from(encode(name), byte => (byte === 92 ? '\\\\' : byte >= 32 && byte <= 126 && byte !== 39 ? String.fromCharCode(byte) : `\\x${byte.toString(16).padStart(2, '0')}`)).join('');

// How the text names a line: with a word, unless it is one of a file.
const lineInText = name => `${name.includes(':') ? '' : 'line '}${plainInText(name)}`;

// What stands up to the first blank line: the conclusion.
const firstPart = words => words.split('\n\n', 1)[0].trimEnd();

// What the text says of each group, and of its first causes: their lines stand below its own, in the order of the rows.
function wordsOfGroups(words, groups) {
  const start = words.indexOf(GROUPS_BEGIN), lines = start < 0 ? [] : words.slice(start + GROUPS_BEGIN.length).split('\n');
  let place = 0;
  return groups.map(([, , , count]) => {
    const first = Math.min(FIRST_OF_GROUP, Number(count)), [own = '', ...causes] = lines.slice(place, place + 1 + first);
    place += 1 + first;
    return { words: own.replace(/^ *\d+ {2}/, ''), causes };
  });
}

// The words for the causes that the text tells one by one, by how it names their lines, and their rules.
function wordsOfCauses(groups, told) {
  const found = new Map();
  told.forEach(({ causes }, place) => {
    for (const text of causes) {
      const [, line, words] = /^ {4}(.*?) {2}((?:claimed|carried) .*)$/.exec(text) ?? [];
      if (words) found.set(`${line}\n${groups[place][1]}`, words);
    }
  });
  return found;
}

// A text of the program, in which the lines that it names are links.
function withLinks(text) {
  const files = new Map(now().files.map(({ name }) => [plainInText(name), name]));
  const names = [...files.keys()].sort((one, other) => other.length - one.length).map(name => name.replace(/[\\^$.*+?()[\]{}|/-]/g, '\\$&'));
  const named = names.length ? new RegExp(`\\bline (\\d+)\\b|(${names.join('|')}):(\\d+)`, 'g') : /\bline (\d+)\b/g;
  const parts = [];
  let place = 0;
  for (const { 0: found, 1: number, 2: file, 3: inFile, index } of text.matchAll(named)) {
    const line = now().lineOf(file === undefined ? number : `${files.get(file)}:${inFile}`);
    if (line === undefined) continue;
    parts.push(text.slice(place, index), namedLink(line, found));
    place = index + found.length;
  }
  return [...parts, text.slice(place)];
}

// Shows the whole text, of a long one its beginning.
function showWords(it) {
  at('words').replaceChildren();
  at('words-part').hidden = it.kind !== 'log' || !told.words;
  if (at('words-part').hidden) return;
  const { words } = told, cut = words.length > MOST_SHOWN ? `\n.. ${several(words.length, 'letter')} in all: save them to see the rest.` : '';
  at('words').replaceChildren(...withLinks(words.slice(0, MOST_SHOWN)), cut);
}

function listenToWords() {
  at('copy-words').addEventListener('click', () => copy(told.words ?? '', 'The report', 'words'));
  at('save-words').addEventListener('click', () => save('report.txt', [told.words ?? ''], 'text/plain'));
}
