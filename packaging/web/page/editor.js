// The editor: the text, or those lines of kept bytes that can be seen, with numbers and answers beside them.
const LINE_HEIGHT = 20, MOST_HEIGHT = 8000000, MOST_LETTERS = 2000, MOST_BESIDE = 300;

// The line of the cursor in a text that is kept.
let cursor = 0;

const view = () => (kept ? at('kept') : at('text'));
const caretLine = () => (kept ? cursor : at('text').value.slice(0, at('text').selectionStart).split('\n').length - 1);
const rowCount = () => now().lineStarts.length;

// How many lines stand above the view. Of a very long text a bar of that many lines would be too high, so a part of it stands for each.
function linesAbove() {
  if (!kept) return at('text').scrollTop / LINE_HEIGHT;
  const room = at('kept').scrollHeight - at('kept').clientHeight;
  return room > 0 ? (at('kept').scrollTop / room) * Math.max(0, rowCount() - at('kept').clientHeight / LINE_HEIGHT) : 0;
}

function scrollToLine(line) {
  const above = Math.max(0, line - view().clientHeight / LINE_HEIGHT / 2);
  if (!kept) at('text').scrollTop = above * LINE_HEIGHT;
  else at('kept').scrollTop = (above / Math.max(1, rowCount() - at('kept').clientHeight / LINE_HEIGHT)) * (at('kept').scrollHeight - at('kept').clientHeight);
}

function lineText(line) {
  const content = now(), start = content.lineStarts[line];
  const end = Math.min((content.lineStarts[line + 1] ?? content.bytes.length + 1) - 1, start + MOST_LETTERS);
  return decode(content.bytes.subarray(start, end)).replace(/\0/g, '\ufffd').replace(/\r$/, '').replace(/\r/g, '\u240d');
}

function placed(text, row, above, more) {
  const made = element('div', text, more);
  made.style.top = `${(row - above) * LINE_HEIGHT}px`;
  return made;
}

function render() {
  const content = now(), count = rowCount();
  // (with a line more, for a bar to scroll by)
  at('editor').style.setProperty('--rows', Math.min(20, Math.max(8, count + 1)));
  at('editor').style.setProperty('--digits', String(count).length);
  at('lines').parentElement.style.setProperty('--height', `${Math.min(count * LINE_HEIGHT, MOST_HEIGHT)}px`);
  const above = linesAbove(), last = Math.min(count, Math.ceil(above + view().clientHeight / LINE_HEIGHT));
  const here = caretLine(), numbers = [], beside = [], lines = [];
  for (let line = Math.floor(above); line < last; line++) {
    const text = answerAt(line), mark = `${line === here ? ' at' : ''}${hitLines.has(line) ? ' hit' : ''}`, number = content.numberOf(line);
    numbers.push(placed(number ? String(number) : '', line, above, { className: mark }));
    const note = placed(text, line, above, { className: `${classOf(text)}${mark}`, title: text });
    note.addEventListener('click', () => goTo(line));
    beside.push(note);
    if (!kept) continue;
    const shown = placed(lineText(line), line, above, { className: mark });
    shown.addEventListener('click', () => { if (getSelection().isCollapsed) setCursor(line, true); });
    lines.push(shown);
  }
  at('numbers').replaceChildren(...numbers);
  at('beside').replaceChildren(...beside);
  at('lines').replaceChildren(...lines);
}

// How an answer looks: what is refused or breaks the clock rule stands out.
function classOf(text) {
  if (/^(refused|cause|bad)\b|^verdict,\d+,(behind|not-above|carried)\b/.test(text)) return 'wrong';
  return told.stale ? 'stale' : '';
}

// The answers to the records that begin on a line, the first letters of them.
function answerAt(line) {
  if (!told.lines || (told.stale && line >= told.stale.from)) return '';
  if (told.notes) return told.notes.get(line)?.slice(0, MOST_BESIDE) ?? '';
  const last = Math.min(placeOf(told.lines, line), told.groups.length - 2);
  let first = last;
  while (first >= 0 && told.lines[first] === line) first--;
  const start = told.groups[first + 1], end = Math.min(told.groups[last + 1], start + MOST_BESIDE);
  const text = decode(told.answers.subarray(start, end)).trimEnd().split('\n').join('  |  ');
  return end < told.groups[last + 1] ? `${text} ..` : text;
}

// Says what stands beside the line of the cursor.
function showHere() {
  const line = caretLine(), text = answerAt(line), { files } = now();
  const place = files.some(file => file.line === line) ? `The mark of ${files.find(file => file.line === line).name}` : `Line ${now().nameOf(line)}`;
  at('here').textContent = text ? `${place}: ${text}` : place;
  render();
}

// Says that, and shows the event of the line in the picture, which may have to be drawn for it.
function sayHere(draws) {
  showHere();
  return seek(eventAt(caretLine()), draws);
}

function setCursor(line, draws) {
  cursor = Math.max(0, Math.min(now().count - 1, line));
  sayHere(draws);
}

function goTo(line, draws) {
  if (line < 0 || line >= rowCount()) return;
  if (kept) {
    cursor = line;
    at('kept').focus({ preventScroll: true });
  } else {
    const lines = at('text').value.split('\n');
    const start = lines.slice(0, line).reduce((sum, text) => sum + text.length + 1, 0);
    at('text').focus({ preventScroll: true });
    at('text').setSelectionRange(start, start + lines[line].length);
  }
  at('editor').scrollIntoView({ block: 'nearest' });
  scrollToLine(line);
  sayHere(draws);
}

// A key in a text that is kept: it moves the cursor by lines.
function moveCursor(event) {
  const page = Math.floor(at('kept').clientHeight / LINE_HEIGHT) - 1;
  const to = { ArrowUp: cursor - 1, ArrowDown: cursor + 1, PageUp: cursor - page, PageDown: cursor + page, Home: 0, End: now().count - 1 }[event.key];
  if (to === undefined || event.ctrlKey || event.metaKey || event.altKey) return;
  event.preventDefault();
  setCursor(to);
  const above = linesAbove();
  if (cursor < above || cursor >= above + page) scrollToLine(cursor);
}

// What is typed leaves the answers to the text before it, greyed, until it is answered anew.
function outdate() {
  exampleName = '';
  isChanged = true;
  showFiles();
  if (!told.lines) return render();
  const old = told.stale?.text ?? told.text, text = at('text').value;
  let same = 0;
  while (same < old.length && old[same] === text[same]) same++;
  at('said').textContent = 'The text has changed since it was answered: Ctrl+Enter answers.';
  fade(old, old.slice(0, same).split('\n').length - 1);
}

// So does an option that is changed.
function outdateOptions() {
  if (!told.lines || told.stale) return;
  at('said').textContent = 'The options have changed since it was answered: Ctrl+Enter answers.';
  fade(told.text, Infinity);
}

function listenToText() {
  const text = at('text');
  text.addEventListener('input', outdate);
  for (const id of ['text', 'kept']) at(id).addEventListener('scroll', render);
  for (const name of ['keyup', 'select']) text.addEventListener(name, () => sayHere(false));
  text.addEventListener('click', () => sayHere(true));
  at('kept').addEventListener('keydown', moveCursor);
  for (const id of ['text', 'kept']) at(id).addEventListener('keydown', event => {
    // (what was typed since is undone by the browser first)
    if (!(event.ctrlKey || event.metaKey) || event.key !== 'z' || event.shiftKey || !past.length || !(kept || text.value === lastPut)) return;
    event.preventDefault();
    undo();
  });
  text.addEventListener('paste', event => {
    const whole = text.selectionStart === 0 && text.selectionEnd === text.value.length, letters = event.clipboardData.getData('text');
    if (!whole || !letters) return;
    event.preventDefault();
    replaceText(encode(letters));
    takeKind();
    answer();
  });
}
