// The beginning: what the controls do, and the module.
const NEWEST = 'It takes memories of 64 bits (memory64): Chrome, Edge and Chromium have them from version 133 on, Firefox from 134 on.';

function listen() {
  for (const [place, it] of examples.entries()) at('example').append(element('option', it.name, { value: String(place) }));
  at('example').addEventListener('change', () => { if (at('example').value !== '') showExample(examples[Number(at('example').value)]); });
  at('kind').addEventListener('change', () => {
    for (const name of VIEW) at(name).value = '';
    showOptions();
    leave();
  });
  for (const id of Object.keys(DEFAULTS).filter(name => ![...VIEW, 'only'].includes(name))) for (const name of ['input', 'change']) at(id).addEventListener(name, outdateOptions);
  for (const id of ['stamps', 'jsonl']) at(id).addEventListener('change', showOptions);
  for (const [id, act] of [['answer', () => answer()], ['stop', stop], ['storm', writeStorm], ['draw', redraw], ['find', find], ['undo', undo]]) at(id).addEventListener('click', act);
  addEventListener('keydown', event => {
    if (event.key !== 'Enter' || !(event.ctrlKey || event.metaKey) || isStepping() || at('answer').disabled) return;
    event.preventDefault();
    answer();
  });
  for (const id of ['search', ...VIEW, 'nodes', 'capacity', 'limit', 'tolerance', 'bits'])
    at(id).addEventListener('keydown', event => { if (event.key === 'Enter' && !event.ctrlKey && !event.metaKey) (id === 'search' ? find : VIEW.includes(id) ? redraw : answer)(); });
  // (rows about an event stand in the place of those from one to another)
  at('around').addEventListener('input', () => { at('from').value = at('to').value = ''; });
  for (const id of ['from', 'to']) at(id).addEventListener('input', () => { at('around').value = ''; });
  at('only').addEventListener('change', redraw);
  listenToFiles();
  at('save-svg').addEventListener('click', () => save(KINDS[kind()].picture, [pictureToSave()], 'image/svg+xml'));
  at('save-log').addEventListener('click', saveLog);
  at('save-vectors').addEventListener('click', saveVectors);
  at('save-answers').addEventListener('click', () => save('answers.csv', [told.answers ?? '']));
  at('save-text').addEventListener('click', () => save(fileName(), [now().bytes]));
  at('copy-line').addEventListener('click', () => { const it = optionsOrSay(); if (it) { showLine(it); copy(commandText(it), 'The command line'); } });
  at('copy-link').addEventListener('click', copyLink);
  listenToText();
  listenToPicture();
  listenToFilters();
  listenToWords();
  listenToSteps();
  listenToCompare();
  addEventListener('hashchange', takeFromAddress);
  addEventListener('resize', render);
}

function listenToFiles() {
  for (const [id, after] of [['file', false], ['more-files', true]]) at(id).addEventListener('change', async () => {
    const given = [...at(id).files];
    if (given.length) await take(given, after);
    at(id).value = '';
  });
  const main = at('main');
  for (const name of ['dragenter', 'dragover']) document.addEventListener(name, event => { event.preventDefault(); main.classList.add('dropping'); });
  document.addEventListener('dragleave', event => { if (!event.relatedTarget) main.classList.remove('dropping'); });
  document.addEventListener('drop', event => {
    event.preventDefault();
    main.classList.remove('dropping');
    const given = [...event.dataTransfer.files];
    // (files that are there are added to)
    if (given.length) take(given, filesNow().length > 0);
  });
}

// A module of nothing but a memory of 64 bits.
const hasMemory64 = () => typeof WebAssembly === 'object' && WebAssembly.validate(Uint8Array.of(0, 97, 115, 109, 1, 0, 0, 0, 5, 3, 1, 4, 0));

// The bytes of letters: of each five four bytes, as digits of 85, of which `#` is 0; `x` stands for `<`. The last ones may be fewer.
function bytesOfLetters(letters) {
  const view = new DataView(new ArrayBuffer(Math.ceil(letters.length / 5) * 4)), digit = code => (code === 120 ? 25 : code - 35);
  for (let at = 0; at < letters.length; at += 5) view.setUint32((at / 5) * 4, [0, 1, 2, 3, 4].reduce((sum, place) => sum * 85 + (at + place < letters.length ? digit(letters.charCodeAt(at + place)) : 84), 0));
  return new Uint8Array(view.buffer, 0, Math.floor((letters.length / 5) * 4));
}

async function compiled() {
  const packed = bytesOfLetters(at('module').textContent);
  const bytes = await new Response(new Blob([packed]).stream().pipeThrough(new DecompressionStream('gzip'))).arrayBuffer();
  return WebAssembly.compile(bytes);
}

function trouble(text) {
  at('trouble').hidden = false;
  at('trouble').textContent = text;
  for (const id of ['answer', 'storm', 'draw', 'find', 'play']) at(id).disabled = true;
}

async function begin() {
  listen();
  setOptions({});
  showHere();
  if (!hasMemory64()) return trouble(`This browser can't run the module of this page. ${NEWEST}`);
  try {
    module = await compiled();
    await startWorker();
  } catch (fault) {
    return trouble(`The module of this page can't be loaded here: ${fault.message}. ${NEWEST}`);
  }
  // For other scripts and the console: the status and the bytes that a command answers.
  window.hlc = { ask: (command, bytes, it) => send(command, { ...it, bytes }) };
  document.documentElement.dataset.ready = 'yes';
  const asked = location.hash;
  if (takeFromAddress()) return;
  const said = /[#&]kind=/.test(asked) ? at('said').textContent : '';
  await showExample(examples[0]);
  if (said) say(`${said}\n${at('said').textContent}`);
}

begin();
