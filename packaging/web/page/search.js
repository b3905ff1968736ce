// The search for records.
let hits = [], hitLines = new Set(), hit = -1, sought;

// Marks the events of all records that were found, those that are drawn.
function markHits() {
  for (const row of diagram?.rows ?? []) row.dot.classList.toggle('hit', hitLines.has(lineOfEvent(row.event)));
}

async function find() {
  const words = at('search').value, content = now(), it = optionsOrSay();
  if (!it) return;
  if (sought?.words !== words || sought.content !== content) {
    sought = { words, content };
    hit = -1;
    hits = (await during(async () => {
      await sendText();
      return send('search', { ...it, words });
    }))?.lines ?? [];
    hitLines = new Set(hits);
    markHits();
    render();
  }
  const found = text => { at('found').textContent = text; announce(text); };
  if (!hits.length) return found('Nothing found.');
  hit = (hit + 1) % hits.length;
  goTo(hits[hit], true);
  found(`${counted(hit + 1)} of ${counted(hits.length)}: line ${content.nameOf(hits[hit])}`);
  at('search').focus({ preventScroll: true });
}
