// Causes in groups: by their node, their rule, and the node whose stamps the rule compares with; and one of them shown alone.
const MOST_DRAWN = 20000;

const groupsTold = () => (kind() === 'log' ? told.tables?.get('group') : undefined) ?? [];
// (a log with questions in it has groups, and the causes themselves with a report alone)
const areCausesTold = () => Boolean(told.tables?.has('cause'));
const keyOfGroup = ([node, rule, of]) => csvRow([node, rule, of]).slice(0, -1);

// The group that is shown alone, if one is.
const groupAsked = () => (at('shown').value === 'group' && areCausesTold() ? groupsTold().find(group => keyOfGroup(group) === at('group').value) : undefined);
const wordsOfGroup = group => told.groupWords?.[groupsTold().indexOf(group)]?.words || keyOfGroup(group);

// The row of an event in the picture, by the name of its line.
const rowOnLine = name => { const line = now().lineOf(name); return line === undefined ? undefined : diagram?.rowOf(line + 1); };

// A name as the picture shows it, as bytes: some of them are shown by their numbers, and a backslash twice.
const bytesShown = shown => shown.split(/(\\\\|\\x[0-9a-f]{2})/).flatMap((part, place) => (place % 2 ? [part === '\\\\' ? 92 : parseInt(part.slice(2), 16)] : [...encode(part)])).join();

const stampOfRow = row => (row.stamp.match(/\d+/g) ?? [0, 0]).map(BigInt);
const isAbove = ([l, c], [otherL, otherC]) => l > otherL || (l === otherL && c > otherC);

// The event that the stamp of the rule comes after: the node's own last one or the send, of which that with the greater stamp counts, unless neither leads to that stamp.
function followedBy(own, send, l, c) {
  const greater = send && (!own || isAbove(stampOfRow(send), stampOfRow(own))) ? send : own;
  if (!greater) return undefined;
  const [ownL, ownC] = stampOfRow(greater);
  return (ownL === l && (ownC === c || ownC + 1n === c)) || (ownL + 1n === l && c === 0n) ? greater : undefined;
}

// Whose stamps the rule of a cause compares with, as the bytes of a name, as far as the picture has them: of nobody there are none.
function ofCause([line, , rule, ...more], sentBy) {
  if (rule === 'behind') return '';
  const row = rowOnLine(rule === 'ahead' ? line : more[0]), compared = row && rule === 'ahead' ? followedBy(row.before, sentBy.get(row), BigInt(more[0]), BigInt(more[1])) : row;
  return compared ? bytesShown(compared.lane.name) : row && '';
}

// The causes of a group. If it is the only one of its node and rule, these tell them.
function causesOf(group) {
  const [node, rule, of] = group, causes = told.tables.get('cause').filter(cause => cause[1] === node && cause[2] === rule);
  if (causes.length === Number(group[3]) || !diagram) return causes;
  const { sentBy } = neighbours(diagram.rows), name = encode(of).join();
  return causes.filter(cause => ofCause(cause, sentBy) === name);
}

// The causes that are listed.
const causesListed = () => (groupAsked() ? causesOf(groupAsked()) : told.tables.get('cause'));

// The rows of the picture in which the causes of the group stand.
function rowsOfGroup(rows) {
  const group = groupAsked(), events = new Set((group ? causesOf(group) : []).map(([line]) => now().lineOf(line) + 1));
  return new Set(rows.filter(row => events.has(row.event)));
}

// Shows the causes of a group alone, in the list and in the picture, or those of all groups again.
function chooseGroup(group) {
  if (told.stale) return answer();
  at('shown').value = group ? 'group' : 'all';
  if (group) at('group').value = keyOfGroup(group);
  if (group && diagram?.count > MOST_DRAWN) lookAround(now().lineOf(group[4]) + 1);
  return diagram ? filter() : narrowCauses();
}

// The row of a group: how many causes, what the program says of them, the first one, and a button.
function groupRow(group) {
  const row = document.createElement('tr'), alone = button('Show alone', () => chooseGroup(groupAsked() === group ? undefined : group));
  for (const part of [group[3], wordsOfGroup(group), shownField('group', 4, group), ...(areCausesTold() ? [alone] : [])]) row.insertCell().append(part);
  alone.dataset.group = keyOfGroup(group);
  alone.setAttribute('aria-label', `Show alone: ${wordsOfGroup(group)}`);
  return row;
}

// The groups as choices of a filter.
function showGroups() {
  const groups = groupsTold();
  at('shown').querySelector('[value=group]').hidden = !groups.length || !areCausesTold();
  at('of-group').hidden = at('shown').value !== 'group';
  if (at('group').groups === groups) return;
  const asked = at('group').dataset.asked || at('group').value;
  Object.assign(at('group'), { groups }).replaceChildren(...groups.map(group => element('option', `${group[3]} × ${wordsOfGroup(group)}`, { value: keyOfGroup(group) })));
  at('group').dataset.asked = '';
  if (groups.some(group => keyOfGroup(group) === asked)) at('group').value = asked;
}

// Says which group is shown alone, with a button that takes that away, and lists its causes.
function narrowCauses() {
  const group = groupAsked();
  if (told.narrowed === group && (!group || told.narrowedBy === diagram)) return;
  Object.assign(told, { narrowed: group, narrowedBy: diagram });
  document.getElementById('table-cause')?.replaceWith(tableOf('cause', causesListed()));
  for (const each of at('tables').querySelectorAll('[data-group]')) each.setAttribute('aria-pressed', String(group !== undefined && each.dataset.group === keyOfGroup(group)));
  const widen = button('Show all causes', async () => {
    const own = [...at('tables').querySelectorAll('[data-group]')].find(each => each.dataset.group === at('group').value);
    await chooseGroup();
    own?.focus();
  });
  at('narrowed').hidden = !group;
  at('narrowed').replaceChildren(...(group ? [element('span', `Alone, here and in the picture: ${wordsOfGroup(group)}`), ' ', widen] : []));
}
