// Lists and links: of a long list some are shown, with how many more there are, a button that shows these, and one that saves all.
const FIRST_SHOWN = 200, MORE_SHOWN = 2000;

// A link that leads to a line, by the name that it has in rows.
function namedLink(line, text, name = `line ${now().nameOf(line)}`) {
  const link = element('a', text, { href: '#' });
  link.setAttribute('aria-label', text === name ? text : `${text}, ${name}`);
  link.addEventListener('click', event => {
    event.preventDefault();
    goTo(line, true);
  });
  return link;
}

const lineLink = line => namedLink(line, now().nameOf(line));

// Puts items into a box, each as what `make` gives of it, and after them what tells of more. What is saved are the rows of all items.
function fill(box, items, make, saved, foot = element('span', '')) {
  const all = [...items], more = element('span', '', { className: 'more' });
  let shown = 0;
  const show = count => {
    foot.before(...all.slice(shown, shown + count).flatMap((item, place) => make(item, shown + place)));
    shown = Math.min(all.length, shown + count);
    more.replaceChildren();
    if (shown === all.length) return foot.remove();
    more.append(' and ', button(`${counted(all.length - shown)} more`, () => show(MORE_SHOWN)), ' ', button('Save all', () => save(saved.name, [all.map(item => csvRow(saved.row(item))).join('')])));
  };
  (foot.querySelector('td') ?? foot).append(more);
  box.replaceChildren(foot);
  show(FIRST_SHOWN);
}
