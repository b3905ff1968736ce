// The picture under pointers, fingers and keys.

// A mouse drags the picture; fingers scroll it by themselves, and two of them zoom.
function listenToMouse(picture) {
  let pan, moved = false;
  picture.addEventListener('pointerdown', event => {
    moved = false;
    if (event.pointerType !== 'touch') pan = { x: event.clientX, y: event.clientY, left: picture.scrollLeft, top: picture.scrollTop };
  });
  addEventListener('pointermove', event => {
    if (!pan) return;
    const [x, y] = [event.clientX - pan.x, event.clientY - pan.y];
    if (Math.abs(x) + Math.abs(y) > 4) moved = true;
    picture.classList.toggle('panning', moved);
    if (moved) picture.scrollTo(pan.left - x, pan.top - y);
  });
  for (const name of ['pointerup', 'pointercancel']) addEventListener(name, () => { pan = undefined; picture.classList.remove('panning'); });
  picture.addEventListener('click', event => { const dot = dotOf(event); if (dot && !moved) press(dot); });
  picture.addEventListener('wheel', event => {
    if (!event.ctrlKey) return;
    event.preventDefault();
    const box = picture.getBoundingClientRect();
    zoom(scale * (event.deltaY < 0 ? 1.15 : 1 / 1.15), event.clientX - box.left, event.clientY - box.top);
  }, { passive: false });
}

function listenToFingers(picture) {
  let pinch;
  const spread = ([one, other]) => Math.hypot(one.clientX - other.clientX, one.clientY - other.clientY);
  picture.addEventListener('touchstart', event => {
    pinch = event.touches.length === 2 ? { spread: spread(event.touches), scale } : undefined;
    if (pinch && event.cancelable) event.preventDefault();
  }, { passive: false });
  picture.addEventListener('touchmove', event => {
    if (!pinch || event.touches.length !== 2) return;
    if (event.cancelable) event.preventDefault();
    const box = picture.getBoundingClientRect(), [one, other] = event.touches;
    zoom((pinch.scale * spread(event.touches)) / pinch.spread, (one.clientX + other.clientX) / 2 - box.left, (one.clientY + other.clientY) / 2 - box.top);
  }, { passive: false });
  for (const name of ['touchend', 'touchcancel']) picture.addEventListener(name, () => { pinch = undefined; });
}

// A dot that is clicked on: its event is chosen, or its events are unfolded.
const press = dot => { if (!isStepping()) (dot.matches('.fold') ? unfold : choose)(numberOf(dot)); };

function listenToKeys(picture) {
  picture.addEventListener('keydown', event => {
    const dot = dotOf(event);
    if (event.ctrlKey || event.metaKey || event.altKey) return;
    if (dot && (event.key === 'Enter' || event.key === ' ')) {
      event.preventDefault();
      press(dot);
    } else if (dot && MOVES.includes(event.key)) {
      event.preventDefault();
      const next = dotBy(event.key, dot);
      if (next) moveTo(next);
    } else if (event.key === '+' || event.key === '=') zoom(scale * 1.25);
    else if (event.key === '-') zoom(scale / 1.25);
    else if (event.key === '0') zoom(1);
  });
}

function listenToPicture() {
  const picture = at('picture');
  listenToMouse(picture);
  listenToFingers(picture);
  listenToKeys(picture);
  for (const name of ['pointerover', 'focusin']) picture.addEventListener(name, event => { const dot = dotOf(event); if (dot) pointAt(dot); });
  for (const [id, act] of [['smaller', () => zoom(scale / 1.25)], ['larger', () => zoom(scale * 1.25)], ['whole-size', () => zoom(1)], ['fit', fit]]) at(id).addEventListener('click', act);
}
