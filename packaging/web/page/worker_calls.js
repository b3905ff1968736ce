// The worker, and calls of it: what takes long is shown, and can be stopped.
let module, worker, calls = new Map(), lastCall = 0, sentBytes, busy = 0;

class Stopped extends Error {}

function startWorker() {
  const code = new Blob([at('worker').textContent], { type: 'text/javascript' });
  const address = URL.createObjectURL(code);
  worker = new Worker(address);
  URL.revokeObjectURL(address);
  worker.onmessage = ({ data }) => {
    const call = calls.get(data.id);
    if (!call) return;
    if (data.stage) return call.stage?.(data.stage);
    calls.delete(data.id);
    if (data.fault) call.reject(new Error(data.fault));
    else call.resolve(data.told);
  };
  worker.onerror = event => {
    event.preventDefault();
    restart(new Error(event.message || 'it ended'));
  };
  sentBytes = undefined;
  return send('module', module);
}

function send(kind, it, stage) {
  return new Promise((resolve, reject) => {
    calls.set(++lastCall, { resolve, reject, stage });
    worker.postMessage({ id: lastCall, kind, it });
  });
}

// Ends what the worker does, and begins a new one.
function restart(fault) {
  worker.terminate();
  const ended = [...calls.values()];
  calls = new Map();
  // (where this one is stopped too before it has begun, the next one takes its place)
  startWorker().catch(() => {});
  for (const call of ended) call.reject(fault);
}

const stop = () => restart(new Stopped());

async function sendText() {
  const { bytes } = now();
  if (sentBytes !== bytes) {
    sentBytes = bytes;
    await send('text', bytes);
  }
}

// What is said of a fault: memory that is refused has the program's words, whoever refuses it.
function saidOf(fault) {
  if (fault instanceof Stopped) return 'Stopped.';
  if (/out of memory|allocation failed/i.test(fault.message)) return WORDS[7];
  return `The module stopped: ${fault.message}`;
}

// Does what takes long: shows the progress, and the button that stops it.
async function during(what) {
  busy++;
  at('stop').disabled = false;
  const show = setTimeout(() => { at('progress').hidden = false; }, 150);
  at('progress').removeAttribute('value');
  let stages = 0;
  const stage = name => {
    at('progress').value = stages++;
    at('said').textContent = `${name} ..`;
  };
  try {
    return await what(stage);
  } catch (fault) {
    if (!(fault instanceof Stopped)) sentBytes = undefined;
    say(saidOf(fault));
  } finally {
    clearTimeout(show);
    if (!--busy) {
      at('stop').disabled = true;
      at('progress').hidden = true;
    }
  }
}
