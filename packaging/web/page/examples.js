// The examples, and scripts by seed.
const examples = JSON.parse(at('examples').textContent);

function showExample(it) {
  replaceText(encode(it.text));
  exampleName = it.name;
  at('kind').value = it.kind;
  setOptions({ capacity: '64', ...it.options });
  return answer();
}

async function writeStorm() {
  let it;
  try {
    it = { nodes: Number(number('storm-nodes')), steps: Number(number('storm-steps')), seed: number('storm-seed') };
  } catch (fault) {
    return say(fault.message);
  }
  const script = await during(() => send('storm', it));
  if (!script) return;
  if (script.status) return say(WORDS[script.status]);
  replaceText(script.bytes, `storm-${it.seed}.csv`);
  at('kind').value = 'script';
  setOptions({ nodes: String(it.nodes), capacity: String(it.nodes * it.steps) });
  await answer();
}
