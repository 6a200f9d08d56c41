// What the page asks of its server. Paths are relative, so that each carries the run's key.

/** Asks for an act, and answers what `fetch` does; throws what the server says where it refuses. */
export async function post(act, body = {}, signal = undefined) {
  let answer;
  try {
    answer = await fetch(act, {
      method: 'POST', headers: { 'Content-Type': 'application/json' }, signal,
      body: JSON.stringify(body),
    });
  } catch (error) {
    if (error.name === 'AbortError') throw error;
    throw new Error('the server of this page has ended; start tools/workbench.py again');
  }
  if (!answer.ok) throw new Error((await answer.json()).error);
  return answer;
}

/** The JSON that an act answers. */
export async function ask(act, body = {}) {
  return (await post(act, body)).json();
}

/** The pieces of an answer, as they come. */
export async function* pieces(answer) {
  const reader = answer.body.getReader();
  for (;;) {
    const { done, value } = await reader.read();
    if (done) return;
    yield value;
  }
}

/** The lines of an answer, as they come. */
export async function* lines(answer) {
  const decoder = new TextDecoder();
  let rest = '';
  for await (const piece of pieces(answer)) {
    const whole = (rest + decoder.decode(piece, { stream: true })).split('\n');
    rest = whole.pop();
    yield* whole;
  }
}

/** Tells the server that this page is open, for as long as it is. */
export async function stay() {
  for await (const _ of pieces(await post('here'))) { /* It is there. */ }
}
