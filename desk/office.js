// Asks the office. The token is kept here and nowhere else.
import { hexOf } from './forms.js';

let token = null, caller = 0, tell, end;

/** The office refused: its status, the name of the error, and the part that it names. */
export class Refusal extends Error {
  constructor(status, error, item) { super(error); Object.assign(this, { status, error, item }); }
}

/** No answer came, however often the request was sent. */
export class Lost extends Error {}
/** The caller signed out meanwhile, so nobody waits for the answer. */
export class Gone extends Error {}

/** From now on requests carry this token, or none. Those of the caller before are not sent again. */
export const carry = text => { token = text; caller += 1; };

/** The digits by which the office lists the token in use, if the browser can tell them. */
export async function ownDigest() {
  const digest = await crypto.subtle?.digest('SHA-256', new TextEncoder().encode(token));
  return digest && hexOf(new Uint8Array(digest)).slice(0, 12);
}

/** From now on `tell` is given a sentence about a slow request, or an empty text once it is answered, and `end` is called once the token no longer works. */
export const listen = listeners => { ({ tell, end } = listeners); };
const LOST = 'The office does not answer. It may or may not have your request. You can safely send the same again. Try again in a minute.';
const BUSY = 'Too many requests came from your network. Nothing was done. Try again in a minute.';
const PAUSES = [500, 1500, 4000, 8000], SLOW = 4000, PATIENCE = 40000;
const rest = time => new Promise(done => { setTimeout(done, time); });
const read = text => { try { return JSON.parse(text); } catch { return undefined; } };

// One try: the answer, or null where none came.
async function sent(method, path, body, speak) {
  const slow = setTimeout(() => speak('The office has not answered yet. Still waiting.'), SLOW);
  try {
    const headers = token === null ? {} : { Authorization: `Bearer ${token}` };
    const answer = await fetch(path, {
      method, headers, body, signal: AbortSignal.timeout(PATIENCE), cache: 'no-store', credentials: 'omit', redirect: 'error', referrerPolicy: 'no-referrer',
    });
    return { status: answer.status, text: await answer.text(), isListing: /^text\/csv/.test(answer.headers.get('Content-Type')) };
  } catch {
    return null;
  } finally {
    clearTimeout(slow);
  }
}

/** What the office answers; a listing as its text. A request that gets no answer, or one of a proxy alone, is sent again as it was: a repeat has no second effect.
 * Throws `Refusal` where the office refuses, `Lost` where there is no answer after five tries, and `Gone` where the caller is gone. */
export async function ask(method, path, body) {
  const text = body === undefined || body instanceof ArrayBuffer ? body : JSON.stringify(body);
  const own = caller;
  let spoken = '', isRefused = true;
  const speak = words => { if (words || spoken) tell(words); spoken = words; };
  for (let tries = 0; ; tries += 1) {
    const answer = await sent(method, path, text, speak);
    if (own !== caller) throw new Gone();
    const told = answer && (answer.isListing ? answer.text : read(answer.text));
    if (answer && told !== undefined && (answer.status < 300 || told.error)) {
      speak('');
      if (answer.status < 300) return told;
      if (told.error === 'token') end();
      if (own !== caller) throw new Gone();
      throw new Refusal(answer.status, told.error, told.item);
    }
    const isPassing = !answer || answer.status < 300 || [429, 502, 503, 504].includes(answer.status);
    // (a proxy that says 429 has handed nothing on, but an earlier try may have arrived)
    isRefused &&= answer?.status === 429;
    if (!isPassing || tries === PAUSES.length) {
      speak('');
      if (isPassing) throw new Lost(isRefused ? BUSY : LOST);
      throw new Refusal(answer.status, answer.status === 413 ? 'large' : `status ${answer.status}`);
    }
    const why = !answer ? 'The connection broke' : answer.status === 429 ? 'Too many requests from your network' : 'The office is not reachable';
    speak(`${why}. Trying again (${tries + 2} of ${PAUSES.length + 1}).`);
    await rest(PAUSES[tries]);
    if (own !== caller) throw new Gone();
  }
}
