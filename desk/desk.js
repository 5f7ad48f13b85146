// The page: signing in and out, and the sections of each kind of caller.
import * as applicant from './applicant.js';
import * as clerk from './clerk.js';
import * as expert from './expert.js';
import { LOADING, button, control, drafts, element, focusOn, form, say, trouble } from './dom.js';
import { readErrors } from './errors.js';
import { forgetPlaces } from './list.js';
import { Gone, ask, carry, listen } from './office.js';
import { endOf } from './times.js';

const SECTIONS = {
  applicant: {
    requests: ['My requests', applicant.requests], new: ['New request', applicant.fresh], values: ['My values', applicant.values],
    blocks: ['My blocks', applicant.blocks], agents: ['Agents', applicant.agents],
  },
  expert: { queue: ['Requests to review', expert.queue] },
  clerk: {
    waiting: ['Waiting', clerk.waiting], requests: ['All requests', clerk.everything], due: ['Due to expire', clerk.due], acts: ['Acts', clerk.acts],
    registries: ['Registries', clerk.registries], pool: ['Prefixes', clerk.pool], tokens: ['Tokens', clerk.tokens], counts: ['Counts', clerk.counts],
  },
};
const HOUR = 3600000, LOOK = 10000;
const main = document.getElementById('main'), sections = document.getElementById('sections'), who = document.getElementById('who');
let kind = null, own = {}, used = 0, shown = 0, place = '', scrolled = 0, isHere = true, last = {};

// Shows a view. Of two that are on their way the later one stays.
async function view(title, make, { message = '', back, scroll } = {}) {
  const turn = shown += 1, heading = element('h2', {}, title);
  say(LOADING);
  main.inert = true;
  let node;
  try {
    node = await make(appFor(turn));
  } catch (error) {
    if (error instanceof Gone || turn !== shown) return;
    node = element('div', {}, trouble(error), element('p', { class: 'actions' }, button('Try again', () => view(title, make, { back }))));
  }
  if (turn !== shown) return;
  main.inert = false;
  main.replaceChildren(...back ? [back()] : [], heading, node);
  say(message);
  // (the browser keeps titles in its history, so they name sections only)
  if (!back) document.title = `${title} - Registry desk`;
  focusOn(heading);
  if (scroll === undefined) return;
  scrollTo(0, scroll);
  const used = main.querySelector('.used button');
  used?.focus({ preventScroll: true });
  used?.scrollIntoView({ block: 'nearest' });
}

// The address names the section alone. A case has an entry in the history with the same address, so that Back leads to its list.
// A view that somebody has left meanwhile can only say something.
const appFor = turn => ({
  go: (name, message) => {
    if (turn !== shown) return say(message);
    const scroll = name === section() && !history.state?.inside ? scrollY : undefined;
    if (history.state?.inside) history.replaceState(null, '', `#${name}`);
    else if (location.hash !== `#${name}`) history.pushState(null, '', `#${name}`);
    place = here();
    return draw(message, scroll);
  },
  open: (title, make, message) => {
    if (turn !== shown) return say(message ?? '');
    if (!history.state?.inside) {
      scrolled = scrollY;
      history.pushState({ inside: true }, '');
      place = here();
    }
    return view(title, make, { message, back: () => element('p', {}, button('Back to the list', () => history.back(), { class: 'plain' })) });
  },
});

const here = () => `${location.hash}${history.state?.inside ? ' inside' : ''}`;
// The section that the address names, or else the first.
const section = () => (Object.hasOwn(own, location.hash.slice(1)) ? location.hash.slice(1) : Object.keys(own)[0]);

// What comes once the address or the entry of the history has changed. From a case the way leads to the same place of its list.
function arrive() {
  const [before, after] = [place, here()].map(one => one.split(' ')[0]), isElsewhere = place !== here();
  place = here();
  if (!kind || !isElsewhere) return;
  if (before !== after) forgetPlaces();
  document.querySelectorAll('dialog').forEach(dialog => dialog.close());
  draw('', before === after ? scrolled : undefined);
}

function draw(message, scroll) {
  const name = section(), [title, make] = own[name];
  const link = key => element('a', { href: `#${key}`, 'aria-current': key === name ? 'page' : undefined, onclick: () => again(key) }, own[key][0]);
  sections.replaceChildren(element('ul', {}, Object.keys(own).map(key => element('li', {}, link(key)))));
  return view(title, make, { message, scroll });
}

// A link to the section that is open changes no address, so it would do nothing.
const again = name => { if (location.hash === `#${name}`) { forgetPlaces(); draw(); } };

function signIn(message = '') {
  const token = control('token', { type: 'password', autocomplete: 'current-password', label: 'Your token', hint: 'The authority gave it to you. It works like a password.' });
  const node = form({
    verb: 'Sign in', controls: [token], autocomplete: 'on',
    send: async values => {
      carry(values.token);
      const caller = await ask('GET', '/token').catch(error => { carry(null); throw error; });
      if (caller.account !== last.account || caller.kind !== last.kind) drafts.clear();
      last = caller;
      ({ kind } = caller);
      own = SECTIONS[kind];
      token.input.value = '';
      enter();
    },
  });
  main.inert = false;
  const site = element('a', { href: '../index.html', target: '_blank', rel: 'noopener' }, 'these registries');
  main.replaceChildren(element('h2', {}, 'Sign in'), element('div', { class: 'card' }, node),
    element('p', {}, 'No token yet? Ask the authority that publishes ', site, ' for one.'));
  document.title = 'Sign in - Registry desk';
  say(message);
  if (message) focusOn(main.firstChild);
  else token.input.focus();
}

function enter() {
  used = Date.now();
  const told = `Signed in as ${last.account} (${kind}). Your token is valid through ${endOf(last, 0)}.`;
  who.replaceChildren(element('span', {}, told), button('Sign out', () => signOut('You are signed out.'), { class: 'plain' }));
  sections.hidden = false;
  history.replaceState(null, '');
  place = here();
  draw();
}

// Forgets the token and all that was shown, and what was typed unless the same person signs in again.
function signOut(message, isAgain = false) {
  carry(null);
  kind = null;
  own = {};
  shown += 1;
  document.querySelectorAll('dialog').forEach(dialog => dialog.remove());
  document.querySelectorAll('input, textarea').forEach(input => { input.value = ''; });
  for (const node of [who, sections]) node.replaceChildren();
  sections.hidden = true;
  forgetPlaces();
  if (!isAgain) {
    drafts.clear();
    last = {};
    if (isHere) history.replaceState(null, '', location.pathname);
  }
  // The engine keeps the last text that a pattern was tried on.
  /^/.test('');
  signIn(message);
}

function isIdle() {
  if (!kind && Date.now() - used > HOUR) drafts.clear();
  if (kind && Date.now() - used > HOUR) signOut('You were signed out after an hour without use.');
}

function end() {
  const kept = drafts.size ? ' What you typed is kept for when you sign in again.' : '';
  if (kind) signOut(`Your token no longer works: it has expired or was revoked. Ask the authority for another.${kept}`, true);
}

listen({ tell: say, end });
fetch('errors.html').then(page => page.text()).then(readErrors, () => {});
addEventListener('pagehide', () => {
  isHere = false;
  if (kind || drafts.size) signOut('You were signed out, because you left this page.');
});
addEventListener('pageshow', event => { isHere = true; if (event.persisted) history.replaceState(null, '', location.pathname); });
// (the address of its link would name a section)
document.querySelector('.skip').addEventListener('click', event => { event.preventDefault(); main.focus(); });
addEventListener('hashchange', arrive);
addEventListener('popstate', () => { if (!kind && location.hash) history.replaceState(null, '', location.pathname); else arrive(); });
for (const name of ['pointerdown', 'keydown', 'focusin']) addEventListener(name, () => { isIdle(); used = Date.now(); }, true);
addEventListener('visibilitychange', isIdle, true);
setInterval(isIdle, LOOK);
signIn();
