// What the page is made of: elements, forms, tables, questions. Every text goes in as text.
import { FIELDS, addressOf, faultOf } from './forms.js';
import { fieldOf, inWords } from './errors.js';
import { Gone, Lost, Refusal } from './office.js';

/** Something that the page itself finds wrong, as a sentence. */
export class Told extends Error {}
/** What is said while a view is on its way. */
export const LOADING = 'Loading.';
/** What was typed and not sent yet, by the key of its form. It goes with the token. */
export const drafts = new Map();
let count = 0;

/** An element with its attributes, listeners (`onclick`) and children. */
export function element(name, attributes = {}, ...children) {
  const node = document.createElement(name);
  for (const [key, value] of Object.entries(attributes)) {
    if (key.startsWith('on')) node.addEventListener(key.slice(2), value);
    else if (typeof value === 'boolean') node.toggleAttribute(key, value);
    else if (value !== undefined && value !== null) node.setAttribute(key, value);
  }
  node.append(...children.flat().filter(child => child !== null && child !== undefined));
  return node;
}

/** A button that does one thing. */
export const button = (text, act, attributes = {}) => element('button', { type: 'button', onclick: act, ...attributes }, text);

/** Says something to people who look and to those who listen. */
export function say(text) {
  const status = document.getElementById('status');
  status.textContent = text;
  status.classList.toggle('notice', Boolean(text) && text !== LOADING);
}

/** Moves the focus to a node that is no control. */
export const focusOn = node => { node.setAttribute('tabindex', '-1'); node.focus(); };

/** The sentence for what went wrong, with a link to the list of errors where it is one of the office's. */
export function troubleOf(error) {
  if (error instanceof Lost || error instanceof Told) return [error.message];
  if (!(error instanceof Refusal)) return ['Something went wrong on this page. Reload it and sign in again.'];
  const about = { href: `errors.html#${error.error}`, target: '_blank', rel: 'noopener' };
  const link = /^[a-z]+$/.test(error.error) ? [' ', element('a', about, `About this error (${error.error})`)] : [];
  return [inWords(error.error, error.item), ...link];
}

/** A notice of trouble. It is announced when it comes. */
export const trouble = error => element('div', { class: 'problem', role: 'alert' }, troubleOf(error));

/** Does something that asks the office, and shows in `place` what went wrong, or says it where somebody went meanwhile. */
export async function attempt(place, act) {
  const wasSeen = place.isConnected;
  place.replaceChildren();
  try {
    return await act();
  } catch (error) {
    if (wasSeen && !place.isConnected && !(error instanceof Gone)) say(`About what you did before: ${troubleOf(error)[0]}`);
    else if (!(error instanceof Gone)) place.replaceChildren(trouble(error));
    return undefined;
  }
}

/** A labelled control with its hint and a place for its fault. */
export function control(name, { options, value, onchange, type, optional = false, ...more } = {}) {
  const id = `field-${count += 1}`, field = FIELDS[name] ?? {}, label = more.label ?? field.label, hint = more.hint ?? field.hint;
  const words = [hint && `${id}-hint`, `${id}-fault`].filter(Boolean).join(' ');
  const common = { id, name, 'aria-describedby': words, onchange };
  const typed = {
    ...common, type: type ?? 'text', autocomplete: more.autocomplete ?? 'off', autocapitalize: 'none', spellcheck: 'false',
    value: ['checkbox', 'file'].includes(type) ? undefined : value, checked: more.checked ?? value === true,
    inputmode: ['number', 'rfc'].includes(field.form) ? 'numeric' : undefined,
  };
  const input = options ?? field.options ? select(common, options ?? field.options, value)
    : field.rows ? element('textarea', { ...common, rows: field.rows }, value) : element('input', typed);
  if (onchange && input.localName === 'input' && input.type === 'text') input.addEventListener('input', onchange);
  const fault = element('p', { id: `${id}-fault`, class: 'fault', hidden: true });
  const title = element('label', { for: id }, label, optional ? element('span', { class: 'optional' }, ' (optional)') : null);
  const about = hint ? element('p', { id: `${id}-hint`, class: 'hint' }, hint) : null;
  const node = type === 'checkbox' || type === 'radio' ? element('div', { class: 'field check' }, input, title, about, fault)
    : element('div', { class: 'field' }, title, about, input, fault);
  return {
    name, node, input, label,
    set: text => { if (type === 'checkbox') input.checked = text; else if (type !== 'file') input.value = text; },
    get: () => (type === 'checkbox' ? input.checked : type === 'file' ? input.files[0] : input.value.trim().replace(/\s*\n\s*/g, ' ')),
    mark: sentence => {
      fault.textContent = sentence ?? '';
      fault.hidden = !sentence;
      if (sentence) input.setAttribute('aria-invalid', 'true'); else input.removeAttribute('aria-invalid');
    },
  };
}

/** A list of choices, with `Choose` above them as long as none is chosen. */
export function select(attributes, options, value) {
  const keys = Object.keys(options), known = Object.hasOwn(options, value ?? '') ? value ?? '' : undefined;
  const first = keys.length === 1 || known !== undefined ? null : element('option', { value: '' }, 'Choose');
  const node = element('select', attributes, first, keys.map(key => element('option', { value: key }, options[key])));
  node.value = known ?? (first ? '' : keys[0]);
  return node;
}

/** One of several, as buttons of a group; `options` are pairs of a title and what it says. */
export function choice(legend, name, options, value, onchange) {
  const of = ([key, { title, says }]) => control(name, { type: 'radio', label: title, hint: says, value: key, checked: key === value, onchange: () => onchange(key) });
  return element('fieldset', { class: 'choice' }, element('legend', {}, legend), Object.entries(options).map(one => of(one).node));
}

/** A form. `controls` gives its controls, `check` the faults of its values by field, and `send` does what it is for; what `send` throws is
 * shown beside the field to which it belongs, or above the form. `calm` hides what is shown above, and `allow` its button if nothing can
 * be sent. `look` is the class of its button. What was typed is kept under `key` until `send` calls its second argument. */
export function form({ title, controls, parts, verb, check, send, autocomplete = 'off', look, key }) {
  const problem = element('div', { class: 'problem', role: 'alert', tabindex: '-1', hidden: true });
  const submit = element('button', { type: 'submit', class: look }, verb);
  let busy = false;
  const now = () => (typeof controls === 'function' ? controls() : controls);
  const values = () => Object.fromEntries(now().map(one => [one.name, one.get()]));
  const show = (children, named = {}) => {
    now().forEach(one => one.mark(named[one.name]));
    problem.replaceChildren(...children);
    problem.hidden = !children.length;
    (now().find(one => named[one.name])?.input ?? (children.length ? problem : submit)).focus();
  };
  const sent = answer => { drafts.delete(key); return answer; };
  const act = async event => {
    event.preventDefault();
    if (busy) return;
    const faults = check ? check(values()) : faultsIn(now());
    const bad = now().filter(one => faults[one.name]);
    if (bad.length) return show(attention(bad), faults);
    if (Object.values(faults).some(Boolean)) return show(['This cannot be sent yet. Read the notes in the form.']);
    show([]);
    busy = true;
    submit.setAttribute('aria-disabled', 'true');
    try {
      await send(values(), sent);
    } catch (error) {
      if (!(error instanceof Gone) && !node.isConnected) say(`${verb}: ${troubleOf(error)[0]}`);
      else if (!(error instanceof Gone)) show(troubleOf(error), faultNamed(error, now()));
    }
    busy = false;
    submit.removeAttribute('aria-disabled');
  };
  const keep = () => { if (key) drafts.set(key, values()); };
  const actions = element('p', { class: 'actions' }, submit);
  const node = element('form', { novalidate: true, method: 'post', autocomplete, onsubmit: act, oninput: keep, onchange: keep },
    title ? element('h3', {}, title) : null, problem, parts ?? now().map(one => one.node), actions);
  Object.assign(node, { calm: () => { problem.hidden = true; }, allow: isAble => { actions.hidden = !isAble; } });
  if (drafts.has(key)) now().forEach(one => one.set(drafts.get(key)[one.name] ?? ''));
  return node;
}

// Which fields are at fault, each with a link to it. The address stays, since it names the section.
function attention(bad) {
  const go = input => event => { event.preventDefault(); input.focus(); };
  const link = ({ input, label }) => element('a', { href: `#${input.id}`, onclick: go(input) }, label.replace(/[.:].*$/, ''));
  const links = bad.flatMap(one => [', ', link(one)]).slice(1);
  return [`${bad.length === 1 ? 'One field needs' : `${bad.length} fields need`} your attention: `, ...links, '.'];
}

function faultsIn(controls) {
  const typed = controls.filter(one => FIELDS[one.name] && typeof one.get() === 'string');
  return Object.fromEntries(typed.map(one => [one.name, faultOf(one.name, one.get())]));
}

function faultNamed(error, controls) {
  const name = error instanceof Refusal ? fieldOf(error.error, error.item) : undefined;
  return controls.some(one => one.name === name) ? { [name]: inWords(error.error, error.item) } : {};
}

/** Rows of a name and a text, which is a link if there is an address for it. */
export function details(rows) {
  const linked = (text, href) => (href ? element('a', { href, target: '_blank', rel: 'noopener noreferrer' }, text) : text);
  const told = (name, text) => element('div', {}, element('dt', {}, name), element('dd', {}, linked(text, addressOf(name, text))));
  return element('dl', {}, rows.map(row => told(...row)));
}

/** Asks before something that cannot be undone: `yes`, `more` for a second way to go on, or an empty text. `stop` is for what declines or revokes. */
export function sure(question, verb, { stop = false, more } = {}) {
  return new Promise(done => {
    const close = answer => () => dialog.close(answer);
    const dialog = element('dialog', { 'aria-labelledby': 'question', onclose: () => { dialog.remove(); done(dialog.returnValue); } },
      element('p', { id: 'question' }, question),
      element('p', { class: 'actions' }, button(verb, close('yes'), { class: stop ? 'stop' : undefined }),
        more ? button(more, close('more'), { class: stop ? 'stop plain' : 'plain' }) : null,
        button('Cancel', close(''), { class: 'plain', autofocus: true })));
    document.body.append(dialog);
    dialog.showModal();
  });
}

/** A text to copy, called `name`, and a button for that beside others. */
export function copyable(text, name, ...more) {
  const output = element('output', { class: 'token' }, text);
  const copy = async () => {
    const done = await navigator.clipboard?.writeText(output.textContent).then(() => true, () => false);
    say(done ? `The ${name} is copied.` : `The browser does not allow that. Select the ${name} and copy it by hand.`);
  };
  return [output, element('p', { class: 'actions' }, button('Copy', copy, { class: 'plain' }), more)];
}
