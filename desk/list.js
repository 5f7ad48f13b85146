// Lists: how many rows there are, a search in what is seen, an order, 100 rows at a time. Where somebody was in a list is kept.
import { button, element, select } from './dom.js';
import { compare } from './times.js';

const SHOWN = 100, MANY = 10, places = new Map();
// The columns that tell a row from others, whatever becomes of it.
const NAMING = ['Account', 'Reference', 'Registry', 'Value', 'Name', 'Digest', 'Block', 'Prefix', 'First', 'When (UTC)', 'What'];
/** Forgets where somebody was in each list. */
export const forgetPlaces = () => places.clear();
/** Where somebody was in a list, or where everybody begins. */
export const placeIn = (caption, first) => places.get(caption) ?? places.set(caption, first).get(caption);

/** A list of rows. `columns` gives the text of a row by title, once it is needed, with marks for State. `act` gives its controls, under the title
 * `acts`; it is also given a function that tells the rows as they are listed. Where `states` has words, one can choose among them. A `quiet` caption is only heard. */
export function table({ caption, columns: texts, rows, act, acts = 'Actions', empty, states, quiet = false }) {
  const columns = Object.keys(texts), textsOf = row => columns.map(name => texts[name](row));
  const lines = rows.map(row => ({ row, get texts() { return (this.own ??= textsOf(row)); } })), seen = () => found(lines, at).map(({ row }) => row);
  const at = placeIn(caption, { text: '', state: '', order: '', page: 0, key: '', row: -1 });
  const body = element('tbody', { role: 'rowgroup' }), info = element('p', { class: 'hint', role: 'status' });
  const titles = (act ? [...columns, acts] : columns).map(name => element('th', { scope: 'col', role: 'columnheader' }, name));
  const head = element('thead', { role: 'rowgroup' }, element('tr', { role: 'row' }, titles));
  const frame = element('table', { role: 'table' }, element('caption', { class: 'heard' }, caption), head, body);
  const move = step => () => { Object.assign(at, { page: at.page + step, row: -1 }); draw(); frame.scrollIntoView({ block: 'start' }); };
  const before = button('Previous page', move(-1)), after = button('Next page', move(1));
  const pages = element('p', { class: 'actions' }, before, after);
  function draw() {
    const all = found(lines, at), last = Math.max(Math.ceil(all.length / SHOWN) - 1, 0);
    at.page = Math.min(Math.max(at.page, 0), last);
    const from = at.page * SHOWN, shown = all.slice(from, from + SHOWN);
    const actions = ({ row }) => act && element('td', { role: 'cell', 'data-label': acts }, act(row, seen));
    const keys = shown.map(({ texts }) => texts.filter((_, place) => NAMING.includes(columns[place])).join(' ')), used = keys.indexOf(at.key);
    const nodes = shown.map((line, row) => rowOf(line, columns, actions(line), () => Object.assign(at, { key: keys[row], row })));
    nodes[used < 0 ? Math.min(at.row, nodes.length - 1) : used]?.classList.add('used');
    body.replaceChildren(...nodes);
    info.textContent = !rows.length ? empty : !all.length ? 'Nothing matches.' : countOf(from, shown.length, all.length, rows.length);
    // A button that is disabled would lose the focus.
    before.setAttribute('aria-disabled', at.page === 0);
    after.setAttribute('aria-disabled', at.page === last);
    frame.hidden = !all.length;
    pages.hidden = !last;
  }
  draw();
  const isAsked = rows.length > MANY || at.text || at.state || at.order;
  return element('div', {}, quiet ? null : element('h3', {}, caption), isAsked ? tools(caption, columns, states, at, draw) : null, info, frame, pages);
}

/** The lines that are searched for, in the order that is chosen. */
export function found(lines, { text, state, order }) {
  const wanted = text.toLowerCase(), [way, place] = order.split(' ');
  const isSeen = line => (line.seen ??= line.texts.join('\n').toLowerCase()).includes(wanted);
  const all = lines.filter(line => (!state || line.row.state === state) && (!wanted || isSeen(line)));
  return order ? all.sort((one, other) => compare(one.texts[place], other.texts[place]) * (way === 'up' ? 1 : -1)) : all;
}

function countOf(from, shown, all, total) {
  const few = all > shown ? `${from + 1} to ${from + shown} of ${all}` : `${all}`;
  return all === total ? `${few} in all` : `${few} found, ${total} in all`;
}

// The row that was used last is marked, or the one in its place, so that the focus can return to it.
function rowOf({ row, texts }, columns, actions, use) {
  const [title, ...others] = texts, [, ...names] = columns;
  const marked = (text, name) => (name === 'State' ? element('span', { class: `badge ${row.state}` }, text) : text);
  const cell = (text, place) => element('td', { role: 'cell', 'data-label': names[place] }, marked(text, names[place]));
  return element('tr', { role: 'row', onclick: use },
    element('th', { scope: 'row', role: 'rowheader' }, title), others.map(cell), actions);
}

function tools(caption, columns, states, at, draw) {
  const change = name => ({ target }) => { Object.assign(at, { [name]: target.value, page: 0, row: -1 }); draw(); };
  const menu = (name, what, options) => select({ 'aria-label': `${what}: ${caption}`, onchange: change(name) }, options, at[name]);
  const orders = columns.flatMap((name, place) => [[`up ${place}`, `By ${name}`], [`down ${place}`, `By ${name}, last first`]]);
  const search = element('input', {
    type: 'search', autocomplete: 'off', 'aria-label': `Search: ${caption}`, placeholder: 'Search', oninput: change('text'), value: at.text,
  });
  return element('div', { class: 'tools', role: 'search', 'aria-label': caption }, states ? menu('state', 'State', { '': 'All states', ...states }) : null, search,
    menu('order', 'Order', { '': 'Usual order', ...Object.fromEntries(orders) }));
}
