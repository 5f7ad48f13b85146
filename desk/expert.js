// What experts do: the requests that are assigned to them, and their advice.
import { ask } from './office.js';
import { button, control, details, element, form } from './dom.js';
import { table } from './list.js';
import { STATES, VERDICTS, inWords, rowsOf, stateOf } from './forms.js';

/** The requests that are assigned to the caller: those that wait for advice, then others that wait, then those that are decided. */
export async function queue(app) {
  const rank = row => (row.state !== 'pending' ? 2 : row.advice ? 1 : 0), rows = await ask('GET', '/queue');
  rows.sort((one, other) => rank(one) - rank(other));
  const { length } = rows.filter(row => rank(row) === 0);
  const told = `${['No request waits', '1 request waits'][length] ?? `${length} requests wait`} for your advice.`;
  const verb = row => (row.state !== 'pending' ? 'Details' : row.advice ? 'Change advice' : 'Give advice');
  const advised = ({ advice }) => (advice ? `${advice.verdict === 'for' ? 'For' : 'Against'}: ${advice.text}` : '');
  const open = row => app.open(`Request ${row.reference} of ${row.account}`, app => review(app, row));
  const act = row => button(verb(row), () => open(row), { 'aria-label': `${verb(row)}: ${row.reference} of ${row.account}` });
  const columns = { Account: row => row.account, Reference: row => row.reference, Request: row => inWords(row.ask), State: stateOf, 'My advice': advised };
  const list = table({ quiet: true, caption: 'Requests assigned to me', columns, rows, act, states: STATES, empty: 'Nothing is assigned to you.' });
  return element('div', {}, rows.length ? element('p', {}, told) : null, list);
}

function review(app, row) {
  const own = row.advice ? [['My recommendation', VERDICTS[row.advice.verdict]], ['My advice', row.advice.text]] : [];
  const told = [['Applicant', row.account], ['Reference', row.reference], ['State', stateOf(row)], ...rowsOf(row.ask)];
  if (row.state !== 'pending') return details([...told, ...own]);
  const advise = form({
    title: 'My advice', verb: 'Send my advice', key: `advise ${row.account}/${row.reference}`,
    controls: [control('verdict', { value: row.advice?.verdict }), control('text', { value: row.advice?.text })],
    send: async ({ verdict, text }, sent) => {
      await ask('PUT', `/queue/${row.account}/${row.reference}`, { text, verdict }).then(sent);
      await app.go('queue', `Your advice on ${row.reference} of ${row.account} is recorded. You can change it while the request waits.`);
    },
  });
  return element('div', {}, details(told), advise);
}
