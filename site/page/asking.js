// Acting, once. A request is kept in this browser before it is sent. While one has no answer nothing else is sent, in any tab,
// also after a reload; and the page itself never sends one again: it asks what it was answered, where the door keeps that.
import {isMoment, minuteOf, operationsOf, reachOf, rowsOf} from './texts.js';
import {$, MOST_LAG, get, getIfAny, lag, lookAtAll, lookAtHealth, momentNow, post, saidIn, short, state} from './desk.js';
import {button, el, linked, list, soft, statusTag, tag, undivided} from './elements.js';
import {ACTS, titleOf} from './acts.js';

const ASKED = 'plandesk.asked.', LOG = 'plandesk.log', MOST_LOGGED = 200, REPEATS = 5;
export const onChange = {draw: () => {}, renew: () => {}};      // what is drawn when something is asked, and when it is answered

// --- what this browser keeps

const kept = text => {
  try {
    return JSON.parse(text);
  } catch {
    return null;
  }
};
export const logged = () => kept(localStorage.getItem(LOG)) || [];
export const pending = () => {
  const name = Object.keys(localStorage).find(one => one.startsWith(ASKED));
  return name ? kept(localStorage.getItem(name)) : null;
};
const isAnother = id => Object.keys(localStorage).some(name => name.startsWith(ASKED) && name !== ASKED + id);
const keep = request => localStorage.setItem(ASKED + request.id, JSON.stringify(request));
const drop = request => localStorage.removeItem(ASKED + request.id);
function log(request, answer, kind) {
  const others = logged().filter(one => one.id !== request.id);       // (a request has one line)
  const {id, at, title, text} = request;
  try {
    localStorage.setItem(LOG, JSON.stringify([...others, {id, at, title, text, answer, kind}].slice(-MOST_LOGGED)));
  } catch {
    // there is no room: nothing rests on these lines
  }
  onChange.draw();
}

// --- the dialog

let sending = false, renewal = null, shown = '';        // `shown`: the request that a doubt is shown of
const dialog = $('ask');
dialog.addEventListener('cancel', event => { if (sending) event.preventDefault(); });
dialog.addEventListener('close', () => {
  clearInterval(renewal);
  shown = '';
  onChange.draw();
});
function show(kind, title, ...content) {
  clearInterval(renewal);
  shown = '';
  dialog.className = kind;
  dialog.replaceChildren(el('h1', {id: 'title'}, undivided(title)), ...el('div', {}, content).childNodes);
  if (!dialog.open) dialog.showModal();
}
const close = () => dialog.close();
const leave = text => button(text, close);
const bad = text => el('p', {class: 'bad text'}, text);
const warn = text => el('p', {class: 'warn text'}, text);

// --- before it is sent

// what a request does beyond its own operation, and what it will be refused, as far as looks tell
async function ahead(what, key, now) {
  if (what === 'rerun') {
    const text = await getIfAny('/show/reach/' + key, true);
    return text === null ? {unknown: 'This desk has no look at what a rerun reaches.'} : {reach: reachOf(text)};
  }
  if (what === 'delete') return {goes: operationsOf(key, await get('/show/operations/' + key, true))};
  if (what !== 'started' || now.status === 'S') return {};
  return {why: rowsOf(await get('/why/' + key, true)).map(words => words.join(' '))};
}
const running = (operations, key) => operations.filter(one => one.key !== key && /[SIU]/.test(one.status));
const some = keys => keys.slice(0, 5).join(', ') + (keys.length > 5 ? ` and ${keys.length - 5} more` : '');
function refusedAsRunning(operations, key) {
  const keys = running(operations, key).map(one => one.key);
  return keys.length ? bad(`It will be refused 17 Running: report the end of ${some(keys)} first.`) : null;
}
function reachShown({reach}, key) {
  const again = reach.filter(one => one.status === 'C' && one.key !== key).length;
  const rank = one => one.key === key ? 0 : /[SIU]/.test(one.status) ? 1 : one.status === 'C' ? 2 : 3;
  return [el('p', {}, `It reaches ${reach.length} operation${reach.length > 1 ? 's' : ''}${
    again ? `, of which ${again} complete will run again` : ''}.`), refusedAsRunning(reach, key),
  el('div', {class: 'box', tabindex: 0, role: 'group', 'aria-label': 'what it reaches'},
    list([...reach].sort((one, other) => rank(one) - rank(other)), one =>
      el('li', {}, el('span', {}, one.key), statusTag(one.status), soft(one.ws))))];
}
function aheadShown(found, key) {
  if (found.unknown) return warn(found.unknown);
  if (found.reach) return reachShown(found, key);
  if (found.goes) return [el('p', {}, `${found.goes.length} operations go.`), refusedAsRunning(found.goes, '')];
  if (found.why?.length) return [warn(`At ${short(state.clock)} this stands in its way, and it will be refused while it does:`),
    list(found.why, line => el('li', {}, line))];
  return null;
}
// what the moment of a request moves besides: the plan's clock, and what may start by then
function movedShown(what) {
  const minutes = lag();
  if (minutes < 2 || minutes > MOST_LAG || what === 'tick') return null;
  const to = momentNow();
  const named = [...state.night.ahead.values()].filter(one => isMoment(one.begin) && one.begin <= to && /[WAR*]/.test(one.status)
    && state.night.workstations.get(one.ws)?.attribute === 'A').map(one => one.key);
  return warn(`There was no tick for ${minutes} minutes. Its moment brings the plan's clock forward to ${short(to)}, and what `
    + `may start then is named as well${named.length ? `: by the forecast ${some(named)}` : ''}.`);
}

// the fields of a request, each a label with its input
function fieldsOf(what, members) {
  return Object.entries(ACTS[what].fields || {}).map(([name, [label, isRight]]) => {
    const input = el(/^(records|lines)$/.test(name) ? 'textarea' : 'input', {name, autocomplete: 'off', spellcheck: 'false',
      autocapitalize: 'characters'});
    input.value = members[name] || '';
    return {name, input, isRight, element: el('label', {}, label, input)};
  });
}

// A person wants something: what it is, what it does, and the body that will be sent are shown; nothing is sent.
export async function ask(what, key, members) {
  if (sending) return;
  if (pending()) return settle(pending());
  const request = {do: what, key: key || '', members: {...members}}, action = ACTS[what];
  let now, found;
  try {
    await lookAtHealth(true);
    now = key && action.done && await action.now({...request, at: momentNow()});
    found = await ahead(what, key, now);
  } catch (fault) {
    return show('bad', titleOf(request), answerShown(fault.status || 0, saidIn(fault.text), fault.text || ''), leave('Close'));
  }
  const fields = fieldsOf(what, request.members), exact = el('pre', {id: 'exact'});
  const send = button(found.reach?.length > 1 ? `Rerun ${found.reach.length} operations` : action.title, () => begin(request),
    action.danger ? 'danger' : 'main');
  send.id = 'send';
  const renew = () => {
    for (const field of fields) request.members[field.name] = field.input.value;
    request.at = momentNow();
    request.text = JSON.stringify(action.body(request));
    exact.textContent = 'POST /operator\n' + request.text;
    send.disabled = sending || fields.some(field => !field.isRight(field.input.value));
  };
  for (const field of fields) field.input.addEventListener('input', renew);
  renew();
  const left = leave('Leave it');
  show('', titleOf(request), now && el('p', {}, `It is now ${now.words}.`), el('p', {}, action.means), aheadShown(found, key),
    movedShown(what), fields.map(field => field.element), action.checked && checkOf(request), exact,
    el('div', {class: 'acts'}, send, left));
  renewal = setInterval(renew, 1000);
  (fields[0]?.input || left).focus();
}

// what is wrong with a request, by a look that acts nothing
function checkOf(request) {
  const lines = el('pre', {hidden: true, role: 'status'});
  const check = async () => {
    const reply = await post('/validate', request.text, {});
    lines.hidden = false;
    lines.textContent = reply.status === 200 || reply.said.faults ? faultsOf(reply)
      : [403, 404, 405, 501].includes(reply.status) ? "This desk can't check a request: plandesk validate --request does."
        : `The check has no answer (${reply.status || 'none'}).`;
  };
  return el('div', {}, button('Check it', check), lines);
}
const faultsOf = ({said, text}) => Array.isArray(said.faults)
  ? [...(said.faults.length ? said.faults : ['no faults']), ...(said.warnings || [])].join('\n') : text;

// --- sending

// All of it up to the first `await` is one turn: a second click finds it under way. Only one tab has the lock.
async function begin(request) {
  if (sending || pending() || $('send').disabled) return;
  sending = true;
  $('send').disabled = true;
  clearInterval(renewal);
  Object.assign(request, {id: crypto.randomUUID(), title: titleOf(request), by: state.me.by});
  try {
    keep(request);
  } catch {
    sending = false;
    return show('bad', request.title, el('p', {}, 'Nothing was sent: this browser keeps nothing for this page, and what is sent '
      + 'has to be kept.'), leave('Close'));
  }
  await sendAlone(request, 'first');
}
async function sendAlone(request, attempt) {
  sending = true;
  try {
    await navigator.locks.request('plandesk', {ifAvailable: true}, async lock => {
      if (lock && localStorage.getItem(ASKED + request.id) && !isAnother(request.id)) return deliver(request, attempt);
      if (attempt === 'first') drop(request);
      show('bad', request.title, el('p', {}, 'Nothing was sent: another tab of this page asks something, or has ended this.'),
        leave('Close'));
    });
  } finally {
    sending = false;
  }
}
async function deliver(request, attempt) {
  if (attempt === 'again') keep(Object.assign(request, {again: true}));
  log(request, 'sent', '');
  for (let turn = 0; ; turn++) {
    show('', request.title, el('p', {role: 'status'}, turn ? `No answer. The door was asked what it was (${turn}).`
      : 'Sent. Waiting for the answer.'), el('pre', {}, request.text));
    const reply = await post('/operator', request.text, {'Request-Id': request.id, 'Request-Try': turn ? 'repeat' : attempt});
    if (reply.status !== 0 || !state.me.once || turn === REPEATS) {
      sending = false;
      return judged(request, reply, turn > 0);
    }
    await new Promise(resolve => setTimeout(resolve, 2000));
  }
}

// Whether a reply leaves open what became of the request. Of a repeat, what is wrong with itself says nothing of the request.
function isOpen({status, said}, isRepeat) {
  if (status === 0 || status === 202 || status === 410) return true;
  if (status >= 500) return !(said.sent === false || said.refusal === 25 || said.refusal === 27);
  return isRepeat && [403, 404, 408, 409, 411, 413, 428, 429].includes(status) && !said.refusal;
}
async function judged(request, reply, isRepeat) {
  if (reply.status === 202 || reply.status === 410) keep(Object.assign(request, {over: true}));
  if (isOpen(reply, isRepeat)) return doubt(request);
  if (request.again && reply.status !== 200) {        // that the second was refused says nothing of the first
    keep(Object.assign(request, {second: nameOf(reply)}));
    return doubt(request);
  }
  const kind = reply.status === 200 ? 'done' : 'bad';
  log(request, reply.status === 200 ? 'accepted' : nameOf(reply), kind);
  drop(request);
  if (reply.said.refusal === 1) await lookAtHealth(true).catch(() => {});
  show(kind, request.title, answerShown(reply.status, reply.said, reply.text), el('pre', {}, request.text),
    el('div', {class: 'acts'}, button('Close', close, 'main')));
  lookAtAll().then(onChange.renew);
}

// --- answers in words

const nameOf = ({status, said}) => said.refusal ? `refused ${said.refusal} ${said.name}` : String(status || 'no answer');

const OTHERS = {
  0: 'No answer came.', 403: 'You may not do this: only operators may, and no page of another site.',
  404: "It isn't there.", 409: "It wasn't taken: its Request-Id was another request's.",
  411: "It wasn't taken: it has no length.",
  413: "It wasn't taken: it is too long.",
  422: "Its moment is too far after the plan's clock, and nothing has changed. Start the desk again, with --at.",
  428: "It wasn't taken: it lacks a Request-Id.", 429: "It wasn't taken: too many connections are open from here.",
};
export function answerShown(status, said, text) {
  if (status === 200) {
    const named = said.named || [];
    return [el('p', {}, tag('accepted', 'done')),
      el('p', {}, named.length ? 'Accepted. The desk names these to start:' : 'Accepted. Nothing starts by it now.'),
      named.length ? list(named, key => el('li', {}, linked(key))) : null];
  }
  if (said.refusal) {
    const [name, means, what] = state.answers[said.refusal] || [said.name, 'it was refused', 'look'];
    return [el('p', {}, tag(`refused ${said.refusal} ${name}`, 'bad')),
      el('p', {}, `Refused, and nothing has changed: ${means}.`),
      el('p', {}, `What to do: ${what}.`), said.refusal === 1 && el('p', {}, `The plan's clock is ${state.clock}: ask anew.`)];
  }
  if (status === 400) return [el('p', {}, tag('400', 'bad')), el('p', {}, 'It is no request, and nothing has changed.'),
    Array.isArray(said.faults) ? el('pre', {}, said.faults.join('\n')) : el('p', {}, 'plandesk validate --request says why.')];
  if (said.sent === false) return [el('p', {}, tag('502', 'bad')), el('p', {}, "The desk isn't there: nothing was sent.")];
  return [el('p', {}, tag(String(status || 'no answer'), 'bad')),
    el('p', {}, OTHERS[status] || `An answer that says nothing: ${text.slice(0, 200)}`)];
}

// --- no answer came

// A request is in doubt: the door is asked what it was answered, where it keeps that; nothing is sent by it.
export async function settle(request) {
  if (sending) return;
  if (state.me.once && !request.second) {
    show('', request.title, el('p', {role: 'status'}, 'It has no answer yet. The door is asked what it was.'),
      el('pre', {}, request.text), leave('Close'));
    const reply = await post('/operator', request.text, {'Request-Id': request.id, 'Request-Try': 'repeat'});
    if (!dialog.open || sending) return;
    if (!isOpen(reply, true)) return judged(request, reply, true);
  }
  return doubt(request);
}
async function doubt(request) {
  const wasShown = shown === request.id;
  if (!wasShown) log(request, 'no answer', 'bad');
  let now = {words: '', clock: null, acted: null};
  try {
    now = await ACTS[request.do].now(request);
  } catch (fault) {
    now.words = `the desk isn't to be seen (${fault.status || 'no answer'})`;
  }
  const content = doubtShown(request, now);
  if (wasShown && (shown !== request.id || $('doubt').isEqualNode(content))) return;
  show('bad', request.title, content);
  shown = request.id;
  $('look').focus();
  renewal = setInterval(() => { if (shown === request.id) doubt(request); }, 5000);
}
function doubtShown(request, now) {
  const over = now.clock && (request.over || minuteOf(now.clock) > minuteOf(request.at)), acted = now.acted === true;
  const look = button('Look again', () => settle(request));
  look.id = 'look';
  return el('div', {id: 'doubt'},
    el('p', {}, request.second
      ? `It was sent once more, and answered ${request.second}: the second changed nothing. The first may have acted.`
      : request.again ? 'It was sent once more, and no answer came. It may have acted.'
        : 'No answer came. It may have acted. Nothing was sent again.'),
    el('pre', {}, request.text),
    el('dl', {}, el('dt', {}, 'it is now'), el('dd', {}, now.words), el('dt', {}, "plan's clock"),
      el('dd', {}, now.clock ? short(now.clock) : '-')),
    acted && el('p', {}, 'This is how it would be had it acted.'),
    now.acted === false && el('p', {}, "This isn't how it would be had it acted, unless something has come since."),
    now.clock && el('p', {}, !over
      ? `Until the plan's clock is past ${short(request.at)} it still may act. Wait for the next tick, or send the same once `
        + 'more: that changes nothing if it has acted, and nothing else was asked since.'
      : `It can't act any more: ${request.over ? 'what it was answered is lost' : 'its moment is over'}.${
        acted ? '' : ' Ask anew, if it is still wanted.'}`),
    el('div', {class: 'acts'}, look,
      !over && !acted && now.clock && button('Send the same once more', () => sendAlone(request, 'again'), 'danger'),
      acted ? button('It acted', () => end(request, 'acted, by its looks', 'done'), 'main')
        : over && button('I have looked', () => end(request, 'looked at', 'bad'), 'main')));
}
function end(request, answer, kind) {
  log(request, answer, kind);
  drop(request);
  close();
  lookAtAll().then(onChange.renew);
}

// Another tab has ended what is shown here as a doubt, or begun one.
window.addEventListener('storage', event => {
  if (shown && event.key === ASKED + shown && !event.newValue) close();
  onChange.draw();
});
