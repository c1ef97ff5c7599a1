// One operation, one occurrence, one workstation: what is known of it, and what a person may do.
import {ATTRIBUTE, isMoment, occurrenceOf, operationsOf, pairsOf, rowsOf, keyOf, wholeKey} from './texts.js';
import {$, get, getIfAny, saidIn, short, state} from './desk.js';
import {addressOf, button, el, keyLink, linked, list, numberLink, redraw, soft, statusTag, table, tag, undivided}
  from './elements.js';
import {ACTS, allowed} from './acts.js';
import {answerShown, ask} from './asking.js';
import {network} from './network.js';

const KINDS = {op: operationSide, occ: occurrenceSide, ws: workstationSide};
const mayAct = () => state.me.may === 'act';
const buttonOf = (what, key) => button(ACTS[what].title, () => ask(what, key), ACTS[what].danger ? 'danger' : '');
let shown = null, from = null;      // what is open, and where the focus was before

// what the page's address names: a kind and a key
function named() {
  const found = /^#(op|occ|ws)=(.+)$/.exec(location.hash);
  return found && {kind: found[1], key: wholeKey(decoded(found[2]))};
}
function decoded(text) {
  try {
    return decodeURIComponent(text);
  } catch {
    return text;        // (typed by hand: the desk says that there is no such key)
  }
}

// Opens what the address names, or draws it anew.
export async function drawSide() {
  const wanted = named(), side = $('side');
  if (!wanted) return shut();
  const isOther = shown?.key !== wanted.key;
  if (isOther && !side.contains(document.activeElement)) from = document.activeElement;
  shown = wanted;
  let body;
  try {
    body = await KINDS[wanted.kind](wanted.key);
  } catch (fault) {
    if (!fault.status) console.error(fault);
    body = [el('div', {}, answerShown(fault.status || 0, saidIn(fault.text), fault.text || ''))];
  }
  if (shown !== wanted) return;
  const heading = el('h1', {tabindex: -1}, undivided(wanted.key));
  redraw(side, [el('div', {class: 'top'}, heading, button('Close', closeSide)), ...body.flat().filter(Boolean)]);
  side.hidden = false;
  if (isOther) {
    side.scrollTop = 0;
    side.querySelector('h1').focus({preventScroll: true});
  }
}
function shut() {
  const address = shown && (from?.getAttribute('href') || '');
  $('side').hidden = true;
  $('side').replaceChildren();
  shown = null;
  if (address) [...document.querySelectorAll('main a')].find(one => one.getAttribute('href') === address)?.focus();
}
export function closeSide() {
  history.pushState(null, '', location.pathname);
  shut();
}

const facts = pairs => el('dl', {}, pairs.filter(Boolean).map(([name, value]) => [el('dt', {}, name), el('dd', {}, value)]));
function forecastWords(ahead) {
  if (!ahead) return '-';
  if (ahead.never) return linked(`never begins: ${ahead.never}`);
  if (!isMoment(ahead.end)) return '-';
  const late = ahead.late ? `, ${ahead.late} min late` : '';
  return `${isMoment(ahead.begin) ? `${short(ahead.begin)} to` : 'ends'} ${short(ahead.end)}${late}`;
}

async function operationSide(key) {
  const occurrence = occurrenceOf(key), operations = operationsOf(occurrence, await get('/show/operations/' + occurrence, true));
  const why = await get('/why/' + key, true), one = operations.find(operation => operation.key === key), {night} = state;
  const attribute = night.workstations.get(one.ws)?.attribute, mark = /^status S (\w+)$/m.exec(why)?.[1];
  const error = one.status === 'E' && night.errors.find(other => other.key === key);
  const {acts, reports} = allowed(one, attribute, mark), isTracked = attribute === 'A';
  const reportButtons = reports.map(what => buttonOf(what, key));
  const lines = why.split('\n').slice(1, -2);
  return [
    el('p', {}, statusTag(one.status), ' ', one.held && tag('held', 'ready'), one.nop && tag('NOP', 'ready'),
      mark === 'named' && tag('named, start not reported', 'ready'), error && tag(error.code, 'bad')),
    mayAct() && el('div', {class: 'acts'}, acts.map(what => buttonOf(what, key)), !isTracked && reportButtons),
    facts([['workstation', el('a', {href: addressOf('ws', one.ws)}, `${one.ws} (${attribute})`)],
      ['occurrence', keyLink(occurrence)], ['duration', `${one.duration} min`],
      isMoment(one.notBefore) && ['not before', short(one.notBefore)], ['start by', short(one.latest)],
      ['forecast', forecastWords(night.ahead.get(key))]]),
    el('h2', {}, "Why it doesn't go on"),
    list(lines, line => el('li', {class: line.startsWith('  ') ? 'inner' : ''}, linked(line.trim())), 'nothing holds it back'),
    mayAct() && isTracked && reports.length > 0 && el('details', {}, el('summary', {}, "Report in its tracker's place"),
      el('p', {class: 'soft'}, 'Its tracker reports this. By hand only where the tracker never will.'),
      el('div', {class: 'acts'}, reportButtons))];
}

async function occurrenceSide(key) {
  const operations = operationsOf(key, await get('/show/operations/' + key, true)), {night} = state;
  const text = await getIfAny('/show/dependencies/' + key, true), one = night.occurrences.get(key), ends = night.ends.get(key);
  const end = ends && (isMoment(ends.end) ? `, ends ${short(ends.end)}` : ", won't end");
  return [
    one && el('p', {}, statusTag(one.status), ' ',
      soft(`priority ${one.priority}, ${one.done} of ${one.all} complete, by ${short(one.deadline)}${end || ''}`)),
    mayAct() && one && one.status !== 'D' && el('div', {class: 'acts'}, buttonOf('delete', key)),
    text === null ? el('p', {class: 'soft'}, 'This desk has no look at dependencies.')
      : el('div', {class: 'scroll', tabindex: 0, role: 'group', 'aria-label': 'network'}, network(operations, pairsOf(text))),
    el('h2', {}, 'Operations'),
    table(['operation', 'status', '', 'forecast', 'start by', 'min'], operations.map(operation => el('tr', {},
      el('th', {scope: 'row'}, numberLink(operation.key), ' ', operation.ws), el('td', {}, statusTag(operation.status)),
      el('td', {}, (operation.held ? 'held ' : '') + (operation.nop ? 'NOP' : '')),
      el('td', {}, forecastShort(night.ahead.get(operation.key))), el('td', {}, short(operation.latest)),
      el('td', {}, String(operation.duration)))))];
}
function forecastShort(ahead) {
  if (!ahead) return '';
  if (ahead.never) return 'never';
  return isMoment(ahead.end) ? `${isMoment(ahead.begin) ? short(ahead.begin) : '..'} - ${short(ahead.end)}` : '';
}

async function workstationSide(name) {
  const ready = rowsOf(await get('/report/ready/' + name, true)), text = await getIfAny('/show/intervals/' + name, true);
  const {attribute} = state.night.workstations.get(name), intervals = text === null ? null : rowsOf(text);
  const lines = intervals?.map(row => row.join(' ')).join('\n');
  const rowOf = row => {
    const key = keyOf(row[0], row[1], row[2]), isHeld = row[4] === 'H';
    const report = {S: 'started', C: 'ended'}[attribute];
    return el('li', {}, keyLink(key), statusTag(row[3]), isHeld && tag('held', 'ready'),
      soft(`priority ${row[5]}, ${row[6]} min, start by ${short(row[7])}`),
      mayAct() && report && !isHeld && el('span', {class: 'end'}, buttonOf(report, key)));
  };
  return [el('p', {}, ATTRIBUTE[attribute]), el('h2', {}, 'Ready, in order'), list(ready, rowOf), el('h2', {}, 'Open'),
    intervals === null ? el('p', {class: 'soft'}, 'This desk has no look at intervals, and a request replaces all of them.')
      : list(intervals, row =>
        el('li', {}, `${short(row[0])} to ${short(row[1])}`, soft(`servers ${row[2]}, R1 ${row[3]}, R2 ${row[4]}`))),
    mayAct() && intervals && el('div', {class: 'acts'},
      button('Give it other intervals', () => ask('intervals', name, {lines})))];
}
