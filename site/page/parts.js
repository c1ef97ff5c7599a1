// The parts of the page: what time it is, whether the night holds, and who has to do what.
import {isMoment, minuteOf} from './texts.js';
import {$, MOST_LAG, lag, short, state, wall} from './desk.js';
import {MOST, addressOf, button, el, keyLink, linked, list, redraw, section, soft, statusTag, table, tag} from './elements.js';
import {ask, logged, pending, settle} from './asking.js';

const mayAct = () => state.me.may === 'act';
const acts = (...buttons) => mayAct() && el('span', {class: 'end'}, ...buttons);
// after what an operation begins
const BEGINS = {now: 'begins now or is going', 'not-before': 'waits for its not-before',
  opens: 'waits until its workstation opens', frees: 'waits until what it needs is free'};
const isStuck = one => !one.why.startsWith('waits for');

// --- what the parts show

function handNow(night) {
  const attributeOf = one => night.workstations.get(one.ws)?.attribute;
  const byHand = [...night.ahead.values()].filter(one =>
    attributeOf(one) === 'S' && isMoment(one.begin) && /[WAR*I]/.test(one.status));
  const isNow = one => one.begin === state.clock && one.status !== 'W';
  return {now: byHand.filter(isNow), next: byHand.filter(one => !isNow(one)),
    printed: [...night.workstations.values()].filter(one => one.attribute === 'C' && one.ready)};
}
function factsOf(night) {
  const stuck = night.stuck.filter(isStuck), ends = [...night.ends.values()];
  const late = ends.filter(one => one.late > 0).sort((one, other) => other.late - one.late);
  const undecided = stuck.filter(one => /[UI]/.test(one.status));
  return {errors: [...night.errors, ...undecided], stuck: stuck.filter(one => !/[EUI]/.test(one.status)), late,
    hand: handNow(night), endless: ends.filter(one => !isMoment(one.end)).length};
}

function counts(night, facts) {
  const ready = [...night.workstations.values()].reduce((sum, one) => sum + one.ready, 0), all = [...night.occurrences.values()];
  const hand = facts.hand.now.length + facts.hand.printed.reduce((sum, one) => sum + one.ready, 0);
  const rows = [['errors', facts.errors.length, 'in error or undecided', 'bad'], ['stuck', facts.endless, "won't end", 'bad'],
    ['late', facts.late.length, 'will be late', 'bad'], ['hand', hand, 'by hand now', 'ready'],
    ['going', night.going.length, 'going', ''], ['workstations', ready, 'ready', ''],
    ['occurrences', `${all.filter(one => one.status === 'C').length} of ${all.length}`, 'complete', '']];
  const jump = id => event => {
    event.preventDefault();
    $(id).scrollIntoView();
    $(id).querySelector('h2').focus({preventScroll: true});
  };
  return rows.map(([id, count, words, kind]) =>
    el('a', {href: '#' + id, class: count ? kind : '', click: jump(id)}, el('b', {}, String(count)), ' ', words));
}

const errorsPart = facts => section('errors', 'In error, undecided, interrupted', '', list(facts.errors, one =>
  el('li', {}, keyLink(one.key), statusTag(one.status), one.code && tag(one.code, 'bad'), one.ws && soft(one.ws))));
const stuckPart = facts => section('stuck', 'Nothing comes of these', 'until somebody acts', list(facts.stuck, one =>
  el('li', {}, keyLink(one.key), statusTag(one.status), el('span', {}, linked(one.why)))));

const lateWords = one => `${isMoment(one.end) ? '' : 'at least '}${one.late} min`;
function latePart(night, facts) {
  const heldUp = one => night.paths.filter(path => path.occurrence === one.key && path.after !== 'after').slice(-1);
  const late = list(facts.late, one => el('li', {}, keyLink(one.key), el('span', {class: 'bad text'}, lateWords(one)),
    soft(`by ${short(night.occurrences.get(one.key)?.deadline)}, ${isMoment(one.end) ? `ends ${short(one.end)}` : "won't end"}`),
    heldUp(one).map(path => soft('held up by ', keyLink(path.key), `, which ${BEGINS[path.after] || path.after}`))));
  if (!night.overdue.length) return section('late', 'Will be late', '', late);
  return section('late', 'Will be late', '', el('div', {}, late, el('h3', {}, 'Should have started'), list(night.overdue, one =>
    el('li', {}, keyLink(one.key), statusTag(one.status), soft(`${one.ws}, by ${short(one.latest)}`)))));
}
function handPart({now, next, printed}) {
  if (!now.length && !next.length && !printed.length) return section('hand', 'By hand now', '', list([]));
  return section('hand', 'By hand now', '', el('div', {}, now.length || !printed.length ? list(now, one =>
    el('li', {}, keyLink(one.key), soft(`${one.ws}, start by ${short(one.latest)}`),
      acts(button('Started', () => ask('started', one.key))))) : null,
  printed.map(one => el('p', {}, el('a', {href: addressOf('ws', one.name)}, one.name),
    ` has ${one.ready} to be reported complete`)),
  next.length ? [el('h3', {}, 'Next'), list(next.slice(0, 6), one =>
    el('li', {}, keyLink(one.key), soft(`${one.ws} from ${short(one.begin)}, start by ${short(one.latest)}`)))] : null));
}
const goingPart = night => section('going', 'Going', '', list(night.going, one => {
  const {begin, end, over} = night.ahead.get(one.key) || {};
  const ends = over ? `over its duration by ${over} min` : end === state.clock ? 'over its duration' : `ends ${short(end)}`;
  return el('li', {}, keyLink(one.key), soft(one.ws), one.mark === 'named' && tag('named, start not reported', 'ready'),
    soft((isMoment(begin) ? `since ${short(begin)}, ` : '') + ends));
}));
const workstationRow = one =>
  el('li', {}, el('a', {class: 'key', href: addressOf('ws', one.name)}, one.name, ' ', el('small', {}, one.attribute)),
    tag(one.open + (isMoment(one.until) ? ` until ${short(one.until)}` : ''), one.open === 'open' ? 'done' : ''),
    /[AS]/.test(one.attribute) && soft(`servers ${one.servers}, R1 ${one.r1}, R2 ${one.r2}`),
    one.ready ? el('span', {class: 'end'}, `${one.ready} ready`) : null);
const workstationsPart = night =>
  section('workstations', 'Workstations', 'ready lists', list([...night.workstations.values()], workstationRow));
const resourcesPart = night => section('resources', 'Special resources', 'and who holds them', list(night.resources, one => {
  const isCounted = one.quantity < 999999;
  const taken = holder => `${holder.status} ${holder.mode}${isCounted ? ` ${holder.amount}` : ''}`;
  return el('li', {}, el('b', {}, one.name), !one.available && tag('not available', 'bad'),
    isCounted && soft(`${one.left} of ${one.quantity} left`),
    one.holders.map(holder => [keyLink(holder.key), soft(taken(holder))]),
    acts(button(one.available ? 'Take away' : 'Make available', () => ask('available', one.name, {value: !one.available}))));
}));
const trackersPart = night => section('trackers', 'Trackers', 'last report', list(night.trackers, one =>
  el('li', {}, el('b', {}, one.name), soft(`${short(one.at)} no. ${one.number} ${one.do}`), keyLink(one.key)),
'none has reported'));

// --- occurrences, the least time to spare first; behind them those that are over
function spareOf(night, key) {
  const end = night.ends.get(key)?.end;
  if (end === undefined) return night.occurrences.get(key).status === 'C' ? 1e9 : 2e9;
  return isMoment(end) ? minuteOf(night.occurrences.get(key).deadline) - minuteOf(end) : -1e9;
}
function occurrenceRow(night, {key, status, all, done, deadline}) {
  const ends = night.ends.get(key), spare = spareOf(night, key), isLate = spare < 0;
  return el('tr', {}, el('th', {scope: 'row'}, keyLink(key)), el('td', {}, statusTag(status)),
    el('td', {}, el('progress', {max: all, value: done, 'aria-label': 'complete'}), ` ${done}/${all}`),
    el('td', {}, short(deadline)), el('td', {}, ends && (isMoment(ends.end) ? short(ends.end)
      : el('span', {class: 'bad text'}, `won't: ${ends.never} never begin`))),
    el('td', {class: isLate ? 'bad text' : spare < 30 ? 'warn text' : ''},
      !ends || !isMoment(ends.end) ? '' : isLate ? `${-spare} min late` : `${spare} min`));
}
function occurrencesPart(night) {
  const spares = new Map([...night.occurrences.keys()].map(key => [key, spareOf(night, key)]));
  const sorted = [...night.occurrences.values()].sort((one, other) => spares.get(one.key) - spares.get(other.key)
    || (one.deadline > other.deadline) - (one.deadline < other.deadline));
  const more = sorted.length > MOST && el('p', {class: 'soft'}, `and ${sorted.length - MOST} more: search`);
  const rows = sorted.slice(0, MOST).map(one => occurrenceRow(night, one));
  return section('occurrences', 'Occurrences', 'least time to spare first', el('div', {},
    table(['occurrence', 'status', 'complete', 'deadline', 'ends', 'to spare'], rows), more,
    mayAct() && el('div', {class: 'acts'}, button('Add an occurrence', () => ask('add')))), 'wide');
}
const askedPart = () => section('asked', 'Asked from this browser', 'the journal has all', list(logged().reverse(), one =>
  el('li', {}, soft(one.at.slice(11)), el('span', {}, one.title), tag(one.answer, one.kind))), 'wide');

// --- the page

export function drawParts() {
  const {night} = state;
  $('date').textContent = state.clock ? state.clock.slice(0, 10) : '';
  $('clock').textContent = state.clock ? state.clock.slice(11) : '--:--';
  $('me').textContent = state.me.by ? (mayAct() ? state.me.by : `${state.me.by}, looks only`) : 'nobody: looks only';
  drawBanner();
  if (!night) return redraw($('main'), []);
  document.title = `${state.clock.slice(11)} console`;
  const facts = factsOf(night);
  redraw($('counts'), counts(night, facts));
  redraw($('main'), [errorsPart(facts), stuckPart(facts), latePart(night, facts), handPart(facts.hand), goingPart(night),
    workstationsPart(night), resourcesPart(night), trackersPart(night), occurrencesPart(night), askedPart()]);
}

function clockWords() {
  const behind = lag();
  if (state.fault) {
    const known = {403: 'Not let in (403).', 502: "The desk isn't there (502)."}[state.fault.status];
    const age = Math.round((Date.now() - state.seen) / 1000);
    return ['bad', (known || `No answer: ${state.fault.message}.`) + (state.seen ? ` What is shown is ${age} s old.` : '')];
  }
  if (state.seen && !state.loaded) return ['', 'No plan is loaded.'];
  if (behind > MOST_LAG) return ['bad', `The plan's clock is ${Math.floor(behind / 1440)} days behind: moments of requests are `
    + "the plan's clock. Start the desk again, with --at."];
  if (behind >= 2) return [behind >= 5 ? 'bad' : '', `No tick for ${behind} minutes: what waits for a moment isn't named.`,
    mayAct() && button('Tick now', () => ask('tick'))];
  if (behind <= -2) return ['', `The plan's clock is ${-behind} minutes ahead: requests go by the plan's.`];
  return null;
}
export function drawBanner() {
  const words = clockWords(), open = pending(), banner = $('banner');
  $('wall').textContent = wall() ? `wall ${wall().slice(11)}` : '';
  const doubt = open && !$('ask').open && el('span', {},
    `What was asked at ${open.at.slice(11)} has no answer yet: ${open.title} `, button('Look', () => settle(open)));
  const rest = words && el('span', {}, ...words.slice(1).map(word => word || ''));
  banner.className = doubt || words?.[0] ? 'bad' : '';
  banner.hidden = !doubt && !rest;
  redraw(banner, [doubt, rest].filter(Boolean));
}
