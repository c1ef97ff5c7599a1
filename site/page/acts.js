// What a person may ask: of each request its words, its members, and how it is seen that it acted. PROFILE.md has the rules.
import {clockOf, isOperation, minuteOf, occurrenceOf, occurrencesOf, operationsOf, pairsOf, resourcesOf, rowsOf, STATUS,
  wholeKey} from './texts.js';
import {get, getIfAny, short} from './desk.js';

// which requests the status of an operation allows: those of a controller, and reports of what became of it
export function allowed(operation, attribute, mark) {
  const {status, held} = operation, idle = /[WAR*]/.test(status), acts = [], reports = [];
  if (idle) acts.push(held ? 'release' : 'hold', operation.nop ? 'unnop' : 'nop');
  if (/[ICEU]/.test(status)) acts.push('rerun');
  if (!/[WCD]/.test(status) && !held) acts.push('complete');
  if (idle) acts.push('depend');
  if (attribute === 'S' && /[AR*I]/.test(status) && !held) reports.push('started');
  if (attribute === 'A' && status === 'S' && mark === 'named') reports.push('started');
  if (/[AS]/.test(attribute) && /[SU]/.test(status)) reports.push('ended', 'error');
  if (attribute === 'C' && /[AR*]/.test(status) && !held) reports.push('ended', 'error');
  if (attribute === 'S' && status === 'S') reports.push('interrupted');
  if (status === 'S') reports.push('unknown');
  return {acts, reports};
}

// --- how it stands now, of what a request named: in words, at which clock, and whether it is so as if it had acted

async function operationNow(request) {
  const occurrence = occurrenceOf(request.key), text = await getIfAny('/show/operations/' + occurrence, true);
  const one = text && operationsOf(occurrence, text).find(operation => operation.key === request.key);
  if (!one) return {...await clockNow({...request, do: null}), words: "it isn't in the plan"};
  const words = `${one.status} ${STATUS[one.status]}${one.held ? ', held' : ''}${one.nop ? ', NOP' : ''}`;
  return {words, clock: clockOf(text), acted: ACTS[request.do].done(one), status: one.status};
}
async function occurrenceNow(request) {
  const text = await get('/report/occurrences', true), isAdded = request.do === 'add';
  const key = isAdded ? addedOf(request.members.records) : request.key;
  const one = occurrencesOf(text).find(occurrence => occurrence.key === key);
  const isThere = !!one && one.status !== 'D';
  const words = one ? `${key}: ${one.status}` : `${key} isn't in the plan`;
  return {words, clock: clockOf(text), acted: isAdded ? !!one : !isThere};
}
async function resourceNow(request) {
  const text = await get('/show/resources', true);
  const {available} = resourcesOf(text).find(resource => resource.name === request.key);
  return {words: available ? 'available' : 'not available', clock: clockOf(text), acted: available === request.members.value};
}
async function pairNow(request) {
  const text = await getIfAny('/show/dependencies/' + occurrenceOf(request.key), true);
  if (text === null) return clockNow({...request, do: null});
  const acted = pairsOf(text).some(pair => pair.from === wholeKey(request.members.from) && pair.to === request.key);
  return {words: acted ? 'it waits for it' : "it doesn't wait for it", clock: clockOf(text), acted};
}
async function intervalsNow(request) {
  const text = await getIfAny('/show/intervals/' + request.key, true);
  if (text === null) return clockNow({...request, do: null});
  const plain = rows => JSON.stringify(rows.map(row => row.map(String)).sort());
  const acted = plain(rowsOf(text)) === plain(intervalsIn(request.members.lines));
  return {words: acted ? 'it has these intervals' : 'it has others', clock: clockOf(text), acted};
}
async function clockNow(request) {
  const {clock} = JSON.parse(await get('/health', true));
  const isTick = request.do === 'tick';
  return {words: isTick ? `the clock is ${short(clock)}` : 'this desk has no look at it', clock,
    acted: isTick ? minuteOf(clock) >= minuteOf(request.at) : null};
}

// --- members

const intervalsIn = lines => lines.trim().split('\n').filter(line => line.trim()).map(line =>
  line.trim().split(/[ ,]+/).map((word, turn) => turn < 2 ? word : +word));
const addedOf = records => /^O,([^,]*),([^,]*)/m.exec(records)?.slice(1).join('/');

const ofOperation = request => ({at: request.at, do: request.do, op: request.key});
const act = (title, means, done, more) => ({title, means, done, body: ofOperation, now: operationNow, ...more});

export const ACTS = {
  hold: act('Hold', "It won't be started until it is released.", one => one.held),
  release: act('Release', 'It may start as soon as its turn comes.', one => !one.held),
  nop: act('Make it a NOP', 'It counts as complete once its predecessors are, without running.',
    one => one.nop || one.status === 'C'),
  unnop: act('No NOP any more', 'It runs again like any other.', one => !one.nop),
  rerun: act('Rerun', 'It and all that it reaches are as if they had never run.', one => !/[ICEU]/.test(one.status),
    {danger: true}),
  complete: act('Complete', 'It counts as done, whatever it did. What waits for it may start.', one => one.status === 'C'),
  started: act('Started', 'You report that it has started.', one => one.status === 'S'),
  ended: act('Ended well', 'You report that it has ended well. What waits for it may start.', one => one.status === 'C'),
  error: act('Ended in error', 'You report that it has ended in error.', one => one.status === 'E', {
    fields: {code: ['error code: 1 to 4 of A-Z 0-9 @ # $', text => /^[A-Z0-9@#$]{1,4}$/.test(text)]},
    body: request => ({...ofOperation(request), code: request.members.code})}),
  interrupted: act('Interrupted', 'You report that it was interrupted, and will be started again.', one => one.status === 'I'),
  unknown: act('Nobody knows how it ended', 'It is undecided until its end is told.', one => one.status === 'U'),
  depend: act('Wait for another', 'It waits for one more operation.', null, {now: pairNow,
    fields: {from: ['the operation that it is to wait for: APPLICATION/YYYY-MM-DDTHH:MM/NNN', isOperation]},
    body: request => ({at: request.at, do: 'depend', from: wholeKey(request.members.from), to: request.key})}),
  delete: act('Delete the occurrence',
    'None of its operations runs any more, and what waits for them goes on. No request undoes it.', null,
    {danger: true, now: occurrenceNow, body: request => ({at: request.at, do: 'delete', occ: request.key})}),
  available: act('Availability', 'Who holds it keeps it.', null, {now: resourceNow,
    body: request => ({at: request.at, do: 'available', resource: request.key, value: request.members.value})}),
  intervals: act('Intervals', 'The workstation is open in these intervals alone. What has started goes on.', null, {
    fields: {lines: ['a line each: from, to, servers, R1, R2', text => /\S/.test(text)]}, checked: true, now: intervalsNow,
    body: request => ({at: request.at, do: 'intervals', ws: request.key, intervals: intervalsIn(request.members.lines)})}),
  add: act('Add an occurrence', 'One occurrence, by records O, P, D and N.', null, {now: occurrenceNow,
    fields: {records: ['records', text => /^O,/m.test(text)]}, checked: true,
    body: request => ({at: request.at, do: 'add', records: request.members.records})}),
  tick: act('Tick', "The plan's clock becomes this moment, and what may start then is named.", null, {now: clockNow,
    body: request => ({at: request.at, do: 'tick'})}),
};

export const titleOf = request => ACTS[request.do].title + (request.key ? `: ${request.key}` : '')
  + (request.do === 'available' ? request.members.value ? ', available' : ', not available' : '');
