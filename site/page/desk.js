// What is known of the desk, and how it is asked.
import {isMoment, minuteOf, momentOf, nightOf} from './texts.js';

export const state = {me: {by: null, may: 'look', once: false, offset: null}, answers: {}, clock: null, loaded: false,
  night: null, skew: 0, seen: 0, fault: null};
const LOOKS = ['/report/occurrences', '/report/errors', '/report/late', '/show/started', '/show/workstations', '/show/resources',
  '/show/trackers', '/forecast'];

export const $ = id => document.getElementById(id);

// the wall's minute, by the door's Date and its zone; none where moments are the plan's clock
const wallMinute = () => Math.floor((Date.now() + state.skew) / 60000 + state.me.offset);
export const wall = () => state.me.offset === null ? null : momentOf(wallMinute());
// how many minutes the plan's clock is behind the wall
export const lag = () => state.clock && state.me.offset !== null ? wallMinute() - minuteOf(state.clock) : 0;
export const MOST_LAG = 1440;       // minutes after the plan's clock that a desk lets a moment be, where it isn't told otherwise
// the moment of a request that is made now: the later one of the plan's clock and the wall's minute
export function momentNow() {
  if (!state.clock || lag() > MOST_LAG) return state.clock || wall();
  return momentOf(Math.max(minuteOf(state.clock), minuteOf(state.clock) + lag()));
}
// a moment as it is shown: its day and its year only where they aren't the clock's
export function short(moment) {
  if (!isMoment(moment)) return '-';
  const [day, time] = moment.split('T'), today = (state.clock || '').slice(0, 10);
  if (day === today) return time;
  return `${day.slice(0, 4) === today.slice(0, 4) ? day.slice(5) : day} ${time}`;
}

class Answered extends Error {
  constructor(path, status, text) {
    super(`${path}: ${status}`);
    Object.assign(this, {status, text});
  }
}

// the text under a path; `fresh` isn't told from what the door keeps
export async function get(path, fresh) {
  const how = {cache: fresh ? 'no-store' : 'default', signal: AbortSignal.timeout(30000)};
  const reply = await fetch(path.replace(/#/g, '%23'), how);
  const date = Date.parse(reply.headers.get('Date') || '');
  if (date && Math.abs(date + 500 - Date.now() - state.skew) > 1500) state.skew = date + 500 - Date.now();
  const text = await reply.text();
  if (!reply.ok) throw new Answered(path, reply.status, text);
  return text;
}
// the same, or null where the desk has no such look, or the plan nothing of this key
export async function getIfAny(path, fresh) {
  try {
    return await get(path, fresh);
  } catch (fault) {
    if (fault.status === 404 || fault.status === 409) return null;
    throw fault;
  }
}

// what a body is answered; status 0: no whole answer came
export async function post(path, body, fields) {
  try {
    const reply = await fetch(path, {method: 'POST', body, cache: 'no-store', redirect: 'error',
      signal: AbortSignal.timeout(90000), headers: {'Content-Type': 'application/json', ...fields}});
    const text = await reply.text();
    return {status: reply.status, said: saidIn(text), text};
  } catch {
    return {status: 0, said: {}, text: ''};
  }
}
export function saidIn(text) {
  try {
    return Object(JSON.parse(text));
  } catch {
    return {};
  }
}

export async function lookAtHealth(fresh) {
  const health = JSON.parse(await get('/health', fresh));
  const moved = health.clock !== state.clock || health.loaded !== state.loaded;
  state.clock = health.clock;
  state.loaded = health.loaded;
  return moved;
}

// all that the page shows, anew
export async function lookAtAll() {
  try {
    state.me = JSON.parse(await get('/me'));
    if (!window.isSecureContext) state.me.may = 'look';     // (without https, or under another name than this machine's own)
    await lookAtHealth();
    const texts = {};
    if (state.loaded) for (const path of LOOKS) texts[path] = await get(path);
    state.night = state.loaded ? nightOf(texts) : null;
    state.seen = Date.now();
    state.fault = null;
  } catch (fault) {
    state.fault = fault;
  }
}
