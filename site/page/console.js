// The console: it shows what a desk's looks tell, and sends what a person has confirmed, once.
import {isOperation, wholeKey} from './texts.js';
import {$, get, lookAtAll, lookAtHealth, state} from './desk.js';
import {el, keyLink, list, statusTag} from './elements.js';
import {onChange} from './asking.js';
import {drawBanner, drawParts} from './parts.js';
import {closeSide, drawSide} from './sides.js';

const EVERY = 5000, ANEW = 30000, FOUND = 20;       // milliseconds between looks at the clock, and at all; hits that are shown

// --- search: a part of a key, or a whole one
function search() {
  const typed = $('search').value.trim().toUpperCase(), found = $('found'), {night} = state;
  found.hidden = !typed || !night;
  if (found.hidden) return;
  const whole = wholeKey(typed), hits = [...night.occurrences.keys(), ...night.ahead.keys()].filter(key => key.includes(typed));
  const all = isOperation(typed) && !hits.includes(whole) ? [whole, ...hits] : hits;
  const statusOf = key => night.ahead.get(key)?.status || night.occurrences.get(key)?.status || '';
  const rowOf = key => el('li', {}, keyLink(key, endSearch), statusOf(key) && statusTag(statusOf(key)));
  found.replaceChildren(list(all.slice(0, FOUND), rowOf),
    el('p', {class: 'soft'}, all.length > FOUND ? `and ${all.length - FOUND} more` : ''));
}
function endSearch() {
  $('search').value = '';
  $('found').hidden = true;
}
$('search').addEventListener('input', search);
$('search').addEventListener('keydown', event => {
  if (event.key === 'Enter') $('found').querySelector('a')?.click();
});
document.addEventListener('keydown', event => {
  if (event.key !== 'Escape' || $('ask').open) return;
  if (!$('found').hidden) endSearch();
  else if (!$('side').hidden) closeSide();
});

// --- the loop: all looks when the clock has moved, behind an action, or after thirty seconds; none while the page is hidden
async function renew() {
  if (!state.answers[1]) await get('/answers.json').then(text => { state.answers = JSON.parse(text); }, () => {});
  await lookAtAll();
  drawParts();
  await drawSide();
}
async function turn() {
  if (!document.hidden) {
    try {
      const moved = await lookAtHealth();
      if (moved || state.fault || Date.now() - state.seen > ANEW) await renew();
    } catch (fault) {
      state.fault = fault;
    }
    drawBanner();
  }
  setTimeout(turn, EVERY);
}
onChange.draw = drawParts;
onChange.renew = () => {
  drawParts();
  drawSide();
};
window.addEventListener('hashchange', drawSide);
document.addEventListener('visibilitychange', () => { if (!document.hidden) drawBanner(); });

renew().then(() => setTimeout(turn, EVERY));
