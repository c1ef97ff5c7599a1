// Elements. What is put into them is text, never markup.
import {STATUS, isMoment, partedAtKeys} from './texts.js';

export const MOST = 200;        // rows of a list

const filled = (element, properties, children) => {
  for (const [name, value] of Object.entries(properties || {})) {
    if (name === 'click') element.addEventListener('click', value);
    else if (value === true) element.setAttribute(name, '');
    else if (value !== false && value != null) element.setAttribute(name, value);
  }
  element.append(...children.flat(Infinity).filter(child => child != null && child !== false && child !== ''));
  return element;
};
export const el = (name, properties, ...children) => filled(document.createElement(name), properties, children);
export const drawn = (name, properties, ...children) =>
  filled(document.createElementNS('http://www.w3.org/2000/svg', name), properties, children);

export const button = (text, click, kind) => el('button', {type: 'button', class: kind, click}, text);
export const tag = (text, kind) => el('span', {class: kind ? 'tag ' + kind : 'tag'}, text);
export const soft = (...children) => el('span', {class: 'soft'}, ...children);
export const statusTag = status => tag(`${status} ${STATUS[status] || ''}`,
  /[EUI]/.test(status) ? 'bad' : status === 'S' ? 'going' : status === 'C' ? 'done' : /[AR*]/.test(status) ? 'ready' : '');

// a text in which no moment is divided between two lines
export const undivided = text => text.split(/(\d{4}-\d\d-\d\dT\d\d:\d\d)/).map((part, turn) =>
  turn % 2 ? [el('wbr'), el('span', {class: 'whole'}, part)] : part);

// links to an operation, an occurrence, a workstation: their names are the page's addresses
export const addressOf = (kind, key) => `#${kind}=${encodeURIComponent(key)}`;
export function keyLink(key, click) {
  const [application, arrival, number] = key.split('/');
  return el('a', {class: 'key', href: addressOf(number ? 'op' : 'occ', key), title: key, click},
    number ? `${application} ${+number}` : application, ' ',
    el('small', {}, isMoment(arrival) ? `${arrival.slice(5, 10)} ${arrival.slice(11)}` : arrival));
}
// the same of an operation where its occurrence stands above
export const numberLink = key => el('a', {class: 'key', href: addressOf('op', key), title: key}, String(+key.split('/')[2]));
export const linked = text => partedAtKeys(text).map((part, turn) => turn % 2 ? keyLink(part) : part);

export function list(items, rowOf, none) {
  if (!items.length) return el('p', {class: 'soft'}, none || 'none');
  const more = items.length > MOST && el('li', {class: 'soft'}, `and ${items.length - MOST} more: search`);
  return el('ul', {}, items.slice(0, MOST).map(rowOf), more);
}
// a part of the page; of an empty one only its heading stands, with what its body says
export function section(id, title, note, body, kind) {
  const isEmpty = body.className === 'soft';
  const heading = el('h2', {tabindex: -1}, title, el('small', {}, isEmpty ? body.textContent : note));
  return el('section', {id, class: isEmpty ? 'empty' : kind, 'aria-label': title}, heading, !isEmpty && body);
}
export const table = (heads, rows) => el('div', {class: 'scroll', tabindex: 0, role: 'group', 'aria-label': 'table'},
  el('table', {}, el('thead', {}, el('tr', {}, heads.map(head => el('th', {scope: 'col'}, head)))), el('tbody', {}, rows)));

// Puts new elements in the place of a container's, and leaves those that are as they were, but for those with buttons: a button
// stands for what was drawn with it. What has the focus keeps it.
export function redraw(container, elements) {
  const had = document.activeElement, inside = container.contains(had) && had !== container;
  const rowOf = one => one.closest('li, tr')?.textContent;
  const nameOf = one => [one.closest('[id]')?.id, one.getAttribute('href'), one.textContent, rowOf(one)].join();
  const name = inside && nameOf(had), part = inside && had.closest('section')?.id;
  const folds = [...container.querySelectorAll('details[open]')].length > 0;
  const old = [...container.children];
  elements.forEach((one, turn) => {
    if (!old[turn]) container.append(one);
    else if (one.matches('button, :has(button)') || !old[turn].isEqualNode(one)) old[turn].replaceWith(one);
  });
  for (const one of old.slice(elements.length)) one.remove();
  if (folds) for (const one of container.querySelectorAll('details')) one.open = true;
  if (!inside || document.activeElement === had) return;
  const same = [...container.querySelectorAll('a, button, summary')].find(one => nameOf(one) === name);
  (same || part && document.querySelector(`#${part} h2`) || container).focus({preventScroll: true});
}
