// The network of an occurrence: its operations in layers, each behind all that it waits for.
import {STATUS} from './texts.js';
import {addressOf, drawn} from './elements.js';

const WIDTH = 148, HEIGHT = 46, COLUMN = 190, ROW = 62, SWEEPS = 4, LEAST = 0.85;      // of its size, where there is less room

// each operation's predecessors and successors, by key, those of other occurrences too
function graphOf(operations, pairs) {
  const nodes = new Map(operations.map(one => [one.key, {...one, own: true, from: [], to: []}]));
  const nodeOf = (key, status) => {
    if (!nodes.has(key)) nodes.set(key, {key, status, own: false, from: [], to: []});
    return nodes.get(key);
  };
  for (const pair of pairs) {
    nodeOf(pair.from, pair.fromStatus).to.push(pair.to);
    nodeOf(pair.to, pair.toStatus).from.push(pair.from);
  }
  return nodes;
}

// The layer of each is the length of the longest path to it; others' predecessors stand close to what waits for them.
function layersOf(nodes) {
  const layers = new Map(), left = new Map([...nodes].map(([key, node]) => [key, node.from.length]));
  const order = [...nodes.keys()].filter(key => !left.get(key));
  for (const key of order) {
    layers.set(key, Math.max(0, ...nodes.get(key).from.map(one => layers.get(one) + 1)));
    for (const next of nodes.get(key).to) {
      left.set(next, left.get(next) - 1);
      if (!left.get(next)) order.push(next);
    }
  }
  for (const key of [...order].reverse()) {
    const node = nodes.get(key);
    if (!node.own && node.to.length) layers.set(key, Math.min(...node.to.map(one => layers.get(one))) - 1);
  }
  const least = Math.min(0, ...layers.values()), columns = [];
  for (const key of order) (columns[layers.get(key) - least] ||= []).push(key);
  return columns.filter(Boolean);
}

// Within a column each stands by the middle of its neighbours, so that few lines cross.
function placesOf(nodes, columns) {
  const places = new Map();
  for (let sweep = 0; sweep < SWEEPS; sweep++) {
    for (const column of columns) {
      const middle = key => {
        const {from, to} = nodes.get(key);
        const near = [...from, ...(sweep ? to : [])].map(one => places.get(one)?.y).filter(y => y != null);
        return near.length ? near.reduce((sum, y) => sum + y, 0) / near.length : places.get(key)?.y ?? 0;
      };
      const middles = new Map(column.map(key => [key, middle(key)]));
      column.sort((one, other) => middles.get(one) - middles.get(other));
      column.forEach((key, turn) => places.set(key, {x: columns.indexOf(column), y: turn - (column.length - 1) / 2}));
    }
  }
  return places;
}

function boxOf(node, x, y) {
  const [application, arrival, number] = node.key.split('/'), words = `${node.status} ${STATUS[node.status]}`;
  const kind = `node s${node.status === '*' ? 'R' : node.status}${node.own ? '' : ' other'}`;
  const second = node.own ? words + (node.held ? ', held' : '') : `${node.status}  ${arrival.slice(5, 10)} ${arrival.slice(11)}`;
  const address = addressOf('op', node.key);
  return drawn('a', {class: kind, href: address, transform: `translate(${x} ${y})`, 'aria-label': `${node.key}, ${words}`},
    drawn('title', {}, `${node.key} ${words}`), drawn('rect', {width: WIDTH, height: HEIGHT, rx: 5}),
    drawn('text', {x: 8, y: 19}, node.own ? `${+number}  ${node.ws}` : `${application} ${+number}`),
    drawn('text', {x: 8, y: 37, class: 'soft'}, second));
}

export function network(operations, pairs) {
  const nodes = graphOf(operations, pairs), columns = layersOf(nodes), places = placesOf(nodes, columns);
  const tall = Math.max(...columns.map(column => column.length)), width = columns.length * COLUMN - (COLUMN - WIDTH) + 10;
  const x = key => places.get(key).x * COLUMN + 5, y = key => (places.get(key).y + (tall - 1) / 2) * ROW + (ROW - HEIGHT) / 2;
  const svg = drawn('svg', {width, height: tall * ROW, viewBox: `0 0 ${width} ${tall * ROW}`, role: 'group',
    'aria-label': 'network of operations'});
  svg.style.minWidth = `${Math.round(width * LEAST)}px`;
  for (const pair of pairs) {
    const begin = x(pair.from) + WIDTH, from = y(pair.from) + HEIGHT / 2, end = x(pair.to), to = y(pair.to) + HEIGHT / 2;
    svg.append(drawn('path', {d: `M${begin} ${from}C${begin + 20} ${from} ${end - 20} ${to} ${end} ${to}`,
      class: pair.fromStatus === 'C' ? 'done' : ''}));
  }
  for (const key of columns.flat()) svg.append(boxOf(nodes.get(key), x(key), y(key)));
  return svg;
}
