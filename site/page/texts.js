// What the desk's texts say. No name has a blank, so the words of a row are its columns.

export const STATUS = {W: 'waiting', A: 'arriving', R: 'ready', '*': 'ready', S: 'started', I: 'interrupted', E: 'in error',
  U: 'undecided', C: 'complete', D: 'deleted'};
export const KEY = '[A-Z0-9@#$]{1,16}/\\d{4}-\\d\\d-\\d\\dT\\d\\d:\\d\\d/\\d{1,3}';
export const ATTRIBUTE = {A: 'automatic: the desk names what starts', S: 'start and end are reported',
  C: 'the end alone is reported', N: 'nothing is reported'};

// moments: minutes of a civil time without a zone
export const isMoment = text => /^\d{4}-\d\d-\d\dT\d\d:\d\d$/.test(text || '');
export const minuteOf = moment => Date.parse(moment + 'Z') / 60000;
export const momentOf = minute => new Date(minute * 60000).toISOString().slice(0, 16);

// keys
export const keyOf = (application, arrival, number) => `${application}/${arrival}/${String(+number).padStart(3, '0')}`;
export const occurrenceOf = key => key.split('/').slice(0, 2).join('/');
export const isOperation = key => new RegExp(`^${KEY}$`).test(key);
export const wholeKey = typed => isOperation(typed) ? keyOf(...typed.split('/')) : typed;
// a text parted at the keys in it: each second part is one
export const partedAtKeys = text => text.split(new RegExp(`(${KEY})`));

const wordsOf = line => line.trim().split(/ +/);
const linesOf = text => text.split('\n').slice(1, -2);
export const rowsOf = text => linesOf(text).map(wordsOf);
// the moment of a text's first line, `.. AT MOMENT`
export const clockOf = text => wordsOf(text.split('\n')[0]).pop();

// the rows of a forecast's parts, as lines: of each those between its first line and its END
function partsOf(text) {
  const parts = [];
  let isFirst = true;
  for (const line of text.trimEnd().split('\n')) {
    if (isFirst) parts.push([]);
    else if (!/^END \d+$/.test(line)) parts[parts.length - 1].push(line);
    isFirst = /^END \d+$/.test(line);
  }
  return parts;
}

export const operationsOf = (occurrence, text) => rowsOf(text).map(r => (
  {key: keyOf(...occurrence.split('/'), r[0]), ws: r[1], status: r[2], held: r[3] === 'H', nop: r[4] === 'N', duration: +r[5],
    notBefore: r[6], latest: r[7]}));
export const occurrencesOf = text => rowsOf(text).map(([application, arrival, priority, status, deadline, all, done]) => (
  {key: `${application}/${arrival}`, priority: +priority, status, deadline, all: +all, done: +done}));
export const reachOf = text => rowsOf(text).map(r => ({key: keyOf(r[0], r[1], r[2]), ws: r[3], status: r[4]}));
export const pairsOf = text => rowsOf(text).map(r => (
  {from: keyOf(r[0], r[1], r[2]), fromStatus: r[3], to: keyOf(r[4], r[5], r[6]), toStatus: r[7]}));
const workstationsOf = text => rowsOf(text).map(r => (
  {name: r[0], attribute: r[1], open: r[2], until: r[3], servers: `${r[4]} of ${r[5]}`, r1: `${r[6]} of ${r[7]}`,
    r2: `${r[8]} of ${r[9]}`, ready: +r[10]}));

// special resources, each with its holders, which stand behind two blanks below it
export function resourcesOf(text) {
  const found = [];
  for (const line of linesOf(text)) {
    const r = wordsOf(line);
    if (!line.startsWith('  ')) found.push({name: r[0], available: r[1] === 'Y', quantity: +r[2], left: +r[3], holders: []});
    else found[found.length - 1].holders.push({key: keyOf(r[0], r[1], r[2]), status: r[3], mode: r[4], amount: r[5]});
  }
  return found;
}

const minutesOf = word => word === '-' ? 0 : +word;
const byKey = rows => new Map(rows.map(row => [row.key, row]));

// what a forecast says: of occurrences and operations by their keys, of paths and of what never begins in its order
function forecastOf(text) {
  const [occurrences, operations, paths, never] = partsOf(text).map(part => part.map(wordsOf));
  const ahead = byKey(operations.map(r => (
    {key: keyOf(r[0], r[1], r[2]), ws: r[3], status: r[4], begin: r[5], end: r[6], latest: r[7], late: minutesOf(r[8]),
      over: +r[9] || 0})));
  const stuck = never.map(r => ({key: r[0], status: r[1], why: r.slice(3).join(' ')}));
  for (const one of stuck) if (!ahead.has(one.key)) ahead.set(one.key, {key: one.key, status: one.status, never: one.why});
  return {
    ends: byKey(occurrences.map(r => ({key: `${r[0]}/${r[1]}`, end: r[5], late: minutesOf(r[6]), never: +r[7]}))),
    ahead, stuck,
    paths: paths.map(r => ({occurrence: `${r[0]}/${r[1]}`, key: keyOf(r[2], r[3], r[4]), after: r[5], begin: r[6], end: r[7]})),
  };
}

// all that the page shows, of the texts by their paths
export function nightOf(texts) {
  const operation = r => ({key: keyOf(r[0], r[1], r[2]), ws: r[3]});
  return {
    ...forecastOf(texts['/forecast']),
    workstations: new Map(workstationsOf(texts['/show/workstations']).map(one => [one.name, one])),
    occurrences: byKey(occurrencesOf(texts['/report/occurrences'])),
    errors: rowsOf(texts['/report/errors']).map(r => ({...operation(r), status: 'E', code: r[4]})),
    overdue: rowsOf(texts['/report/late']).map(r => ({...operation(r), status: r[4], latest: r[5]})),
    going: rowsOf(texts['/show/started']).map(r => ({...operation(r), mark: r[4], duration: +r[5], latest: r[6]})),
    trackers: rowsOf(texts['/show/trackers']).map(r => (
      {name: r[0], number: r[1], do: r[2], key: keyOf(r[3], r[4], r[5]), at: r[6]})),
    resources: resourcesOf(texts['/show/resources']),
  };
}
