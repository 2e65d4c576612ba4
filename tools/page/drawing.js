// A drawing: the fields of a job, as docs/JOB.md numbers them, and what can be done to it. Nothing here changes what it is given.
//   {settings, points: [[x, y, next, prev, record, z]], records: [[flags, owner, first]], segments: [[point]], joins: [[point, point]], tail}
export const NONE = 65535;
export const OPEN = 1;

export const empty = () => ({ settings: 0, points: [], records: [], segments: [], joins: [], tail: "" });

// The points' numbers of a record's ring, from its first; as far as they can be walked.
export function walk(fields, record) {
  const found = [], seen = new Set();
  for (let at = fields.records[record][2]; at < fields.points.length && !seen.has(at); at = fields.points[at][2]) {
    seen.add(at);
    found.push(at);
  }
  return found;
}

// Each record's ring: {record, open, numbers, points}.
export function rings(fields) {
  return fields.records.map(([flags], record) => {
    const numbers = walk(fields, record);
    return { record, open: Boolean(flags & OPEN), numbers, points: numbers.map(number => placeOf(fields, number)) };
  });
}

export function placeOf(fields, number) {
  const [x, y, , , , z] = fields.points[number];
  return [x, y, z];
}

// The record whose ring a point is on, or none.
export function ringOf(fields, number) {
  const found = fields.records.findIndex((_, record) => walk(fields, record).includes(number));
  return found < 0 ? NONE : found;
}

export function moved(fields, number, [x, y, z]) {
  const points = fields.points.slice();
  points[number] = [x, y, ...points[number].slice(2, 5), z];
  return { ...fields, points };
}

// With every number of a point and of a record given anew; a segment or a join that names a point without one goes.
function renumbered(fields, point, record) {
  const to = (number, give) => (number === NONE ? NONE : give(number));
  const kept = names => names.map(point).every(number => number !== NONE);
  return {
    ...fields,
    points: fields.points.map(([x, y, next, prev, of, z]) => [x, y, to(next, point), to(prev, point), to(of, record), z]),
    records: fields.records.map(([flags, owner, first]) => [flags, to(owner, record), to(first, point)]),
    segments: fields.segments.filter(kept).map(names => names.map(point)),
    joins: fields.joins.filter(kept).map(names => names.map(point)),
  };
}

// A point more after another one, with the number after it: so a ring that stands in order still does.
export function inserted(fields, number, [x, y, z]) {
  const made = renumbered(fields, other => (other > number ? other + 1 : other), other => other);
  const before = made.points[number], next = before[2];
  made.points.splice(number + 1, 0, [x, y, next, number, before[4], z]);
  made.points[number] = [before[0], before[1], number + 1, before[3], before[4], before[5]];
  made.points[next] = made.points[next].map((value, k) => (k === 3 ? number + 1 : value));
  return made;
}

export function removed(fields, number) {
  const ring = ringOf(fields, number);
  const points = fields.points.map(point => point.slice());
  const [, , next, prev] = points[number];
  if (points[prev]) points[prev][2] = next;
  if (points[next]) points[next][3] = prev;
  const records = fields.records.map(([flags, owner, first]) => [flags, owner, first !== number ? first : next === number ? NONE : next]);
  const gone = other => (other === number ? NONE : other > number ? other - 1 : other);
  points.splice(number, 1);
  const left = renumbered({ ...fields, points, records }, gone, other => other);
  return ring !== NONE && left.records[ring][2] === NONE ? withoutRing(left, ring) : left;
}

export function withRing(fields, places, open) {
  const base = fields.points.length, record = fields.records.length, count = places.length;
  // An open ring's first point is the line's end: it runs from the point after it round to it.
  const order = open ? [...places.slice(-1), ...places.slice(0, -1)] : places;
  const points = order.map(([x, y, z], k) => [x, y, base + ((k + 1) % count), base + ((k + count - 1) % count), record, z]);
  const records = [...fields.records, [open ? OPEN : 0, NONE, count ? base : NONE]];
  return { ...fields, settings: fields.settings ?? 0, points: [...fields.points, ...points], records };
}

export function withoutRing(fields, record) {
  const gone = new Set(walk(fields, record)), numbers = new Map();
  fields.points.forEach((_, number) => {
    if (!gone.has(number)) numbers.set(number, numbers.size);
  });
  const points = fields.points.filter((_, number) => !gone.has(number));
  const records = fields.records.filter((_, other) => other !== record);
  return renumbered({ ...fields, points, records }, number => numbers.get(number) ?? NONE, other => (other === record ? NONE : other > record ? other - 1 : other));
}

// The ring the other way round, from the same first point.
export function turned(fields, record) {
  const numbers = walk(fields, record), places = numbers.map(number => placeOf(fields, number));
  const order = [places[0], ...places.slice(1).reverse()];
  return numbers.reduce((made, number, k) => moved(made, number, order[k]), fields);
}

// Twice the area, as the listing has it: positive for a piece.
export function doubledArea(points) {
  return points.reduce((sum, [x, y], k) => {
    const [px, py] = points[(k + points.length - 1) % points.length];
    return sum + (py + y) * (px - x);
  }, 0);
}

export const bounds = points =>
  points.reduce(([left, low, right, high], [x, y]) => [Math.min(left, x), Math.min(low, y), Math.max(right, x), Math.max(high, y)], [Infinity, Infinity, -Infinity, -Infinity]);
