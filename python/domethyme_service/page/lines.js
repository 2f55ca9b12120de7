// Lines: the box around them, and of pixels how long they are, what lies where along them, and where a text has room.

// The least of numbers, of which there may be more than a call takes as arguments.
export const least = (values) => values.reduce((one, other) => Math.min(one, other), Infinity);

// West, south, east and north of places.
export function boxOf(places) {
  const [lons, lats] = [0, 1].map((axis) => places.map((place) => place[axis]));
  const most = (values) => -least(values.map((value) => -value));
  return [least(lons), least(lats), most(lons), most(lats)];
}

export function lengths(points) {
  const found = [0];
  for (let i = 1; i < points.length; i++) {
    found.push(found[i - 1] + Math.hypot(points[i][0] - points[i - 1][0], points[i][1] - points[i - 1][1]));
  }
  return found;
}

// The point so far along a line, and the direction there in degrees.
export function pointAlong(points, along, way) {
  let low = 1, high = points.length - 1;
  while (low < high) {
    const middle = (low + high) >> 1;
    if (along[middle] < way) low = middle + 1; else high = middle;
  }
  const [from, to] = [points[low - 1], points[low]];
  const part = (way - along[low - 1]) / (along[low] - along[low - 1] || 1);
  const turn = Math.atan2(to[1] - from[1], to[0] - from[0]) * 180 / Math.PI;
  return [from[0] + part * (to[0] - from[0]), from[1] + part * (to[1] - from[1]), turn];
}

// Where a text of this width lies along a line: its middle and its turn, upright; null where it has no room, or the line bends.
export function roomFor(points, width) {
  const along = lengths(points), whole = along[along.length - 1];
  if (whole < width) return null;
  for (const part of [0.5, 0.3, 0.7]) {
    const middle = Math.max(width / 2, Math.min(whole - width / 2, whole * part));
    const [x, y] = pointAlong(points, along, middle - width / 2), [toX, toY] = pointAlong(points, along, middle + width / 2);
    if (Math.hypot(toX - x, toY - y) < 0.96 * width) continue;
    const turn = Math.atan2(toY - y, toX - x) * 180 / Math.PI;
    const [atX, atY] = pointAlong(points, along, middle);
    return [(x + toX) / 4 + atX / 2, (y + toY) / 4 + atY / 2, turn > 90 ? turn - 180 : turn < -90 ? turn + 180 : turn];
  }
  return null;
}

// Keeps boxes apart: whether one around a text has room, which it then takes.
export class Room {
  // Beside boxes [left, top, right, bottom] that are taken.
  constructor(boxes = []) { this.boxes = [...boxes]; }

  take(x, y, width, height, turn = 0) {
    const angle = turn * Math.PI / 180;
    const half = [Math.abs(Math.cos(angle)) * width + Math.abs(Math.sin(angle)) * height,
      Math.abs(Math.sin(angle)) * width + Math.abs(Math.cos(angle)) * height].map((side) => side / 2 + 4);
    const box = [x - half[0], y - half[1], x + half[0], y + half[1]];
    if (this.boxes.some((other) => box[0] < other[2] && box[2] > other[0] && box[1] < other[3] && box[3] > other[1])) return false;
    this.boxes.push(box);
    return true;
  }
}

// Fewer points for a line of pixels: those that lie more than `apart` from the last one.
export function thinned(points, apart = 1.5) {
  const found = [points[0]];
  for (const point of points) {
    const last = found[found.length - 1];
    if (Math.abs(point[0] - last[0]) + Math.abs(point[1] - last[1]) >= apart) found.push(point);
  }
  if (found.length < 2 || found[found.length - 1] !== points[points.length - 1]) found.push(points[points.length - 1]);
  return found;
}

export const pathOf = (points) => "M" + points.map(([x, y]) => `${x.toFixed(1)} ${y.toFixed(1)}`).join("L");
