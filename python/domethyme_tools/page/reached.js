// The roads that are reached within limits, from the least lengths of the nodes, by the rules of the service: an arc is reached from its
// start to the point at which the limit is used up, where its weight is shared out along its line by metres.

import { arcFraction, weightBefore } from "./snapping.js";

// For each limit, which rise, the lines of the roads within it, as typed arrays: the points of line i are
// points[2 * begins[i]] to points[2 * begins[i + 1]], longitude first.
export function reachedRoads(network, lengths, limits, place) {
  const parts = partsAt(network, place, limits);
  return limits.map((limit, number) => {
    const points = [], begins = [0];
    for (let edge = 0; edge < network.edges; edge++) {
      const intervals = shares(network, edge, lengths, limit);
      if (place.edge === edge) intervals.push(...parts.map((part) => part[number]).filter(([low, high]) => low < high));
      if (!intervals.length) continue;
      const line = network.line(edge);
      for (const cut of joined(intervals).flatMap(([low, high]) => cutLines(line, low, high))) {
        for (const value of cut) points.push(value);
        begins.push(points.length / 2);
      }
    }
    return { points: Float64Array.from(points), begins: Uint32Array.from(begins) };
  });
}

// Between which shares of an edge its arcs are reached from its ends.
function shares(network, edge, lengths, limit) {
  let first = 0, last = 0;
  for (let arc = network.arcBegin[edge]; arc < network.arcBegin[edge + 1]; arc++) {
    const left = limit - lengths[network.arcFrom[arc]], weight = network.arcWeight[arc];
    if (!(left >= 0)) continue;
    const share = left < weight ? left / Math.max(weight, 1) : 1;
    if (network.arcAlong[arc]) first = Math.max(first, share);
    else last = Math.max(last, share);
  }
  return [...(first > 0 ? [[0, first]] : []), ...(last > 0 ? [[1 - last, 1]] : [])];
}

// For each arc of the road of a place that is no node, between which shares of the edge it reaches within each limit.
function partsAt(network, place, limits) {
  const arcs = place.copies.length ? [] : network.arcs(place.edge);
  return arcs.map((arc) => {
    const weight = network.arcWeight[arc], before = weightBefore(network, arc, place.fraction), share = arcFraction(network, arc, place.fraction);
    return limits.map((limit) => {
      const far = weight ? Math.min(Math.max((before + limit) / weight, share), 1) : 1, there = network.arcAlong[arc] ? far : 1 - far;
      return [Math.min(place.fraction, there), Math.max(place.fraction, there)];
    });
  });
}

function joined(intervals) {
  const found = [];
  for (const [low, high] of intervals.sort((one, other) => one[0] - other[0])) {
    const last = found[found.length - 1];
    if (last && low <= last[1]) last[1] = Math.max(last[1], high);
    else found.push([low, high]);
  }
  return found;
}

// The lines of an edge between two shares of its metres, in millionths of a degree, without repeated points; cut at the 180th meridian.
function cutLines({ points, along, metres }, low, high) {
  const found = [], shareOf = (number) => metres > 0 ? along[number] / metres : Number(number === points.length - 1);
  const at = (share) => {
    let number = 1;
    while (number < points.length - 1 && shareOf(number) <= share) number++;
    const [before, behind] = [shareOf(number - 1), shareOf(number)], part = behind > before ? (share - before) / (behind - before) : 0;
    const [begin, end] = [points[number - 1], points[number]];
    return [wrapped(begin[0] + part * wrapped(end[0] - begin[0])), begin[1] + part * (end[1] - begin[1])];
  };
  let line = [];
  for (const point of [at(low), ...points.filter((_, number) => low < shareOf(number) && shareOf(number) < high), at(high)]) {
    const [lon, lat] = point.map((degrees) => Math.round(degrees * 1e6) / 1e6), [lastLon, lastLat] = line.slice(-2);
    if (lastLon === lon && lastLat === lat) continue;
    if (Math.abs(lon - lastLon) > 180) {
      const side = Math.sign(lastLon) * 180, [before, behind] = [Math.abs(side - lastLon), Math.abs(side + lon)];
      const border = lastLat + (lat - lastLat) * (before + behind ? before / (before + behind) : 0);
      found.push([...line, side, border]);
      line = [-side, border];
    }
    line.push(lon, lat);
  }
  return [...found, line].filter((each) => each.length > 2);
}

// Degrees of longitude from -180 to 180.
const wrapped = (degrees) => ((degrees + 180) % 360 + 360) % 360 - 180;
