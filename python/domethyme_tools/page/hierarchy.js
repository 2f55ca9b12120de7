// The bytes of a hierarchy file, from the columns that hierarchy.py makes of it. The library checks them as it checks any file's.

const NO_MIDDLE = 0xffff_ffff, LINK = 24;

export function hierarchyBytes(columns) {
  const head = new DataView(columns.buffer, columns.byteOffset, 24), nodes = head.getUint32(4), links = Number(head.getBigUint64(8));
  let at = 24;
  const take = (count) => {
    const found = new Uint32Array(count);
    for (let place = 0; place < 4; place++, at += count) {
      for (let row = 0; row < count; row++) found[row] |= columns[at + row] << 8 * place;
    }
    return found;
  };
  const ranks = take(nodes), begins = sums(take(nodes)), ends = take(links), middles = take(links);
  const starts = new Uint32Array(links);
  for (let node = 0; node < nodes; node++) starts.fill(node, begins[node], begins[node + 1]);
  for (let link = 0; link < links; link++) {
    ends[link] = starts[link] + unsigned(ends[link]);
    middles[link] = middles[link] ? starts[link] + unsigned(middles[link]) : NO_MIDDLE;
  }
  const own = take(middles.reduce((count, middle) => count + (middle === NO_MIDDLE), 0));
  const { weights, arcs } = costs({ ranks, begins, ends, starts, middles, own });
  const bytes = new Uint8Array(24 + 4 * nodes + LINK * links), view = new DataView(bytes.buffer);
  bytes.set(columns.subarray(0, 24));
  ranks.forEach((rank, node) => view.setUint32(24 + 4 * node, rank));
  for (let link = 0, to = 24 + 4 * nodes; link < links; link++, to += LINK) {
    view.setUint32(to, starts[link]);
    view.setUint32(to + 4, ends[link]);
    view.setUint32(to + 8, Math.floor(weights[link] / 2 ** 32));
    view.setUint32(to + 12, weights[link] % 2 ** 32);
    view.setUint32(to + 16, arcs[link]);
    view.setUint32(to + 20, middles[link]);
  }
  return bytes;
}

// The weights and arcs of links: of those without a middle one by one, of the others by their halves, whose middles have lower ranks.
// (up to 300,000 nodes a weight has less than 53 bits)
function costs({ ranks, begins, ends, starts, middles, own }) {
  const weights = new Float64Array(ends.length), arcs = new Uint32Array(ends.length), byRank = new Uint32Array(ranks.length);
  let next = 0;
  for (let link = 0; link < ends.length; link++) {
    if (middles[link] === NO_MIDDLE) [weights[link], arcs[link]] = [own[next++], 1];
    else byRank[ranks[middles[link]]]++;
  }
  const places = sums(byRank), order = new Uint32Array(places[ranks.length]);
  for (let link = 0; link < ends.length; link++) if (middles[link] !== NO_MIDDLE) order[places[ranks[middles[link]]]++] = link;
  const find = (start, end) => {
    let [low, high] = [begins[start], begins[start + 1]];
    while (low < high) {
      const middle = (low + high) >> 1;
      if (ends[middle] < end) low = middle + 1;
      else high = middle;
    }
    return low;
  };
  for (const link of order) {
    const one = find(starts[link], middles[link]), other = find(middles[link], ends[link]);
    weights[link] = weights[one] + weights[other];
    arcs[link] = arcs[one] + arcs[other];
  }
  return { weights, arcs };
}

function sums(counts) {
  const found = new Uint32Array(counts.length + 1);
  for (let place = 0; place < counts.length; place++) found[place + 1] = found[place] + counts[place];
  return found;
}

const unsigned = (value) => value & 1 ? -(value >>> 1) - 1 : value >>> 1;
