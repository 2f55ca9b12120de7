// The link to what is shown: its places are the fragment, which a browser keeps to itself. Before them is `trip` for a round trip, and
// `reach=5,10` or `towards=5,10` for isochrones from a place, or towards it, with their numbers.

const KINDS = /^(trip|(reach|towards)=[\d.,]+)$/;

export const written = (places) => places.map((place) => place.map((degrees) => degrees.toFixed(5)).join(",")).join(";");

export function read(fragment) {
  const words = fragment.replace(/^#/, "").split(";");
  const [kind, limits = null] = KINDS.test(words[0]) ? words.shift().split("=") : ["route"];
  const places = words.map((word) => word.split(",").map(Number));
  const isPlace = ([lon, lat, ...more]) => Math.abs(lon) <= 180 && Math.abs(lat) <= 90 && !more.length;
  return { kind, limits, places: places.every(isPlace) ? places : [] };
}

export function keep(kind, limits, places) {
  const before = kind === "route" ? "" : limits === null ? `${kind};` : `${kind}=${limits};`;
  history.replaceState(null, "", location.pathname + location.search + (places.length ? `#${before}${written(places)}` : ""));
}

// Copies the address; where the browser lets no page do that, shows it to be copied by hand.
export async function copy(button, field) {
  try {
    await navigator.clipboard.writeText(location.href);
    const before = button.textContent;
    button.textContent = "Copied";
    setTimeout(() => { button.textContent = before; }, 1500);
  } catch {
    field.hidden = false;
    const input = field.querySelector("input");
    input.value = location.href;
    input.focus();
    input.select();
  }
}
