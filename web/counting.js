// Which fields count under a switch row, and by which entries: all of it asked of potirehu_counts, none of it known to the page.
import { ACTIVITY, statesOf } from "./names.js";

const DEPTH = 3; // no field needs more than three entries changed at once

// the other states of an entry that are tried: 0 to shut a field off, 1 to let it count; of entry 9 each of its two others
function others(entry, state, to) {
  if (entry === ACTIVITY) return statesOf(entry).map(([other]) => other).filter((other) => other !== state);
  return state === to ? [] : [to];
}

function search(library, switches) {
  const counter = library.counter();
  const counts = counter(switches).slice(), row = [...switches], changed = [];
  const ways = Array.from(counts, () => []);
  const note = (to, marks) => {
    for (let place = 0; place < counts.length; place++) {
      if (marks[place] === counts[place] || marks[place] !== to) continue;
      const smaller = ways[place].some((way) => way.every(([entry, state]) => changed.some(([e, s]) => e === entry && s === state)));
      if (!smaller) ways[place].push(changed.map((change) => [...change]));
    }
  };
  const vary = (to, entry, size) => {
    for (let next = entry; next < switches.length; next++) {
      for (const state of others(next, switches[next], to)) {
        row[next] = state;
        changed.push([next, state]);
        if (changed.length === size) note(to, counter(row));
        else vary(to, next + 1, size);
        changed.pop();
        row[next] = switches[next];
      }
    }
  };
  for (let size = 1; size <= DEPTH; size++) for (const to of [0, 1]) vary(to, 0, size);
  return Array.from(counts, (mark, place) => ({ counts: mark === 1, ways: ways[place] }));
}

const found = new Map(); // by row, so that a change of the record searches nothing

/** For each field { counts, ways }: ways are the smallest sets of entries [[entry, state], ..] that, changed together, turn it over. */
export function waysOf(library, switches) {
  const key = switches.join(" ");
  if (!found.has(key)) found.set(key, search(library, switches));
  return found.get(key);
}

const listed = (words, last) => (words.length < 2 ? words.join("") : `${words.slice(0, -1).join(", ")} ${last} ${words.at(-1)}`);

/** A way in words: '12 and 13 at 0'. */
function wayInWords(way) {
  const states = [...new Set(way.map(([, state]) => state))];
  return listed(
    states.map((state) => `${listed(way.filter(([, s]) => s === state).map(([entry]) => String(entry)), "and")} at ${String(state).replace("-", "−")}`),
    "with",
  );
}

/** The ways of a field in words, or that there is none. */
export function waysInWords({ counts, ways }) {
  if (ways.length === 0) return counts ? "always" : "never";
  return ways.map(wayInWords).join("; or ");
}
