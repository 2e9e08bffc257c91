// What the page shows, as one object, and the same as the fragment of the page's address. Fields are kept as they are typed.
import { ALL_ON, FIELDS, statesOf } from "./names.js";

const TEXTS = { year: "2026", doy: "172", sec: "43200", alt: "400", g_lat: "45", g_long: "10", lst: "", f107a: "150", f107: "150", ap: "4" };
const HISTORY_TEXTS = ["4", "4", "4", "4", "4", "4", "4"];
const BANDS_TEXT = [[0, 72500], [72500, 200000], [200000, 500000], [500000, 2500001]]
  .map(([from, to], i) => `(band ${from} ${to} (switches ${ALL_ON.map((on, k) => (i % 2 && [7, 8, 9, 10, 14].includes(k) ? 0 : on)).join(" ")}))`)
  .join("\n");

/** A record with its row: texts of the ten fields (lst empty: it follows), the history or null, the keys that are not known, the switches. */
function defaultCase() {
  return { texts: { ...TEXTS }, history: null, lacking: [], switches: [...ALL_ON] };
}

/** The published sample of the C release whose density README shows. */
export function publishedSample() {
  return { ...TEXTS, sec: "29000", g_lat: "60", g_long: "-70", lst: "16" };
}

export const historyTexts = () => [...HISTORY_TEXTS];

export function copyCase(one) {
  return { texts: { ...one.texts }, history: one.history && [...one.history], lacking: [...one.lacking], switches: [...one.switches] };
}

// what is not of a record or its row: default texts, by their names in the address
const OTHERS = {
  view: "curves", edit: "first", from: "0", to: "1000", step: "50", digits: "short", level: "", at: "",
  start: "350", settings: "2 x 1500, 4 x 500", bands: BANDS_TEXT, theme: "auto",
};
const CHOICES = { view: ["curves", "descent", "bands"], edit: ["first", "second"], digits: ["short", "all"], theme: ["auto", "light", "dark"] };

export function defaultState() {
  return { first: defaultCase(), second: null, ...OTHERS };
}

// of a case every value by its name in the address
function caseEntries(one) {
  return [
    ...FIELDS.map(({ key }) => [key, one.texts[key]]),
    ["ap_array", one.history ? one.history.join(",") : ""],
    ["not_known", one.lacking.join(",")],
    ["switches", one.switches.join("")],
  ];
}

function setEntry(one, key, value) {
  if (key in TEXTS) one.texts[key] = value;
  else if (key === "ap_array") {
    const texts = value.split(",");
    one.history = texts.length === HISTORY_TEXTS.length ? texts : null;
  } else if (key === "not_known") one.lacking = FIELDS.map((field) => field.key).filter((name) => value.split(",").includes(name));
  else if (key === "switches") {
    const row = (value.match(/-?\d/g) ?? []).map(Number);
    if (row.length === ALL_ON.length) one.switches = row.map((state, entry) => (statesOf(entry).some(([known]) => known === state) ? state : ALL_ON[entry]));
  }
}

const encode = (text) => encodeURIComponent(text).replace(/%20/g, "+").replace(/%2C/g, ",");
function decode(text) {
  try {
    return decodeURIComponent(text.replace(/\+/g, " "));
  } catch {
    return text; // no text that encode wrote: as it stands
  }
}

/** The fragment: what differs from the page as it first opens, of a second case what differs from the first. */
export function toAddress(state) {
  const words = [];
  const add = (prefix, entries, plain) => {
    const defaults = Object.fromEntries(plain);
    for (const [key, value] of entries) if (value !== defaults[key]) words.push(`${prefix}${key}=${encode(value)}`);
  };
  add("", caseEntries(state.first), caseEntries(defaultCase()));
  if (state.second) {
    words.push("second=1");
    add("second.", caseEntries(state.second), caseEntries(state.first));
  }
  add("", Object.keys(OTHERS).map((key) => [key, state[key]]), Object.entries(OTHERS));
  return words.join("&");
}

/** The state that a fragment stands for; what it does not name, or names wrongly, is as the page first opens. */
export function fromAddress(fragment) {
  const state = defaultState();
  const entries = fragment.replace(/^#/, "").split("&").filter(Boolean).map((word) => {
    const cut = word.indexOf("=");
    return cut < 0 ? [word, ""] : [word.slice(0, cut), decode(word.slice(cut + 1))];
  });
  for (const [key, value] of entries) {
    if (key in OTHERS) state[key] = !CHOICES[key] || CHOICES[key].includes(value) ? value : OTHERS[key];
    else setEntry(state.first, key, value);
  }
  if (entries.some(([key]) => key === "second")) {
    state.second = copyCase(state.first);
    for (const [key, value] of entries) if (key.startsWith("second.")) setEntry(state.second, key.slice("second.".length), value);
  }
  if (!state.second) state.edit = "first";
  return state;
}

/** The cases that are shown: the first, and the second where there is one. */
export const casesOf = (state) => (state.second ? [state.first, state.second] : [state.first]);
