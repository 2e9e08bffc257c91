// What a state gives: every call of the library that a view needs, once for each change.
import { casesOf } from "./state.js";
import { waysOf } from "./counting.js";
import { follows, judge, numberOf } from "./judge.js";
import { DENSITY, FIELD, FIRST_ALTITUDE, NUMBERS, factorOf } from "./names.js";
import { wordsOf } from "./refusals.js";
import { ROW } from "./model.js";

const CURVE = 512;

// a refusal of a column at the field of the range that it is of: the first altitude is 'from', every other comes of 'to' too
function rangeRefusal(answer) {
  const index = answer.place - FIRST_ALTITUDE;
  return { key: answer.number === 10 || index === 0 ? "from" : "to", words: wordsOf(answer) };
}

function evenly(from, to, count) {
  return Float64Array.from({ length: count }, (_, k) => from + ((to - from) * k) / (count - 1));
}

function columnOf(library, judged, switches, altitudes) {
  if (!judged.usable || altitudes === null) return { rows: null, refusal: null };
  const answer = library.column(judged.record, switches, altitudes);
  if (!answer.number) return { rows: answer.rows, refusal: null };
  return { rows: null, refusal: answer.number === 5 ? { key: "step", words: wordsOf(answer) } : rangeRefusal(answer) };
}

/** The altitudes of curves and table, and what is refused of them before the library is asked. */
function rangeOf(state) {
  const from = numberOf(state.from), to = numberOf(state.to), step = numberOf(state.step);
  const refusals = new Map();
  if (!Number.isFinite(from)) refusals.set("from", "The lowest altitude is no finite number.");
  if (!Number.isFinite(to)) refusals.set("to", "The highest altitude is no finite number.");
  else if (from >= to) refusals.set("to", "The highest altitude is not above the lowest.");
  const curve = refusals.size ? null : evenly(from, to, CURVE);
  if (!(step > 0 && Number.isFinite(step))) refusals.set("step", "The step is no number above 0.");
  // one more than the library takes, so that it is the library that refuses
  const count = refusals.size ? 0 : Math.min(CURVE + 1, Math.floor((to - from) / step + 1e-9) + 1);
  const table = refusals.size ? null : Float64Array.from({ length: count }, (_, k) => from + k * step);
  return { from, to, curve, table, refusals };
}

/** One list of a column's numbers, in the units of another row. */
function series(rows, place, switches, units) {
  const factor = factorOf(NUMBERS[place].kind, switches, units);
  return Float64Array.from({ length: rows.length / ROW }, (_, k) => rows[ROW * k + place] * factor);
}

/** A level's crossings and the first altitude thin enough, of one case; the level is in the units of the first. */
function levelOf(library, judged, switches, units, altitudes, level) {
  const own = level / factorOf("mass", switches, units);
  const crossings = library.crossings(judged.record, switches, altitudes, own);
  const first = library.firstBelow(judged.record, switches, altitudes, own);
  return { crossings: crossings.list, first };
}

/** The settings that a text stands for, 'SETTING x ORBITS' or 'SETTING', separated by commas; null where it is none. */
function settingsOf(text) {
  const settings = [];
  for (const part of text.split(",").map((word) => word.trim()).filter(Boolean)) {
    const found = /^(-?\d{1,9})(?:\s*[x×*]\s*(\d{1,6}))?$/.exec(part);
    if (!found) return null;
    for (let orbit = Number(found[2] ?? 1); orbit > 0; orbit--) settings.push(Number(found[1]));
  }
  return settings;
}

function descentOf(library, state, cases) {
  const refusals = new Map();
  const start = numberOf(state.start), settings = settingsOf(state.settings);
  if (!Number.isFinite(start)) refusals.set("start", "The start is no finite number.");
  if (settings === null) refusals.set("settings", "Settings are written as '2 x 100, 4 x 50': the setting, then how many orbits it is kept.");
  if (refusals.size) return { refusals, flown: [], settings: [] };
  // whole millimetres; a start beyond any is refused by the library like the nearest that is not
  const millimetres = BigInt(Math.round(Math.max(-1e15, Math.min(1e15, start * 1e6))));
  const flown = cases.map(({ judged, one }) => {
    if (!judged.usable) return null;
    const answer = library.descent(judged.record, one.switches, millimetres, settings);
    if (answer.number) {
      refusals.set(answer.number === 17 ? "start" : "settings", wordsOf(answer));
      return null;
    }
    return answer;
  });
  return { refusals, flown, settings, start: Number(millimetres) };
}

const THERE = 400; // km: an altitude that no row refuses, where the record's own is not looked at
const BAND = /^\(band (\d+) (\d+) \(switches ([-\d ]+)\)\)$/;

function bandsOf(library, state, cases) {
  const read = library.bands(state.bands);
  if (read.number) return { refusal: { line: read.place, words: wordsOf(read) }, bands: [], metres: [], rows: [] };
  const bands = state.bands.split("\n").filter(Boolean).map((line) => {
    const [, from, to, row] = BAND.exec(line);
    return { from: Number(from), to: Number(to), switches: row.split(" ").map(Number) };
  });
  const [{ judged }] = cases;
  const { from, to, refusals } = rangeOf(state);
  if (refusals.has("from") || refusals.has("to")) return { refusal: null, bands, metres: [], rows: [] };
  // a band whose row lets a field count that is not known has no density
  for (const band of bands) {
    const fields = judged.record.fields.map((value, k) => (k === FIELD.alt - FIELD.sec ? THERE : value));
    const asked = library.known(judged.known | (1 << FIELD.alt), { ...judged.record, fields }, band.switches);
    band.refusal = asked.number ? wordsOf(asked) : null;
  }
  const bandOf = (metre) => bands.find((band) => metre < band.to) ?? bands.at(-1);
  const low = Math.max(0, from) * 1000, high = Math.min(2500, to) * 1000;
  const metres = [...new Set(Array.from(evenly(low, high, CURVE), Math.round))];
  const rows = library.bandRows(read.table, judged.record, metres);
  rows.forEach((answer, k) => {
    const band = bandOf(metres[k]);
    if (answer.number && !band.refusal) band.refusal = wordsOf(answer);
  });
  const units = cases[0].one.switches;
  const densities = Float64Array.from(rows, (answer, k) => {
    const band = bandOf(metres[k]);
    return band.refusal ? NaN : answer.row[DENSITY] * factorOf("mass", band.switches, units);
  });
  const plain = judged.usable ? library.column(judged.record, units, metres.map((metre) => metre / 1000)) : { rows: null };
  return { refusal: null, bands, metres, densities, plain: plain.rows && series(plain.rows, DENSITY, units, units) };
}

/** All that the chosen view shows. */
export function compute(library, state) {
  const cases = casesOf(state).map((one) => ({ one, judged: judge(library, one), ways: waysOf(library, one.switches), follows: follows(one) }));
  const results = { cases, range: rangeOf(state) };
  const units = state.first.switches;
  if (state.view === "curves") {
    const { curve, table, refusals } = results.range;
    for (const found of cases) {
      const { one, judged } = found;
      const drawn = columnOf(library, judged, one.switches, curve);
      const listed = columnOf(library, judged, one.switches, table);
      found.rows = drawn.rows;
      found.table = listed.rows;
      for (const refusal of [drawn.refusal, listed.refusal]) if (refusal && !refusals.has(refusal.key)) refusals.set(refusal.key, refusal.words);
      found.curves = drawn.rows && NUMBERS.map((_, place) => series(drawn.rows, place, one.switches, units));
      const level = numberOf(state.level);
      if (state.level !== "" && drawn.rows) found.level = levelOf(library, judged, one.switches, units, curve, level);
    }
  }
  if (state.view === "descent") results.descent = descentOf(library, state, cases);
  if (state.view === "bands") results.bands = bandsOf(library, state, cases);
  return results;
}
