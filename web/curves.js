// The view of curves: range of altitudes, values read off, figure, level, table, and saving.
import { choice, field, make, setRefusal, setText, setValue } from "./dom.js";
import { pretty } from "./chart.js";
import { figure } from "./figure.js";
import { levelPart } from "./level.js";
import { DENSITY, NUMBERS, factorOf, unitOf } from "./names.js";
import { profile, profileMarks, profileSummary } from "./profile.js";
import { figureSvg, rowsCsv, saveFile } from "./save.js";
import { drawTable } from "./table.js";

const READ = [DENSITY, 10, 9, 0, 1, 2, 3, 4, 6, 7, 8];

// the values at one altitude, of every case: [{ name, unit, values, ratio }]
function readings(rows, cases) {
  const units = cases[0].one.switches;
  return READ.map((place) => {
    const { name, kind } = NUMBERS[place];
    const values = rows.map((row, i) => (row ? row[place] * factorOf(kind, cases[i].one.switches, units) : null));
    return { name, unit: unitOf(kind, units), values, ratio: values.length < 2 ? null : values.includes(null) ? NaN : values[1] / values[0] };
  });
}

const shownAs = (value) => (value === null ? "refused" : pretty(value));

// a name, the value of each case and their ratio, as many as there are
function fillReading(place, texts) {
  while (place.children.length > texts.length) place.lastChild.remove();
  while (place.children.length < texts.length) place.append(make("dd"));
  texts.forEach((text, i) => {
    setText(place.children[i], text);
    place.children[i].classList.toggle("ratio", text.includes("ratio"));
  });
}

export function curvesView(root, change) {
  const ranges = [
    { key: "from", label: "From", unit: "km" },
    { key: "to", label: "to", unit: "km" },
    { key: "step", label: "Table every", unit: "km" },
  ].map((one) => ({ ...one, ...field({ id: one.key, label: one.label, unit: one.unit, onchange: (text) => change((state) => (state[one.key] = text)) }) }));
  const digits = choice({
    name: "digits", label: "Digits in the table", options: [["short", "7 digits"], ["all", "all digits", "every digit that the number's 64 bits have"]],
    onchange: (value) => change((state) => (state.digits = value)),
  });
  const where = make("p", { class: "where" });
  const hint = make("p", { class: "hint" }, "Point at the curves, or use the arrow keys on them, to read off values; a click keeps them, Escape lets go.");
  const values = make("dl", { class: "readout" }, ...READ.map(() => make("div", {}, make("dt"))));
  const level = levelPart(change);
  const table = make("table", { id: "table", class: "numbers", "aria-label": "The numbers at each altitude, with the switch row beside each density" });
  let shown = null;

  const picture = figure({
    id: "profile", label: "Curves over altitude",
    reader: "Altitude at which values are read off: arrow keys, Page Up and Down, Home, End; Escape for the record's own",
    steps: () => (shown && !shown.nothing ? shown.curve.length : 0),
    toStep: (x, y) => {
      if (!shown || shown.nothing) return -1;
      const within = ({ frame }) => x >= frame.x - 9 && x <= frame.x + frame.width + 9 && y >= frame.y && y <= frame.y + frame.height;
      const panel = shown.panels.find(within);
      if (!panel) return -1;
      return Math.round(((panel.y.inverse(y) - panel.y.low) / (panel.y.high - panel.y.low)) * (shown.curve.length - 1));
    },
    read: (step, kept) => {
      if (kept) change((state) => (state.at = step < 0 ? "" : String(step)));
      else if (shown) showReading(step < 0 ? shown.at : step);
    },
  });

  function showReading(step) {
    const { results } = shown, { cases } = results;
    const read = step >= 0 && !shown.nothing;
    const rows = cases.map(({ judged, rows: all }) => (read ? all?.subarray(11 * step, 11 * step + 11) : judged.row));
    const own = [...new Set(cases.map(({ one }) => (one.lacking.includes("alt") ? "not known" : `${one.texts.alt} km`)))].join(" and ");
    const altitude = read ? `At ${pretty(shown.curve[step], 6)} km` : `At the record's altitude, ${own}`;
    setText(where, altitude);
    const list = readings(rows, cases);
    list.forEach(({ name, unit, values: numbers, ratio }, i) => {
      const texts = [`${name} ${unit}`, ...numbers.map(shownAs), ...(ratio === null ? [] : [Number.isNaN(ratio) ? "no ratio" : `ratio ${pretty(ratio)}`])];
      fillReading(values.children[i], texts);
    });
    const spoken = list.slice(0, 2).map(({ name, unit, values: numbers }) => `${name} ${numbers.map(shownAs).join(" and ")} ${unit}`);
    picture.mark(read ? step : -1, `${altitude}: ${spoken.join(", ")}`, read ? profileMarks(shown.panels, shown.curve, step) : "");
  }

  const curvesCsv = () => rowsCsv(shown.results, shown.curve ?? [], (found) => found.rows);
  const tableCsv = () => rowsCsv(shown.results, shown.results.range.table ?? [], (found) => found.table);
  const saves = [
    ["save-csv", "Save curves (CSV)", () => saveFile("potirehu-curves.csv", "text/csv", curvesCsv())],
    ["save-table", "Save table (CSV)", () => saveFile("potirehu-table.csv", "text/csv", tableCsv())],
    ["save-svg", "Save figure (SVG)", () => saveFile("potirehu-curves.svg", "image/svg+xml", figureSvg(picture.drawing.querySelector("svg")))],
  ].map(([id, words, save]) => make("button", { type: "button", id, onclick: save }, words));

  picture.root.append(level.strip);
  root.append(
    make("div", { class: "bar" }, ...ranges.slice(0, 2).map((one) => one.root), make("span", { class: "fill" }), ...saves),
    where,
    values,
    hint,
    picture.root,
    level.root,
    make("div", { class: "bar" }, make("h3", {}, "Table"), ranges[2].root, digits.root),
    make("div", { class: "scroll", tabIndex: 0, role: "region", "aria-label": "Table of numbers" }, table),
  );

  return (state, results, width) => {
    for (const { key, input, refusal } of ranges) {
      setValue(input, state[key]);
      setRefusal(input, refusal, results.range.refusals.get(key));
    }
    digits.set(state.digits);
    const made = profile(state, results, width);
    const at = state.at === "" ? -1 : Math.max(0, Math.min(511, Math.round(Number(state.at)) || 0));
    shown = { ...made, results, curve: results.range.curve, at };
    picture.draw(made.svg, profileSummary(state, results));
    level.draw(state, results, made);
    showReading(at);
    drawTable(table, state, results);
  };
}
