// The table below the curves: a line for each altitude and case, the switch row beside each density.
import { fillTable } from "./dom.js";
import { NUMBERS, DENSITY, unitOf } from "./names.js";
import { ROW } from "./model.js";

// density first, the row beside it, then temperatures and species
const ORDER = [DENSITY, 10, 9, 0, 1, 2, 3, 4, 6, 7, 8];

/** A number of the table: seven digits, of a temperature two behind the point, or all that it has. */
function cell(value, kind, all) {
  if (Number.isNaN(value)) return "no number";
  if (all || !Number.isFinite(value)) return String(value);
  return kind === "kelvin" ? value.toFixed(2) : value.toExponential(6);
}

function headOf(shown, both) {
  const heads = ORDER.map((place) => {
    const { name, kind, title } = NUMBERS[place];
    const units = [...new Set(shown.map((one) => unitOf(kind, one.switches)))].join(", ");
    return `<th scope="col"${title ? ` title="${title}"` : ""}>${name} <span class="unit">${units}</span></th>`;
  });
  heads.splice(1, 0, '<th scope="col" class="switches">Switch row, entries 0 to 23</th>');
  return `<tr><th scope="col">Altitude <span class="unit">km</span></th>${both ? '<th scope="col">Case</th>' : ""}${heads.join("")}</tr>`;
}

export function drawTable(table, state, results) {
  const { table: altitudes } = results.range;
  const shown = results.cases
    .map((found, i) => ({ name: i ? "second" : "first", rows: found.table, switches: found.one.switches }))
    .filter((one) => one.rows);
  if (!altitudes || shown.length === 0) {
    fillTable(table, "", []);
    return;
  }
  const both = results.cases.length === 2, all = state.digits === "all";
  const lines = [];
  altitudes.forEach((altitude, k) => {
    for (const { name, rows, switches } of shown) {
      const numbers = ORDER.map((place) => cell(rows[ROW * k + place], NUMBERS[place].kind, all));
      numbers.splice(1, 0, switches.join(" "));
      lines.push([String(all ? altitude : Number(altitude.toFixed(3))), ...(both ? [name] : []), ...numbers]);
    }
  });
  fillTable(table, headOf(shown, both), lines, { [both ? 3 : 2]: "switches" });
}
