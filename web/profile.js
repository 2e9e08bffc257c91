// The curves over altitude: mass density, species, temperature and, where there is a second case, the ratio of the two.
import { axes, domainOf, keyEntry, linearScale, linePath, logScale, pretty } from "./chart.js";
import { drawn } from "./figure.js";
import { DENSITY, SPECIES, TEMPERATURE, TEMPERATURE_EXO, unitOf } from "./names.js";

const LEFT = 58, RIGHT = 16, GAP = 18, TOP = 62, BOTTOM = 28, HEIGHT = 400, NARROW = 700;
const STYLES = ["solid", "dashed"];

function panelsOf(results, units) {
  const shown = results.cases.map((found, i) => ({ curves: found.curves, style: STYLES[i] })).filter((one) => one.curves);
  // by the place of each number in a row, its colour
  const lines = (colours) =>
    shown.flatMap(({ curves, style }) => colours.map(([place, colour]) => ({ values: curves[place], style: `curve ${colour} ${style}` })));
  const species = SPECIES.map(({ place }) => [place, `species-${place}`]);
  const temperatures = [[TEMPERATURE, "accent"], [TEMPERATURE_EXO, "soft"]];
  const panels = [
    { key: "density", title: "Mass density", unit: unitOf("mass", units), log: true, lines: lines([[DENSITY, "accent"]]) },
    { key: "species", title: "Species", unit: unitOf("particles", units), log: true, lines: lines(species) },
    { key: "temperature", title: "Temperature", unit: "K", log: false, lines: lines(temperatures) },
  ];
  if (results.cases.length === 2) {
    const [first, second] = results.cases.map((found) => found.curves);
    const ratio = first && second && first[DENSITY].map((value, k) => second[DENSITY][k] / value);
    panels.push({ key: "ratio", title: "Density, second / first", unit: "", log: false, lines: ratio ? [{ values: ratio, style: "curve accent solid" }] : [] });
  }
  return panels;
}

// side by side on one altitude axis, or one below the other where there is no room
function framesOf(count, width) {
  if (width < NARROW) {
    const height = HEIGHT * 0.8;
    return Array.from({ length: count }, (_, i) => ({ x: LEFT, y: TOP + i * (height + TOP + BOTTOM), width: width - LEFT - RIGHT, height, labels: true }));
  }
  const each = (width - LEFT - RIGHT - GAP * (count - 1)) / count;
  return Array.from({ length: count }, (_, i) => ({ x: LEFT + i * (each + GAP), y: TOP, width: each, height: HEIGHT, labels: i === 0 }));
}

function keyOf(panel, frame, second) {
  const at = (i, each) => frame.x + i * each;
  if (panel.key === "species") {
    const each = frame.width / 4;
    const entry = ({ name, place }, i) => keyEntry(at(i % 4, each), frame.y - (i < 4 ? 24 : 10), name, `curve species-${place} solid`);
    return SPECIES.map(entry).join("");
  }
  const y = frame.y - 24;
  if (panel.key === "density" && second) return keyEntry(at(0, 0), y, "first", "curve accent solid") + keyEntry(at(1, 70), y, "second", "curve accent dashed");
  if (panel.key === "temperature") {
    return keyEntry(at(0, 0), y, "at the altitude", "curve accent solid") + keyEntry(at(1, 112), y, "exospheric", "curve soft solid");
  }
  return "";
}

/** The figure's SVG and, for marks and level, its panels with frames and scales. */
export function profile(state, results, width) {
  const units = state.first.switches;
  const { from, to, curve } = results.range;
  const panels = panelsOf(results, units);
  const frames = framesOf(panels.length, width);
  const last = frames.at(-1), height = Math.ceil(last.y + last.height + BOTTOM);
  const nothing = curve === null || panels[0].lines.length === 0;
  let body = "";
  panels.forEach((panel, i) => {
    const frame = frames[i];
    const domain = (nothing ? null : domainOf(panel.lines.map((line) => line.values), panel.log)) ?? (panel.log ? [1e-16, 10] : [0, 1500]);
    if (panel.key === "ratio") [domain[0], domain[1]] = [Math.min(domain[0], 0.95), Math.max(domain[1], 1.05)];
    panel.frame = frame;
    panel.x = (panel.log ? logScale : linearScale)(domain[0], domain[1], frame.x, frame.x + frame.width);
    panel.y = linearScale(curve ? from : 0, curve ? to : 1000, frame.y + frame.height, frame.y);
    body += axes({ frame, x: panel.x, y: panel.y, title: panel.title, unit: panel.unit, above: 40, yTitle: "altitude, km", yLabels: frame.labels });
    body += keyOf(panel, frame, results.cases.length === 2);
    if (panel.key === "ratio") body += `<path class="one" d="M${panel.x(1)} ${frame.y}v${frame.height}"/>`;
    if (nothing) return;
    for (const { style, values } of panel.lines) {
      body += `<path class="${style}" d="${linePath((k) => panel.x(values[k]), (k) => panel.y(curve[k]), curve.length)}"/>`;
    }
  });
  if (nothing) body += `<text class="title" x="${frames[0].x + 12}" y="${frames[0].y + 28}">Refused: see the fields marked.</text>`;
  return { svg: drawn("profile", Math.round(width), height, "Mass density, species and temperature over altitude", body), panels, height, nothing };
}

/** The marks at one altitude: a line across each panel, a dot on each curve. */
export function profileMarks(panels, curve, step) {
  return panels.map(({ frame, x, y, lines }) => {
    const at = y(curve[step]);
    const dots = lines.map((line) => x(line.values[step])).filter(Number.isFinite).map((cx) => `<circle class="dot" cx="${cx}" cy="${at}" r="3"/>`);
    return `<path class="cursor" d="M${frame.x} ${at}h${frame.width}"/>${dots.join("")}`;
  }).join("");
}

/** A summary of the figure in a sentence or two. */
export function profileSummary(state, results) {
  const [first] = results.cases;
  if (!first.curves) return "No curve: the record or the range of altitudes is refused.";
  const { curve } = results.range, unit = unitOf("mass", state.first.switches), d = first.curves[DENSITY];
  const ends = [0, curve.length - 1].map((k) => `${pretty(d[k])} ${unit} at ${pretty(curve[k])} km`);
  return `Mass density from ${ends.join(" to ")}; temperature there ${pretty(first.curves[TEMPERATURE].at(-1))} K. The table below has the numbers.`;
}
