// The view of bands: a text of switch rows by height band, its refusal at the line, the density by band beside the record's own row.
import { fillTable, make, setText, setValue } from "./dom.js";
import { axes, domainOf, keyEntry, linePath, linearScale, logScale, pretty } from "./chart.js";
import { drawn, figure } from "./figure.js";
import { unitOf } from "./names.js";
import { csvHead, csvLine, figureSvg, saveFile } from "./save.js";

const FRAME = { left: 58, top: 46, right: 14, gap: 24, bottom: 30, height: 360 };

export function bandsView(root, change) {
  const text = make("textarea", {
    id: "bands", spellcheck: false, wrap: "off", "aria-describedby": "bands-refusal",
    "aria-label": "Bands, one a line: (band FROM TO (switches ..)), whole metres",
  });
  const numbers = make("ol", { class: "lines", "aria-hidden": "true" });
  const refusal = make("p", { class: "refusal", id: "bands-refusal", hidden: true });
  text.addEventListener("input", () => change((state) => (state.bands = text.value)));
  text.addEventListener("scroll", () => (numbers.scrollTop = text.scrollTop));
  const where = make("p", { class: "where" });
  const table = make("table", { class: "numbers", id: "bands-table", "aria-label": "The bands" });
  let shown = null;
  const picture = figure({
    id: "by-band", label: "Density by band", reader: "Altitude at which the density is read off: arrow keys, Page Up and Down, Home, End",
    steps: () => shown?.metres.length ?? 0,
    toStep: (x, y) => {
      if (!shown?.y || y < shown.frame.y || y > shown.frame.y + shown.frame.height) return -1;
      const metre = shown.y.inverse(y) * 1000;
      return shown.metres.reduce((best, one, k) => (Math.abs(one - metre) < Math.abs(shown.metres[best] - metre) ? k : best), 0);
    },
    read: (step, kept) => {
      if (kept) change((state) => (state.at = step < 0 ? "" : String(step)));
      else if (shown) showReading(step < 0 ? shown.at : step);
    },
  });

  function showReading(step) {
    if (!shown.y || step < 0) {
      setText(where, shown.y ? "Point at the curve, or use the arrow keys on it, to read it off." : "");
      picture.mark(-1, "no altitude is read", "");
      return;
    }
    const { x, y, panels, metres, densities, plain, unit } = shown, altitude = metres[step] / 1000;
    const words = [`by band ${pretty(densities[step])} ${unit}`];
    if (plain) words.push(`by the record's row ${pretty(plain[step])} ${unit}`, `ratio ${pretty(densities[step] / plain[step])}`);
    setText(where, `At ${pretty(altitude, 7)} km: ${words.join("; ")}`);
    const lines = panels.map((frame) => `<path class="cursor" d="M${frame.x} ${y(altitude)}h${frame.width}"/>`).join("");
    const at = x(densities[step]);
    picture.mark(step, where.textContent, lines + (Number.isFinite(at) ? `<circle class="dot" cx="${at}" cy="${y(altitude)}" r="3.5"/>` : ""));
  }

  function csv() {
    let out = csvHead(shown.results) + csvLine(["metre", `density by band ${shown.unit}`, `density by the record's row ${shown.unit}`]);
    shown.metres.forEach((metre, k) => (out += csvLine([metre, shown.densities[k], shown.plain ? shown.plain[k] : ""])));
    return out;
  }
  const hint =
    "One band a line, (band FROM TO (switches ..)), in whole metres, FROM included and TO not; together they cover 0 to 2,500,001. " +
    "The altitudes drawn are those of the curves.";
  const svg = () => figureSvg(picture.drawing.querySelector("svg"));
  root.append(
    make(
      "div",
      { class: "bar" },
      make("p", { class: "hint" }, hint),
      make("span", { class: "fill" }),
      make("button", { type: "button", id: "save-bands-csv", onclick: () => saveFile("potirehu-bands.csv", "text/csv", csv()) }, "Save densities (CSV)"),
      make("button", { type: "button", id: "save-bands-svg", onclick: () => saveFile("potirehu-bands.svg", "image/svg+xml", svg()) }, "Save figure (SVG)"),
    ),
    make("div", { class: "text" }, numbers, text),
    refusal,
    where,
    picture.root,
    make("div", { class: "scroll", tabIndex: 0, role: "region", "aria-label": "Table of bands" }, table),
  );

  return (state, results, width) => {
    const { refusal: refused, bands, metres, densities, plain } = results.bands;
    setValue(text, state.bands);
    const count = Math.max(state.bands.split("\n").length, refused?.line ?? 0);
    text.rows = Math.max(4, Math.min(12, count + 1));
    const line = (_, k) => make("li", { class: refused?.line === k + 1 ? "refused" : "" }, String(k + 1));
    numbers.replaceChildren(...Array.from({ length: count }, line));
    refusal.hidden = !refused;
    setText(refusal, refused ? `Line ${refused.line}: ${refused.words}` : "");
    text.setAttribute("aria-invalid", String(Boolean(refused)));
    const units = state.first.switches, unit = unitOf("mass", units);
    const at = state.at === "" ? -1 : Math.max(0, Math.round(Number(state.at)) || 0);
    shown = { results, metres: refused ? [] : metres, densities, plain, unit, at };
    const nothing = refused ? "Refused: see the line marked." : "No altitudes: see the range of the curves.";
    let body = `<text class="title" x="12" y="28">${nothing}</text>`, height = 60;
    if (shown.metres.length) ({ body, height } = figureOf(shown, bands, width));
    const summary = refused ? "Refused: the line is named above." : `${bands.length} bands. The table below has them.`;
    picture.draw(drawn("by-band", Math.round(width), height, "Mass density by band of switch rows", body), summary);
    showReading(Math.min(at, shown.metres.length - 1));
    fillBandsTable(table, bands, metres, densities, unit);
  };
}

function figureOf(shown, bands, width) {
  const { metres, densities, plain, unit } = shown;
  const narrow = width < 640, room = width - FRAME.left - FRAME.right;
  const wide = plain ? (narrow ? room * 0.6 : (room - FRAME.gap) * 0.62) : room;
  const frame = { x: FRAME.left, y: FRAME.top, width: wide, height: FRAME.height };
  const [low, high] = domainOf(plain ? [densities, plain] : [densities], true) ?? [1e-16, 10];
  const x = logScale(low, high, frame.x, frame.x + frame.width);
  const y = linearScale(metres[0] / 1000, metres.at(-1) / 1000, frame.y + frame.height, frame.y);
  const inside = bands.slice(1).map((band) => y(band.from / 1000)).filter((edge) => edge > frame.y && edge < frame.y + frame.height);
  const edges = (one) => inside.map((edge) => `<path class="edge" d="M${one.x} ${edge}h${one.width}"/>`).join("");
  const over = (k) => y(metres[k] / 1000);
  let body = axes({ frame, x, y, title: "Mass density by band", unit, yTitle: "altitude, km" }) + edges(frame);
  if (plain) body += `<path class="curve soft dashed" d="${linePath((k) => x(plain[k]), over, metres.length)}"/>`;
  body += `<path class="curve accent solid" d="${linePath((k) => x(densities[k]), over, metres.length)}"/>`;
  const panels = [frame];
  if (plain) {
    const second = { x: frame.x + wide + FRAME.gap, y: FRAME.top, width: room - wide - FRAME.gap, height: FRAME.height };
    const ratio = densities.map((value, k) => value / plain[k]);
    const [least, most] = domainOf([ratio], false) ?? [0.5, 1.5];
    const across = linearScale(Math.min(least, 0.95), Math.max(most, 1.05), second.x, second.x + second.width);
    body += axes({ frame: second, x: across, y, title: narrow ? "Ratio" : "By band / by the record's row", unit: "", yLabels: false }) + edges(second);
    body += `<path class="curve accent solid" d="${linePath((k) => across(ratio[k]), over, metres.length)}"/>`;
    panels.push(second);
  }
  if (!narrow) body += keyEntry(frame.x + 230, frame.y - 10, "by band", "curve accent solid");
  if (!narrow && plain) body += keyEntry(frame.x + 310, frame.y - 10, "record's row", "curve soft dashed");
  Object.assign(shown, { x, y, frame, panels });
  return { body, height: FRAME.top + FRAME.height + FRAME.bottom };
}

function fillBandsTable(table, bands, metres, densities, unit) {
  const lines = bands.map((band, k) => {
    const inside = metres.map((metre, i) => [metre, i]).filter(([metre]) => metre >= band.from && metre < band.to);
    const at = ([metre, i]) => `${pretty(densities[i])} at ${metre / 1000} km`;
    const ends = band.refusal ? [band.refusal, ""] : inside.length ? [at(inside[0]), at(inside.at(-1))] : ["outside the altitudes drawn", ""];
    return [String(k + 1), String(band.from / 1000), String(band.to / 1000), ...ends, band.switches.join(" ")];
  });
  const heads = ["Band", "From, km", "To, km, not included", `Lowest drawn, ${unit}`, `Highest drawn, ${unit}`].map((head) => `<th scope="col">${head}</th>`);
  heads.push('<th scope="col" class="switches">Switch row, entries 0 to 23</th>');
  fillTable(table, bands.length ? `<tr>${heads.join("")}</tr>` : "", lines, { 5: "switches" });
  lines.forEach((_, k) => table.tBodies[0].rows[k].classList.toggle("refused", Boolean(bands[k].refusal)));
}
