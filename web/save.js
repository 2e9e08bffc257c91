// Saving: what is shown as CSV with every digit, and figures as SVG that look the same outside the page. A file is made here and handed to the browser.
import { FIELDS, HISTORY_FIELDS, NUMBERS, unitOf } from "./names.js";
import { ROW } from "./model.js";
import { make } from "./dom.js";

export function saveFile(name, kind, text) {
  const address = URL.createObjectURL(new Blob([text], { type: kind }));
  const link = make("a", { href: address, download: name });
  link.click();
  setTimeout(() => URL.revokeObjectURL(address), 1000);
}

const quoted = (value) => (/[",\n]/.test(value) ? `"${value.replace(/"/g, '""')}"` : value);
export const csvLine = (values) => values.map((value) => quoted(String(value))).join(",") + "\n";

/** Each case's record and row, as lines that begin with #. */
export function csvHead(results) {
  return results.cases.map(({ one, judged }, i) => {
    const record = FIELDS.map(({ key }, place) => {
      const number = place < 2 ? [judged.record.year, judged.record.doy][place] : judged.record.fields[place - 2];
      return `${key} ${judged.known & (1 << place) ? number : "not known"}`;
    });
    const history = one.history ? HISTORY_FIELDS.map(({ key }, k) => `${key} ${judged.record.history[k]}`) : [];
    return `# ${i ? "second" : "first"}: ${[...record, ...history].join("; ")}\n# ${i ? "second" : "first"}, switches: ${one.switches.join(" ")}\n`;
  }).join("");
}

/** The rows of every case at some altitudes, with every digit. */
export function rowsCsv(results, altitudes, rowsOf) {
  let text = csvHead(results);
  const units = (place) => unitOf(NUMBERS[place].kind, results.cases[0].one.switches);
  text += csvLine(["altitude km", "case", "switches", ...NUMBERS.map(({ key }, place) => `${key} ${units(place)}`), "unit of mass density"]);
  altitudes.forEach((altitude, k) => {
    results.cases.forEach((found, i) => {
      const rows = rowsOf(found);
      if (!rows) return;
      const numbers = rows.subarray(ROW * k, ROW * (k + 1));
      text += csvLine([altitude, i ? "second" : "first", found.one.switches.join(" "), ...numbers, unitOf("mass", found.one.switches)]);
    });
  });
  return text;
}

/** A figure's SVG with the page's rules for it, and the colours as they are shown, put in. */
export function figureSvg(svg) {
  const copy = svg.cloneNode(true);
  const probe = document.body.appendChild(make("span"));
  const colour = (name) => {
    probe.style.color = `var(${name})`;
    return getComputedStyle(probe).color;
  };
  const rules = [...document.styleSheets].flatMap((sheet) => [...sheet.cssRules]).map((rule) => rule.cssText).filter((text) => /^(svg|\.drawing) /.test(text));
  const plain = rules.join("\n").replace(/\.drawing /g, "").replace(/var\((--[a-z0-9-]+)\)/g, (_, name) => colour(name));
  const style = document.createElementNS("http://www.w3.org/2000/svg", "style");
  style.textContent = plain;
  const ground = document.createElementNS("http://www.w3.org/2000/svg", "rect");
  for (const [key, value] of [["width", "100%"], ["height", "100%"], ["fill", colour("--paper")]]) ground.setAttribute(key, value);
  probe.remove();
  copy.prepend(style, ground);
  return `<?xml version="1.0" encoding="UTF-8"?>\n${new XMLSerializer().serializeToString(copy)}\n`;
}
