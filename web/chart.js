// Scales, axes and lines as SVG text: what every figure of the page is drawn with.

const SUPERSCRIPTS = { "-": "⁻", 0: "⁰", 1: "¹", 2: "²", 3: "³", 4: "⁴", 5: "⁵", 6: "⁶", 7: "⁷", 8: "⁸", 9: "⁹" };
const raised = (power) => [...String(power)].map((sign) => SUPERSCRIPTS[sign]).join("");

/** A number for people: four digits, ten to a power where it is far from 1. */
export function pretty(value, digits = 4) {
  if (Number.isNaN(value)) return "no number";
  if (!Number.isFinite(value)) return value > 0 ? "∞" : "−∞";
  const size = Math.abs(value);
  if (value !== 0 && (size < 1e-3 || size >= 1e6)) {
    const [mantissa, power] = value.toExponential(digits - 1).split("e");
    return `${mantissa.replace("-", "−")} × 10${raised(Number(power))}`;
  }
  return String(Number(value.toPrecision(digits))).replace("-", "−");
}

const rounded = (value) => Math.round(value * 10) / 10;

// steps of 1, 2 or 5 times a power of ten, some count of them
function niceTicks(low, high, count) {
  const raw = (high - low) / count, power = 10 ** Math.floor(Math.log10(raw));
  const step = [1, 2, 5, 10].map((factor) => factor * power).find((size) => size >= raw) ?? raw;
  const ticks = [];
  for (let k = Math.ceil(low / step - 1e-9); k * step <= high + step * 1e-9; k++) ticks.push(Number((k * step).toPrecision(12)));
  return ticks;
}

/** A linear scale: value to pixels, with inverse and ticks as [value, label]. */
export function linearScale(low, high, start, end) {
  const scale = (value) => start + ((value - low) / (high - low)) * (end - start);
  scale.inverse = (pixel) => low + ((pixel - start) / (end - start)) * (high - low);
  scale.ticks = (count) => niceTicks(low, high, count).map((value) => [value, pretty(value, 6)]);
  return Object.assign(scale, { low, high });
}

/** A logarithmic scale, likewise. */
export function logScale(low, high, start, end) {
  const from = Math.log10(low), to = Math.log10(high);
  const scale = (value) => (value < low ? NaN : start + ((Math.log10(value) - from) / (to - from)) * (end - start));
  scale.inverse = (pixel) => 10 ** (from + ((pixel - start) / (end - start)) * (to - from));
  scale.ticks = (count) => {
    if (to - from < 1.5) return niceTicks(low, high, Math.max(2, count / 2)).filter((value) => value > 0).map((value) => [value, pretty(value, 3)]);
    const step = Math.max(1, Math.ceil((to - from) / count));
    const ticks = [];
    for (let power = Math.ceil(from - 1e-9); power <= to + 1e-9; power++) if (power % step === 0) ticks.push([10 ** power, `10${raised(power)}`]);
    return ticks;
  };
  return Object.assign(scale, { low, high });
}

const DECADES = 20; // no more than these on a logarithmic scale: species far rarer than the others would press them together

/** The least and greatest of some lists' numbers that a scale can show, with a margin; null where there is none. */
export function domainOf(lists, logarithmic) {
  let low = Infinity, high = -Infinity;
  for (const list of lists) {
    for (const value of list) {
      if (!Number.isFinite(value) || (logarithmic && value <= 0)) continue;
      if (value < low) low = value;
      if (value > high) high = value;
    }
  }
  if (low > high) return null;
  if (logarithmic) {
    low = Math.max(low, high / 10 ** DECADES);
    const margin = (high / low) ** 0.03;
    return low === high ? [low / 2, high * 2] : [low / margin, high * margin];
  }
  const margin = (high - low) * 0.04 || Math.abs(high) * 0.05 || 1;
  return [low - margin, high + margin];
}

/** A line through points; it breaks where one of them is no number on its scale. */
export function linePath(xs, ys, count) {
  let path = "", pen = "M";
  for (let i = 0; i < count; i++) {
    const x = xs(i), y = ys(i);
    if (!Number.isFinite(x) || !Number.isFinite(y)) {
      pen = "M";
      continue;
    }
    path += `${pen}${rounded(x)} ${rounded(y)}`;
    pen = "L";
  }
  return path;
}

/** Grid, ticks, titles and labels of a panel; frame is { x, y, width, height } of the plotted area, its title so many pixels above it. */
export function axes({ frame, x, y, title, unit, above = 10, yTitle, yLabels = true }) {
  const { width, height } = frame, right = frame.x + width, bottom = frame.y + height;
  const parts = [`<rect class="frame" x="${frame.x}" y="${frame.y}" width="${width}" height="${height}"/>`];
  for (const [value, label] of x.ticks(Math.max(2, Math.floor(width / 52)))) {
    const at = rounded(x(value));
    parts.push(`<path class="grid" d="M${at} ${frame.y}V${bottom}"/><text class="tick" x="${at}" y="${bottom + 16}" text-anchor="middle">${label}</text>`);
  }
  for (const [value, label] of y.ticks(Math.max(2, Math.floor(height / 48)))) {
    const at = rounded(y(value));
    parts.push(`<path class="grid" d="M${frame.x} ${at}H${right}"/>`);
    if (yLabels) parts.push(`<text class="tick" x="${frame.x - 6}" y="${at + 4}" text-anchor="end">${label}</text>`);
  }
  parts.push(`<text class="title" x="${frame.x}" y="${frame.y - above}">${title}${unit ? ` <tspan class="unit">${unit}</tspan>` : ""}</text>`);
  if (yLabels && yTitle) {
    const middle = frame.y + height / 2, left = frame.x - 44;
    parts.push(`<text class="tick" transform="rotate(-90 ${left} ${middle})" x="${left}" y="${middle}" text-anchor="middle">${yTitle}</text>`);
  }
  return parts.join("");
}

/** A short line with its name, for a key above a panel; offset is where it begins. */
export function keyEntry(offset, y, name, style) {
  return `<path class="${style}" d="M${offset} ${y - 4}h16"/><text class="tick" x="${offset + 20}" y="${y}">${name}</text>`;
}
