// A level of mass density: a line drawn by hand over the curve, where the curve passes it, and the first altitude thin enough.
import { field, make, setRefusal, setValue } from "./dom.js";
import { pretty } from "./chart.js";
import { numberOf } from "./judge.js";
import { DENSITY, unitOf } from "./names.js";

const HINT =
  "Drag along the top of the density's panel, or type a number: where the curve passes it, and the first altitude thin enough, stand here.";

const digitsOf = (value) => String(Number(value.toPrecision(4)));

export function levelPart(change) {
  const typed = field({ id: "level", label: "Level of mass density", onchange: (text) => change((state) => (state.level = text)) });
  const unit = make("span", { class: "unit" });
  typed.root.querySelector("label").append(" ", unit);
  const clear = make("button", { type: "button", id: "level-clear" }, "No level");
  clear.addEventListener("click", () => change((state) => (state.level = "")));
  const found = make("div", { id: "level-found", class: "found" });
  const root = make("div", { class: "bar level" }, make("h3", {}, "Level"), typed.root, clear, found);

  // the strip above the density's panel: press and drag draws the level, arrow keys move it by a hundredth or, with Shift, by a tenth
  const strip = make("div", {
    class: "strip", id: "level-strip", role: "slider", tabIndex: 0, title: "Press and drag to draw a level",
    "aria-label": "Level of mass density, drawn by hand: drag, or arrow keys",
  });
  let panel = null, now = NaN;
  const draw = (event) => {
    if (!panel) return;
    const box = strip.getBoundingClientRect();
    const x = Math.max(0, Math.min(box.width, event.clientX - box.left)) + panel.frame.x;
    change((state) => (state.level = digitsOf(panel.x.inverse(x))));
  };
  strip.addEventListener("pointerdown", (event) => {
    strip.setPointerCapture(event.pointerId);
    draw(event);
  });
  strip.addEventListener("pointermove", (event) => {
    if (strip.hasPointerCapture(event.pointerId)) draw(event);
  });
  strip.addEventListener("keydown", (event) => {
    const up = { ArrowRight: 1, ArrowUp: 1, ArrowLeft: -1, ArrowDown: -1 }[event.key];
    if (event.key === "Escape") change((state) => (state.level = ""));
    if (!up || !panel) return;
    event.preventDefault();
    const from = now > 0 ? now : Math.sqrt(panel.x.low * panel.x.high);
    change((state) => (state.level = digitsOf(from * (event.shiftKey ? 1.1 : 1.01) ** up)));
  });

  function words(results, name) {
    const { curve } = results.range;
    return results.cases.map((one, i) => {
      const heading = results.cases.length === 2 ? make("strong", {}, i ? "Second: " : "First: ") : "";
      if (!one.level) return make("p", {}, heading, "no curve.");
      const { crossings, first } = one.level;
      const pairs = crossings.map((k) => `${pretty(curve[k], 6)} and ${pretty(curve[k + 1], 6)} km`);
      const passes = pairs.length ? `The density passes ${name} between ${pairs.join("; ")}.` : `The density does not pass ${name} here.`;
      if (first.index < 0) return make("p", {}, heading, `${passes} No altitude here is thin enough.`);
      const density = `${pretty(first.row[DENSITY])} ${unitOf("mass", one.one.switches)}`;
      return make("p", {}, heading, `${passes} First altitude below it: ${pretty(curve[first.index], 6)} km, with ${density}.`);
    });
  }

  return {
    root, strip,
    draw(state, results, made) {
      const units = state.first.switches, level = numberOf(state.level);
      panel = made.nothing ? null : made.panels[0];
      now = level;
      setValue(typed.input, state.level);
      unit.textContent = unitOf("mass", units);
      setRefusal(typed.input, typed.refusal, state.level !== "" && Number.isNaN(level) ? "The level is no number." : null);
      clear.disabled = state.level === "";
      strip.hidden = made.nothing;
      const spoken = state.level === "" ? "no level" : `${pretty(level)} ${unitOf("mass", units)}`;
      strip.setAttribute("aria-valuetext", spoken);
      strip.setAttribute("aria-valuenow", Number.isFinite(level) ? String(level) : "0");
      if (panel) {
        const { frame, x } = panel;
        Object.assign(strip.style, { left: `${frame.x}px`, top: `${frame.y - 20}px`, width: `${frame.width}px` });
        strip.setAttribute("aria-valuemin", String(x.low));
        strip.setAttribute("aria-valuemax", String(x.high));
      }
      const there = state.level !== "" && !Number.isNaN(level);
      found.replaceChildren(...(there && panel ? words(results, spoken) : [make("p", { class: "hint" }, HINT)]));
      if (there && panel && level >= panel.x.low && level <= panel.x.high) {
        const { frame, x, y } = panel, at = x(level), { curve } = results.range;
        const passed = results.cases.flatMap((one) => one.level?.crossings ?? []);
        const dots = passed.map((k) => `<circle class="crossing" cx="${at}" cy="${(y(curve[k]) + y(curve[k + 1])) / 2}" r="4.5"/>`);
        const line = `<path class="level" d="M${at} ${frame.y - 12}V${frame.y + frame.height}"/><path class="grip" d="M${at - 6} ${frame.y - 16}h12l-6 8z"/>`;
        document.querySelector("#profile-svg .marks").insertAdjacentHTML("beforebegin", `<g>${line}${dots.join("")}</g>`);
      }
    },
  };
}
