// The switch row: 24 entries by name, rows that planners ask for, and beside it which fields count under the row and by which entries.
import { choice, make, setText } from "./dom.js";
import { waysInWords } from "./counting.js";
import { FIELDS, FIRST_HISTORY, HISTORY_FIELDS, PRESETS, SWITCHES, statesOf } from "./names.js";

// the history's last six values as one line, since they count together
const LINES = [
  ...FIELDS.map(({ key }, place) => ({ key, places: [place] })),
  { key: "ap_array[0]", places: [FIRST_HISTORY] },
  { key: "ap_array[1] to [6]", places: HISTORY_FIELDS.slice(1).map((_, i) => FIRST_HISTORY + 1 + i) },
];
const same = (one, other) => one.every((state, entry) => state === other[entry]);

export function switchPanel(root, change) {
  const edited = (state) => (state.edit === "second" ? state.second : state.first);
  const title = make("h2", { id: "switches-title" }, "Switch row");
  const presets = PRESETS.map((preset) => {
    const button = make("button", { type: "button", id: `preset-${preset.key}`, title: preset.title, "aria-pressed": "false" }, preset.name);
    button.addEventListener("click", () => change((state) => (edited(state).switches = [...preset.row])));
    return button;
  });
  const entries = SWITCHES.map(({ name, meaning }, entry) => {
    const states = choice({
      name: `entry-${entry}`, label: `Entry ${entry}, ${name}: ${meaning}`,
      options: statesOf(entry).map(([state, words]) => [state, String(state).replace("-", "−"), words]),
      onchange: (state) => change((now) => (edited(now).switches[entry] = state)),
    });
    const words = [make("span", { class: "number" }, String(entry)), make("span", { class: "name" }, name)];
    return { line: make("div", { class: "entry", title: meaning }, ...words, states.root), states };
  });
  const lines = LINES.map(({ key }) => {
    const mark = make("td"), words = make("td");
    return { mark, words, line: make("tr", { "data-field": key }, make("th", { scope: "row" }, make("code", {}, key)), mark, words) };
  });
  root.append(
    make("div", { class: "heading" }, title),
    make("div", { class: "presets", role: "group", "aria-label": "Rows that planners ask for" }, ...presets),
    make("p", { class: "hint" }, "1 on, 0 off, 2 main effect off and cross effect on; entry 9: 1 the daily ap, −1 the history, 0 neither."),
    make("div", { class: "entries" }, ...entries.map((entry) => entry.line)),
    make("h3", { id: "counts-title" }, "Which fields count under this row"),
    make(
      "table",
      { class: "counts", id: "counts", "aria-labelledby": "counts-title" },
      make("thead", {}, make("tr", {}, ...["field", "counts", "changed by entries"].map((words) => make("th", { scope: "col" }, words)))),
      make("tbody", {}, ...lines.map((line) => line.line)),
    ),
  );

  return (state, results) => {
    const { switches } = edited(state);
    const { ways } = results.cases[state.edit === "second" ? 1 : 0];
    setText(title, state.second ? `Switch row, ${state.edit}` : "Switch row");
    presets.forEach((button, i) => button.setAttribute("aria-pressed", String(same(switches, PRESETS[i].row))));
    entries.forEach(({ line, states }, entry) => {
      states.set(switches[entry]);
      line.dataset.state = String(switches[entry]);
    });
    lines.forEach(({ mark, words, line }, i) => {
      const found = LINES[i].places.map((place) => ways[place]);
      const counts = found.every((one) => one.counts);
      setText(mark, counts ? "yes" : "no");
      setText(words, waysInWords(found[0]));
      line.classList.toggle("off", !counts);
    });
  };
}
