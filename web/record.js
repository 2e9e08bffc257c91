// The record: its fields with units and ranges, what is not known, date and time, and each refusal beside the field it names.
import { choice, field, make, setRefusal, setText, setValue } from "./dom.js";
import { followed, numberOf } from "./judge.js";
import { FIELDS, FIRST_HISTORY, HISTORY_FIELDS } from "./names.js";
import { copyCase, historyTexts, publishedSample } from "./state.js";
import { pretty } from "./chart.js";

const DAY = 86_400_000;

/** Year and day of the year of a date 'YYYY-MM-DD'; null where it is none. */
function dayOf(date) {
  const found = /^(\d{4})-(\d\d)-(\d\d)$/.exec(date.trim());
  if (!found) return null;
  const [year, month, day] = found.slice(1).map(Number);
  const start = new Date(0).setUTCFullYear(year, 0, 1), then = new Date(new Date(0).setUTCFullYear(year, month - 1, day));
  return then.getUTCMonth() === month - 1 && then.getUTCDate() === day ? { year, doy: (then - start) / DAY + 1 } : null;
}

/** The date of a year and a day of it; empty where the year has no such day. */
function dateOf(year, doy) {
  if (!Number.isInteger(year) || year < 0 || year > 9999 || !Number.isInteger(doy) || doy < 1 || doy > 366) return "";
  const then = new Date(new Date(0).setUTCFullYear(year, 0, doy));
  return then.getUTCFullYear() === year ? then.toISOString().slice(0, 10) : "";
}

/** Seconds of the day of a time 'HH:MM' or 'HH:MM:SS'; null where it is none. */
function secondsOf(time) {
  const found = /^(\d\d?):(\d\d)(?::(\d\d(?:\.\d+)?))?$/.exec(time.trim());
  if (!found) return null;
  const [hours, minutes, seconds] = found.slice(1).map((part) => Number(part ?? 0));
  return hours < 24 && minutes < 60 && seconds < 60 ? 3600 * hours + 60 * minutes + seconds : null;
}

/** The time of some whole seconds of the day; empty where it has none. */
function timeOf(sec) {
  if (!Number.isInteger(sec) || sec < 0 || sec >= 86400) return "";
  return new Date(sec * 1000).toISOString().slice(11, 19);
}

/** A text that sets fields where it can be read, and says so where it cannot. */
function whenField(id, label, placeholder, words, read) {
  const one = field({ id, label, onchange: (text) => setRefusal(one.input, one.refusal, text === "" || read(text) ? null : words) });
  Object.assign(one.input, { placeholder, inputMode: "text" });
  return {
    ...one,
    draw(text) {
      if (document.activeElement === one.input) return;
      setValue(one.input, text);
      setRefusal(one.input, one.refusal, null);
    },
  };
}

/** One field's row: label, input, unit, range, 'not known', refusal. */
function fieldRow({ key, label, unit, range }, typed, marked) {
  const { root, input, refusal } = field({ id: key, label, onchange: typed });
  root.className = "row";
  const idle = make("span", { class: "idle" }, "does not count");
  root.querySelector("label").append(make("code", {}, key), make("span", { class: "range" }, range, idle));
  const known = marked && make("input", { type: "checkbox", id: `${key}-lacking`, "aria-label": `${label} is not known`, title: "not known" });
  if (known) known.addEventListener("change", () => marked(known.checked));
  input.after(make("span", { class: "unit" }, unit), known || make("span"));
  return { root, input, refusal, known };
}

export function recordPanel(root, change) {
  const edited = (state) => (state.edit === "second" ? state.second : state.first);
  const title = make("h2", { id: "record-title" }, "Record");
  const which = choice({
    name: "edit", label: "Which record and row are edited", options: [["first", "First"], ["second", "Second"]],
    onchange: (value) => change((state) => (state.edit = value)),
  });
  const compare = make("input", { type: "checkbox", id: "compare" });
  compare.addEventListener("change", () =>
    change((state) => {
      state.second = compare.checked ? copyCase(state.first) : null;
      state.edit = compare.checked ? "second" : "first";
    }),
  );
  const sample = make("button", { type: "button", id: "sample", title: "The C release's first sample, at 400 km" }, "Published sample");
  sample.addEventListener("click", () => change((state) => Object.assign(edited(state), { texts: publishedSample(), history: null, lacking: [] })));

  const date = whenField("date", "Date", "YYYY-MM-DD", "No date: year, month and day as 2026-06-21.", (text) => {
    const day = dayOf(text);
    if (day) change((state) => Object.assign(edited(state).texts, { year: String(day.year), doy: String(day.doy) }));
    return day !== null;
  });
  const time = whenField("time", "Time, UT", "HH:MM:SS", "No time: hours, minutes and seconds as 12:00:00.", (text) => {
    const sec = secondsOf(text);
    if (sec !== null) change((state) => (edited(state).texts.sec = String(sec)));
    return sec !== null;
  });

  const rows = FIELDS.map((one) =>
    fieldRow(
      one,
      (text) => change((state) => (edited(state).texts[one.key] = text)),
      (lacking) => change((state) => {
        const others = edited(state).lacking.filter((key) => key !== one.key);
        edited(state).lacking = lacking ? FIELDS.map(({ key }) => key).filter((key) => key === one.key || others.includes(key)) : others;
      }),
    ),
  );
  const history = HISTORY_FIELDS.map((one, i) => fieldRow(one, (text) => change((state) => (edited(state).history[i] = text))));
  const there = make("input", { type: "checkbox", id: "history" });
  there.addEventListener("change", () => change((state) => (edited(state).history = there.checked ? historyTexts() : null)));
  const historyRefusal = make("p", { class: "refusal", id: "history-refusal", hidden: true });
  const historyRows = make("div", { class: "rows" }, ...history.map((row) => row.root));
  there.setAttribute("aria-describedby", historyRefusal.id);

  const heads = ["field, its name and range", "", "unit", "not known"].map((words) => make("span", {}, words));
  const head = make("p", { class: "row head", "aria-hidden": "true" }, ...heads);
  root.append(
    make("div", { class: "heading" }, title, which.root, sample),
    make("label", { class: "check" }, compare, "A second record or row beside the first"),
    make("div", { class: "when" }, date.root, time.root),
    make("div", { class: "rows" }, head, ...rows.map((row) => row.root)),
    make("label", { class: "check" }, there, "A magnetic history of seven values"),
    historyRefusal,
    historyRows,
  );

  return (state, results) => {
    const one = edited(state);
    const { judged, ways } = results.cases[state.edit === "second" ? 1 : 0];
    setText(title, state.second ? `Record, ${state.edit}` : "Record");
    which.root.hidden = !state.second;
    which.set(state.edit);
    compare.checked = state.second !== null;
    date.draw(dateOf(numberOf(one.texts.year), numberOf(one.texts.doy)));
    time.draw(timeOf(numberOf(one.texts.sec)));
    rows.forEach((row, place) => {
      const { key } = FIELDS[place], lacking = one.lacking.includes(key);
      setValue(row.input, one.texts[key]);
      row.input.disabled = lacking;
      row.known.checked = lacking;
      if (key === "lst") {
        const value = followed(one);
        row.input.placeholder = Number.isNaN(value) ? "sec, longitude?" : `follows: ${pretty(value, 5)}`;
        row.input.title = "Left empty, it follows sec and longitude: sec / 3600 + longitude / 15";
      }
      row.root.classList.toggle("off", !ways[place].counts);
      setRefusal(row.input, row.refusal, judged.refusals.get(place));
    });
    there.checked = one.history !== null;
    historyRows.hidden = one.history === null;
    setRefusal(there, historyRefusal, one.history ? null : judged.refusals.get(FIRST_HISTORY));
    history.forEach((row, i) => {
      if (!one.history) return;
      setValue(row.input, one.history[i]);
      row.root.classList.toggle("off", !ways[FIRST_HISTORY + i].counts);
      setRefusal(row.input, row.refusal, judged.refusals.get(FIRST_HISTORY + i));
    });
  };
}
