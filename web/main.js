// The page: one state, from which everything is drawn anew at each change, and which is the address.
import { bandsView } from "./bands.js";
import { compute } from "./compute.js";
import { curvesView } from "./curves.js";
import { descentView } from "./descent.js";
import { make, setText } from "./dom.js";
import { Library } from "./model.js";
import { recordPanel } from "./record.js";
import { defaultState, fromAddress, toAddress } from "./state.js";
import { switchPanel } from "./switches.js";

const VIEWS = [["curves", "Curves", curvesView], ["descent", "Descent", descentView], ["bands", "Bands", bandsView]];
const LEAST = 240; // pixels that a figure is drawn in, however little room there is
const PATIENCE = 200; // a browser takes only some changes of the address each second

const byId = (id) => document.getElementById(id);

function tabs(root, change) {
  const list = make("div", { class: "tabs", role: "tablist", "aria-label": "Views" });
  const parts = VIEWS.map(([key, name, view]) => {
    const choose = () => change((state) => Object.assign(state, { view: key, at: "" }));
    const tab = make("button", { type: "button", role: "tab", id: `tab-${key}`, "aria-controls": `panel-${key}`, onclick: choose }, name);
    const panel = make("div", { role: "tabpanel", id: `panel-${key}`, class: "panel", "aria-labelledby": `tab-${key}` });
    list.append(tab);
    return { key, tab, panel, draw: view(panel, change) };
  });
  list.addEventListener("keydown", (event) => {
    const step = { ArrowRight: 1, ArrowLeft: -1 }[event.key];
    if (!step) return;
    event.preventDefault();
    const now = parts.findIndex(({ tab }) => tab === document.activeElement);
    const next = parts[(now + step + parts.length) % parts.length].tab;
    next.focus();
    next.click();
  });
  root.append(list, ...parts.map(({ panel }) => panel));
  return (state, results, width) => {
    for (const { key, tab, panel, draw } of parts) {
      const chosen = key === state.view;
      tab.setAttribute("aria-selected", String(chosen));
      tab.tabIndex = chosen ? 0 : -1;
      panel.hidden = !chosen;
      if (chosen) draw(state, results, width);
    }
  };
}

// every refusal that is shown, for those who hear the page
function heard(results) {
  const words = results.cases.flatMap(({ judged }) => [...judged.refusals.values()]);
  words.push(...(results.descent?.refusals.values() ?? []), ...results.range.refusals.values());
  if (results.bands?.refusal) words.push(`Line ${results.bands.refusal.line}: ${results.bands.refusal.words}`);
  return words.join(" ");
}

// the room that a figure has; asked for only where it may have changed, since asking makes the browser lay the page out
function widthOf(section) {
  const { paddingLeft, paddingRight } = getComputedStyle(section);
  return Math.max(LEAST, section.clientWidth - parseFloat(paddingLeft) - parseFloat(paddingRight));
}

function start(library) {
  let state = fromAddress(location.hash), waiting = 0;
  const change = (alter) => {
    const begun = performance.now();
    alter(state);
    redraw(begun);
    clearTimeout(waiting);
    waiting = setTimeout(() => history.replaceState(null, "", `#${toAddress(state)}`), PATIENCE);
  };
  const view = byId("view");
  let width = widthOf(view);
  const parts = [recordPanel(byId("record"), change), switchPanel(byId("switches"), change), tabs(view, change)];
  const theme = byId("theme");

  function redraw(begun = performance.now()) {
    document.documentElement.dataset.theme = state.theme;
    theme.value = state.theme;
    const results = compute(library, state);
    for (const draw of parts) draw(state, results, width);
    setText(byId("heard"), heard(results));
    performance.measure("redraw", { start: begun });
    requestAnimationFrame(() => {
      const painted = new MessageChannel();
      painted.port1.onmessage = () => performance.measure("shown", { start: begun });
      painted.port2.postMessage(null);
    });
  }

  theme.addEventListener("change", () => change((now) => (now.theme = theme.value)));
  byId("skip").addEventListener("click", () => view.focus());
  byId("print").addEventListener("click", () => print());
  byId("reset").addEventListener("click", () => change((now) => Object.assign(now, defaultState())));
  byId("copy").addEventListener("click", async () => {
    history.replaceState(null, "", `#${toAddress(state)}`);
    try {
      await navigator.clipboard.writeText(location.href);
      setText(byId("copy"), "Copied");
    } catch {
      setText(byId("copy"), "Copy it from the address line"); // a browser may keep its clipboard from a page
    }
    setTimeout(() => setText(byId("copy"), "Copy address"), 2000);
  });
  addEventListener("hashchange", () => {
    state = fromAddress(location.hash);
    redraw();
  });
  new ResizeObserver(() => {
    if (widthOf(view) === width) return;
    width = widthOf(view);
    redraw();
  }).observe(view);
  redraw();
}

try {
  const bytes = Uint8Array.from(atob(byId("module").textContent.trim()), (sign) => sign.charCodeAt(0));
  start(await Library.load(bytes));
} catch (error) {
  byId("failed").hidden = false;
  setText(byId("failed"), `The page could not begin: ${error.message}. It wants a browser with WebAssembly and whole numbers of 64 bits (BigInt).`);
  throw error;
}
