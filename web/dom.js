// Elements made from a tag, properties and children, and text put in only where it changed.

/** An element; properties that begin with 'on' are listeners, 'class' and those with a dash are attributes. */
export function make(tag, properties = {}, ...children) {
  const element = document.createElement(tag);
  for (const [key, value] of Object.entries(properties)) {
    if (key.startsWith("on")) element.addEventListener(key.slice(2), value);
    else if (key === "class" || key === "role" || key === "for" || key.includes("-")) element.setAttribute(key, value);
    else element[key] = value;
  }
  element.append(...children);
  return element;
}

export function setText(element, text) {
  if (element.textContent !== text) element.textContent = text;
}

export function setValue(input, value) {
  if (input.value !== value) input.value = value;
}

/** Puts a refusal's words beside an input, or takes them away. */
export function setRefusal(input, place, words) {
  setText(place, words ?? "");
  place.hidden = !words;
  input.setAttribute("aria-invalid", words ? "true" : "false");
}

const heads = new WeakMap();

/** Fills a table: its head as HTML, its lines as lists of texts, the first of each a heading; places has the class of a column. What is the same is left. */
export function fillTable(table, head, lines, places = {}) {
  if (heads.get(table) !== head) {
    heads.set(table, head);
    table.innerHTML = `<thead>${head}</thead><tbody></tbody>`;
  }
  const body = table.tBodies[0];
  while (body.rows.length > lines.length) body.lastChild.remove();
  lines.forEach((texts, k) => {
    if (k === body.rows.length) {
      const cells = texts.map((_, i) => (i ? make("td", places[i] ? { class: places[i] } : {}, " ") : make("th", { scope: "row" }, " ")));
      body.append(make("tr", {}, ...cells));
    }
    const { cells } = body.rows[k];
    texts.forEach((text, i) => {
      if (cells[i].firstChild.data !== text) cells[i].firstChild.data = text;
    });
  });
}

/** A labelled input with its unit and the place of its refusal: { root, input, refusal }. */
export function field({ id, label, unit, title, text, onchange }) {
  const input = make("input", { id, type: "text", inputMode: "decimal", autocomplete: "off", spellcheck: false, "aria-describedby": `${id}-refusal` });
  input.addEventListener("input", () => onchange(input.value));
  if (title) input.title = title;
  const refusal = make("p", { class: "refusal", id: `${id}-refusal`, hidden: true });
  const words = make("label", { for: id }, label, unit ? make("span", { class: "unit" }, ` ${unit}`) : "");
  return { root: make("div", { class: text ? "field long" : "field" }, words, input, refusal), input, refusal };
}

/** Choices of which one holds, as native radio buttons side by side: { root, set(value) }. */
export function choice({ name, label, options, onchange }) {
  const inputs = options.map(([value, text, title]) => {
    const input = make("input", { type: "radio", name, value: String(value), "aria-label": title ? `${text}: ${title}` : text });
    input.addEventListener("change", () => onchange(value));
    return { value, input, root: make("label", { title: title ?? "" }, input, make("span", {}, text)) };
  });
  const root = make("div", { class: "choice", role: "radiogroup", "aria-label": label }, ...inputs.map((one) => one.root));
  return {
    root,
    set(value) {
      for (const one of inputs) one.input.checked = one.value === value;
    },
  };
}
