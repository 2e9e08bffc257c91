// A figure: an SVG with a summary for screen readers, and over it an invisible slider by which pointer and arrow keys read values off.
import { make, setText } from "./dom.js";

/** steps: how many places can be read; toStep(x, y): the place under a pointer, or -1; read(step, kept) is called where one is chosen, with -1 for none. */
export function figure({ id, label, reader, steps, toStep, read }) {
  const drawing = make("div", { class: "drawing" });
  const summary = make("p", { class: "heard", id: `${id}-summary` });
  const slider = make("div", { class: "reader", id: `${id}-reader`, role: "slider", tabIndex: 0, "aria-label": reader, "aria-valuemin": "0" });
  const root = make("figure", { id, "aria-label": label }, drawing, slider, summary);
  let at = -1;

  const under = (event) => {
    const box = slider.getBoundingClientRect();
    return toStep(event.clientX - box.left, event.clientY - box.top);
  };
  slider.addEventListener("pointermove", (event) => read(under(event), false));
  slider.addEventListener("pointerleave", () => read(-1, false));
  slider.addEventListener("click", (event) => read(under(event), true));
  slider.addEventListener("keydown", (event) => {
    const last = steps() - 1, from = at < 0 ? Math.round(last / 2) : at;
    const next = {
      ArrowUp: from + 1, ArrowRight: from + 1, ArrowDown: from - 1, ArrowLeft: from - 1,
      PageUp: from + 16, PageDown: from - 16, Home: 0, End: last, Escape: -1,
    }[event.key];
    if (next === undefined || last < 0) return;
    event.preventDefault();
    read(event.key === "Escape" ? -1 : Math.max(0, Math.min(last, next)), true);
  });

  return {
    root, drawing, slider,
    /** Puts a drawing in; marks is the layer that moves with the slider. */
    draw(svg, words) {
      drawing.innerHTML = svg;
      setText(summary, words);
    },
    /** The place that is read, with its values in words, and the layer that shows it. */
    mark(step, words, marks) {
      at = step;
      slider.setAttribute("aria-valuemax", String(Math.max(0, steps() - 1)));
      slider.setAttribute("aria-valuenow", String(Math.max(0, step)));
      slider.setAttribute("aria-valuetext", words);
      const layer = drawing.querySelector(".marks");
      if (layer) layer.innerHTML = marks;
    },
  };
}

/** An SVG of a size, with its title and a layer for marks. */
export function drawn(id, width, height, title, body) {
  return (
    `<svg xmlns="http://www.w3.org/2000/svg" id="${id}-svg" role="img" aria-labelledby="${id}-title ${id}-summary" width="${width}" height="${height}"` +
    ` viewBox="0 0 ${width} ${height}"><title id="${id}-title">${title}</title>${body}<g class="marks"></g></svg>`
  );
}
