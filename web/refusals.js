// Refusals in words that name the field, for every number that the page's calls can answer.
import { FIELDS, FIRST_ALTITUDE, FIRST_HISTORY, HISTORY_FIELDS } from "./names.js";

const fieldAt = (place) => (place < FIRST_HISTORY ? FIELDS[place] : place < FIRST_ALTITUDE ? HISTORY_FIELDS[place - FIRST_HISTORY] : null);
const named = (place) => fieldAt(place)?.key ?? "an altitude of the curve";
const within = (place) => {
  const { range, unit } = fieldAt(place) ?? FIELDS[3];
  return unit === "ap" ? range : range.replace(/(?=;|$)/, unit === "°" ? unit : ` ${unit}`);
};
const COVER = "Bands cover 0 to 2,500,001 m without gap or overlap.";

const NO_HISTORY = "Entry 9 is −1, which asks for the history, and there is none.";

const WORDS = {
  1: (place) => (place === FIRST_HISTORY ? NO_HISTORY : `${named(place)} counts under this row, and is not known.`),
  2: (place) => `${named(place)} is no finite number.`,
  3: (place) => `${named(place)} is out of range: ${within(place)}.`,
  4: (place) => `A list has not the length needed, ${place}.`,
  5: (place) => `More than ${place} altitudes.`,
  8: () => "The altitudes do not rise.",
  9: (place) => `The list has no room for its ${place} entries.`,
  10: (place) => `${named(place)} is below 72.5 km, where there is no density unless entry 15 is 1.`,
  11: () => "No band: (band FROM TO (switches ..)) in whole metres, FROM below TO, TO at most 2,500,001, 24 switches, single spaces; 64 lines at most.",
  12: () => `This band overlaps the one before it. ${COVER}`,
  13: () => `A gap lies before this band, or the table ends short. ${COVER}`,
  17: () => "The start is outside 200 to 1,000 km.",
  18: (place) => `The setting of orbit ${place} is outside 1 to 4.`,
  19: (place) => `More than ${place.toLocaleString("en")} settings.`,
};

/** A refusal's words, with its number and place behind them. */
export function wordsOf({ number, place }) {
  return `${WORDS[number](place)} (refusal ${number} at ${place})`;
}
