// A record as it is typed: its numbers, which of them are known, and every refusal beside the field it names.
import { FIELD, FIELDS, FIRST_HISTORY, HISTORY_FIELDS } from "./names.js";
import { wordsOf } from "./refusals.js";

/** The number that a text stands for; NaN where it is none. */
export function numberOf(text) {
  const plain = text.trim().replace("−", "-");
  return plain === "" ? NaN : Number(plain);
}

/** Whether lst follows sec and longitude. */
export const follows = (one) => one.texts.lst === "" && !one.lacking.includes("lst");

/** lst where it follows: document 01's rule. NaN where sec or longitude is no number or not known. */
export function followed(one) {
  if (one.lacking.includes("sec") || one.lacking.includes("g_long")) return NaN;
  return numberOf(one.texts.sec) / 3600 + numberOf(one.texts.g_long) / 15;
}

const WHOLE = { least: -(2 ** 31), most: 2 ** 31 - 1 };
const wholePart = (value) => Math.max(WHOLE.least, Math.min(WHOLE.most, Math.trunc(value) || 0));

function recordOf(one) {
  const known = FIELDS.map(({ key }) => !one.lacking.includes(key));
  if (follows(one) && !(known[FIELD.sec] && known[FIELD.g_long])) known[FIELD.lst] = false;
  const numbers = FIELDS.map(({ key }, place) => {
    if (!known[place]) return 0; // not looked at
    if (key === "lst" && follows(one)) return followed(one);
    return numberOf(one.texts[key]);
  });
  return {
    known: known.reduce((bits, is, place) => bits | (is ? 1 << place : 0), 0),
    numbers,
    record: {
      year: wholePart(numbers[FIELD.year]),
      doy: wholePart(numbers[FIELD.doy]),
      fields: numbers.slice(FIELD.sec),
      history: one.history ? one.history.map(numberOf) : [],
    },
  };
}

// puts a value in range where one was refused, so that the next refusal shows
function mend(record, place) {
  if (place === FIELD.doy) record.doy = 1;
  else if (place === FIELD.alt) record.fields[FIELD.alt - FIELD.sec] = 400;
  else if (place >= FIRST_HISTORY && record.history.length === 0) record.history = HISTORY_FIELDS.map(() => 0);
  else if (place >= FIRST_HISTORY) record.history[place - FIRST_HISTORY] = 0;
  else record.fields[place - FIELD.sec] = 0;
}

/** The record with 0 for what is not known, its row at its own altitude (null where it has none), all refusals by place, and whether it will do for altitudes
 * other than its own. */
export function judge(library, one) {
  const { known, numbers, record } = recordOf(one);
  const refusals = new Map();
  const tried = { ...record, fields: [...record.fields], history: [...record.history] };
  let bits = known;
  for (const place of [FIELD.year, FIELD.doy]) {
    if (!Number.isInteger(numbers[place])) {
      // the library takes whole numbers here, so this is for the page to say
      refusals.set(place, `${FIELDS[place].key} is no whole number.`);
      if (place === FIELD.doy) mend(tried, place);
    }
  }
  let row = null;
  for (let times = 0; times <= FIRST_HISTORY + HISTORY_FIELDS.length; times++) {
    const answer = library.known(bits, tried, one.switches);
    if (!answer.number) {
      if (refusals.size === 0) row = answer.row;
      break;
    }
    refusals.set(answer.place, wordsOf(answer));
    mend(tried, answer.place);
    if (answer.place < FIRST_HISTORY) bits |= 1 << answer.place;
  }
  const usable = [...refusals.keys()].every((place) => place === FIELD.alt);
  if (!Number.isFinite(record.fields[FIELD.alt - FIELD.sec])) record.fields[FIELD.alt - FIELD.sec] = 0;
  return { record, known, row, refusals, usable };
}
