// Names, units and ranges of what goes in and comes out, as docs/RULES.md has them, and the rows of switches that planners ask for.

/** The ten fields by place; range in words, with its unit. key is the name in the address and in the library. */
export const FIELDS = [
  { key: "year", label: "Year", unit: "", range: "any" },
  { key: "doy", label: "Day of the year", unit: "day", range: "1 to 366" },
  { key: "sec", label: "Seconds of the day, UT", unit: "s", range: "0 to 86,400" },
  { key: "alt", label: "Altitude", unit: "km", range: "0 to 2,500" },
  { key: "g_lat", label: "Latitude", unit: "°", range: "−90 to 90; north above 0" },
  { key: "g_long", label: "Longitude", unit: "°", range: "−1,000 to 1,000; east above 0" },
  { key: "lst", label: "Local solar time", unit: "h", range: "−24 to 48" },
  { key: "f107a", label: "F10.7, 81-day mean", unit: "sfu", range: "0 to 1,000" },
  { key: "f107", label: "F10.7, day before", unit: "sfu", range: "0 to 1,000" },
  { key: "ap", label: "Magnetic index, daily", unit: "ap", range: "0 to 400" },
];
export const FIELD = Object.fromEntries(FIELDS.map((field, place) => [field.key, place]));

/** The seven values of the magnetic history, places 10 to 16. */
export const HISTORY_FIELDS = [
  "daily, read by nothing",
  "3-hour, now",
  "3-hour, 3 h before",
  "3-hour, 6 h before",
  "3-hour, 9 h before",
  "mean, 12 to 33 h before",
  "mean, 36 to 57 h before",
].map((label, i) => ({ key: `ap_array[${i}]`, label, unit: "ap", range: "0 to 400" }));
export const FIRST_HISTORY = FIELDS.length;
export const FIRST_ALTITUDE = FIRST_HISTORY + HISTORY_FIELDS.length;

/** The 24 entries of a switch row: name and what it switches. */
export const SWITCHES = [
  ["m and kg", "output in m⁻³ and kg/m³; else in cm⁻³ and g/cm³"],
  ["F10.7", "effect of the 10.7 cm solar flux"],
  ["independent of time", "terms of the latitude alone"],
  ["symmetrical annual", "over the year, the same in both hemispheres"],
  ["symmetrical semiannual", "over half the year, the same in both hemispheres"],
  ["asymmetrical annual", "over the year, opposite in the hemispheres"],
  ["asymmetrical semiannual", "over half the year, opposite in the hemispheres"],
  ["diurnal", "over the day, by local time"],
  ["semidiurnal", "over half the day, by local time"],
  ["magnetic activity", "1 the daily ap, −1 the history, 0 neither"],
  ["all UT and longitude", "everything of universal time and longitude"],
  ["longitudinal", "longitude"],
  ["UT, UT with longitude", "universal time, and it with longitude"],
  ["UT, longitude, activity", "universal time, longitude and magnetic activity mixed"],
  ["terdiurnal", "over a third of the day, by local time"],
  ["mixing", "departures from diffusive equilibrium; below 72.5 km it must be 1"],
  ["exospheric temperature", "all of its variations (TINF)"],
  ["temperature, lower boundary", "all of its variations (TLB)"],
  ["lower thermosphere", "all variations of its temperature nodes (TN1)"],
  ["gradient, lower boundary", "all variations of the temperature's gradient (S)"],
  ["upper mesosphere", "all variations of its temperature nodes (TN2)"],
  ["densities, lower boundary", "all of their variations (NLB)"],
  ["lower nodes", "all variations of the lower temperature nodes (TN3)"],
  ["turbo", "read by nothing (TURBO)"],
].map(([name, meaning]) => ({ name, meaning }));

export const ACTIVITY = 9;
const METRIC = 0;

/** The states of an entry: the number, and what it stands for. */
export function statesOf(entry) {
  if (entry === ACTIVITY) return [[-1, "the history"], [0, "neither"], [1, "the daily ap"]];
  if (entry === METRIC) return [[0, "cm and g"], [1, "m and kg"], [2, "cm and g"]];
  return [[0, "off"], [1, "on"], [2, "main effect off, cross effect on"]];
}

export const ALL_ON = SWITCHES.map(() => 1);
const without = (...entries) => ALL_ON.map((state, entry) => (entries.includes(entry) ? 0 : state));

/** Rows by what is lacking, as docs/CHANGING-OVER.md has them. */
export const PRESETS = [
  { key: "all-on", name: "All on", title: "every entry at 1", row: ALL_ON },
  { key: "restart", name: "After a restart", title: "7, 8, 9, 10, 14 at 0: clock, longitude, local time and ap are not known", row: without(7, 8, 9, 10, 14) },
  { key: "no-flux", name: "No flux feed", title: "1 at 0: the fluxes are not known", row: without(1) },
  { key: "no-local-time", name: "No local time", title: "7, 8, 14 at 0: local time is not known", row: without(7, 8, 14) },
];

/** The eleven numbers of a row: place, name, and whether it counts particles, mass or kelvins. */
export const NUMBERS = [
  { key: "he", name: "He", kind: "particles" },
  { key: "o", name: "O", kind: "particles" },
  { key: "n2", name: "N₂", kind: "particles" },
  { key: "o2", name: "O₂", kind: "particles" },
  { key: "ar", name: "Ar", kind: "particles" },
  { key: "density", name: "Mass density", kind: "mass" },
  { key: "h", name: "H", kind: "particles" },
  { key: "n", name: "N", kind: "particles" },
  { key: "anomalous_o", name: "O*", kind: "particles", title: "anomalous oxygen" },
  { key: "temperature_exo", name: "T exospheric", kind: "kelvin" },
  { key: "temperature_alt", name: "T", kind: "kelvin", title: "temperature at the altitude" },
];
export const DENSITY = 5;
export const TEMPERATURE_EXO = 9;
export const TEMPERATURE = 10;
export const SPECIES = NUMBERS.map((number, place) => ({ ...number, place })).filter((number) => number.kind === "particles");

/** The unit of a kind of number under a row. */
export function unitOf(kind, switches) {
  if (kind === "kelvin") return "K";
  const metric = switches[METRIC] === 1;
  return kind === "mass" ? (metric ? "kg/m³" : "g/cm³") : metric ? "m⁻³" : "cm⁻³";
}

/** What a number of one row is to be multiplied by to be in the units of another. */
export function factorOf(kind, from, to) {
  const step = (to[METRIC] === 1) - (from[METRIC] === 1);
  if (kind === "kelvin" || step === 0) return 1;
  return (kind === "mass" ? 1e3 : 1e6) ** step;
}
