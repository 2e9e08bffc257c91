// The proved library: each call of include/potirehu.h that the page makes, over the module's own memory.
import { BANDS, COUNTS, NOWHERE } from "./header.js";

/** How many numbers a row has. */
export const ROW = 11;
const SWITCHES_IN_ROW = 24, ENDING = 3;

/** An answer as number and place, as docs/RULES.md, section 3, has them; number 0 where the call was accepted. */
function answerOf(answer) {
  const whole = BigInt.asUintN(64, answer);
  return { number: Number(whole >> 32n), place: Number(whole & 0xffffffffn) };
}

/** The calls over an instance of the module. A record is { year, doy, fields: 8 numbers, history: 0 or 7 }. */
export class Library {
  constructor(instance) {
    this.calls = instance.exports;
    this.memory = instance.exports.memory;
    this.free = 0;
  }

  static async load(bytes) {
    const { instance } = await WebAssembly.instantiate(bytes, {});
    return new Library(instance);
  }

  /** Every call lends anew, from the first free byte of the module's memory: nothing is kept from one call to the next. */
  begin() {
    this.free = (this.calls.__heap_base.value + 15) & ~15;
  }

  /** Room for count numbers of a kind: its address. */
  room(kind, count) {
    const at = this.free;
    this.free = (at + kind.BYTES_PER_ELEMENT * count + 15) & ~15;
    const lacking = this.free - this.memory.buffer.byteLength;
    if (lacking > 0) this.memory.grow(Math.ceil(lacking / 65536));
    return at;
  }

  /** Numbers lent to a call: address and length. */
  lend(kind, values) {
    const at = this.room(kind, values.length);
    new kind(this.memory.buffer, at, values.length).set(values);
    return [at, BigInt(values.length)];
  }

  /** What stands at an address after a call, copied. */
  read(kind, at, count) {
    return new kind(this.memory.buffer, at, count).slice();
  }

  record(record, switches) {
    return [record.year, record.doy, ...this.lend(Float64Array, record.fields), ...this.lend(Float64Array, record.history), ...this.lend(Int32Array, switches)];
  }

  /** The row of a record of which the fields named by the bits of known are known. */
  known(known, record, switches) {
    this.begin();
    const row = this.room(Float64Array, ROW);
    const answer = answerOf(this.calls.potirehu_gtd7_known(known, ...this.record(record, switches), row, BigInt(ROW)));
    return { ...answer, row: answer.number ? null : this.read(Float64Array, row, ROW) };
  }

  /** A function that says for each field whether it counts under a row, for many rows one after another: its marks are written over by the next. */
  counter() {
    this.begin();
    const room = this.room(Int32Array, COUNTS);
    const [at, length] = this.lend(Int32Array, new Int32Array(SWITCHES_IN_ROW));
    const marks = new Int32Array(this.memory.buffer, room, COUNTS), row = new Int32Array(this.memory.buffer, at, SWITCHES_IN_ROW);
    return (switches) => {
      row.set(switches);
      this.calls.potirehu_counts(at, length, room, BigInt(COUNTS));
      return marks;
    };
  }

  /** The rows of a record at up to 512 altitudes, one behind the other. */
  column(record, switches, altitudes) {
    this.begin();
    const count = ROW * altitudes.length;
    const rows = this.room(Float64Array, count);
    const answer = answerOf(
      this.calls.potirehu_gtd7_column(...this.record(record, switches), ...this.lend(Float64Array, altitudes), rows, BigInt(count)),
    );
    return { ...answer, rows: answer.number ? null : this.read(Float64Array, rows, count) };
  }

  /** The indices of the lower altitude of each pair between which the mass density passes a level. */
  crossings(record, switches, altitudes, level) {
    this.begin();
    const list = this.room(BigUint64Array, altitudes.length);
    const answer = answerOf(
      this.calls.potirehu_crossings(...this.record(record, switches), ...this.lend(Float64Array, altitudes), level, list, BigInt(altitudes.length)),
    );
    return { ...answer, list: answer.number ? null : Array.from(this.read(BigUint64Array, list, answer.place), Number) };
  }

  /** The index of the first altitude whose mass density is below a level, with its row; index -1 where there is none. */
  firstBelow(record, switches, altitudes, level) {
    this.begin();
    const row = this.room(Float64Array, ROW);
    const answer = answerOf(
      this.calls.potirehu_first_below(...this.record(record, switches), ...this.lend(Float64Array, altitudes), level, row, BigInt(ROW)),
    );
    if (answer.number) return { ...answer, index: -1, row: null };
    const found = answer.place !== NOWHERE;
    return { ...answer, index: found ? answer.place : -1, row: found ? this.read(Float64Array, row, ROW) : null };
  }

  /** A descent from whole millimetres: how it ends, the last altitude in millimetres, the losses taken. */
  descent(record, switches, start, settings) {
    this.begin();
    const losses = this.room(BigInt64Array, settings.length), end = this.room(BigInt64Array, ENDING);
    const answer = answerOf(
      this.calls.potirehu_descent(
        ...this.record(record, switches), start, ...this.lend(Int32Array, settings), losses, BigInt(settings.length), end, BigInt(ENDING),
      ),
    );
    if (answer.number) return { ...answer, ending: 0, altitude: NaN, losses: [] };
    const [ending, altitude, taken] = Array.from(this.read(BigInt64Array, end, ENDING), Number);
    return { ...answer, ending, altitude, losses: Array.from(this.read(BigInt64Array, losses, taken), Number) };
  }

  /** A table of bands read from a text. */
  bands(text) {
    this.begin();
    const table = this.room(Int32Array, BANDS);
    const answer = answerOf(this.calls.potirehu_bands(...this.lend(Uint8Array, new TextEncoder().encode(text)), table, BigInt(BANDS)));
    return { ...answer, table: answer.number ? null : this.read(Int32Array, table, BANDS) };
  }

  /** The row at each of some whole metres with the switches of the band in which it lies: answers, and rows one behind the other. */
  bandRows(table, record, metres) {
    this.begin();
    const row = this.room(Float64Array, ROW);
    const lent = this.lend(Int32Array, table);
    const fields = this.lend(Float64Array, record.fields), history = this.lend(Float64Array, record.history);
    return Array.from(metres, (metre) => {
      const answer = answerOf(
        this.calls.potirehu_bands_gtd7(...lent, BigInt(metre), record.year, record.doy, ...fields, ...history, row, BigInt(ROW)),
      );
      return { ...answer, row: answer.number ? null : this.read(Float64Array, row, ROW) };
    });
  }
}

