// Instructions and stack of one call, of ours and of the untouched Rust's, over the same records and switch rows; and whether a call works out
// an expansion.
// `count` runs each call between two requests to callgrind, which writes one file a call; `table` reads these files in the same order;
// `stack` paints the stack below a call and looks how far it was written.
#[path = "../oracle/calls.rs"]
mod calls;
#[path = "../oracle/random.rs"]
mod random;
use calls::{crossings, first_below, numbers, ours, ours_column, station, station_change, station_gtd7, station_switches, Change, NUMBERS, WHOLE};
use random::Random;
use std::arch::asm;
use std::collections::{BTreeSet, HashMap};
use std::hint::black_box;
use untouched::astro::atmosphere::{gtd7, Flags, NrlmsiseInput as Input};

const ALTITUDES: [f64; 6] = [0.0, 50.0, 90.0, 150.0, 400.0, 1000.0];
const COLUMN: usize = 32;

struct Case {
    input: Input,
    row: [i32; 24],
    flags: Flags,
    column: [f64; COLUMN],
}

// The kinds of switch rows: all on with the daily ap, all on with the history, random entries from -2 to 3, but 15 at 1 below 72.5 km, where any other
// is refused.
const KINDS: [&str; 3] = ["all on", "all on, 9 at -1", "random"];

// One record with a row of a kind, and a column within 10 km of its altitude.
fn case(g: &mut Random, alt: f64, kind: usize) -> Case {
    let mut row = [1; 24];
    match kind {
        0 => (),
        1 => row[9] = -1,
        _ => row.iter_mut().for_each(|x| *x = g.below(6) as i32 - 2),
    }
    if alt < 72.5 {
        row[15] = 1;
    }
    let history = std::array::from_fn(|_| g.between(0.0, 200.0));
    let input = Input {
        year: 2000,
        doy: 1 + g.below(366) as i32,
        sec: g.between(0.0, 86400.0),
        alt,
        g_lat: g.between(-90.0, 90.0),
        g_long: g.between(-180.0, 180.0),
        lst: g.between(0.0, 24.0),
        f107a: g.between(60.0, 300.0),
        f107: g.between(60.0, 300.0),
        ap: g.between(0.0, 200.0),
        ap_array: Some(history),
    };
    // the Rust takes no more than 1000 km
    let column = std::array::from_fn(|_| g.between((alt - 10.0).max(0.0), (alt + 10.0).min(1000.0)));
    Case { input, row, flags: Flags::new(row), column }
}

// The cases of one altitude and one kind of row.
fn cases(alt: usize, kind: usize, records: usize) -> Vec<Case> {
    let mut g = Random((KINDS.len() * alt + kind) as u64);
    (0..records).map(|_| case(&mut g, ALTITUDES[alt], kind)).collect()
}

fn rust(input: &Input, flags: &Flags) -> f64 {
    gtd7(input, flags).expect("an accepted record").d[5]
}

struct Station {
    whole: [i32; WHOLE],
    numbers: [f64; NUMBERS],
}

impl Station {
    fn empty() -> Station {
        Station { whole: [0; WHOLE], numbers: [0.0; NUMBERS] }
    }

    fn prepare(&mut self, c: &Case) -> (u64, u64) {
        let (fields, ap, n_ap) = numbers(&c.input);
        station(c.input.year, c.input.doy, &fields, &ap[..n_ap], &c.row, &mut self.whole, &mut self.numbers)
    }

    fn altitude(&self, alt: f64, row: &mut [f64; 11]) -> (u64, u64) {
        station_gtd7(&self.whole, &self.numbers, alt, row)
    }

    fn turn(&mut self, c: &Case, turn: Turn) -> (u64, u64) {
        match turn {
            Field(change) => station_change(&mut self.whole, &mut self.numbers, change),
            Entry(i) => {
                let mut row = c.row;
                row[i] = (row[i] != 1) as i32;
                station_switches(&mut self.whole, &mut self.numbers, &row)
            }
        }
    }
}

fn accepted(answer: (u64, u64)) -> f64 {
    assert_eq!(answer, (0, 0));
    0.0
}

// What changes a station: a change of the record, or the row it was prepared with and another value in one entry.
#[derive(Clone, Copy)]
enum Turn {
    Field(Change),
    Entry(usize),
}
use Turn::{Entry, Field};

const TURNS: [(&str, Turn); 7] = [
    ("sec", Field(Change::Sec(12345.0))),
    ("lst", Field(Change::Lst(3.5))),
    ("g_long", Field(Change::Long(-12.5))),
    ("fluxes", Field(Change::Fluxes(120.0, 130.0))),
    ("move", Field(Change::Move(12345.0, 3.5, -12.5))),
    ("row, entry 16", Entry(16)),
    ("row, entry 14", Entry(14)),
];

// The altitude whose records a station's preparing, changes and new rows are told of; they do not look at it.
const OTHERS: usize = 0;

// A record at 512 altitudes from 0 to 1,000 km, and the indices whose density is asked to be the first below a level.
const HITS: [usize; 5] = [0, 31, 127, 255, 511];

// The altitudes of a column over one place, from 0 to 1,000 km, that a station gives after a move.
const PLACE: usize = 100;

// What the call answers where no density is below the level.
const NOWHERE: u64 = u32::MAX as u64;

fn thin() -> (Case, Vec<f64>, Vec<f64>) {
    let c = cases(OTHERS, 0, 1).remove(0);
    let alts: Vec<f64> = (0..512).map(|i| 1000.0 * i as f64 / 511.0).collect();
    let mut rows = vec![0.0; 11 * alts.len()];
    assert_eq!(ours_column(&c.input, &c.row, &alts, &mut rows), (0, 0));
    let densities = rows.chunks(11).map(|r| r[5]).collect();
    (c, alts, densities)
}

// A request to valgrind, which does nothing outside it. 0x43540000 is callgrind's first.
fn request(number: u64) {
    let words = [0x4354_0000 + number, 0, 0, 0, 0, 0];
    unsafe {
        asm!("rol rdi, 3", "rol rdi, 13", "rol rdi, 61", "rol rdi, 51", "xchg rbx, rbx", in("rax") words.as_ptr(), inout("rdx") 0u64 => _, options(nostack));
    }
}

// Counts what f executes, and writes the count.
#[inline(never)]
fn counted(f: impl FnOnce() -> f64) {
    request(2);
    let x = f();
    request(2);
    black_box(x);
    request(0);
}

// A call with nothing in it first, then each case: ours, the Rust's, the column, the Rust's at the column's altitudes, preparing a station, its
// altitude, at one of the altitudes also its changes and new rows. Callgrind's count of calls, not that of instructions, goes on between the requests: so no call
// of ours stands outside them.
fn count(records: usize) {
    counted(|| black_box(0.0));
    for alt in 0..ALTITUDES.len() {
        for kind in 0..KINDS.len() {
            for c in cases(alt, kind, records) {
                let mut row = [0.0; 11];
                counted(|| {
                    assert_eq!(ours(&c.input, &c.row, &mut row), (0, 0));
                    row[5]
                });
                counted(|| rust(&c.input, &c.flags));
                let mut rows = [0.0; 11 * COLUMN];
                counted(|| {
                    assert_eq!(ours_column(&c.input, &c.row, &c.column, &mut rows), (0, 0));
                    rows[5]
                });
                let inputs: Vec<Input> = c.column.iter().map(|z| Input { alt: *z, ..c.input }).collect();
                counted(|| inputs.iter().map(|r| rust(r, &c.flags)).sum());
                let mut s = Station::empty();
                counted(|| accepted(s.prepare(&c)));
                counted(|| accepted(s.altitude(c.input.alt, &mut row)));
                for (_, turn) in TURNS.into_iter().filter(|_| alt == OTHERS) {
                    counted(|| accepted(s.turn(&c, turn)));
                }
            }
        }
    }
    let (c, alts, densities) = thin();
    let (fields, ap, n_ap) = numbers(&c.input);
    request(0);
    let mut rows = vec![0.0; 11 * alts.len()];
    for (level, k) in HITS.map(|k| (f64::from_bits(densities[k].to_bits() + 1), k as u64)).into_iter().chain([(0.0, NOWHERE)]) {
        let mut row = [0.0; 11];
        counted(|| {
            assert_eq!(first_below(c.input.year, c.input.doy, &fields, &ap[..n_ap], &c.row, &alts, level, &mut row), (0, k));
            row[5]
        });
        let ends = alts.len().min(k as usize + 1);
        counted(|| {
            assert_eq!(ours_column(&c.input, &c.row, &alts[..ends], &mut rows), (0, 0));
            rows[5]
        });
    }
    let mut s = Station::empty();
    accepted(s.prepare(&c));
    request(0);
    let place: Vec<f64> = (0..PLACE).map(|i| 1000.0 * i as f64 / (PLACE - 1) as f64).collect();
    let mut row = [0.0; 11];
    counted(|| {
        accepted(s.turn(&c, Field(Change::Move(12345.0, 3.5, -12.5))));
        place.iter().map(|z| accepted(s.altitude(*z, &mut row)) + row[5]).sum()
    });
    let moved = Input { sec: 12345.0, lst: 3.5, g_long: -12.5, ..c.input };
    counted(|| {
        assert_eq!(ours_column(&moved, &c.row, &place, &mut rows[..11 * PLACE]), (0, 0));
        rows[5]
    });
}

// The crates whose functions work out globe7 and glob7s, and the function that sines and cosines come from.
const EXPANSIONS: [&str; 6] = ["expansion::", "expansion_values::", "expansion_parts::", "terms::", "legendre::", "activity::"];
const SINUSOID: &str = "circular_functions::";
// The function that works out an altitude's row.
const ROW: &str = "stored::row_on";

// What callgrind wrote of one call: instructions, calls of the expansions' functions and their names, calls of sines and cosines.
#[derive(Default)]
struct Written {
    instructions: u64,
    expansions: u64,
    names: BTreeSet<String>,
    sinusoids: u64,
    rows: u64,
}

// Callgrind's file number n. A name stands behind its number where it first occurs; a call is the function called, then how often.
fn written(path: &str, n: usize) -> Written {
    let name = format!("{path}.{n}");
    let text = std::fs::read_to_string(&name).unwrap_or_else(|e| panic!("{name}: {e}"));
    let total = text.lines().find_map(|l| l.strip_prefix("summary: ").or(l.strip_prefix("totals: "))).expect("a total");
    let mut out = Written { instructions: total.trim().parse().expect("a number"), ..Written::default() };
    let mut names = HashMap::new();
    let mut called = "";
    for line in text.lines() {
        if let Some(f) = line.strip_prefix("fn=").or(line.strip_prefix("cfn=")) {
            let (number, name) = f.split_once(' ').unwrap_or((f, ""));
            if !name.is_empty() {
                names.insert(number, name);
            }
            called = names.get(number).copied().expect("a name");
        } else if let Some(calls) = line.strip_prefix("calls=") {
            let calls: u64 = calls.split(' ').next().and_then(|n| n.parse().ok()).expect("a count");
            if EXPANSIONS.iter().any(|e| called.starts_with(e)) {
                out.expansions += calls;
                out.names.insert(called.to_string());
            } else if called.starts_with(SINUSOID) {
                out.sinusoids += calls;
            } else if called == ROW {
                out.rows += calls;
            }
        }
    }
    out
}

fn thousands(n: u64) -> String {
    let s = n.to_string();
    let mut out = String::new();
    for (i, c) in s.chars().enumerate() {
        if i > 0 && (s.len() - i) % 3 == 0 {
            out.push(',');
        }
        out.push(c);
    }
    out
}

fn median_and_largest(mut xs: Vec<u64>) -> (u64, u64) {
    xs.sort();
    (xs[xs.len() / 2], xs[xs.len() - 1])
}

// A station's calls but its altitude.
const NAMES: [&str; 8] = ["preparing", TURNS[0].0, TURNS[1].0, TURNS[2].0, TURNS[3].0, TURNS[4].0, TURNS[5].0, TURNS[6].0];

fn table(records: usize, path: &str) {
    let nothing = written(path, 1).instructions;
    let mut at = 1;
    let mut next = || {
        at += 1;
        let w = written(path, at);
        Written { instructions: w.instructions.saturating_sub(nothing), ..w }
    };
    let mut lines = [String::new(), String::new(), String::new()];
    let mut others = String::new();
    // what the one-altitude call, a station's altitude and its other calls worked out
    let mut worked = [const { Worked::NONE }; 2 + NAMES.len()];
    for (i, alt) in ALTITUDES.into_iter().enumerate() {
        for rows in KINDS {
            let mut counts = [const { Vec::new() }; 5];
            let mut station = [const { Vec::new() }; NAMES.len()];
            for _ in 0..records {
                let seen: [Written; 6] = std::array::from_fn(|_| next());
                let [alone, rust, column, rusts, prepared, altitude] = seen.each_ref().map(|w| w.instructions);
                for (xs, n) in counts.iter_mut().zip([alone, rust, column / COLUMN as u64, rusts / COLUMN as u64, altitude]) {
                    xs.push(n);
                }
                station[0].push(prepared);
                let [alone, _, _, _, prepared, altitude] = seen;
                for (all, w) in worked.iter_mut().zip([alone, altitude, prepared]) {
                    all.add(w);
                }
                for k in (1..NAMES.len()).filter(|_| i == OTHERS) {
                    let w = next();
                    station[k].push(w.instructions);
                    worked[2 + k].add(w);
                }
            }
            let [a, b, c, d, e] = counts.map(median_and_largest);
            for (line, (x, y)) in lines.iter_mut().zip([(a, b), (c, d), (e, b)]) {
                let cells = [x.0, x.1, y.0, y.1].map(thousands).join(" | ");
                *line += &format!("| {alt} | {rows} | {cells} | {:.2} |\n", x.0 as f64 / y.0 as f64);
            }
            if i == OTHERS {
                let station = station.map(median_and_largest);
                for (name, x) in NAMES.iter().zip(&station) {
                    others += &format!("| {name} | {rows} | {} | {} | {:.2} |\n", thousands(x.0), thousands(x.1), x.0 as f64 / station[0].0 as f64);
                }
            }
        }
    }
    let head = "| altitude (km) | switches | ours, median | largest | Rust, median | largest | ratio of medians |\n|---|---|---|---|---|---|---|\n";
    println!("Instructions per call of the one-altitude call, {records} records a line:\n\n{head}{}", lines[0]);
    println!("Instructions per altitude of a column of {COLUMN} within 10 km, beside the Rust's calls at the same altitudes:\n\n{head}{}", lines[1]);
    println!("Instructions per altitude of a prepared station, beside the Rust's call at the same altitude:\n\n{head}{}", lines[2]);
    println!("Instructions of a station's other calls, and their ratio to preparing:\n\n| call | switches | median | largest | ratio of medians |\n|---|---|---|---|---|\n{others}");
    println!("Calls of the functions that work out expansions, and of those behind sines and cosines, all records taken together:\n");
    println!("| call | made | expansions' functions | sines and cosines |\n|---|---|---|---|");
    for (name, Worked { calls, all }) in ["one altitude", "a station's altitude"].into_iter().chain(NAMES).zip(worked) {
        let names = all.names.iter().map(|n| format!(" {n}")).collect::<String>();
        println!("| {name} | {} | {}{names} | {} |", thousands(calls), thousands(all.expansions), thousands(all.sinusoids));
    }
    // one file for the column that the levels are made from
    next();
    println!("\nThe first altitude thin enough of 512 from 0 to 1,000 km, beside a column that ends there:\n");
    println!("| index | rows worked out | instructions | the column's | ratio |\n|---|---|---|---|---|");
    for k in HITS.map(|k| k.to_string()).into_iter().chain(["none".to_string()]) {
        let (w, column) = (next(), next().instructions);
        println!("| {k} | {} | {} | {} | {:.3} |", thousands(w.rows), thousands(w.instructions), thousands(column), w.instructions as f64 / column as f64);
    }
    // one file for preparing
    next();
    let (station, column) = (next().instructions, next().instructions);
    let cells = [station, column].map(thousands).join(" | ");
    println!("\nInstructions of a column of {PLACE} from 0 to 1,000 km over one place:\n");
    println!("| a station's move and its altitudes | the column call | ratio |\n|---|---|---|\n| {cells} | {:.3} |", station as f64 / column as f64);
    println!();
}

// How many calls there were, and what was written of them, taken together.
struct Worked {
    calls: u64,
    all: Written,
}

impl Worked {
    const NONE: Worked = Worked { calls: 0, all: Written { instructions: 0, expansions: 0, names: BTreeSet::new(), sinusoids: 0, rows: 0 } };

    fn add(&mut self, w: Written) {
        self.calls += 1;
        self.all.expansions += w.expansions;
        self.all.sinusoids += w.sinusoids;
        self.all.names.extend(w.names);
    }
}

// ---- the stack

const DEPTH: usize = 1 << 20;
const PAINT: u8 = 0xA5;

// Calls f(data) with the stack at `top`.
#[inline(never)]
fn on_stack(top: *mut u8, f: extern "C" fn(*mut u8), data: *mut u8) {
    unsafe {
        asm!("mov r12, rsp", "mov rsp, {top}", "call {f}", "mov rsp, r12", top = in(reg) top, f = in(reg) f, in("rdi") data, out("r12") _, clobber_abi("C"));
    }
}

// How many bytes below the top f has written to, its return address counted.
fn depth(f: extern "C" fn(*mut u8), data: *mut u8) -> usize {
    let mut stack = vec![PAINT; DEPTH + 16];
    let end = stack.as_mut_ptr() as usize + stack.len();
    let top = end & !15;
    on_stack(top as *mut u8, f, data);
    let first = stack.iter().position(|b| *b != PAINT).unwrap_or(stack.len());
    assert!(first > 4096, "the stack was too small");
    top - (stack.as_ptr() as usize + first)
}

struct Held {
    case: *const Case,
    row: [f64; 11],
    rows: [f64; 11 * COLUMN],
    list: [u64; COLUMN],
    station: Station,
    turn: Turn,
    value: f64,
}

// Where the density of a case's column, its altitudes in order, passes a level.
fn listed(c: &Case, list: &mut [u64]) {
    let (fields, ap, n_ap) = numbers(&c.input);
    let mut rising = c.column;
    rising.sort_by(f64::total_cmp);
    let answer = crossings(c.input.year, c.input.doy, &fields, &ap[..n_ap], &c.row, &rising, 1E-12, list);
    assert_eq!(answer.0, 0);
}

// A call on what is held.
macro_rules! hold {
    ($name:ident, $h:ident, $c:ident, $call:stmt) => {
        extern "C" fn $name(data: *mut u8) {
            let $h = unsafe { &mut *(data as *mut Held) };
            let $c = unsafe { &*$h.case };
            $call
        }
    };
}
hold!(hold_ours, h, c, let _ = ours(&c.input, &c.row, &mut h.row));
hold!(hold_column, h, c, let _ = ours_column(&c.input, &c.row, &c.column, &mut h.rows));
hold!(hold_crossings, h, c, listed(c, &mut h.list));
hold!(hold_rust, h, c, h.value = rust(&c.input, &c.flags));
hold!(hold_prepare, h, c, let _ = h.station.prepare(c));
hold!(hold_altitude, h, c, let _ = h.station.altitude(c.input.alt, &mut h.row));
hold!(hold_turn, h, c, let _ = h.station.turn(c, h.turn));

fn stack(records: usize) {
    println!("Bytes of stack that a call reaches, the most over all these records, with the frame of the function that makes the call:\n");
    println!("| call | bytes |\n|---|---|");
    let [sec, lst, g_long, fluxes, moved, outer, inner] = TURNS.map(|(_, turn)| turn);
    let calls: [(&str, extern "C" fn(*mut u8), Turn); 13] = [
        ("ours, one altitude", hold_ours, sec),
        ("ours, column", hold_column, sec),
        ("ours, crossings", hold_crossings, sec),
        ("a station's altitude", hold_altitude, sec),
        ("preparing a station", hold_prepare, sec),
        ("a station's sec", hold_turn, sec),
        ("a station's lst", hold_turn, lst),
        ("a station's g_long", hold_turn, g_long),
        ("a station's fluxes", hold_turn, fluxes),
        ("a station's move", hold_turn, moved),
        ("a station's row, entry 16", hold_turn, outer),
        ("a station's row, entry 14", hold_turn, inner),
        ("untouched Rust, one altitude", hold_rust, sec),
    ];
    for (name, f, turn) in calls {
        let mut most = 0;
        for alt in 0..ALTITUDES.len() {
            for kind in 0..KINDS.len() {
                for c in cases(alt, kind, records) {
                    let mut h = Held { case: &c, row: [0.0; 11], rows: [0.0; 11 * COLUMN], list: [0; COLUMN], station: Station::empty(), turn, value: 0.0 };
                    accepted(h.station.prepare(&c));
                    most = most.max(depth(f, &mut h as *mut Held as *mut u8));
                }
            }
        }
        println!("| {name} | {} |", thousands(most as u64));
    }
}

fn main() {
    let args: Vec<String> = std::env::args().collect();
    let records = args.get(2).map_or(100, |x| x.parse().expect("a number of records"));
    match args.get(1).map(String::as_str) {
        Some("count") => count(records),
        Some("table") => table(records, &args[3]),
        Some("stack") => stack(records),
        _ => {
            eprintln!("budget count|stack RECORDS, table RECORDS FILE");
            std::process::exit(2);
        }
    }
}
