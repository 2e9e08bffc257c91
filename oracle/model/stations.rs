// Prepared stations: histories of altitudes, also for drag, changes and new switch rows against the routed Rust on the record and the row as they then are;
// stations with any contents, which need only answer; and time per altitude, preparing, change and new row.
use super::calls::{station, station_change, station_gtd7, station_gtd7d, station_switches, Change, NUMBERS, WHOLE};
use super::{altitude, judged, numbers, ours_column, record, row_of, same, sample, spoiled, timed, unmixed, Input, Random, GTD7, GTD7D};
use std::hint::black_box;
use std::time::Instant;
use Change::{Fluxes, Long, Lst, Move, Sec};

// ---- memory to lend

// Numbers that stand before and behind each lent slice.
const GUARD: usize = 8;

// A station's two slices and the row, each between its guards.
#[derive(Clone)]
struct Memory {
    whole: Vec<i32>,
    numbers: Vec<f64>,
    row: Vec<f64>,
}

// How much of each is lent.
struct Lengths {
    whole: usize,
    numbers: usize,
    row: usize,
}

fn any_bits(g: &mut Random, n: usize) -> Vec<f64> {
    (0..n + 2 * GUARD).map(|_| f64::from_bits(g.next())).collect()
}

fn bits(x: &[f64]) -> impl Iterator<Item = u64> + '_ {
    x.iter().map(|v| v.to_bits())
}

// The guards, and what lies between them.
fn guards<T: Copy>(x: &[T]) -> Vec<T> {
    [&x[..GUARD], &x[x.len() - GUARD..]].concat()
}

fn between<T>(x: &[T]) -> &[T] {
    &x[GUARD..x.len() - GUARD]
}

impl Memory {
    fn any(g: &mut Random) -> Memory {
        Memory { whole: (0..WHOLE + 2 * GUARD).map(|_| g.next() as i32).collect(), numbers: any_bits(g, NUMBERS), row: any_bits(g, 11) }
    }

    fn station_kept(&self, before: &Memory) -> bool {
        self.whole == before.whole && bits(&self.numbers).eq(bits(&before.numbers))
    }

    fn row_kept(&self, before: &Memory) -> bool {
        bits(&self.row).eq(bits(&before.row))
    }

    fn station_guards_kept(&self, before: &Memory) -> bool {
        guards(&self.whole) == guards(&before.whole) && bits(&guards(&self.numbers)).eq(bits(&guards(&before.numbers)))
    }

    fn row_guards_kept(&self, before: &Memory) -> bool {
        bits(&guards(&self.row)).eq(bits(&guards(&before.row)))
    }

    fn ask(&mut self, n: &Lengths, alt: f64, drag: bool) -> (u64, u64) {
        let call = if drag { station_gtd7d } else { station_gtd7 };
        call(&self.whole[GUARD..GUARD + n.whole], &self.numbers[GUARD..GUARD + n.numbers], alt, &mut self.row[GUARD..GUARD + n.row])
    }

    fn change(&mut self, n: &Lengths, change: Change) -> (u64, u64) {
        station_change(&self.whole[GUARD..GUARD + n.whole], &mut self.numbers[GUARD..GUARD + n.numbers], change)
    }

    fn switch(&mut self, n: &Lengths, w: &[i32]) -> (u64, u64) {
        station_switches(&mut self.whole[GUARD..GUARD + n.whole], &mut self.numbers[GUARD..GUARD + n.numbers], w)
    }

    // Prepares with slices of the right lengths.
    fn prepare(&mut self, r: &Input, w: &[i32; 24]) -> (u64, u64) {
        let (fields, ap, n_ap) = numbers(r);
        let (whole, numbers) = (&mut self.whole[GUARD..GUARD + WHOLE], &mut self.numbers[GUARD..GUARD + NUMBERS]);
        station(r.year, r.doy, &fields, &ap[..n_ap], w, whole, numbers)
    }
}

// The right length, or now and then another.
fn length(g: &mut Random, right: usize) -> usize {
    match g.below(200) {
        0 => right - 1,
        1 => right + 1,
        2 => 0,
        3 => g.below((right + GUARD) as u64) as usize,
        _ => right,
    }
}

fn lengths(g: &mut Random) -> Lengths {
    Lengths { whole: length(g, WHOLE), numbers: length(g, NUMBERS), row: length(g, 11) }
}

// 4 and the length needed for the first slice that has another.
fn misfit(slices: &[(usize, usize)]) -> Option<(u64, u64)> {
    slices.iter().find(|(have, need)| have != need).map(|(_, need)| (4, *need as u64))
}

impl Lengths {
    fn altitude_refused(&self) -> Option<(u64, u64)> {
        misfit(&[(self.row, 11), (self.whole, WHOLE), (self.numbers, NUMBERS)])
    }

    fn change_refused(&self) -> Option<(u64, u64)> {
        misfit(&[(self.whole, WHOLE), (self.numbers, NUMBERS)])
    }

    fn switch_refused(&self, switches: usize) -> Option<(u64, u64)> {
        misfit(&[(self.whole, WHOLE), (self.numbers, NUMBERS), (switches, 24)])
    }
}

// ---- altitudes and changes

fn wild(g: &mut Random) -> f64 {
    match g.below(5) {
        0 => f64::NAN,
        1 => f64::INFINITY,
        2 => f64::NEG_INFINITY,
        3 => f64::from_bits(g.next()),
        _ => g.between(-3000.0, 90000.0),
    }
}

// Any altitude: as a record has it, over the whole range, about its upper end, below 0, or wild.
fn any_altitude(g: &mut Random) -> f64 {
    match g.below(20) {
        0 => wild(g),
        1 => [-0.0, -f64::from_bits(1), -1.0, 2500.0_f64.next_up(), 2500.5][g.below(5) as usize],
        2 => [2500.0_f64.next_down(), 2500.0][g.below(2) as usize],
        3..=5 => g.between(0.0, 2500.0),
        _ => altitude(g),
    }
}

// A field's value: in range, at and just beyond its ends, or wild.
fn value(g: &mut Random, lo: f64, hi: f64) -> f64 {
    match g.below(10) {
        0 => wild(g),
        1 => [lo.next_down(), hi.next_up(), lo - 0.5, hi + 0.5][g.below(4) as usize],
        2..=4 => g.field(lo, hi),
        _ => g.between(lo, hi),
    }
}

fn any_change(g: &mut Random) -> Change {
    match g.below(6) {
        0 => Sec(value(g, 0.0, 86400.0)),
        1 => Lst(value(g, -24.0, 48.0)),
        2 => Long(value(g, -1000.0, 1000.0)),
        3 | 4 => Move(value(g, 0.0, 86400.0), value(g, -24.0, 48.0), value(g, -1000.0, 1000.0)),
        _ => Fluxes(value(g, 0.0, 1000.0), value(g, 0.0, 1000.0)),
    }
}

fn changed(r: &Input, change: Change) -> Input {
    match change {
        Sec(sec) => Input { sec, ..*r },
        Lst(lst) => Input { lst, ..*r },
        Long(g_long) => Input { g_long, ..*r },
        Fluxes(f107a, f107) => Input { f107a, f107, ..*r },
        Move(sec, lst, g_long) => Input { sec, lst, g_long, ..*r },
    }
}

// A row in the place of another: with other values in entries 0 and 15 to 23 alone, with one other entry, or any; now and then one that asks for the history.
fn new_row(g: &mut Random, old: &[i32; 24]) -> [i32; 24] {
    let mut w = *old;
    match g.below(3) {
        0 => (0..24).filter(|i| !(1..15).contains(i)).for_each(|i| w[i] = g.below(6) as i32 - 2),
        1 => w[g.below(24) as usize] = g.below(6) as i32 - 2,
        _ => w = row_of(g),
    }
    if g.below(10) == 0 {
        w[9] = -1;
    }
    w
}

// Whether the rows differ in entries 0 and 15 to 23 at most.
fn outer(a: &[i32; 24], b: &[i32; 24]) -> bool {
    a[1..15] == b[1..15]
}

// How the one-altitude call judges the record, its altitude not looked at.
fn judged_anywhere(r: &Input, w: &[i32; 24]) -> (u64, u64) {
    judged(&Input { alt: 0.0, ..*r }, w)
}

// How an altitude is judged of a station that holds this doy, any number where its calls did not give it.
fn judged_altitude(alt: f64, doy: i32, w: &[i32; 24]) -> (u64, u64) {
    if !alt.is_finite() {
        (2, 3)
    } else if !(1..=366).contains(&doy) {
        (3, 1)
    } else if !(0.0..=2500.0).contains(&alt) {
        (3, 3)
    } else if unmixed(alt, w) {
        (10, 3)
    } else {
        (0, 0)
    }
}

// A record and a row to prepare from, every third with the history asked for, some spoiled, the altitude of any kind.
fn any_record(g: &mut Random) -> (Input, [i32; 24]) {
    let (mut r, mut w) = (record(g), row_of(g));
    if g.below(3) == 0 {
        w[9] = -1;
        if g.below(20) > 0 && r.ap_array.is_none() {
            r.ap_array = Some(std::array::from_fn(|_| g.between(0.0, 400.0)));
        }
    }
    if g.below(6) == 0 {
        r = spoiled(g, r);
    }
    if g.below(3) == 0 {
        r.alt = wild(g);
    }
    (r, w)
}

// ---- histories

#[derive(Default)]
struct Figures {
    histories: u64,
    prepared: u64,
    not_prepared: u64,
    altitudes: u64,
    rows: u64,
    drag: u64,
    nan: u64,
    ten: u64,
    changes: u64,
    moves: u64,
    changes_refused: u64,
    moves_refused: u64,
    switched: u64,
    outer: u64,
    not_switched: u64,
    misfits: u64,
    bad: u64,
}

impl Figures {
    // Counts a call that went wrong, and shows the first ones.
    fn note(&mut self, good: bool, what: &str, have: (u64, u64), want: (u64, u64), r: &Input, w: &[i32; 24]) {
        if !good {
            self.bad += 1;
            if self.bad <= 3 {
                println!("station differs, history {}, {what}: answer {have:?}, wanted {want:?}\n  {r:?}\n  switches {w:?}", self.histories);
            }
        }
    }
}

// What a history has come to: the memory, and the record and row that the station stands for.
struct History {
    memory: Memory,
    record: Input,
    row: [i32; 24],
}

impl History {
    // Whether the memory is that of a station newly prepared, in other memory, on the record as it now is.
    fn as_prepared(&self, g: &mut Random) -> bool {
        let mut fresh = Memory::any(g);
        fresh.prepare(&self.record, &self.row) == (0, 0)
            && between(&fresh.whole) == between(&self.memory.whole)
            && between(&fresh.numbers).iter().zip(between(&self.memory.numbers)).all(|(a, b)| same(*a, *b))
    }

    // Prepares from the record and row given, slices of any length: whether there is a station of them now.
    fn prepare(&mut self, g: &mut Random, f: &mut Figures, r: Input, w: [i32; 24]) -> bool {
        let before = self.memory.clone();
        let (fields, ap, n_ap) = numbers(&r);
        let fields = [&fields[..], &[0.5; GUARD]].concat();
        let ap = [&ap[..], &[0.5; GUARD]].concat();
        let row = [&w[..], &[1; GUARD]].concat();
        let n = lengths(g);
        let (n_fields, n_switches) = (length(g, 8), length(g, 24));
        // a length of 0 says that there is no history
        let n_ap = if n_ap == 0 { 0 } else { length(g, 7).max(1) };
        let (whole, numbers) = (&mut self.memory.whole[GUARD..GUARD + n.whole], &mut self.memory.numbers[GUARD..GUARD + n.numbers]);
        let have = station(r.year, r.doy, &fields[..n_fields], &ap[..n_ap], &row[..n_switches], whole, numbers);
        let slices = [(n.whole, WHOLE), (n.numbers, NUMBERS), (n_fields, 8), (if n_ap == 0 { 7 } else { n_ap }, 7), (n_switches, 24)];
        let misfit = misfit(&slices);
        f.misfits += misfit.is_some() as u64;
        let want = misfit.unwrap_or(judged_anywhere(&r, &w));
        let made = want == (0, 0);
        let good = if made {
            f.prepared += 1;
            (self.record, self.row) = (r, w);
            self.memory.station_guards_kept(&before) && self.memory.row_kept(&before) && self.as_prepared(g)
        } else {
            f.not_prepared += 1;
            self.memory.station_kept(&before) && self.memory.row_kept(&before)
        };
        f.note(have == want && good, "preparing", have, want, &r, &w);
        made
    }

    fn ask(&mut self, g: &mut Random, f: &mut Figures) {
        let alt = any_altitude(g);
        let n = lengths(g);
        self.memory.row = any_bits(g, 11);
        let before = self.memory.clone();
        let drag = g.below(3) == 0;
        let have = self.memory.ask(&n, alt, drag);
        let misfit = n.altitude_refused();
        f.misfits += misfit.is_some() as u64;
        f.altitudes += 1;
        let want = misfit.unwrap_or(judged_altitude(alt, self.record.doy, &self.row));
        f.ten += (want.0 == 10) as u64;
        let r = Input { alt, ..self.record };
        let good = if want == (0, 0) {
            f.rows += 1;
            f.drag += drag as u64;
            let expect = (if drag { GTD7D } else { GTD7 }.routed)(&r, self.row);
            f.nan += expect.iter().any(|x| x.is_nan()) as u64;
            self.memory.row_guards_kept(&before) && between(&self.memory.row).iter().zip(&expect).all(|(a, b)| same(*a, *b))
        } else {
            self.memory.row_kept(&before)
        };
        f.note(have == want && good && self.memory.station_kept(&before), "altitude", have, want, &r, &self.row);
    }

    fn change(&mut self, g: &mut Random, f: &mut Figures) {
        let change = any_change(g);
        let n = lengths(g);
        let before = self.memory.clone();
        let have = self.memory.change(&n, change);
        let misfit = n.change_refused();
        f.misfits += misfit.is_some() as u64;
        let r = changed(&self.record, change);
        let want = misfit.unwrap_or(judged_anywhere(&r, &self.row));
        let good = if want == (0, 0) {
            f.changes += 1;
            f.moves += matches!(change, Move(..)) as u64;
            self.record = r;
            self.memory.station_guards_kept(&before) && self.as_prepared(g)
        } else {
            f.changes_refused += 1;
            f.moves_refused += matches!(change, Move(..)) as u64;
            self.memory.station_kept(&before)
        };
        f.note(have == want && good && self.memory.row_kept(&before), &format!("{change:?}"), have, want, &r, &self.row);
    }

    // A new row; once the lengths fit only 1 at 10 may refuse it.
    fn switch(&mut self, g: &mut Random, f: &mut Figures) {
        let w = new_row(g, &self.row);
        let (n, n_switches) = (lengths(g), length(g, 24));
        let before = self.memory.clone();
        let have = self.memory.switch(&n, &[&w[..], &[1; GUARD]].concat()[..n_switches]);
        let misfit = n.switch_refused(n_switches);
        f.misfits += misfit.is_some() as u64;
        let want = misfit.unwrap_or(judged_anywhere(&self.record, &w));
        let good = if want == (0, 0) {
            f.switched += 1;
            f.outer += outer(&self.row, &w) as u64;
            self.row = w;
            self.memory.station_guards_kept(&before) && self.as_prepared(g)
        } else {
            f.not_switched += misfit.is_none() as u64;
            (misfit.is_some() || want == (1, 10)) && self.memory.station_kept(&before)
        };
        f.note(have == want && good && self.memory.row_kept(&before), "new row", have, want, &self.record, &w);
    }
}

// Prepares, then asks for altitudes, changes and new rows in any order, until count altitudes were asked for; now and then another record is prepared over
// the station, which a refused one leaves as it was.
pub fn stations(g: &mut Random, count: u64) -> u64 {
    let mut f = Figures::default();
    while f.altitudes < count {
        let (record, row) = any_record(g);
        let mut h = History { memory: Memory::any(g), record, row };
        f.histories += 1;
        if !h.prepare(g, &mut f, record, row) {
            continue;
        }
        for _ in 0..1 + g.below(40) {
            match g.below(20) {
                0 => {
                    let (record, row) = any_record(g);
                    h.prepare(g, &mut f, record, row);
                }
                1..=5 => h.change(g, &mut f),
                6..=8 => h.switch(g, &mut f),
                _ if f.altitudes < count => h.ask(g, &mut f),
                _ => {}
            }
        }
    }
    let Figures { histories, prepared, not_prepared, altitudes, rows, drag, nan, ten, changes, moves, changes_refused, moves_refused, switched, outer, not_switched, misfits, bad } = f;
    println!(
        "stations: {histories} histories, {prepared} prepared, {not_prepared} refused; {altitudes} altitudes, {rows} accepted ({drag} of gtd7d, {nan} with a NaN), {} refused ({ten} with 10); \
         {changes} changes accepted ({moves} moves), {changes_refused} refused ({moves_refused} moves); {switched} new rows accepted ({outer} other in entries 0 and 15 to 23 at most), {not_switched} refused with 1; {misfits} refusals for a slice's length; {bad} differences",
        altitudes - rows
    );
    bad
}

// ---- any contents

// A number of any kind, or one such as a station might hold.
fn content(g: &mut Random) -> f64 {
    match g.below(8) {
        0..=2 => f64::from_bits(g.next()),
        3 => [0.0, -0.0, 1.0, -1.0, f64::NAN, f64::INFINITY, f64::NEG_INFINITY, f64::MIN_POSITIVE, f64::MAX][g.below(9) as usize],
        4 => g.between(-1.0, 1.0) * 10f64.powi(g.below(600) as i32 - 300),
        5 => g.between(-1e5, 1e5),
        _ => g.between(-2.0, 2.0),
    }
}

// Any bits; zeros, never prepared; numbers of any kind with small whole numbers; a station in which some numbers, all floats, all whole numbers or the doy
// were replaced.
fn contents(g: &mut Random) -> Memory {
    let mut m = Memory::any(g);
    match g.below(8) {
        0 | 1 => return m,
        2 => {
            m.whole[GUARD..GUARD + WHOLE].fill(0);
            m.numbers[GUARD..GUARD + NUMBERS].fill(0.0);
            return m;
        }
        _ => {}
    }
    let kind = g.below(6);
    if kind > 0 {
        let (r, w) = any_record(g);
        m.prepare(&r, &w);
    }
    match kind {
        0 => {
            m.whole[GUARD..GUARD + WHOLE].fill_with(|| g.below(6) as i32 - 2);
            m.numbers[GUARD..GUARD + NUMBERS].fill_with(|| content(g));
        }
        1 => m.numbers[GUARD..GUARD + NUMBERS].fill_with(|| content(g)),
        2 => m.whole[GUARD..GUARD + WHOLE].fill_with(|| g.next() as i32),
        _ => {
            for _ in 0..1 + g.below(6) {
                m.numbers[GUARD + g.below(NUMBERS as u64) as usize] = content(g);
            }
            if g.below(2) == 0 {
                let small = g.below(600) as i32 - 200;
                m.whole[GUARD + g.below(WHOLE as u64) as usize] = if g.below(2) == 0 { g.next() as i32 } else { small };
            }
            if g.below(4) == 0 {
                m.whole[GUARD + 1] = [0, 1, 366, 367, -1, i32::MIN, i32::MAX][g.below(7) as usize];
            }
        }
    }
    m
}

// A refusal that a change or new row knows once the lengths fit, with a place of its own kind.
fn known(answer: (u64, u64)) -> bool {
    matches!(answer, (1, 10) | (2, 2..=16) | (3, 1..=16))
}

// Stations of any contents: an altitude comes back with the answer that its doy and row ask for, any other call with one that it may give; each writes only
// what it lends out, and nothing where it refuses.
pub fn hostile(g: &mut Random, count: u64) -> u64 {
    let (mut done, mut altitudes, mut rows, mut no_day, mut changes, mut switches, mut switched, mut bad) = (0u64, 0u64, 0u64, 0u64, 0u64, 0u64, 0u64, 0u64);
    while done < count {
        let mut m = contents(g);
        for _ in 0..(1 + g.below(8)).min(count - done) {
            done += 1;
            let n = lengths(g);
            let before = m.clone();
            let asked = g.below(2) == 0;
            let switch = !asked && g.below(2) == 0;
            let old = std::array::from_fn(|i| m.whole[GUARD + 3 + i]);
            // what an altitude is answered; None where only its kind is known
            let mut want = None;
            let (have, misfit) = if asked {
                let alt = any_altitude(g);
                want = Some(judged_altitude(alt, m.whole[GUARD + 1], &old));
                (m.ask(&n, alt, g.below(3) == 0), n.altitude_refused())
            } else if switch {
                let (w, n_switches) = (new_row(g, &old), length(g, 24));
                (m.switch(&n, &[&w[..], &[1; GUARD]].concat()[..n_switches]), n.switch_refused(n_switches))
            } else {
                (m.change(&n, any_change(g)), n.change_refused())
            };
            let accepted = have == (0, 0) && misfit.is_none();
            altitudes += asked as u64;
            rows += (asked && accepted) as u64;
            no_day += (asked && have == (3, 1)) as u64;
            switches += switch as u64;
            switched += (switch && accepted) as u64;
            changes += (!asked && !switch && accepted) as u64;
            let answered = misfit.or(want).map_or(accepted || known(have), |answer| have == answer);
            let kept = match (asked, accepted) {
                (true, true) => m.station_kept(&before) && m.row_guards_kept(&before),
                (false, true) => m.station_guards_kept(&before) && m.row_kept(&before),
                _ => m.station_kept(&before) && m.row_kept(&before),
            };
            if !answered || !kept {
                bad += 1;
                if bad <= 3 {
                    println!("hostile station, call {done}: {}, answer {have:?}, memory {}", if asked { "altitude" } else if switch { "new row" } else { "change" }, if kept { "kept" } else { "not kept" });
                }
            }
        }
    }
    println!("hostile stations: {done} calls, {altitudes} altitudes ({rows} accepted, {no_day} refused with 3 at 1), {} changes ({changes} accepted), {switches} new rows ({switched} accepted), {bad} differences", done - altitudes - switches);
    bad
}

// ---- time

// The least time of each of these runs, made in turn, in nanoseconds for each of n.
pub fn best<const K: usize>(repeats: usize, n: usize, mut runs: [&mut dyn FnMut() -> f64; K]) -> [f64; K] {
    let mut least = [f64::INFINITY; K];
    for _ in 0..repeats {
        for (run, least) in runs.iter_mut().zip(&mut least) {
            let t = Instant::now();
            black_box(run());
            *least = least.min(t.elapsed().as_nanos() as f64 / n as f64);
        }
    }
    least
}

type Station = (Vec<i32>, Vec<f64>);

fn prepare(s: &mut Station, r: &Input, w: &[i32; 24]) -> f64 {
    let (fields, ap, n_ap) = numbers(r);
    assert_eq!(station(r.year, r.doy, &fields, &ap[..n_ap], w, &mut s.0, &mut s.1), (0, 0));
    s.1[0]
}

fn prepared(r: &Input, w: &[i32; 24]) -> Station {
    let mut s = (vec![0; WHOLE], vec![0.0; NUMBERS]);
    prepare(&mut s, r, w);
    s
}

fn change(s: &mut Station, c: Change) -> f64 {
    assert_eq!(station_change(&s.0, &mut s.1, c), (0, 0));
    s.1[0]
}

fn switch(s: &mut Station, w: &[i32; 24]) -> f64 {
    assert_eq!(station_switches(&mut s.0, &mut s.1, w), (0, 0));
    s.1[0]
}

fn density(s: &Station, alt: f64) -> f64 {
    let mut row = [0.0; 11];
    assert_eq!(station_gtd7(&s.0, &s.1, alt, &mut row), (0, 0));
    row[5]
}

fn rust(r: &Input, flags: &untouched::astro::atmosphere::Flags) -> f64 {
    untouched::astro::atmosphere::gtd7(r, flags).unwrap().d[5]
}

// Eight altitudes of each station, a 64th of a km apart.
fn time_altitudes(nine: i32) {
    println!("ns per altitude of a station, all switches on, switch 9 at {nine} (ours, untouched Rust, ratio):");
    for alt in [0.0, 50.0, 90.0, 150.0, 400.0, 1000.0] {
        let (records, w) = timed(alt, nine, 256);
        let flags = untouched::astro::atmosphere::Flags::new(w);
        let stations: Vec<Station> = records.iter().map(|r| prepared(r, &w)).collect();
        let step = if alt == 0.0 { 1.0 / 64.0 } else { -1.0 / 64.0 };
        let alts: [f64; 8] = std::array::from_fn(|k| alt + step * k as f64);
        let [a, b] = best(
            15,
            records.len() * alts.len(),
            [
                &mut || stations.iter().flat_map(|s| alts.map(|z| density(s, z))).sum(),
                &mut || records.iter().flat_map(|r| alts.map(|z| rust(&Input { alt: z, ..*r }, &flags))).sum(),
            ],
        );
        println!("  {alt:6} km: {a:8.0} {b:8.0} {:5.2}", a / b);
    }
}

// Preparing, and each change beside it.
fn time_changes(nine: i32) {
    let (records, w) = timed(400.0, nine, 256);
    let mut stations: Vec<Station> = records.iter().map(|r| prepared(r, &w)).collect();
    println!("ns of a station's other calls, switch 9 at {nine} (ours, ratio to preparing):");
    let [preparing] = best(15, records.len(), [&mut || stations.iter_mut().zip(&records).map(|(s, r)| prepare(s, r, &w)).sum()]);
    println!("  preparing: {preparing:8.0}  1.00");
    let changes: [(&str, fn(&mut Random) -> Change); 5] = [
        ("sec", |g| Sec(g.between(0.0, 86400.0))),
        ("lst", |g| Lst(g.between(0.0, 24.0))),
        ("g_long", |g| Long(g.between(-180.0, 180.0))),
        ("fluxes", |g| Fluxes(g.between(70.0, 250.0), g.between(70.0, 250.0))),
        ("move", |g| Move(g.between(0.0, 86400.0), g.between(0.0, 24.0), g.between(-180.0, 180.0))),
    ];
    for (name, any) in changes {
        let mut g = Random(8);
        let values: Vec<Change> = (0..records.len()).map(|_| any(&mut g)).collect();
        // another value for each station in each run, so that each is a change
        let mut turn = 0;
        let [a] = best(
            15,
            records.len(),
            [&mut || {
                turn += 1;
                stations.iter_mut().zip(values.iter().cycle().skip(turn)).map(|(s, c)| change(s, *c)).sum()
            }],
        );
        println!("  {name:>9}: {a:8.0} {:5.2}", a / preparing);
    }
    // two rows in turn: other in entry 16 alone, and other in entry 14
    for (name, i) in [("row, entry 16", 16), ("row, entry 14", 14)] {
        let mut other = w;
        let [a] = best(
            15,
            records.len(),
            [&mut || {
                other[i] = 1 - other[i];
                stations.iter_mut().map(|s| switch(s, &other)).sum()
            }],
        );
        println!("  {name:>13}: {a:8.0} {:5.2}", a / preparing);
    }
}

// A thousand columns of a hundred altitudes over one place, sec and lst moving on between them: one station and a move each, our column call, the Rust.
fn time_columns() {
    let r = sample(172, 0.0, 0.0, 60.0, -70.0, 16.0, 150.0, 150.0, 4.0);
    let w = [1; 24];
    let flags = untouched::astro::atmosphere::Flags::new(w);
    let alts: Vec<f64> = (0..100).map(|k| 1000.0 * k as f64 / 99.0).collect();
    let moments: Vec<Input> = (0..1000).map(|k| Input { sec: 86.4 * k as f64, lst: 0.024 * k as f64, ..r }).collect();
    let mut s = prepared(&r, &w);
    let mut rows = vec![0.0; 11 * alts.len()];
    let [a, b, c] = best(
        5,
        alts.len() * moments.len(),
        [
            &mut || {
                let column = |m: &Input| change(&mut s, Move(m.sec, m.lst, m.g_long)) + alts.iter().map(|z| density(&s, *z)).sum::<f64>();
                moments.iter().map(column).sum()
            },
            &mut || {
                let column = |m: &Input| ours_column(m, &w, &alts, &mut rows).0 as f64 + rows[5];
                moments.iter().map(column).sum()
            },
            &mut || moments.iter().flat_map(|m| alts.iter().map(|z| rust(&Input { alt: *z, ..*m }, &flags))).sum(),
        ],
    );
    println!("1000 columns of 100 from 0 to 1000 km over one place, one move between them, ns per altitude:");
    println!("  one station {a:.0}, our column call {b:.0}, the untouched Rust {c:.0}; one station to the Rust {:.2}, to our column call {:.2}", a / c, a / b);
}

pub fn time() {
    for nine in [1, -1] {
        time_altitudes(nine);
        time_changes(nine);
    }
    time_columns();
}
