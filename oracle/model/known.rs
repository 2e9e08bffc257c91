// Which fields count under a switch row, and the one-altitude call for a record known in part: against the routed Rust with 0 in the fields that are not
// known, by a reading of the shut-off list of its own.
use crate::calls::{counts as ours_counts, gtd7_known as ours, header, numbers};
use crate::parameters::{equal, longer, one, random_memory, GUARD};
use crate::random::Random;
use crate::{judged, record, row_and_record, row_of, same, set_field, slices_refused, timed, to_routed, unmixed, Input};
use std::time::Instant;

const FIELDS: usize = header("#define POTIREHU_COUNTS ");

// Whether a row shuts a field off.
pub fn shut_off(w: &[i32; 24], field: usize) -> bool {
    match field {
        0 | 10 => true,
        2 => w[10] != 1 || (w[12] != 1 && w[13] != 1),
        5 => w[10] != 1 || (w[11] != 1 && w[12] != 1 && w[13] != 1),
        6 => w[8] != 1 && w[14] != 1 && (w[7] <= 0 || (w[9] == 0 && w[7] != 1)),
        7 | 8 => w[1] <= 0,
        9 => w[9] == -1 || (w[9] == 0 && (w[10] != 1 || w[13] != 1)),
        11..=16 => w[9] != -1,
        _ => false,
    }
}

fn is_known(known: u32, field: usize) -> bool {
    known >> field & 1 == 1
}

// The record with other values in the fields from 0 to 9 that are not known.
fn filled(known: u32, mut r: Input, year: i32, doy: i32, mut float: impl FnMut(usize) -> f64) -> Input {
    if !is_known(known, 0) {
        r.year = year;
    }
    if !is_known(known, 1) {
        r.doy = doy;
    }
    for field in (2..10).filter(|field| !is_known(known, *field)) {
        set_field(&mut r, field as u64 - 2, float(field));
    }
    r
}

// Bits that no record should have, some of them.
fn hostile(g: &mut Random) -> f64 {
    match g.below(6) {
        0 => f64::NAN,
        1 => one(g, &[f64::INFINITY, f64::NEG_INFINITY]),
        2 => one(g, &[1E300, -1E300, 3000.0, -2000.0]),
        3 => g.between(-3000.0, 90000.0),
        _ => f64::from_bits(g.next()),
    }
}

fn made_hostile(g: &mut Random, known: u32, r: Input) -> Input {
    let (year, doy) = (g.next() as i32, one(g, &[0, -1, 367, 1, 366, i32::MIN, i32::MAX]));
    filled(known, r, year, doy, |_| hostile(g))
}

// Any set of known fields; all; those that count under the row, with others, or without one; bits above 9 are any.
fn known_set(g: &mut Random, w: &[i32; 24]) -> u32 {
    let counted = (0..10).filter(|field| !shut_off(w, *field)).fold(0u32, |all, field| all | 1 << field);
    let bits = g.next() as u32;
    let low = match g.below(6) {
        0 => bits,
        1 => 1023,
        2 | 3 => counted,
        4 => counted | bits,
        _ => counted & !(1 << g.below(10)),
    };
    low & 1023 | (g.next() as u32) << 10
}

// A field as a number, where the record has it.
fn value(r: &Input, field: usize) -> Option<f64> {
    match field {
        0 => Some(r.year as f64),
        1 => Some(r.doy as f64),
        2..=9 => Some(numbers(r).0[field - 2]),
        _ => r.ap_array.map(|a| a[field - 10]),
    }
}

// Every refusal that fits, in the order in which the call has them; lengths are those of the row, the fields, the array, the switches.
fn refusals(known: u32, r: &Input, w: &[i32; 24], lengths: [usize; 4]) -> Vec<(u64, u64)> {
    let [n_row, n_fields, n_ap, n_switches] = lengths;
    let mut all = Vec::new();
    all.extend((n_row != 11).then_some((4, 11)));
    all.extend(slices_refused([n_fields, n_ap, n_switches]));
    let unfit = |field: &usize| (*field > 9 || is_known(known, *field)) && value(r, *field).is_some_and(|x| !x.is_finite());
    all.extend((0..17).find(unfit).map(|field| (2, field as u64)));
    let lacking = (0..10).find(|field| !shut_off(w, *field) && !is_known(known, *field));
    all.extend(lacking.or((w[9] == -1 && r.ap_array.is_none()).then_some(10)).map(|field| (1, field as u64)));
    // what is not known passes as something in range
    let in_range = filled(known, *r, 0, 1, |_| 0.0);
    all.extend(Some(judged(&in_range, w)).filter(|refusal| refusal.0 == 3));
    all.extend((is_known(known, 3) && unmixed(r.alt, w)).then_some((10, 3)));
    all
}

// Our call, its row between guards.
fn called(known: u32, r: &Input, w: &[i32; 24], lengths: [usize; 4], memory: &mut [f64]) -> (u64, u64) {
    let [n_row, n_fields, n_ap, n_switches] = lengths;
    let (fields, ap, _) = numbers(r);
    let (fields, ap, w): ([f64; 16], [f64; 16], [i32; 32]) = (longer(&fields, 4.0), longer(&ap, 4.0), longer(w, 1));
    ours(known, r.year, r.doy, &fields[..n_fields], &ap[..n_ap], &w[..n_switches], &mut memory[GUARD..GUARD + n_row])
}

// A row, a record with its known fields and the lengths of the four slices: now and then a known field that is refused, and slices of other lengths.
fn drawn(g: &mut Random, i: u64) -> (u32, Input, [i32; 24], [usize; 4]) {
    let (w, mut r) = row_and_record(g, i % 8 == 0);
    let known = known_set(g, &w);
    let mut lengths = [11, 8, if r.ap_array.is_some() { 7 } else { 0 }, 24];
    if g.below(20) == 0 {
        for _ in 0..1 + g.below(2) {
            let k = g.below(4) as usize;
            lengths[k] = g.below([14, 11, 10, 27][k]) as usize;
        }
    }
    // the record that the call is handed
    match lengths[2] {
        0 => r.ap_array = None,
        7 => r.ap_array = Some(r.ap_array.unwrap_or([4.0; 7])),
        _ => {}
    }
    (known, made_hostile(g, known, r), w, lengths)
}

// Answer, row and what lies around it, for any set of known fields.
pub fn known(g: &mut Random, count: u64) -> u64 {
    let (mut accepted, mut partly, mut whole, mut several, mut bad) = (0u64, 0u64, 0u64, 0u64, 0u64);
    let (mut refused, mut places) = ([0u64; 11], [0u64; 11]);
    for i in 0..count {
        let (known, r, w, lengths) = drawn(g, i);
        let all = refusals(known, &r, &w, lengths);
        several += (all.len() > 1) as u64;
        let before = random_memory(g, lengths[0]);
        let mut memory = before.clone();
        let answer = called(known, &r, &w, lengths, &mut memory);
        let mut expect = before;
        let want = match all.first() {
            Some(first) => {
                refused[first.0 as usize] += 1;
                if first.0 == 1 {
                    places[first.1 as usize] += 1;
                }
                *first
            }
            None => {
                let zeros = filled(known, r, 0, 0, |_| 0.0);
                expect[GUARD..GUARD + 11].copy_from_slice(&routed::astro::atmosphere::shim::gtd7(&to_routed(&zeros), w).0);
                accepted += 1;
                if known & 1023 == 1023 {
                    whole += 1;
                } else {
                    partly += 1;
                }
                (0, 0)
            }
        };
        if answer != want || !equal(&memory, &expect, all.is_empty()) {
            bad += 1;
            if bad <= 3 {
                println!("known in part differs: answer {answer:?}, wanted {want:?}, known {known:#x} {r:?} {w:?} {lengths:?}\n  {memory:?}\n  {expect:?}");
            }
        }
    }
    let by: Vec<String> = (1..11).filter(|k| refused[*k] > 0).map(|k| format!("{} with {k}", refused[k])).collect();
    println!("routed Rust, known in part: {count} calls, {accepted} accepted ({partly} known in part, {whole} known whole), refused {} ({several} calls with more than one reason), {bad} differences", by.join(", "));
    println!("  1 by its place, 0 to 10: {places:?}");
    bad
}

// Pairs that agree in the known fields, the history in both or in neither: one answer, one memory. An accepted row is also the one-altitude call's on a
// record that agrees in them.
pub fn pairs(g: &mut Random, count: u64) -> u64 {
    let (mut accepted, mut in_truth, mut bad) = (0u64, 0u64, 0u64);
    for i in 0..count {
        let (known, a, w, lengths) = drawn(g, i);
        let b = made_hostile(g, known, a);
        let before = random_memory(g, lengths[0]);
        let (mut x, mut y) = (before.clone(), before);
        let (have, other) = (called(known, &a, &w, lengths, &mut x), called(known, &b, &w, lengths, &mut y));
        let mut good = have == other && equal(&x, &y, have == (0, 0));
        if have == (0, 0) {
            accepted += 1;
            let any = record(g);
            let truth = filled(known, a, any.year, any.doy, |field| value(&any, field).unwrap());
            let mut row = [0.0; 11];
            if crate::ours(&truth, &w, &mut row) == (0, 0) {
                in_truth += 1;
                good &= (0..11).all(|k| same(row[k], x[GUARD + k]));
            }
        }
        if !good {
            bad += 1;
            if bad <= 3 {
                println!("pair known in part differs: {have:?}, {other:?}, known {known:#x} {a:?} {b:?} {w:?}\n  {x:?}\n  {y:?}");
            }
        }
    }
    println!("pairs that agree in the known fields: {count}, {accepted} accepted, {in_truth} of them beside the one-altitude call on another record that agrees, {bad} differences");
    bad
}

// Which fields count, for random rows and rows of edge numbers; slices of other lengths, and what lies around the lent one.
pub fn counts(g: &mut Random, count: u64) -> u64 {
    let (mut written, mut bad) = (0u64, 0u64);
    for _ in 0..count {
        let w: [i32; 24] = match g.below(3) {
            0 => std::array::from_fn(|_| one(g, &[i32::MIN, -2, -1, 0, 1, 2, 3, i32::MAX])),
            1 => std::array::from_fn(|_| g.below(2) as i32),
            _ => row_of(g),
        };
        let n_fields = if g.below(12) == 0 { g.below(20) as usize } else { FIELDS };
        let n_switches = if g.below(12) == 0 { g.below(27) as usize } else { 24 };
        let before: Vec<i32> = (0..n_fields + 2 * GUARD).map(|_| g.next() as i32).collect();
        let mut memory = before.clone();
        let switches: [i32; 32] = longer(&w, 1);
        let answer = ours_counts(&switches[..n_switches], &mut memory[GUARD..GUARD + n_fields]);
        let mut expect = before;
        let want = if n_fields != FIELDS {
            (4, FIELDS as u64)
        } else if n_switches != 24 {
            (4, 24)
        } else {
            written += 1;
            (0..FIELDS).for_each(|field| expect[GUARD + field] = !shut_off(&w, field) as i32);
            (0, 0)
        };
        if answer != want || memory != expect {
            bad += 1;
            if bad <= 3 {
                println!("fields that count differ: answer {answer:?}, wanted {want:?}, {w:?}\n  {memory:?}\n  {expect:?}");
            }
        }
    }
    println!("fields that count: {count} calls, {written} answered, {bad} differences");
    bad
}

// With every field known, against the one-altitude call.
pub fn time() {
    println!("a record with every field known, all switches on (ns per call, the one-altitude call, ratio):");
    for alt in [0.0, 50.0, 90.0, 150.0, 400.0, 1000.0] {
        let (records, w) = timed(alt, 1, 256);
        let (mut best, mut best_whole, mut sum) = (f64::INFINITY, f64::INFINITY, 0.0);
        for _ in 0..45 {
            let t = Instant::now();
            for r in &records {
                let mut row = [0.0; 11];
                ours(1023, r.year, r.doy, &numbers(r).0, &[], &w, &mut row);
                sum += row[5];
            }
            best = best.min(t.elapsed().as_nanos() as f64 / 256.0);
            let t = Instant::now();
            for r in &records {
                let mut row = [0.0; 11];
                crate::ours(r, &w, &mut row);
                sum += row[5];
            }
            best_whole = best_whole.min(t.elapsed().as_nanos() as f64 / 256.0);
        }
        println!("  {alt:6} km: {best:8.0} {best_whole:8.0} {:6.3}{}", best / best_whole, if sum == 1.5 { "!" } else { "" });
    }
}
