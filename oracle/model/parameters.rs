// The one-altitude call with nine constants: against the varied copy of the Rust, and with the present nine against gtd7.
use crate::calls::{gtd7_with as ours, numbers, one_altitude, potirehu_gtd7};
use crate::random::Random;
use crate::{judged, row_and_record, same, slices_refused, to_routed, to_varied, Input};
use varied::varied::{set, PRESENT};

// The masses of the species, which mixed air may not have.
const SPECIES: [f64; 7] = [1.0, 4.0, 14.0, 16.0, 28.0, 32.0, 40.0];

// Numbers that stand before and behind the lent row.
pub const GUARD: usize = 3;

pub fn one<T: Copy>(g: &mut Random, all: &[T]) -> T {
    all[g.below(all.len() as u64) as usize]
}

// The number, or a neighbour of it.
fn nearby(g: &mut Random, x: f64) -> f64 {
    f64::from_bits((x.to_bits() + g.below(3)).saturating_sub(1))
}

// The k-th constant: as it is, near that, or far from it; an altitude also the record's own, or about 72.5 km; a mass also beside a species'.
fn constant(g: &mut Random, k: usize, alt: f64) -> f64 {
    match g.below(10) {
        0..=3 => PRESENT[k],
        4 => nearby(g, PRESENT[k]),
        5 => PRESENT[k] * g.between(0.9, 1.1),
        6 => one(g, &[f64::from_bits(1), f64::MIN_POSITIVE, 1E-3, 1E9, f64::MAX]),
        _ => match (k, g.below(4)) {
            (0, _) => 10.0_f64.powf(g.between(0.0, 5.0)),
            (1, 0) => {
                let mass = one(g, &SPECIES);
                nearby(g, mass)
            }
            (1, 1) => g.between(27.5, 28.5),
            (1, _) => g.between(0.5, 60.0),
            (_, 0) => nearby(g, alt.abs()),
            (_, 1) => nearby(g, 72.5),
            (_, 2) => g.between(1.0, 130.0),
            _ => g.between(1.0, 3000.0),
        },
    }
}

// A constant that is refused, or any bits.
fn unfit_constant(g: &mut Random, k: usize) -> f64 {
    match g.below(if k == 1 { 9 } else { 7 }) {
        0 => f64::NAN,
        1 => f64::INFINITY,
        2 => f64::NEG_INFINITY,
        3 => one(g, &[0.0, -0.0]),
        4 => -PRESENT[k],
        5 => -f64::from_bits(1),
        6 => f64::from_bits(g.next()),
        _ => one(g, &SPECIES),
    }
}

// Document 02's 16: the first that is not finite or not above 0, or a mass of mixed air that is a species'.
fn unfit(nine: &[f64; 9]) -> Option<(u64, u64)> {
    let refused = |k: usize| !nine[k].is_finite() || !(nine[k] > 0.0) || (k == 1 && SPECIES.contains(&nine[k]));
    (0..9).find(|k| refused(*k)).map(|k| (16, k as u64 + 1))
}

// Every refusal that fits, in the order in which the call has them; lengths are those of the nine, the row, the fields, the array, the switches.
fn refusals(nine: &[f64; 9], r: &Input, w: &[i32; 24], lengths: [usize; 5]) -> Vec<(u64, u64)> {
    let [n_nine, n_row, n_fields, n_ap, n_switches] = lengths;
    let mut all = Vec::new();
    all.extend((n_nine != 9).then_some((4, 9)));
    all.extend(unfit(nine));
    all.extend((n_row != 11).then_some((4, 11)));
    all.extend(slices_refused([n_fields, n_ap, n_switches]));
    all.extend(Some(judged(r, w)).filter(|x| *x != (0, 0)));
    all.extend((r.alt < 72.5 && (w[15] != 1 || nine[4] < 72.5)).then_some((10, 3)));
    all
}

// A record with a switch row, and the lengths of the five slices: now and then a record that is refused, and slices of other lengths.
fn drawn(g: &mut Random, i: u64) -> (Input, [i32; 24], [usize; 5]) {
    let (w, mut r) = row_and_record(g, i % 8 == 0);
    let mut lengths = [9, 11, 8, if r.ap_array.is_some() { 7 } else { 0 }, 24];
    if g.below(20) == 0 {
        for _ in 0..1 + g.below(2) {
            let k = g.below(5) as usize;
            lengths[k] = g.below([12, 14, 11, 10, 27][k]) as usize;
        }
    }
    // the record that the call is handed
    match lengths[3] {
        0 => r.ap_array = None,
        7 => r.ap_array = Some(r.ap_array.unwrap_or([4.0; 7])),
        _ => {}
    }
    (r, w, lengths)
}

// A list with something behind it, so that a longer slice can be handed over.
pub fn longer<T: Copy, const N: usize>(x: &[T], behind: T) -> [T; N] {
    std::array::from_fn(|k| *x.get(k).unwrap_or(&behind))
}

// Our call, its row between guards.
fn called(nine: &[f64; 9], r: &Input, w: &[i32; 24], lengths: [usize; 5], memory: &mut [f64]) -> (u64, u64) {
    let [n_nine, n_row, n_fields, n_ap, n_switches] = lengths;
    let (fields, ap, _) = numbers(r);
    let (nine, fields, ap, w): ([f64; 16], [f64; 16], [f64; 16], [i32; 32]) = (longer(nine, 200.0), longer(&fields, 4.0), longer(&ap, 4.0), longer(w, 1));
    ours(&nine[..n_nine], r.year, r.doy, &fields[..n_fields], &ap[..n_ap], &w[..n_switches], &mut memory[GUARD..GUARD + n_row])
}

pub fn random_memory(g: &mut Random, n_row: usize) -> Vec<f64> {
    (0..n_row + 2 * GUARD).map(|_| f64::from_bits(g.next())).collect()
}

// An accepted row is compared by its numbers, all else by its bits.
pub fn equal(have: &[f64], want: &[f64], accepted: bool) -> bool {
    let row = GUARD..GUARD + 11;
    (0..want.len()).all(|k| have[k].to_bits() == want[k].to_bits() || (accepted && row.contains(&k) && same(have[k], want[k])))
}

// Answer, row and what lies around it, for any nine constants.
pub fn parameters(g: &mut Random, count: u64) -> u64 {
    let (mut accepted, mut low, mut changed, mut nan, mut several, mut bad) = (0u64, 0u64, 0u64, 0u64, 0u64, 0u64);
    let (mut refused, mut places, mut n2) = ([0u64; 17], [0u64; 10], 0u64);
    for i in 0..count {
        let (r, w, lengths) = drawn(g, i);
        let mut nine: [f64; 9] = std::array::from_fn(|k| constant(g, k, r.alt));
        if g.below(6) == 0 {
            for _ in 0..1 + g.below(2) {
                let k = g.below(9) as usize;
                nine[k] = unfit_constant(g, k);
            }
        }
        let all = refusals(&nine, &r, &w, lengths);
        several += (all.len() > 1) as u64;
        let before = random_memory(g, lengths[1]);
        let mut memory = before.clone();
        let answer = called(&nine, &r, &w, lengths, &mut memory);
        let mut expect = before;
        let want = match all.first() {
            Some(first) => {
                refused[first.0 as usize] += 1;
                if first.0 == 16 {
                    places[first.1 as usize] += 1;
                }
                n2 += (first.0 == 10 && w[15] == 1) as u64;
                *first
            }
            None => {
                set(nine);
                let row = varied::astro::atmosphere::shim::gtd7(&to_varied(&r), w).0;
                let with_present = routed::astro::atmosphere::shim::gtd7(&to_routed(&r), w).0;
                accepted += 1;
                low += (r.alt < 72.5) as u64;
                changed += !(0..11).all(|k| same(row[k], with_present[k])) as u64;
                nan += row.iter().any(|x| x.is_nan()) as u64;
                expect[GUARD..GUARD + 11].copy_from_slice(&row);
                (0, 0)
            }
        };
        if answer != want || !equal(&memory, &expect, all.is_empty()) {
            bad += 1;
            if bad <= 3 {
                println!("nine constants differ: answer {answer:?}, wanted {want:?}, {nine:?} {r:?} {w:?} {lengths:?}\n  {memory:?}\n  {expect:?}");
            }
        }
    }
    let by: Vec<String> = (1..17).filter(|k| refused[*k] > 0).map(|k| format!("{} with {k}", refused[k])).collect();
    println!("varied Rust, nine constants: {count} calls, {accepted} accepted ({low} below 72.5 km, {changed} with a row that the present nine do not give, {nan} with a NaN), refused {} ({n2} of 10 for the N2 altitude alone, {several} calls with more than one reason), {bad} differences", by.join(", "));
    println!("  16 by its place, 1 to 9: {:?}", &places[1..]);
    bad
}

// The present nine: answer, row and what lies around it are those of gtd7.
pub fn present(g: &mut Random, count: u64) -> u64 {
    let (mut accepted, mut bad) = (0u64, 0u64);
    for i in 0..count {
        let (r, w, mut lengths) = drawn(g, i);
        lengths[0] = 9;
        let before = random_memory(g, lengths[1]);
        let (mut memory, mut expect) = (before.clone(), before);
        let answer = called(&PRESENT, &r, &w, lengths, &mut memory);
        let [_, n_row, n_fields, n_ap, n_switches] = lengths;
        let (fields, ap, _) = numbers(&r);
        let (fields, ap, row): ([f64; 16], [f64; 16], [i32; 32]) = (longer(&fields, 4.0), longer(&ap, 4.0), longer(&w, 1));
        let want = one_altitude(potirehu_gtd7, r.year, r.doy, &fields[..n_fields], &ap[..n_ap], &row[..n_switches], &mut expect[GUARD..GUARD + n_row]);
        accepted += (want == (0, 0)) as u64;
        if answer != want || !equal(&memory, &expect, want == (0, 0)) {
            bad += 1;
            if bad <= 3 {
                println!("the present nine differ: answer {answer:?}, gtd7's {want:?}, {r:?} {w:?} {lengths:?}\n  {memory:?}\n  {expect:?}");
            }
        }
    }
    println!("the present nine against gtd7: {count} calls, {accepted} accepted, {bad} differences");
    bad
}
