// Where d[5] of a column passes a level: our call against a list made from the routed Rust's rows, and time per altitude.
use crate::calls::{crossings as ours, numbers};
use crate::random::Random;
use crate::{altitude, altitudes_refused, record_refused, row_and_record, sample, slices_refused, to_routed, Input};
use std::time::Instant;

// d[5] of the routed Rust at each altitude.
fn densities(r: &Input, w: [i32; 24], alts: &[f64]) -> Vec<f64> {
    alts.iter().map(|z| routed::astro::atmosphere::shim::gtd7(&to_routed(&Input { alt: *z, ..*r }), w).0[5]).collect()
}

// Document 02's list: on which side of the level each density lies, a NaN on neither; then the pairs of neighbours on different sides.
fn list(d: &[f64], level: f64) -> Vec<u64> {
    let sides: Vec<Option<bool>> = d
        .iter()
        .map(|x| match x.partial_cmp(&level) {
            Some(std::cmp::Ordering::Less) => Some(false),
            Some(_) => Some(true),
            None => None,
        })
        .collect();
    (0..d.len().saturating_sub(1)).filter(|i| matches!((sides[*i], sides[i + 1]), (Some(a), Some(b)) if a != b)).map(|i| i as u64).collect()
}

// Altitudes that rise, or that fall, stay or are unfit somewhere; 0 to 513 of them.
fn column(g: &mut Random) -> Vec<f64> {
    let n = match g.below(400) {
        0 => 513,
        1 => 512,
        2..=30 => g.below(2) as usize,
        31..=34 => 64,
        _ => g.below(12) as usize,
    };
    let mut alts: Vec<f64> = match g.below(8) {
        // neighbours to the bit
        0 => {
            let z = altitude(g);
            (0..n as u64).map(|k| f64::from_bits(z.to_bits() + k)).collect()
        }
        _ => (0..n).map(|_| altitude(g)).collect(),
    };
    alts.sort_by(f64::total_cmp);
    alts.dedup();
    // a round ladder where the draws met twice, so that the number stays
    if alts.len() < n {
        alts = (0..n).map(|k| 2500.0 * k as f64 / n as f64).collect();
    }
    if n > 1 && g.below(6) == 0 {
        let k = 1 + g.below(n as u64 - 1) as usize;
        match g.below(4) {
            0 => alts[k] = alts[k - 1],
            1 => alts.swap(k - 1, k),
            2 => (alts[k - 1], alts[k]) = (0.0, -0.0),
            _ => alts.reverse(),
        }
    }
    if n > 0 && g.below(7) == 0 {
        for _ in 0..1 + g.below(2) {
            alts[g.below(n as u64) as usize] = [f64::NAN, f64::INFINITY, f64::NEG_INFINITY, -1.0, 2500.5, f64::from_bits(g.next())][g.below(6) as usize];
        }
    }
    alts
}

// A density to the bit, its neighbours, a number between two, no number, an infinity, a zero, any bits.
pub fn level(g: &mut Random, d: &[f64]) -> f64 {
    let one = |g: &mut Random| if d.is_empty() { 1E-12 } else { d[g.below(d.len() as u64) as usize] };
    match g.below(16) {
        0 => f64::NAN,
        1 => f64::INFINITY,
        2 => f64::NEG_INFINITY,
        3 => [0.0, -0.0][g.below(2) as usize],
        4 => f64::from_bits(g.next()),
        5..=8 => one(g),
        9 => f64::from_bits(one(g).to_bits().wrapping_add(1)),
        10 => f64::from_bits(one(g).to_bits().wrapping_sub(1)),
        _ => 0.5 * (one(g) + one(g)),
    }
}

// Every refusal that fits, in the order in which the call has them; the last two only where those before leave a list.
fn refusals(r: &Input, w: &[i32; 24], lengths: [usize; 3], alts: &[f64], wanted: Option<(usize, usize)>) -> Vec<(u64, u64)> {
    let mut all = Vec::new();
    all.extend(slices_refused(lengths));
    all.extend((alts.len() > 512).then_some((5, 512)));
    all.extend(record_refused(r, w));
    all.extend(altitudes_refused(alts, w));
    all.extend((1..alts.len()).find(|k| !(alts[*k] > alts[k - 1])).map(|k| (8, k as u64)));
    all.extend(wanted.filter(|(have, need)| have < need).map(|(_, need)| (9, need as u64)));
    all
}

// Answer, list, the rest of the buffer and what lies around it.
pub fn crossings(g: &mut Random, count: u64) -> u64 {
    let (mut bad, mut listed, mut indices, mut longest, mut several, mut nan) = (0u64, 0u64, 0u64, 0, 0u64, 0u64);
    let mut refused = [0u64; 11];
    for i in 0..count {
        let (w, mut r) = row_and_record(g, i % 6 == 0);
        let alts = column(g);
        let (fields, ap, n_ap) = numbers(&r);
        let mut lengths = [8, n_ap, 24];
        if g.below(30) == 0 {
            lengths[g.below(3) as usize] = g.below(8) as usize;
            r.ap_array = [None, r.ap_array, Some(ap)][lengths[1].div_ceil(6)];
        }
        let checked = refusals(&r, &w, lengths, &alts, None);
        let d = if checked.is_empty() { densities(&r, w, &alts) } else { Vec::new() };
        nan += d.iter().any(|x| x.is_nan()) as u64;
        let z = level(g, &d);
        let want_list = list(&d, z);
        let need = want_list.len();
        let len = if need > 0 && g.below(5) == 0 { g.below(need as u64) as usize } else { need + g.below(4) as usize };
        let all = refusals(&r, &w, lengths, &alts, checked.is_empty().then_some((len, need)));
        several += (all.len() > 1) as u64;
        // the buffer lies between guards
        let before: Vec<u64> = (0..len + 6).map(|_| g.next()).collect();
        let mut memory = before.clone();
        let answer = ours(r.year, r.doy, &fields[..lengths[0].min(8)], &ap[..lengths[1].min(7)], &w[..lengths[2].min(24)], &alts, z, &mut memory[3..3 + len]);
        let mut expect = before;
        let want = match all.first() {
            Some(first) => {
                refused[first.0 as usize] += 1;
                *first
            }
            None => {
                listed += 1;
                indices += need as u64;
                longest = longest.max(need);
                expect[3..3 + need].copy_from_slice(&want_list);
                (0, need as u64)
            }
        };
        if answer != want || memory != expect {
            bad += 1;
            if bad <= 3 {
                println!("crossings differ: answer {answer:?}, wanted {want:?}, {r:?} {w:?} {alts:?} level {z:e}\n  {memory:?}\n  {expect:?}");
            }
        }
    }
    let by: Vec<String> = (1..11).filter(|k| refused[*k] > 0).map(|k| format!("{} with {k}", refused[k])).collect();
    println!("crossings: {count} columns, {listed} listed with {indices} indices, the longest list of {longest} ({nan} columns with a NaN), refused {} ({several} had more than one reason), {bad} differences", by.join(", "));
    bad
}

// The list over a column of 512 altitudes against 512 calls of the untouched Rust.
pub fn time() {
    let r = sample(172, 29000.0, 0.0, 60.0, -70.0, 16.0, 150.0, 150.0, 4.0);
    let w = [1; 24];
    let alts: Vec<f64> = (0..512).map(|k| 1000.0 * k as f64 / 511.0).collect();
    let (fields, ap, n_ap) = numbers(&r);
    let (mut best, mut best_rust, mut sum) = (f64::INFINITY, f64::INFINITY, 0);
    for _ in 0..15 {
        let mut buffer = [0; 511];
        let t = Instant::now();
        let (_, n) = ours(r.year, r.doy, &fields, &ap[..n_ap], &w, &alts, 1E-12, &mut buffer);
        best = best.min(t.elapsed().as_nanos() as f64 / 512.0);
        sum += n;
        let flags = untouched::astro::atmosphere::Flags::new(w);
        let t = Instant::now();
        let d: Vec<f64> = alts.iter().map(|z| untouched::astro::atmosphere::gtd7(&Input { alt: *z, ..r }, &flags).unwrap().d[5]).collect();
        sum += list(&d, 1E-12).len() as u64;
        best_rust = best_rust.min(t.elapsed().as_nanos() as f64 / 512.0);
    }
    println!("crossings in a column of 512 from 0 to 1000 km, ns per altitude: {best:.0}, the untouched Rust {best_rust:.0}, ratio {:.2}{}", best / best_rust, if sum == 1 { "!" } else { "" });
}
