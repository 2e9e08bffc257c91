// The first altitude of a column whose d[5] is below a level: our call against the routed Rust's rows, and time to a hit.
use crate::crossings::level;
use crate::calls::{first_below as ours, numbers, ours_column, NOWHERE};
use crate::random::Random;
use crate::{altitude, altitudes_refused, record_refused, row_and_record, same, sample, slices_refused, to_routed, Input};
use std::time::Instant;

// Numbers that stand before and behind the lent row.
const GUARD: usize = 3;

// The routed Rust's row at each altitude.
fn rows(r: &Input, w: [i32; 24], alts: &[f64]) -> Vec<[f64; 11]> {
    alts.iter().map(|z| routed::astro::atmosphere::shim::gtd7(&to_routed(&Input { alt: *z, ..*r }), w).0).collect()
}

// Altitudes in any order, now and then rising, falling, all the same, or unfit somewhere; 0 to 513 of them.
fn column(g: &mut Random) -> Vec<f64> {
    let n = match g.below(400) {
        0 => 513,
        1 => 512,
        2..=30 => g.below(2) as usize,
        31..=34 => 64,
        _ => g.below(12) as usize,
    };
    let mut alts: Vec<f64> = (0..n).map(|_| altitude(g)).collect();
    match g.below(8) {
        0 | 1 => alts.sort_by(f64::total_cmp),
        2 => alts.sort_by(|a, b| b.total_cmp(a)),
        3 if n > 0 => alts = vec![alts[0]; n],
        4 if n > 0 => alts[g.below(n as u64) as usize] = 32.5,
        _ => (),
    }
    if n > 0 && g.below(7) == 0 {
        for _ in 0..1 + g.below(2) {
            alts[g.below(n as u64) as usize] = [f64::NAN, f64::INFINITY, f64::NEG_INFINITY, -1.0, 2500.5, f64::from_bits(g.next())][g.below(6) as usize];
        }
    }
    alts
}

// Every refusal that fits, in the order in which the call has them; lengths are those of the row, the fields, the array, the switches.
fn refusals(r: &Input, w: &[i32; 24], lengths: [usize; 4], alts: &[f64]) -> Vec<(u64, u64)> {
    let [row, fields, ap, switches] = lengths;
    let mut all = Vec::new();
    all.extend((row != 11).then_some((4, 11)));
    all.extend(slices_refused([fields, ap, switches]));
    all.extend((alts.len() > 512).then_some((5, 512)));
    all.extend(record_refused(r, w));
    all.extend(altitudes_refused(alts, w));
    all
}

// Answer, row and what lies around it.
pub fn first_below(g: &mut Random, count: u64) -> u64 {
    let (mut bad, mut hits, mut first, mut nowhere, mut several, mut nan) = (0u64, 0u64, 0u64, 0u64, 0u64, 0u64);
    let mut refused = [0u64; 11];
    for i in 0..count {
        let (w, mut r) = row_and_record(g, i % 6 == 0);
        let alts = column(g);
        let (fields, ap, n_ap) = numbers(&r);
        let mut lengths = [11, 8, n_ap, 24];
        if g.below(20) == 0 {
            lengths[g.below(4) as usize] = g.below(8) as usize;
            r.ap_array = [None, r.ap_array, Some(ap)][lengths[2].div_ceil(6)];
        }
        if g.below(60) == 0 {
            lengths[0] = 12 + g.below(3) as usize;
        }
        let all = refusals(&r, &w, lengths, &alts);
        several += (all.len() > 1) as u64;
        let made = if all.is_empty() { rows(&r, w, &alts) } else { Vec::new() };
        let d: Vec<f64> = made.iter().map(|row| row[5]).collect();
        nan += d.iter().any(|x| x.is_nan()) as u64;
        let z = level(g, &d);
        // the row lies between guards
        let before: Vec<f64> = (0..lengths[0] + 2 * GUARD).map(|_| f64::from_bits(g.next())).collect();
        let mut memory = before.clone();
        let answer =
            ours(r.year, r.doy, &fields[..lengths[1].min(8)], &ap[..lengths[2].min(7)], &w[..lengths[3].min(24)], &alts, z, &mut memory[GUARD..GUARD + lengths[0]]);
        let mut expect = before;
        let want = match (all.first(), d.iter().position(|x| *x < z)) {
            (Some(one), _) => {
                refused[one.0 as usize] += 1;
                *one
            }
            (None, Some(k)) => {
                hits += 1;
                first += (k == 0) as u64;
                expect[GUARD..GUARD + 11].copy_from_slice(&made[k]);
                (0, k as u64)
            }
            (None, None) => {
                nowhere += 1;
                (0, NOWHERE)
            }
        };
        // bits outside a row that was filled, numbers in it
        let filled = GUARD..GUARD + if want.0 == 0 && want.1 != NOWHERE { 11 } else { 0 };
        let kept = (0..memory.len()).all(|k| if filled.contains(&k) { same(memory[k], expect[k]) } else { memory[k].to_bits() == expect[k].to_bits() });
        if answer != want || !kept {
            bad += 1;
            if bad <= 3 {
                println!("first below differ: answer {answer:?}, wanted {want:?}, {r:?} {w:?} {alts:?} level {z:e}\n  {memory:?}\n  {expect:?}");
            }
        }
    }
    let by: Vec<String> = (1..11).filter(|k| refused[*k] > 0).map(|k| format!("{} with {k}", refused[k])).collect();
    println!("first below: {count} columns, {hits} with a hit ({first} at index 0), {nowhere} with none ({nan} columns with a NaN), refused {} ({several} had more than one reason), {bad} differences", by.join(", "));
    bad
}

// A hit at index k of 512 altitudes against a column of the k + 1 first.
pub fn time() {
    let r = sample(172, 29000.0, 0.0, 60.0, -70.0, 16.0, 150.0, 150.0, 4.0);
    let w = [1; 24];
    let alts: Vec<f64> = (0..512).map(|k| 1000.0 * k as f64 / 511.0).collect();
    let (fields, ap, n_ap) = numbers(&r);
    let mut all = vec![0.0; 11 * 512];
    ours_column(&r, &w, &alts, &mut all);
    println!("the first thin altitude of 512 from 0 to 1000 km, us to a hit at an index, and of a column that ends there:");
    for k in [0, 31, 127, 255, 511] {
        // d[5] falls from one altitude to the next, save where it is NaN
        let z = all[11 * k + 5] * 1.000001;
        let (mut best, mut best_column, mut sum) = (f64::INFINITY, f64::INFINITY, 0.0);
        for _ in 0..15 {
            let mut row = [0.0; 11];
            let t = Instant::now();
            let (_, hit) = ours(r.year, r.doy, &fields, &ap[..n_ap], &w, &alts, z, &mut row);
            best = best.min(t.elapsed().as_nanos() as f64 / 1000.0);
            assert_eq!(hit, k as u64);
            let mut part = vec![0.0; 11 * (k + 1)];
            let t = Instant::now();
            ours_column(&r, &w, &alts[..k + 1], &mut part);
            best_column = best_column.min(t.elapsed().as_nanos() as f64 / 1000.0);
            sum += row[5] + part[5];
        }
        println!("  {k:4}: {best:8.1} {best_column:8.1}{}", if sum == 1.5 { "!" } else { "" });
    }
}
