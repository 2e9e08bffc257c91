// Descents orbit by orbit: our call against a simulation on the routed Rust's densities, and time per orbit.
use crate::calls::{descent as ours, numbers};
use crate::random::Random;
use crate::{record_refused, row_and_record, sample, slices_refused, to_routed, Input};
use std::time::Instant;

const LOWEST: i64 = 200_000_000;
const HIGHEST: i64 = 1_000_000_000;

// d[5] of the routed Rust, switch 0 taken as 1.
fn density(r: &Input, w: &[i32; 24], a: i64) -> f64 {
    let mut w = *w;
    w[0] = 1;
    routed::astro::atmosphere::shim::gtd7(&to_routed(&Input { alt: a as f64 / 1E6, ..*r }), w).0[5]
}

// Document 02's simulation: the ending, the last altitude, the losses.
fn simulated(d: impl Fn(i64) -> f64, start: i64, settings: &[i32]) -> (i64, i64, Vec<i64>) {
    let (mut a, mut losses) = (start, Vec::new());
    for s in settings {
        let x = (d(a) * 1E15) * *s as f64;
        if x < 0.0 || x.is_nan() || x > 1E9 {
            return (1, a, losses);
        }
        let loss = x.floor() as i64;
        if a - loss < LOWEST {
            return (2, a, losses);
        }
        a -= loss;
        losses.push(loss);
    }
    (3, a, losses)
}

// Near 200 km, where orbits are few; anywhere from there to 1,000 km; the two ends and one beyond; any number.
fn start(g: &mut Random) -> i64 {
    match g.below(24) {
        0 => LOWEST,
        1 => HIGHEST,
        2 => [LOWEST - 1, HIGHEST + 1, 0, -LOWEST, i64::MIN, i64::MAX][g.below(6) as usize],
        3 => g.next() as i64,
        4..=11 => LOWEST + g.below(3_000_000) as i64,
        12..=15 => LOWEST + g.below(100_000_000) as i64,
        _ => LOWEST + g.below(800_000_001) as i64,
    }
}

fn settings(g: &mut Random) -> Vec<i32> {
    let n = match g.below(2000) {
        0 => 10_001,
        1 => 10_000,
        2..=20 => 200,
        21..=120 => 0,
        _ => 1 + g.below(12),
    };
    let mut all: Vec<i32> = (0..n).map(|_| 1 + g.below(4) as i32).collect();
    if n > 0 && g.below(10) == 0 {
        for _ in 0..1 + g.below(2) {
            all[g.below(n) as usize] = [0, 5, -1, i32::MIN, i32::MAX, g.next() as i32][g.below(6) as usize];
        }
    }
    all
}

// Every refusal that fits, in the order in which the call has them.
fn refusals(r: &Input, w: &[i32; 24], lengths: [usize; 3], start: i64, settings: &[i32], room: usize, ends: usize) -> Vec<(u64, u64)> {
    let mut all = Vec::new();
    all.extend((ends != 3).then_some((4, 3)));
    all.extend(slices_refused(lengths));
    all.extend(record_refused(r, w));
    all.extend((!(LOWEST..=HIGHEST).contains(&start)).then_some((17, 0)));
    all.extend(settings.iter().position(|s| !(1..=4).contains(s)).map(|k| (18, k as u64 + 1)));
    if settings.len() > 10_000 {
        all.push((19, 10_000));
    } else if room < settings.len() {
        all.push((19, settings.len() as u64));
    }
    all
}

// Answer, losses, the rest of their list, the three numbers and what lies around both.
pub fn descents(g: &mut Random, count: u64) -> u64 {
    let (mut bad, mut orbits, mut several) = (0u64, 0u64, 0u64);
    let (mut refused, mut endings) = ([0u64; 20], [0u64; 4]);
    for i in 0..count {
        let (w, mut r) = row_and_record(g, i % 6 == 0);
        let (start, settings) = (start(g), settings(g));
        let (fields, ap, n_ap) = numbers(&r);
        let mut lengths = [8, n_ap, 24];
        if g.below(30) == 0 {
            lengths[g.below(3) as usize] = g.below(8) as usize;
            r.ap_array = [None, r.ap_array, Some(ap)][lengths[1].div_ceil(6)];
        }
        let room = match g.below(12) {
            0 => g.below(settings.len() as u64 + 1) as usize,
            _ => settings.len() + g.below(4) as usize,
        };
        let ends = if g.below(40) == 0 { g.below(6) as usize } else { 3 };
        let all = refusals(&r, &w, lengths, start, &settings, room, ends);
        several += (all.len() > 1) as u64;
        // both slices lie between guards
        let before: Vec<i64> = (0..room + 6).map(|_| g.next() as i64).collect();
        let before_end: Vec<i64> = (0..ends + 6).map(|_| g.next() as i64).collect();
        let (mut memory, mut memory_end) = (before.clone(), before_end.clone());
        let answer = ours(
            r.year,
            r.doy,
            &fields[..lengths[0].min(8)],
            &ap[..lengths[1].min(7)],
            &w[..lengths[2].min(24)],
            start,
            &settings,
            &mut memory[3..3 + room],
            &mut memory_end[3..3 + ends],
        );
        let (mut expect, mut expect_end) = (before, before_end);
        let want = match all.first() {
            Some(first) => {
                refused[first.0 as usize] += 1;
                *first
            }
            None => {
                let (ending, last, losses) = simulated(|a| density(&r, &w, a), start, &settings);
                endings[ending as usize] += 1;
                orbits += losses.len() as u64;
                expect[3..3 + losses.len()].copy_from_slice(&losses);
                expect_end[3..6].copy_from_slice(&[ending, last, losses.len() as i64]);
                (0, 0)
            }
        };
        if answer != want || memory != expect || memory_end != expect_end {
            bad += 1;
            if bad <= 3 {
                println!("descents differ: answer {answer:?}, wanted {want:?}, {r:?} {w:?} {start} {settings:?}\n  {memory_end:?} {memory:?}\n  {expect_end:?} {expect:?}");
            }
        }
    }
    let by: Vec<String> = (1..20).filter(|k| refused[*k] > 0).map(|k| format!("{} with {k}", refused[k])).collect();
    println!("descents: {count}, of them {} without density, {} reached, {} spent, {orbits} orbits flown, refused {} ({several} had more than one reason), {bad} differences", endings[1], endings[2], endings[3], by.join(", "));
    bad
}

// 10,000 orbits against 10,000 calls of the untouched Rust at the same altitudes.
pub fn time() {
    let r = sample(172, 29000.0, 0.0, 60.0, -70.0, 16.0, 150.0, 150.0, 4.0);
    let w = [1; 24];
    let settings: Vec<i32> = (0..10_000).map(|k| 1 + k % 4).collect();
    let (fields, ap, n_ap) = numbers(&r);
    let (mut best, mut best_rust, mut same) = (f64::INFINITY, f64::INFINITY, true);
    for _ in 0..9 {
        let (mut losses, mut end) = (vec![0; 10_000], [0; 3]);
        let t = Instant::now();
        ours(r.year, r.doy, &fields, &ap[..n_ap], &w, 500_000_000, &settings, &mut losses, &mut end);
        best = best.min(t.elapsed().as_nanos() as f64 / 10_000.0);
        let flags = untouched::astro::atmosphere::Flags::new(w);
        let t = Instant::now();
        let other = simulated(|a| untouched::astro::atmosphere::gtd7(&Input { alt: a as f64 / 1E6, ..r }, &flags).unwrap().d[5], 500_000_000, &settings);
        best_rust = best_rust.min(t.elapsed().as_nanos() as f64 / 10_000.0);
        same &= end[0] == 3 && other.0 == 3;
    }
    println!("a descent of 10,000 orbits from 500 km, ns per orbit: {best:.0}, the untouched Rust {best_rust:.0}, ratio {:.2}{}", best / best_rust, if same { "" } else { ", not spent" });
}
