// Many records under one row: each answer and row against the one-altitude call on that record, and time per record.
use crate::calls::{numbers, records as ours, records_of_lengths};
use crate::random::Random;
use crate::stations::best;
use crate::{altitude, record, row_of, same, sample, spoiled, timed, Input};

// Numbers that stand before and behind what is lent.
const GUARD: usize = 8;

// A list, a record the next of the one before it: of another kind, or with some fields others and some the same.
fn list(g: &mut Random, n: usize) -> Vec<Input> {
    let (track, spoil) = (g.below(3), g.below(3));
    let home = record(g);
    let other_day = 1 + g.below(366) as i32;
    let mut before = home;
    let mut all: Vec<Input> = Vec::with_capacity(n);
    for _ in 0..n {
        let new = record(g);
        let mut r = match track {
            // any record
            0 => new,
            // along a track, one day and one altitude
            1 => Input { sec: new.sec, g_lat: new.g_lat, g_long: new.g_long, lst: new.lst, ..before },
            // each field stays or not
            _ => {
                let mut stays = || g.below(3) > 0;
                Input {
                    sec: if stays() { before.sec } else { new.sec },
                    g_lat: if stays() { before.g_lat } else { new.g_lat },
                    g_long: if stays() { before.g_long } else { new.g_long },
                    lst: if stays() { before.lst } else { new.lst },
                    f107a: if stays() { before.f107a } else { new.f107a },
                    f107: if stays() { before.f107 } else { new.f107 },
                    ap: if stays() { before.ap } else { new.ap },
                    ap_array: if stays() { before.ap_array } else { new.ap_array },
                    ..before
                }
            }
        };
        if track == 2 {
            // the day before, one of two days, or any; the altitude before, one close by, or any
            match g.below(6) {
                0 => r.doy = other_day,
                1 => r.doy = home.doy,
                2 => r.doy = new.doy,
                _ => {}
            }
            match g.below(4) {
                0 => r.alt = altitude(g),
                1 => r.alt = (r.alt + g.between(-5.0, 5.0)).clamp(0.0, 2500.0),
                _ => {}
            }
        }
        before = r;
        // one refused between two others leaves nothing for the next
        if (spoil == 1 && g.below(5) == 0) || (spoil == 2 && g.below(2) == 0) {
            r = spoiled(g, r);
        }
        all.push(r);
    }
    all
}

// The slices of a list, a history for each record or for none.
fn slices(list: &[Input], histories: bool) -> (Vec<i32>, Vec<f64>, Vec<f64>) {
    let days = list.iter().map(|r| r.doy).collect();
    let fields = list.iter().flat_map(|r| numbers(r).0).collect();
    let ap = list.iter().filter(|_| histories).flat_map(|r| r.ap_array.unwrap_or([4.0; 7])).collect();
    (days, fields, ap)
}

// The slices whose lengths are judged, in this order.
const SLICES: [&str; 5] = ["rows", "answers", "fields", "ap_arrays", "switches"];

// The first of them, as they are lent, that has not the length needed, and that length.
fn refused(n: usize, [rows, answers, fields, ap_arrays, switches]: [usize; 5]) -> Option<(usize, u64)> {
    let n = n as u128;
    let judged = [
        (rows as u128 >= 11 * n, 11 * n),
        (answers as u128 >= n, n),
        (fields as u128 == 8 * n, 8 * n),
        (ap_arrays == 0 || ap_arrays as u128 == 7 * n, 7 * n),
        (switches == 24, 24),
    ];
    judged.iter().enumerate().find(|(_, (fits, _))| !fits).map(|(k, (_, needed))| (k, *needed as u64 & 0xffff_ffff))
}

// As the call answers it.
fn answer_of(refused: Option<(usize, u64)>) -> (u64, u64) {
    refused.map_or((0, 0), |(_, needed)| (4, needed))
}

// Lists of records, COUNT records together; one list in six has slices of other lengths.
pub fn records(g: &mut Random, count: u64) -> u64 {
    let (mut made, mut lists, mut behind, mut nan, mut wrong, mut bad) = (0u64, 0u64, 0u64, 0u64, [0u64; 5], 0u64);
    let mut by_number = [0u64; 11];
    while made < count {
        let n = match g.below(40) {
            0 => 0,
            1 => 1,
            2 => 300 + g.below(300) as usize,
            _ => g.below(24) as usize,
        };
        let histories = g.below(2) == 0;
        let mut w = row_of(g).to_vec();
        if w[9] == -1 && !histories && g.below(4) > 0 {
            w[9] = 1;
        }
        let list = list(g, n);
        let (days, mut fields, mut ap) = slices(&list, histories);
        let mut rows_lent = 11 * n + if g.below(2) == 0 { 0 } else { g.below(30) as usize };
        let mut answers_lent = n + if g.below(2) == 0 { 0 } else { g.below(5) as usize };
        let mut other = |len: usize| match g.below(4) {
            0 => 0,
            1 => len.saturating_sub(1),
            2 => len + 1,
            _ => len.saturating_sub(8),
        };
        if lists % 6 == 0 {
            let choice = other(31);
            rows_lent = if choice % 3 == 0 { other(11 * n) } else { rows_lent };
            answers_lent = if choice % 2 == 0 { other(n) } else { answers_lent };
            let (n_fields, n_ap, n_switches) = (other(8 * n), other(ap.len()), other(24));
            if g.below(2) == 0 {
                fields.resize(n_fields, 1.0);
            }
            if g.below(2) == 0 {
                ap.resize(n_ap, 4.0);
            }
            if g.below(2) == 0 {
                w.resize(n_switches, 1);
            }
        }
        // as the call sees it
        let histories = !ap.is_empty();
        let before_rows: Vec<f64> = (0..rows_lent + 2 * GUARD).map(|_| f64::from_bits(g.next())).collect();
        let before_answers: Vec<u64> = (0..answers_lent + 2 * GUARD).map(|_| g.next()).collect();
        let (mut rows, mut answers) = (before_rows.clone(), before_answers.clone());
        let answer = ours(&days, &fields, &ap, &w, &mut answers[GUARD..GUARD + answers_lent], &mut rows[GUARD..GUARD + rows_lent]);
        let short = refused(n, [rows_lent, answers_lent, fields.len(), ap.len(), w.len()]);
        let want = answer_of(short);

        let (mut expect_rows, mut expect_answers) = (before_rows.clone(), before_answers);
        // what an accepted record writes, where a NaN is a NaN; all the rest is as it was, to the bit
        let mut written = vec![false; rows.len()];
        if let Some((slice, _)) = short {
            wrong[slice] += 1;
        } else {
            let row: [i32; 24] = w[..].try_into().expect("24 switches");
            for (k, r) in list.iter().enumerate() {
                let one = Input { year: 0, ap_array: histories.then(|| r.ap_array.unwrap_or([4.0; 7])), ..*r };
                let at = GUARD + 11 * k;
                let (number, place) = crate::ours(&one, &row, &mut expect_rows[at..at + 11]);
                expect_answers[GUARD + k] = (number << 32) + place;
                by_number[number as usize] += 1;
                if number == 0 {
                    written[at..at + 11].fill(true);
                    nan += expect_rows[at..at + 11].iter().any(|x| x.is_nan()) as u64;
                    behind += (k > 0 && list[k - 1].doy == r.doy) as u64;
                }
            }
        }
        let told = (0..rows.len()).all(|k| if written[k] { same(rows[k], expect_rows[k]) } else { rows[k].to_bits() == before_rows[k].to_bits() });
        if answer != want || answers != expect_answers || !told {
            bad += 1;
            if bad <= 3 {
                let row_differs = |at: usize| (at..at + 11).any(|i| !same(rows[i], expect_rows[i]));
                let differs = |k: &usize| answers[GUARD + k] != expect_answers[GUARD + k] || row_differs(GUARD + 11 * k);
                let first = (0..n).filter(|_| short.is_none()).find(differs);
                println!("records differ: answer {answer:?}, wanted {want:?}, {n} records under {w:?}");
                println!("  the first that differs, {first:?}, behind the one before it: {:?}", first.map(|k| &list[k.saturating_sub(1)..=k]));
            }
        }
        made += n as u64;
        lists += 1;
    }
    bad += vast(g);
    let refused: Vec<String> = (1..11).filter(|k| by_number[*k] > 0).map(|k| format!("{} with {k}", by_number[k])).collect();
    let lengths: Vec<String> = SLICES.iter().zip(wrong).map(|(slice, n)| format!("{n} for {slice}")).collect();
    println!(
        "records: {made} in {lists} lists, {} accepted ({nan} with a NaN, {behind} behind one of the same day), refused {}; \
         lists refused {}; {VAST} counts beyond 2^32; {bad} differences",
        by_number[0],
        refused.join(", "),
        lengths.join(", ")
    );
    bad
}

const VAST: u64 = 100_000;

// Counts whose products do not fit 64 bits, and lengths that only they would fit: refused before anything is read or written, so that nothing need lie there.
fn vast(g: &mut Random) -> u64 {
    let mut bad = 0;
    for _ in 0..VAST {
        let n = match g.below(3) {
            0 => [(1 << 32) + 3, 1 << 40, usize::MAX / 11, usize::MAX / 11 + 1, 1 << 60, 1 << 61, (1 << 61) + 1, 1 << 63, usize::MAX][g.below(9) as usize],
            1 => (g.next() >> g.below(29)) as usize | 1 << 34,
            _ => (1 << 32) + g.below(1 << 32) as usize,
        };
        let mut fit = |times: usize| match g.below(4) {
            0 => g.next() as usize,
            1 => n.wrapping_mul(times).wrapping_sub(1),
            _ => n.wrapping_mul(times),
        };
        let lengths = [fit(11), fit(1), fit(8), fit(7), 23];
        let (answer, want) = (records_of_lengths(n, lengths), answer_of(refused(n, lengths)));
        if answer != want {
            bad += 1;
            println!("records differ: {n} of lengths {lengths:?}: {answer:?}, wanted {want:?}");
        }
    }
    bad
}

// ---- time

// A day of a satellite at 400 km, 51.6 degrees inclined to the equator, every 10 s, the earth turning below it.
pub fn orbit() -> Vec<Input> {
    let (period, day) = (5553.6, 86164.1);
    (0..8640)
        .map(|k| {
            let sec = 10.0 * k as f64;
            let along = std::f64::consts::TAU * sec / period;
            let tilt = 51.6_f64.to_radians();
            let g_lat = (tilt.sin() * along.sin()).asin().to_degrees();
            let east = (tilt.cos() * along.sin()).atan2(along.cos()).to_degrees() - 360.0 * sec / day;
            let g_long = (east + 180.0).rem_euclid(360.0) - 180.0;
            let lst = (sec / 3600.0 + g_long / 15.0).rem_euclid(24.0);
            sample(172, sec, 400.0, g_lat, g_long, lst, 150.0, 150.0, 4.0)
        })
        .collect()
}

// The one-altitude call, the call for many records, the untouched Rust.
fn time_list(name: &str, list: &[Input]) {
    let w = [1; 24];
    let flags = untouched::astro::atmosphere::Flags::new(w);
    let (days, fields, _) = slices(list, false);
    let (mut answers, mut rows) = (vec![0; list.len()], vec![0.0; 11 * list.len()]);
    let [alone, many, rust] = best(
        15,
        list.len(),
        [
            &mut || {
                let mut row = [0.0; 11];
                list.iter().map(|r| crate::ours(r, &w, &mut row).0 as f64 + row[5]).sum()
            },
            &mut || {
                assert_eq!(ours(&days, &fields, &[], &w, &mut answers, &mut rows), (0, 0));
                rows[5]
            },
            &mut || list.iter().map(|r| untouched::astro::atmosphere::gtd7(r, &flags).unwrap().d[5]).sum(),
        ],
    );
    assert!(answers.iter().all(|a| *a == 0));
    println!("  {name}: {alone:8.0} {many:8.0} {rust:8.0} {:5.2} {:5.2}", alone / rust, many / rust);
}

pub fn time() {
    println!("ns per record, all switches on (the one-altitude call, the call for many records, untouched Rust, their ratios to it):");
    time_list("an orbit at 400 km, 10 s apart, one day", &orbit());
    for alt in [0.0, 50.0, 90.0, 150.0, 400.0, 1000.0] {
        let one_day: Vec<Input> = timed(alt, 1, 4096).0.iter().map(|r| Input { doy: 172, ..*r }).collect();
        time_list(&format!("random records of one day, {alt:6} km"), &one_day);
    }
    time_list("random records of any day, 400 km", &timed(400.0, 1, 4096).0);
}
