// Bands of switch rows: texts against a reading of document 02 of its own, and densities in bands against the routed Rust with the band's row.
use super::lines::Reader;
use super::{answered, numbers, record, row_of, same, spoiled, Random, GTD7};

extern "C" {
    fn potirehu_bands(text: *const u8, n_text: usize, table: *mut i32, n_table: usize) -> u64;
    fn potirehu_bands_gtd7(
        table: *const i32,
        n_table: usize,
        metre: i64,
        year: i32,
        doy: i32,
        fields: *const f64,
        n_fields: usize,
        ap_array: *const f64,
        n_ap: usize,
        row: *mut f64,
        n_row: usize,
    ) -> u64;
}

// The header's POTIREHU_BANDS.
const TABLE: usize = super::calls::header("#define POTIREHU_BANDS ");

// Numbers that stand before and behind a lent slice.
const GUARD: usize = 8;

#[derive(Clone)]
struct Band {
    from: i32,
    to: i32,
    row: [i32; 24],
}

// ---- document 02's reading

fn band(line: &[u8]) -> Option<Band> {
    if line.len() > 511 {
        return None;
    }
    let mut r = Reader(line);
    r.text("(band ")?;
    let from = r.number()?;
    r.text(" ")?;
    let to = r.number()?;
    r.text(" (switches")?;
    let row = r.numbers()?;
    r.text(")")?;
    r.0.is_empty().then_some(Band { from, to, row })
}

// 11 over all lines, then 12 and 13 line by line, then 13 for a table that ends short.
fn read(text: &[u8]) -> Result<Vec<Band>, (u64, u64)> {
    let mut lines: Vec<&[u8]> = text.split(|c| *c == b'\n').collect();
    if lines.last() == Some(&&b""[..]) {
        lines.pop();
    }
    let mut bands = Vec::new();
    for (i, line) in lines.iter().enumerate() {
        match band(line) {
            Some(b) if i < 64 && b.from < b.to && b.to <= 2_500_001 => bands.push(b),
            _ => return Err((11, i as u64 + 1)),
        }
    }
    let mut last = 0;
    for (i, b) in bands.iter().enumerate() {
        if b.from != last {
            return Err((if b.from < last { 12 } else { 13 }, i as u64 + 1));
        }
        last = b.to;
    }
    if last < 2_500_001 {
        return Err((13, bands.len() as u64 + 1));
    }
    Ok(bands)
}

// ---- texts

fn line(b: &Band) -> String {
    let row: Vec<String> = b.row.iter().map(|x| x.to_string()).collect();
    format!("(band {} {} (switches {}))", b.from, b.to, row.join(" "))
}

// Bands that cover, often few of them; 64, 65 and 66 too.
fn cover(g: &mut Random) -> Vec<Band> {
    let n = match g.below(16) {
        0 => 64 + g.below(3),
        1 => 1 + g.below(64),
        _ => 1 + g.below(6),
    };
    let mut cuts: Vec<i32> = (1..n).map(|_| if n < 64 && g.below(4) == 0 { [1, 32_500, 72_500, 2_500_000][g.below(4) as usize] } else { 1 + g.below(2_500_000) as i32 }).collect();
    cuts.extend([0, 2_500_001]);
    cuts.sort();
    cuts.dedup();
    cuts.windows(2)
        .map(|c| {
            let mut row = row_of(g);
            // nine digits at most can be written
            row.iter_mut().for_each(|x| *x = (*x).clamp(-999_999_999, 999_999_999));
            Band { from: c[0], to: c[1], row }
        })
        .collect()
}

fn faulty(g: &mut Random, bands: &mut Vec<Band>) {
    let i = g.below(bands.len() as u64) as usize;
    let by = [-1, 1, -1000, 7][g.below(4) as usize];
    match g.below(7) {
        0 => bands[i].from += by,
        1 => bands[i].to += by,
        2 => bands[i].to = bands[i].from,
        3 => {
            bands.remove(i);
        }
        4 => bands.insert(i, bands[i].clone()),
        5 => {
            let j = g.below(bands.len() as u64) as usize;
            bands.swap(i, j);
        }
        _ => bands.truncate(i),
    }
    if bands.is_empty() {
        bands.push(Band { from: 0, to: 2_500_001, row: [1; 24] });
    }
}

// A byte changed, put in or dropped; an empty line, a long one, a carriage return.
fn hostile(g: &mut Random, text: &mut Vec<u8>) {
    let i = g.below(text.len() as u64 + 1) as usize;
    let c = if g.below(2) == 0 { b" ()-0123456789\n\rband"[g.below(20) as usize] } else { g.next() as u8 };
    match g.below(5) {
        0 if i < text.len() => text[i] = c,
        1 if i < text.len() => {
            text.remove(i);
        }
        2 => text.insert(i, b'\n'),
        3 => {
            let long = vec![b'1'; 600];
            text.splice(i..i, long);
        }
        _ => text.insert(i, c),
    }
}

fn text(g: &mut Random) -> Vec<u8> {
    let mut bands = cover(g);
    for _ in 0..[0, 0, 1, 1, 2, 3][g.below(6) as usize] {
        faulty(g, &mut bands);
    }
    let mut text: Vec<u8> = bands.iter().map(line).collect::<Vec<_>>().join("\n").into_bytes();
    if g.below(2) == 0 {
        text.push(b'\n');
    }
    if g.below(4) == 0 {
        for _ in 0..1 + g.below(3) {
            hostile(g, &mut text);
        }
    }
    match g.below(200) {
        0 => Vec::new(),
        1 => b"\n".to_vec(),
        _ => text,
    }
}

// The table that a text gives: the count, then TO and the switches of each band; what lies behind stays.
fn filled(bands: &[Band], before: &[i32]) -> Vec<i32> {
    let mut t = before.to_vec();
    t[0] = bands.len() as i32;
    for (k, b) in bands.iter().enumerate() {
        t[1 + 25 * k] = b.to;
        t[2 + 25 * k..26 + 25 * k].copy_from_slice(&b.row);
    }
    t
}

fn code(e: (u64, u64)) -> u64 {
    (e.0 << 32) + e.1
}

pub fn texts(g: &mut Random, count: u64) -> u64 {
    let (mut bad, mut accepted, mut refused, mut full, mut over) = (0, 0u64, [0u64; 4], 0u64, 0u64);
    for _ in 0..count {
        let text = text(g);
        let lines = text.iter().filter(|c| **c == b'\n').count() + (text.last().is_some_and(|c| *c != b'\n') as usize);
        full += (lines == 64) as u64;
        over += (lines > 64) as u64;
        let n = if g.below(20) == 0 { [0, 1, TABLE - 1, TABLE + 1][g.below(4) as usize] } else { TABLE };
        let before: Vec<i32> = (0..n + 2 * GUARD).map(|_| g.next() as i32).collect();
        let mut table = before.clone();
        let answer = unsafe { potirehu_bands(text.as_ptr(), text.len(), table.as_mut_ptr().add(GUARD), n) };
        let want = if n != TABLE { Err((4, TABLE as u64)) } else { read(&text) };
        let mut after = before.clone();
        let number = match &want {
            Ok(bands) => {
                accepted += 1;
                after[GUARD..GUARD + n].copy_from_slice(&filled(bands, &before[GUARD..GUARD + n]));
                0
            }
            Err(e) => {
                refused[[4, 11, 12, 13].iter().position(|k| *k == e.0).unwrap()] += 1;
                code(*e)
            }
        };
        if answer != number || table != after {
            bad += 1;
            if bad == 1 {
                println!("bands differ: {answer:x} against {number:x}: {}", String::from_utf8_lossy(&text));
            }
        }
    }
    println!("bands: {count} texts ({full} of 64 lines, {over} of more), {accepted} accepted, refused with 4, 11, 12, 13: {refused:?}, {bad} differences");
    bad
}

// ---- densities

pub fn densities(g: &mut Random, count: u64) -> u64 {
    let (mut bad, mut accepted, mut refused, mut done, mut tables) = (0, 0u64, [0u64; 11], 0, 0u64);
    while done < count {
        let bands = cover(g);
        let text = bands.iter().map(line).collect::<Vec<_>>().join("\n");
        let mut table: Vec<i32> = (0..TABLE).map(|_| g.next() as i32).collect();
        let read = unsafe { potirehu_bands(text.as_ptr(), text.len(), table.as_mut_ptr(), TABLE) };
        if bands.len() > 64 {
            continue;
        }
        tables += 1;
        bad += (read != 0) as u64;
        // each band's two ends, metres beside the whole, and metres at random
        let mut metres: Vec<i64> = bands.iter().flat_map(|b| [b.from as i64, b.to as i64 - 1]).collect();
        metres.extend([-1, 2_500_001, i64::MIN, i64::MAX, 32_500, 72_500, 72_499]);
        metres.extend((0..8).map(|_| g.below(2_500_001) as i64));
        for metre in metres {
            done += 1;
            let mut r = record(g);
            if g.below(8) == 0 {
                r = spoiled(g, r);
            }
            // at times a slice of another length, refused in this order: row, table, fields, ap_array
            let odd = |g: &mut Random, n: usize| if g.below(40) == 0 { g.below(n as u64) as usize } else { n };
            let (n_row, n_table, n_fields) = (odd(g, 11), odd(g, TABLE), odd(g, 8));
            let before: Vec<f64> = (0..n_row + 2 * GUARD).map(|_| f64::from_bits(g.next())).collect();
            let mut row = before.clone();
            let (fields, ap, there) = numbers(&r);
            let n_ap = if g.below(40) == 0 { g.below(7) as usize } else { there };
            let answer = unsafe {
                potirehu_bands_gtd7(table.as_ptr(), n_table, metre, r.year, r.doy, fields.as_ptr(), n_fields, ap.as_ptr(), n_ap, row.as_mut_ptr().add(GUARD), n_row)
            };
            let mut after = before.clone();
            let want = if n_row != 11 {
                (4, 11)
            } else if n_table != TABLE {
                (4, TABLE as u64)
            } else if n_fields != 8 {
                (4, 8)
            } else if n_ap != 0 && n_ap != 7 {
                (4, 7)
            } else {
                if n_ap == 0 {
                    r.ap_array = None;
                }
                match bands.iter().find(|b| (b.from as i64..b.to as i64).contains(&metre)) {
                    None => (3, 3),
                    Some(b) => {
                        r.alt = metre as f64 / 1000.0;
                        let want = answered(&r, &b.row);
                        if want == (0, 0) {
                            after[GUARD..GUARD + 11].copy_from_slice(&(GTD7.routed)(&r, b.row));
                        }
                        want
                    }
                }
            };
            if want == (0, 0) {
                accepted += 1;
            } else {
                refused[want.0 as usize] += 1;
            }
            let kept = |k: usize| row[k].to_bits() == before[k].to_bits();
            let equal = (0..row.len()).all(|k| if want == (0, 0) && (GUARD..GUARD + 11).contains(&k) { same(row[k], after[k]) } else { kept(k) });
            if answer != code(want) || !equal {
                bad += 1;
                if bad == 1 {
                    println!("densities in bands differ: {answer:x} against {want:?} at {metre}: {r:?}");
                }
            }
        }
    }
    println!("densities in bands: {done} in {tables} tables, {accepted} accepted, refused with 1, 2, 3, 4, 10: {:?}, {bad} differences", [1, 2, 3, 4, 10].map(|k: usize| refused[k]));
    bad
}
