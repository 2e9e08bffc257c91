// The two boards' logs: our call against a reading of document 02 of its own, on logs of every length, with faults in every order.
use super::Random;

extern "C" {
    fn potirehu_logs(
        seconds_1: *const u64,
        n_seconds_1: usize,
        bits_1: *const u64,
        n_bits_1: usize,
        seconds_2: *const u64,
        n_seconds_2: usize,
        bits_2: *const u64,
        n_bits_2: usize,
        tolerance: u64,
        report: *mut u32,
        n_report: usize,
    ) -> u64;
}

#[derive(Debug)]
struct Log {
    seconds: Vec<u64>,
    bits: Vec<u64>,
}

// Numbers that stand before and behind the lent report.
const GUARD: usize = 8;

// Rising seconds, also at either end of u64, and bits that often agree; at times a number of entries too many, a second that does not rise, or
// a density too many or too few.
fn log(g: &mut Random) -> Log {
    let n = match g.below(8) {
        0 => [0, 1, 255, 256, 257, 300][g.below(6) as usize],
        1 => g.below(301) as usize,
        _ => g.below(24) as usize,
    };
    let step: u64 = [1, 2, 6, 1000, 1 << 56][g.below(5) as usize];
    let mut at = match g.below(6) {
        0 => 0,
        1 => u64::MAX - g.below(step.saturating_mul(30)),
        _ => g.below(30),
    };
    let mut seconds = Vec::new();
    for _ in 0..n {
        seconds.push(at);
        match at.checked_add(1 + g.below(step)) {
            Some(next) => at = next,
            None => break,
        }
    }
    if g.below(8) == 0 && seconds.len() > 1 {
        let i = 1 + g.below(seconds.len() as u64 - 1) as usize;
        seconds[i] = if g.below(2) == 0 { seconds[i - 1] } else { g.below(seconds[i - 1].saturating_add(1).max(1)) };
    }
    let mut bits: Vec<u64> = seconds.iter().map(|_| [0, 1 << 63, f64::NAN.to_bits(), 1.5f64.to_bits(), g.next()][g.below(5) as usize]).collect();
    if g.below(16) == 0 {
        if g.below(2) == 0 {
            bits.push(0);
        } else {
            bits.pop();
        }
    }
    Log { seconds, bits }
}

// Document 02: 14 for board 1, for board 2; then 15; else what is found, in the order it arises.
fn wanted(logs: &[Log; 2], tolerance: u64) -> Result<Vec<u32>, (u64, u64)> {
    for (k, l) in logs.iter().enumerate() {
        if l.seconds.len() > 256 || l.seconds.len() != l.bits.len() {
            return Err((14, k as u64 + 1));
        }
    }
    for (k, l) in logs.iter().enumerate() {
        if let Some(i) = (1..l.seconds.len()).find(|i| l.seconds[*i] <= l.seconds[i - 1]) {
            return Err((15, (256 * k + i) as u64));
        }
    }
    let [a, b] = logs;
    let (mut i, mut j, mut found) = (0, 0, Vec::new());
    while i < a.seconds.len() && j < b.seconds.len() {
        let apart = a.seconds[i] as i128 - b.seconds[j] as i128;
        if apart.abs() <= tolerance as i128 {
            found.push(if a.bits[i] == b.bits[j] { 1 } else { 2 });
            i += 1;
            j += 1;
        } else if apart < 0 {
            found.push(3);
            i += 1;
        } else {
            found.push(4);
            j += 1;
        }
    }
    found.extend(vec![3; a.seconds.len() - i]);
    found.extend(vec![4; b.seconds.len() - j]);
    Ok(found)
}

pub fn logs(g: &mut Random, count: u64) -> u64 {
    let (mut differences, mut accepted, mut refused) = (0, 0, [0u64; 3]);
    for _ in 0..count {
        let logs = [log(g), log(g)];
        let tolerance = [0, 1, 2, 5, g.below(2000), u64::MAX, g.next()][g.below(7) as usize];
        let n = if g.below(16) == 0 { [0, 1, 511, 513, 600][g.below(5) as usize] } else { 512 };
        let before: Vec<u32> = (0..n + 2 * GUARD).map(|_| g.next() as u32).collect();
        let mut report = before.clone();
        let [a, b] = &logs;
        let code = unsafe {
            potirehu_logs(
                a.seconds.as_ptr(),
                a.seconds.len(),
                a.bits.as_ptr(),
                a.bits.len(),
                b.seconds.as_ptr(),
                b.seconds.len(),
                b.bits.as_ptr(),
                b.bits.len(),
                tolerance,
                report.as_mut_ptr().add(GUARD),
                n,
            )
        };
        let expected = if n != 512 { Err((4, 512)) } else { wanted(&logs, tolerance) };
        let mut after = before.clone();
        let number = match &expected {
            Ok(found) => {
                accepted += 1;
                after[GUARD..GUARD + 512].fill(0);
                after[GUARD..GUARD + found.len()].copy_from_slice(found);
                found.len() as u64
            }
            Err((number, place)) => {
                refused[[4, 14, 15].iter().position(|x| x == number).unwrap()] += 1;
                (number << 32) + place
            }
        };
        if code != number || report != after {
            differences += 1;
            if differences == 1 {
                println!("logs differ: {code:x} against {number:x}, tolerance {tolerance}, {logs:?}");
            }
        }
    }
    println!("logs: {count} pairs, {accepted} accepted, refused with 4, 14, 15: {refused:?}, {differences} differences");
    differences
}
