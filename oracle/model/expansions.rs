// The public globe7 and glob7s against the routed Rust: the refusal, the value and all 79 numbers of State to the bit, from any State, row,
// record and coefficients.
use super::{numbers, record, row_of, same, set_field, spoiled, to_routed, Input, Random};
use routed::astro::atmosphere::shim;

type Call = unsafe extern "C" fn(
    i32,
    i32,
    *const f64,
    usize,
    *const f64,
    usize,
    *const i32,
    usize,
    *const f64,
    usize,
    *const f64,
    usize,
    *mut f64,
    usize,
) -> u64;

// A call: its value and the State after it go into numbers, the refusal comes back packed.
crate::calls::of_a_record! {
    expansion_globe7(p: *const f64, n_p: usize, state: *const f64, n_state: usize, numbers: *mut f64, n_numbers: usize);
    expansion_glob7s(p: *const f64, n_p: usize, state: *const f64, n_state: usize, numbers: *mut f64, n_numbers: usize);
}

type State = [f64; shim::STATE];

// What a call gives: the refusal with its place, the value, the State; after a refusal what the lent slice held.
struct Given {
    answer: (u64, u64),
    numbers: [f64; 1 + shim::STATE],
}

const LENT: [f64; 1 + shim::STATE] = [7.5; 1 + shim::STATE];

fn ours(call: Call, r: &Input, w: &[i32; 24], p: &[f64], s: &State) -> Given {
    let (f, ap, n_ap) = numbers(r);
    let mut out = LENT;
    let c = unsafe {
        call(r.year, r.doy, f.as_ptr(), 8, ap.as_ptr(), n_ap, w.as_ptr(), 24, p.as_ptr(), p.len(), s.as_ptr(), s.len(), out.as_mut_ptr(), out.len())
    };
    Given { answer: (c >> 32, c & 0xffff_ffff), numbers: out }
}

fn refused(answer: (u64, u64)) -> Given {
    Given { answer, numbers: LENT }
}

fn given(value: f64, s: &State) -> Given {
    let mut numbers = [value; 1 + shim::STATE];
    numbers[1..].copy_from_slice(s);
    Given { answer: (0, 0), numbers }
}

fn want_globe7(r: &Input, w: &[i32; 24], p: &[f64], s: &State) -> Given {
    if p.len() != 150 {
        refused((6, 150))
    } else if w[9] == -1 && r.ap_array.is_none() {
        refused((1, 10))
    } else {
        let (value, after) = shim::globe7(s, p, &to_routed(r), *w);
        given(value, &after)
    }
}

fn want_glob7s(r: &Input, w: &[i32; 24], p: &[f64], s: &State) -> Given {
    if p.len() < 100 || 150 < p.len() {
        refused((6, 100))
    } else {
        // the State as it was, its mark true where the number is 1
        let mut after = *s;
        after[shim::STATE - 1] = (s[shim::STATE - 1] == 1.0) as u64 as f64;
        given(shim::glob7s(s, p, &to_routed(r), *w), &after)
    }
}

// A number of any size, an integer, or any bit pattern.
fn number(g: &mut Random) -> f64 {
    match g.below(12) {
        0 => f64::from_bits(g.next()),
        1 => [0.0, -0.0, 1.0, -1.0, 2.0, f64::NAN, f64::INFINITY, f64::NEG_INFINITY, f64::MIN_POSITIVE, f64::MAX][g.below(10) as usize],
        2 => g.below(2000) as f64 - 1000.0,
        3 => g.between(-1.0, 1.0) * 10f64.powi(g.below(600) as i32 - 300),
        4 => g.between(-1e5, 1e5),
        _ => g.between(-2.0, 2.0),
    }
}

// All zero, wild, or mild with one or no wild number; the mark 1, 0 or a number of that kind.
fn state(g: &mut Random) -> State {
    let mut s = any_numbers(g);
    match g.below(3) {
        0 => s[shim::STATE - 1] = 0.0,
        1 => s[shim::STATE - 1] = 1.0,
        _ => {}
    }
    s
}

fn any_numbers(g: &mut Random) -> State {
    match g.below(4) {
        0 => [0.0; shim::STATE],
        1 => std::array::from_fn(|_| number(g)),
        2 => {
            let mut s = std::array::from_fn(|_| g.between(-2.0, 2.0));
            s[g.below(shim::STATE as u64) as usize] = number(g);
            s
        }
        _ => std::array::from_fn(|_| g.between(-2.0, 2.0)),
    }
}

// A shipped set with zeros behind it up to the length, such a set with some numbers changed, or numbers of any kind; then sometimes another
// length.
fn coefficients(g: &mut Random, sets: &[Vec<f64>], length: u64) -> Vec<f64> {
    let mut p = sets[g.below(sets.len() as u64) as usize].clone();
    p.resize(p.len().max(length as usize), 0.0);
    match g.below(6) {
        0 | 1 => {}
        2 => {
            for _ in 0..1 + g.below(5) {
                let k = g.below(p.len() as u64) as usize;
                p[k] = number(g);
            }
        }
        3 => p = (0..length).map(|_| g.between(-2.0, 2.0)).collect(),
        4 => p = (0..length).map(|_| if g.below(3) == 0 { 0.0 } else { g.between(-1e-2, 1e-2) }).collect(),
        _ => p = (0..length).map(|_| number(g)).collect(),
    }
    if g.below(12) == 0 {
        let n = [0, 1, 51, 98, 99, 100, 101, 149, 150, 151, 152, 300][g.below(12) as usize];
        p.resize(n, 0.5);
    }
    // what glob7s asks of p[99], and where globe7 keeps apt
    if p.len() > 99 && g.below(4) > 0 {
        p[99] = [0.0, 2.0, -0.0][g.below(3) as usize];
    }
    if p.len() > 51 && g.below(8) == 0 {
        p[51] = [0.0, -0.0][g.below(2) as usize];
    }
    p
}

// Fields beyond every range, with angles that the sine refuses.
fn far(g: &mut Random, mut r: Input) -> Input {
    for _ in 0..1 + g.below(4) {
        let x = number(g) * [1.0, 1e3, 1e6][g.below(3) as usize];
        match g.below(9) {
            8 => r.doy = g.next() as i32,
            k => set_field(&mut r, k, x),
        }
    }
    r
}

fn compare(
    name: &str,
    g: &mut Random,
    count: u64,
    length: u64,
    call: Call,
    want: fn(&Input, &[i32; 24], &[f64], &State) -> Given,
) -> u64 {
    let sets = shim::sets();
    let (mut accepted, mut nan, mut six, mut one, mut bad) = (0u64, 0u64, 0u64, 0u64, 0u64);
    let mut last = [0.0; shim::STATE];
    for i in 0..count {
        let w = row_of(g);
        let mut r = record(g);
        match i % 8 {
            0 => r = spoiled(g, r),
            1 => r = far(g, r),
            _ => {}
        }
        let p = coefficients(g, &sets, length);
        // a State of any kind, or the one that the call before left
        let s = if g.below(3) == 0 { last } else { state(g) };
        let have = ours(call, &r, &w, &p, &s);
        let want = want(&r, &w, &p, &s);
        match want.answer.0 {
            0 => accepted += 1,
            1 => one += 1,
            _ => six += 1,
        }
        nan += want.numbers[0].is_nan() as u64;
        if want.answer == (0, 0) {
            last.copy_from_slice(&want.numbers[1..]);
        }
        if have.answer != want.answer || !have.numbers.iter().zip(&want.numbers).all(|(a, b)| same(*a, *b)) {
            bad += 1;
            if bad <= 3 {
                println!("{name} differs: answer {:?}, wanted {:?}\n  {r:?}\n  switches {w:?}\n  coefficients {p:?}\n  State {s:?}", have.answer, want.answer);
                println!("  {:?}\n  {:?}", have.numbers, want.numbers);
            }
        }
    }
    println!("{name}: {count} calls, {accepted} accepted ({nan} values NaN), refused with 6: {six}, with 1: {one}, {bad} differences");
    bad
}

// A slice that has not its length is refused with 4 and the length needed: the lent one, the fields, the array, the switches, the State.
fn lengths(g: &mut Random, count: u64) -> u64 {
    let (f, w) = ([1.0; 100], [1; 30]);
    let mut bad = 0;
    for i in 0..count {
        let mut n = |right: usize, most: u64| if g.below(3) > 0 { right } else { g.below(most) as usize };
        let (n_numbers, n_fields, n_ap, n_switches, n_state) = (n(1 + shim::STATE, 100), n(8, 10), n(7, 10), n(24, 30), n(shim::STATE, 100));
        let want = if n_numbers != 1 + shim::STATE {
            80
        } else if n_fields != 8 {
            8
        } else if n_ap != 0 && n_ap != 7 {
            7
        } else if n_switches != 24 {
            24
        } else if n_state != shim::STATE {
            79
        } else {
            0
        };
        let mut out = [7.5; 100];
        let call = if i % 2 == 0 { expansion_globe7 } else { expansion_glob7s };
        let p = f.as_ptr();
        let have = unsafe { call(1, 1, p, n_fields, p, n_ap, w.as_ptr(), n_switches, p, 0, p, n_state, out.as_mut_ptr(), n_numbers) };
        // with lengths that fit, no coefficients are refused with 6
        let want = if want == 0 { 6 << 32 | (if i % 2 == 0 { 150 } else { 100 }) } else { 4 << 32 | want };
        bad += (have != want || out != [7.5; 100]) as u64;
    }
    println!("lengths of slices: {count} calls, {bad} differences");
    bad
}

pub fn expansions(g: &mut Random, count: u64) -> u64 {
    lengths(g, count) + compare("globe7", g, count, 150, expansion_globe7, want_globe7) + compare("glob7s", g, count, 100, expansion_glob7s, want_glob7s)
}

// A p[24] at or below 1.0E-4: the bound itself, a neighbour, zeros, negative numbers of any size, an infinity.
fn low(g: &mut Random) -> f64 {
    match g.below(8) {
        0 => 1.0e-4,
        1 => f64::from_bits(1.0e-4f64.to_bits() - 1 - g.below(3)),
        2 => [0.0, -0.0, f64::NEG_INFINITY, f64::MIN, -f64::MIN_POSITIVE][g.below(5) as usize],
        3 => -g.between(0.0, 1.0) * 10f64.powi(g.below(600) as i32 - 300),
        4 => g.between(0.0, 1.0e-4),
        _ => g.between(-1.0, 1.0e-4),
    }
}

// Pairs of sets that differ only in p[24], at or below 1.0E-4 in both: globe7 gives one answer, value and State for the two, and the routed Rust's.
// Beside them p[24] at 1.0E-4 against one just above it, where the two may differ: how often they did, and the first such pair.
pub fn raised(g: &mut Random, count: u64) -> u64 {
    let sets = shim::sets();
    let (mut accepted, mut bad, mut apart, mut modes) = (0u64, 0u64, 0u64, [0u64; 4]);
    for i in 0..count {
        let mut w = row_of(g);
        // every mode of switch 9: the history, none, the daily ap, any other number
        let mode = g.below(4);
        w[9] = [-1, 0, 1, g.below(9) as i32 - 5][mode as usize];
        let mut r = record(g);
        if i % 8 == 0 {
            r = far(g, r);
        }
        let mut p = coefficients(g, &sets, 150);
        let s = state(g);
        if p.len() > 24 {
            p[24] = low(g);
        }
        let mut q = p.clone();
        if q.len() > 24 {
            q[24] = low(g);
        }
        let (one, two) = (ours(expansion_globe7, &r, &w, &p, &s), ours(expansion_globe7, &r, &w, &q, &s));
        let (want, other) = (want_globe7(&r, &w, &p, &s), want_globe7(&r, &w, &q, &s));
        let alike = |a: &Given, b: &Given| a.answer == b.answer && a.numbers.iter().zip(&b.numbers).all(|(x, y)| same(*x, *y));
        if want.answer == (0, 0) {
            accepted += 1;
            modes[mode as usize] += 1;
        }
        if !(alike(&one, &two) && alike(&one, &want) && alike(&want, &other)) {
            bad += 1;
            if bad <= 3 {
                println!("raised differs: p[24] {:?} and {:?}\n  {r:?}\n  switches {w:?}\n  coefficients {p:?}", p.get(24), q.get(24));
            }
        }
        // just above the bound nothing is raised, and the number counts
        if p.len() == 150 {
            (p[24], q[24]) = (1.0e-4, 1.1e-4);
            let (one, two) = (ours(expansion_globe7, &r, &w, &p, &s), ours(expansion_globe7, &r, &w, &q, &s));
            if one.answer == (0, 0) && !alike(&one, &two) {
                apart += 1;
                if apart == 1 {
                    println!("p[24] at 1.0E-4 and at 1.1E-4, switch 9 at {}: values {:?} and {:?}", w[9], one.numbers[0], two.numbers[0]);
                }
            }
        }
    }
    println!("pairs that differ only in p[24]: {count}, {accepted} accepted (switch 9 at -1: {}, 0: {}, 1: {}, another: {}), {bad} differences; at 1.0E-4 and 1.1E-4 {apart} pairs were apart", modes[0], modes[1], modes[2], modes[3]);
    bad
}
