// The elementary functions against the Rust libm crate, and the square root against Rust's own.
// oracle SEED COUNT: COUNT compared arguments for each function; worst differences with their arguments; fails beyond the bounds.
#[path = "../random.rs"]
mod random;
use random::Random;

extern "C" {
    fn elementary_exp(x: f64) -> f64;
    fn elementary_log(x: f64) -> f64;
    fn elementary_sin(x: f64) -> f64;
    fn elementary_cos(x: f64) -> f64;
    fn elementary_sqrt(x: f64) -> f64;
    fn elementary_pow(b: f64, e: f64) -> f64;
}

const SMALLEST: f64 = 2.2250738585072014e-308; // 2^-1022
const LEAST: f64 = 2e-323; // 2^-1072

impl Random {
    // A point of the list, or one of its 16 neighbours on either side, with either sign.
    fn near(&mut self, points: &[f64]) -> f64 {
        let p = points[self.next() as usize % points.len()];
        let q = f64::from_bits(p.to_bits().wrapping_add(self.next() % 33).wrapping_sub(16));
        if self.next() % 2 == 0 { q } else { -q }
    }
    // A fifth uniform in bits, a fifth near the points, the rest uniform in one of the ranges.
    fn argument(&mut self, ranges: &[(f64, f64)], points: &[f64]) -> f64 {
        match self.next() % 5 {
            0 => f64::from_bits(self.next()),
            1 => self.near(points),
            _ => {
                let (a, b) = ranges[self.next() as usize % ranges.len()];
                self.between(a, b)
            }
        }
    }
}

// What the rules leave out of the comparison.
fn left_out(y: f64) -> bool {
    y.is_nan() || y.is_infinite() || y.abs() < SMALLEST
}

struct Worst {
    error: f64,
    at: (f64, f64),
    compared: u64,
    left_out: u64,
}

impl Worst {
    fn new() -> Worst {
        Worst { error: 0.0, at: (0.0, 0.0), compared: 0, left_out: 0 }
    }
    fn take(&mut self, at: (f64, f64), ours: f64, theirs: f64, relative: bool) {
        if left_out(ours) {
            self.left_out += 1;
            return;
        }
        self.compared += 1;
        let d = (ours - theirs).abs();
        let error = if relative { d / theirs.abs() } else { d };
        if !(error <= self.error) {
            self.error = if error.is_nan() { f64::INFINITY } else { error };
            self.at = at;
        }
    }
    fn report(&self, name: &str, bound: i32, kind: &str, pair: bool) -> bool {
        let at = if pair { format!("({:e}, {:e})", self.at.0, self.at.1) } else { format!("{:e}", self.at.0) };
        println!("| {name} | {} | {} | 2^{:.2} {kind} | {at} | 2^{bound} |", self.compared, self.left_out, self.error.log2());
        self.error <= (bound as f64).exp2()
    }
}

// Where results may be below 2^-1022: the worst share of what is allowed, which is the bound relatively or 2^-1072, whichever is more.
struct Tail {
    share: f64,
    at: (f64, f64),
    compared: u64,
    below: u64,
}

impl Tail {
    fn new() -> Tail {
        Tail { share: 0.0, at: (0.0, 0.0), compared: 0, below: 0 }
    }
    fn take(&mut self, at: (f64, f64), ours: f64, theirs: f64, bound: i32) {
        self.compared += 1;
        self.below += (ours.abs() < SMALLEST) as u64;
        let share = (ours - theirs).abs() / (theirs.abs() * (bound as f64).exp2()).max(LEAST);
        if !(share <= self.share) {
            self.share = if share.is_nan() { f64::INFINITY } else { share };
            self.at = at;
        }
    }
    fn report(&self, name: &str, bound: i32) -> bool {
        println!("| {name} | {} | {} | {:.4} of what is allowed | {:?} | 2^{bound} relative or 2^-1072 |", self.compared, self.below, self.share, self.at);
        self.share <= 1.0
    }
}

fn main() {
    let arguments: Vec<u64> = std::env::args().skip(1).map(|s| s.parse().expect("a number")).collect();
    let (seed, count) = (arguments[0], arguments[1]);
    let mut r = Random(seed);
    let mut good = true;
    println!("| function | compared with libm | left out by the rules | worst difference | at | allowed |");
    println!("|---|---|---|---|---|---|");

    let mut points: Vec<f64> = vec![709.0, 708.0, 1.0, 0.0, 65536.0, SMALLEST, 2.0, 0.5, f64::MAX, 5e-324];
    points.extend((0..=256).map(|i| i as f64 / 256.0));
    points.extend((0..=1024).map(|i| i as f64 / 1024.0));
    points.extend((0..=1022).map(|n| n as f64 * std::f64::consts::LN_2));
    let mut w = Worst::new();
    while w.compared < count {
        let x = r.argument(&[(-1.0, 1.0), (-60.0, 10.0), (-708.0, 709.0)], &points);
        w.take((x, 0.0), unsafe { elementary_exp(x) }, libm::exp(x), true);
    }
    good &= w.report("exp", -40, "relative", false);

    let mut points: Vec<f64> = (0..=128).map(|i| 1.0 + i as f64 / 128.0).collect();
    points.extend((0..=128).map(|i| 0.5 + i as f64 / 256.0));
    points.extend((1..2046).map(|e| f64::from_bits(e << 52)));
    points.extend([0.0, SMALLEST, f64::MAX, f64::INFINITY]);
    let mut w = Worst::new();
    while w.compared < count {
        let mut x = r.argument(&[(0.5, 2.0), (1e-10, 1e10), (0.0, 1000.0)], &points);
        if r.next() % 4 == 0 {
            x = r.between(-23.0, 23.0).exp();
        }
        w.take((x, 0.0), unsafe { elementary_log(x) }, libm::log(x), false);
    }
    good &= w.report("log", -40, "absolute", false);

    let mut points: Vec<f64> = (0..=256).map(|i| i as f64 / 256.0).collect();
    points.extend((0..=83443).map(|i| i as f64 * std::f64::consts::FRAC_PI_4));
    points.extend([0.0, 1.0, 65536.0, SMALLEST]);
    let ranges = [(-1.0, 1.0), (-10.0, 10.0), (-200.0, 200.0), (-2000.0, 2000.0), (-65536.0, 65536.0)];
    let mut w = Worst::new();
    while w.compared < count {
        let x = r.argument(&ranges, &points);
        w.take((x, 0.0), unsafe { elementary_sin(x) }, libm::sin(x), false);
    }
    good &= w.report("sin", -40, "absolute", false);
    let mut w = Worst::new();
    while w.compared < count {
        let x = r.argument(&ranges, &points);
        w.take((x, 0.0), unsafe { elementary_cos(x) }, libm::cos(x), false);
    }
    good &= w.report("cos", -40, "absolute", false);

    let points = [1.0, 2.0, 0.5, SMALLEST, f64::MAX, 1e-5, 10.0];
    let exponents = [0.5, 1.0, 2.0, 3.0, 19.0, 31.0, 32.0, -1.0, -2.0, 1.5, 0.25, -32.0];
    let mut w = Worst::new();
    while w.compared < count {
        let b = r.argument(&[(0.1, 10.0), (0.5, 2.0), (0.0, 1000.0)], &points).abs();
        let e = if r.next() % 3 == 0 { r.near(&exponents) } else if r.next() % 2 == 0 { r.between(-32.0, 32.0) } else { r.between(1.0, 5.0) };
        if e.abs() <= 32.0 {
            w.take((b, e), unsafe { elementary_pow(b, e) }, libm::pow(b, e), true);
        }
    }
    good &= w.report("pow", -36, "relative", true);

    let points: Vec<f64> = (0..2047).map(|e| f64::from_bits(e << 52)).collect();
    let mut different = 0u64;
    let mut first = 0.0;
    for k in 0..count {
        let mut x = r.argument(&[(0.0, 4.0), (0.0, 1e10)], &points);
        if k % 4 == 0 {
            let y = r.argument(&[(0.0, 1000.0)], &points);
            x = y * y;
        }
        let (a, b) = (unsafe { elementary_sqrt(x) }, x.sqrt());
        if a.to_bits() != b.to_bits() && !(a.is_nan() && b.is_nan()) {
            different += 1;
            first = x;
        }
    }
    println!("| sqrt | {count} | 0 | {different} differ from Rust's `.sqrt()` | {} | 0 |", if different > 0 { format!("{first:e}") } else { "-".to_string() });
    good &= different == 0;

    let points: Vec<f64> = (0..=52).map(|n| f64::from_bits(1 << n)).collect();
    let mut w = Worst::new();
    while w.compared < count {
        let x = match r.next() % 4 {
            0 => r.near(&points).abs(),
            1 => f64::from_bits(r.next() >> (12 + r.next() % 52)),
            _ => f64::from_bits(r.next() >> 12),
        };
        if x > 0.0 && x < SMALLEST {
            w.take((x, 0.0), unsafe { elementary_log(x) }, libm::log(x), false);
        }
    }
    good &= w.report("log below 2^-1022", -40, "absolute", false);

    println!("\n| function | compared with libm | results below 2^-1022 | worst difference | at | allowed |");
    println!("|---|---|---|---|---|---|");
    let mut points: Vec<f64> = (1021..=1075).map(|n| n as f64 * std::f64::consts::LN_2).collect();
    points.extend([745.0, 708.0, 745.1332191019411, 745.1332191019412, 744.4400719213812]);
    let mut w = Tail::new();
    while w.compared < count {
        let x = if r.next() % 4 == 0 { -r.near(&points).abs() } else { r.between(-745.2, -708.0) };
        w.take((x, 0.0), unsafe { elementary_exp(x) }, libm::exp(x), -40);
    }
    good &= w.report("exp from -745.2 to -708", -40);
    let mut w = Tail::new();
    while w.compared < count {
        let e = if r.next() % 2 == 0 { r.between(1.0, 32.0) } else { r.between(-32.0, -1.0) };
        let b = (r.between(-745.0, -708.0) / e).exp();
        if b > SMALLEST && b < f64::MAX {
            w.take((b, e), unsafe { elementary_pow(b, e) }, libm::pow(b, e), -36);
        }
    }
    good &= w.report("pow, results of that size", -36);
    let mut w = Tail::new();
    while w.compared < count {
        let (b, e) = (f64::from_bits(1 + (r.next() >> 12)), r.between(-1.1, 1.1));
        if (e * libm::log(b)).abs() < 709.0 {
            w.take((b, e), unsafe { elementary_pow(b, e) }, libm::pow(b, e), -36);
        }
    }
    good &= w.report("pow, bases below 2^-1022", -36);
    if !good {
        println!("oracle: a bound is broken");
        std::process::exit(1);
    }
}
