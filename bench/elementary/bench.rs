// Nanoseconds per call of the elementary functions and of the Rust libm crate, in one run.
// Throughput: independent arguments. Latency: each argument waits for the result before it. Given a folder, also over the arguments that
// `model arguments` wrote there.
#[path = "../../oracle/random.rs"]
mod random;
use random::Random;
use std::hint::black_box;
use std::time::Instant;

extern "C" {
    fn elementary_exp(x: f64) -> f64;
    fn elementary_log(x: f64) -> f64;
    fn elementary_sin(x: f64) -> f64;
    fn elementary_cos(x: f64) -> f64;
    fn elementary_sqrt(x: f64) -> f64;
    fn elementary_pow(b: f64, e: f64) -> f64;
}

const COUNT: usize = 4096;
const ROUNDS: usize = 4;
const REPEATS: usize = 200;

fn throughput<F: Fn(f64) -> f64>(f: F, xs: &[f64]) -> f64 {
    let start = Instant::now();
    for _ in 0..ROUNDS {
        let mut sum = 0.0;
        for &x in xs {
            sum += f(x);
        }
        black_box(sum);
    }
    start.elapsed().as_nanos() as f64 / (ROUNDS * xs.len()) as f64
}

fn latency<F: Fn(f64) -> f64>(f: F, xs: &[f64]) -> f64 {
    let none = black_box(0u64);
    let start = Instant::now();
    let mut last = 0.0f64;
    for _ in 0..ROUNDS {
        for &x in xs {
            last = f(f64::from_bits(x.to_bits() | (last.to_bits() & none)));
        }
    }
    black_box(last);
    start.elapsed().as_nanos() as f64 / (ROUNDS * xs.len()) as f64
}

// The best of many short repeats, ours and theirs in turn, so that another program's load falls on both.
fn line<F: Fn(f64) -> f64, G: Fn(f64) -> f64>(name: &str, ours: F, theirs: G, xs: &[f64]) {
    let mut best = [f64::MAX; 4];
    for _ in 0..REPEATS {
        let now = [throughput(&ours, xs), throughput(&theirs, xs), latency(&ours, xs), latency(&theirs, xs)];
        for k in 0..4 {
            best[k] = best[k].min(now[k]);
        }
    }
    let [a, b, c, d] = best;
    println!("| {name} | {a:.1} | {b:.1} | {:.2} | {c:.1} | {d:.1} | {:.2} |", a / b, c / d);
}

fn main() {
    let mut r = Random(std::env::args().nth(1).map_or(1, |s| s.parse().expect("seed")));
    let mut take = |a: f64, b: f64| -> Vec<f64> { (0..COUNT).map(|_| r.between(a, b)).collect() };
    let exps = take(-60.0, 10.0);
    let near = take(-1.0, 1.0);
    let turns = take(-10.0, 10.0);
    let wide = take(-200.0, 200.0);
    let far = take(-65536.0, 65536.0);
    let bases = take(0.1, 10.0);
    let logs: Vec<f64> = take(-10.0, 10.0).iter().map(|e| 10f64.powf(*e)).collect();
    let squares: Vec<f64> = take(-1000.0, 1000.0).iter().map(|x| x * x).collect();
    let any: Vec<f64> = take(0.0, 1000.0);
    println!("| function, arguments | ours | libm | ratio | ours, latency | libm, latency | ratio |");
    println!("|---|---|---|---|---|---|---|");
    let exp = |x: f64| unsafe { elementary_exp(x) };
    let log = |x: f64| unsafe { elementary_log(x) };
    let sin = |x: f64| unsafe { elementary_sin(x) };
    let cos = |x: f64| unsafe { elementary_cos(x) };
    let sqrt = |x: f64| unsafe { elementary_sqrt(x) };
    if let Some(folder) = std::env::args().nth(2) {
        let of = |name: &str| -> Vec<f64> {
            let text = std::fs::read_to_string(format!("{folder}/{name}.arguments")).expect("a file of arguments");
            text.lines().map(|bits| f64::from_bits(u64::from_str_radix(bits, 16).expect("the bits of a number"))).collect()
        };
        line("exp, the model's", exp, libm::exp, &of("exp"));
        line("log, the model's", log, libm::log, &of("log"));
        line("sin, the model's", sin, libm::sin, &of("sin"));
        line("cos, the model's", cos, libm::cos, &of("cos"));
    }
    line("exp, -60 to 10", exp, libm::exp, &exps);
    line("exp, -1 to 1", exp, libm::exp, &near);
    line("sin, -1 to 1", sin, libm::sin, &near);
    line("sin, -10 to 10", sin, libm::sin, &turns);
    line("sin, -200 to 200", sin, libm::sin, &wide);
    line("sin, -65536 to 65536", sin, libm::sin, &far);
    line("cos, -1 to 1", cos, libm::cos, &near);
    line("cos, -10 to 10", cos, libm::cos, &turns);
    line("cos, -200 to 200", cos, libm::cos, &wide);
    line("cos, -65536 to 65536", cos, libm::cos, &far);
    line("log, 1e-10 to 1e10", log, libm::log, &logs);
    line("sqrt, squares of floats", sqrt, f64::sqrt, &squares);
    line("sqrt, 0 to 1000", sqrt, f64::sqrt, &any);
    for e in [2.0, 0.5, 3.0, 19.0] {
        let e = black_box(e);
        let pow = move |x: f64| unsafe { elementary_pow(x, e) };
        line(&format!("pow(0.1 to 10, {e})"), pow, move |x| libm::pow(x, e), &bases);
    }
    let exponents: Vec<f64> = take_exponents();
    let pairs: Vec<f64> = bases.clone();
    let at = std::cell::Cell::new(0);
    let step = || {
        let i = at.get();
        at.set((i + 1) % COUNT);
        exponents[i]
    };
    line("pow(0.1 to 10, 1 to 5)", |x| unsafe { elementary_pow(x, step()) }, |x| libm::pow(x, step()), &pairs);
}

fn take_exponents() -> Vec<f64> {
    let mut r = Random(7);
    (0..COUNT).map(|_| r.between(1.0, 5.0)).collect()
}
