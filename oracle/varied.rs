// The nine constants that the varied copy reads: the gas constant, the mass of mixed air, then the mixing altitudes of He, O, N2, O2, Ar, H, N.
use std::cell::Cell;

// As the Rust has them.
pub const PRESENT: [f64; 9] = [831.4, 28.95, 200.0, 300.0, 160.0, 250.0, 240.0, 320.0, 450.0];

thread_local! {
    static NINE: Cell<[f64; 9]> = const { Cell::new(PRESENT) };
}

// What every later call of this thread reads.
pub fn set(nine: [f64; 9]) {
    NINE.set(nine);
}

pub fn constant(k: usize) -> f64 {
    NINE.get()[k]
}

// gts7's altl by its own indices; no species is at 5, and nothing reads it.
pub fn altl() -> [f64; 8] {
    let [_, _, he, o, n2, o2, ar, h, n] = NINE.get();
    [he, o, n2, o2, ar, f64::NAN, h, n]
}
