// What the tests share: a record, switch rows, altitudes, and rows by their bits.
#![allow(dead_code)]
use potirehu::{Flags, NrlmsiseInput, NrlmsiseOutput};

pub const SAMPLE: NrlmsiseInput = NrlmsiseInput {
    year: 2026,
    doy: 172,
    sec: 29000.0,
    alt: 400.0,
    g_lat: 60.0,
    g_long: -70.0,
    lst: 16.0,
    f107a: 150.0,
    f107: 150.0,
    ap: 4.0,
    ap_array: None,
};

pub const HISTORY: [f64; 7] = [20.0, 48.0, 39.0, 32.0, 27.0, 15.0, 9.0];

// From the ground to the top, with every border between two ways of working a row out, and 32.5 km, where it holds NaN.
pub const ALTITUDES: [f64; 17] =
    [0.0, 10.0, 32.5, 50.0, 72.5, 80.0, 100.0, 120.0, 150.0, 160.0, 200.0, 299.5, 400.0, 500.0, 800.0, 1000.0, 2500.0];

pub fn records() -> [NrlmsiseInput; 3] {
    [
        NrlmsiseInput { ap_array: Some(HISTORY), ..SAMPLE },
        NrlmsiseInput { doy: 1, g_lat: -23.5, g_long: 140.25, lst: 3.125, ap_array: Some([0.0; 7]), ..SAMPLE },
        NrlmsiseInput { sec: 0.0, f107a: 70.0, f107: 230.0, ap: 80.0, ap_array: Some([400.0; 7]), ..SAMPLE },
    ]
}

// Switch 15 is 1 in all, so that no altitude is refused.
pub fn rows_of_switches() -> [Flags; 4] {
    let mut history = Flags::metric();
    history.switches[9] = -1;
    let mut after_restart = Flags::metric();
    for i in [7, 8, 9, 10, 14] {
        after_restart.switches[i] = 0;
    }
    [Flags::standard(), Flags::metric(), history, after_restart]
}

// A row by its bits; all NaN are one.
pub fn bits(row: &NrlmsiseOutput) -> Vec<u64> {
    let one = |x: &f64| if x.is_nan() { f64::NAN.to_bits() } else { x.to_bits() };
    row.d.iter().chain(&row.t).map(one).collect()
}
