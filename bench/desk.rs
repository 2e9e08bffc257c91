// Time of the untouched Rust on records out of a file, for bench/desk: FILE holds 9 doubles a record, doy and the eight fields; prints the nanoseconds of the
// processor a record of the best of REPEATS passes, and a sum that keeps them from being left out.
use std::hint::black_box;
use untouched::astro::atmosphere::{gtd7, Flags, NrlmsiseInput};

extern "C" {
    fn clock_gettime(clock: i32, time: *mut [i64; 2]) -> i32;
}

// The processor time of this thread, in nanoseconds: what runs beside it does not count.
fn now() -> f64 {
    let mut time = [0; 2];
    // SAFETY: 3 is CLOCK_THREAD_CPUTIME_ID of Linux, and a timespec there is two numbers of 64 bits.
    assert_eq!(unsafe { clock_gettime(3, &mut time) }, 0);
    time[0] as f64 * 1e9 + time[1] as f64
}

fn main() {
    let arguments: Vec<String> = std::env::args().collect();
    let bytes = std::fs::read(&arguments[1]).expect("the file of records");
    let repeats: usize = arguments[2].parse().expect("how many passes");
    let numbers: Vec<f64> = bytes.chunks_exact(8).map(|x| f64::from_ne_bytes(x.try_into().unwrap())).collect();
    let inputs: Vec<NrlmsiseInput> = numbers
        .chunks_exact(9)
        .map(|x| NrlmsiseInput {
            year: 0,
            doy: x[0] as i32,
            sec: x[1],
            alt: x[2],
            g_lat: x[3],
            g_long: x[4],
            lst: x[5],
            f107a: x[6],
            f107: x[7],
            ap: x[8],
            ap_array: None,
        })
        .collect();
    let flags = Flags::metric();
    let (mut best, mut sum) = (f64::INFINITY, 0.0);
    for _ in 0..repeats {
        let start = now();
        for input in &inputs {
            sum += gtd7(black_box(input), &flags).expect("an accepted record").d[5];
        }
        best = best.min((now() - start) / inputs.len() as f64);
    }
    println!("{best} {sum:e}");
}
