// Where the routed copy's elementary functions lead: to ours, or, to count, to libm with a note of each call.
pub trait RoutedSqrt {
    fn routed_sqrt(self) -> f64;
}

impl RoutedSqrt for f64 {
    fn routed_sqrt(self) -> f64 {
        sqrt(self)
    }
}

#[cfg(not(counting))]
mod led {
    extern "C" {
        fn elementary_exp(x: f64) -> f64;
        fn elementary_log(x: f64) -> f64;
        fn elementary_sin(x: f64) -> f64;
        fn elementary_cos(x: f64) -> f64;
        fn elementary_pow(b: f64, e: f64) -> f64;
        fn elementary_sqrt(x: f64) -> f64;
    }

    pub fn exp(x: f64) -> f64 {
        unsafe { elementary_exp(x) }
    }

    pub fn log(x: f64) -> f64 {
        unsafe { elementary_log(x) }
    }

    pub fn sin(x: f64) -> f64 {
        unsafe { elementary_sin(x) }
    }

    pub fn cos(x: f64) -> f64 {
        unsafe { elementary_cos(x) }
    }

    pub fn pow(b: f64, e: f64) -> f64 {
        unsafe { elementary_pow(b, e) }
    }

    pub fn sqrt(x: f64) -> f64 {
        unsafe { elementary_sqrt(x) }
    }
}

#[cfg(counting)]
mod led {
    use std::cell::RefCell;

    // Calls, smallest and largest argument of exp, log, sin, cos, pow's base, pow's exponent, sqrt.
    #[derive(Clone, Copy)]
    pub struct Count {
        pub calls: u64,
        pub low: f64,
        pub high: f64,
    }

    const NONE: Count = Count { calls: 0, low: f64::INFINITY, high: f64::NEG_INFINITY };

    // How many arguments of each are kept, the first ones.
    const KEPT: usize = 65_536;

    thread_local! {
        static COUNTS: RefCell<[Count; 7]> = const { RefCell::new([NONE; 7]) };
        static ARGUMENTS: RefCell<[Vec<f64>; 7]> = const { RefCell::new([const { Vec::new() }; 7]) };
    }

    fn note(which: usize, x: f64) {
        COUNTS.with(|c| {
            let c = &mut c.borrow_mut()[which];
            c.calls += 1;
            c.low = c.low.min(x);
            c.high = c.high.max(x);
        });
        ARGUMENTS.with(|a| {
            let a = &mut a.borrow_mut()[which];
            if a.len() < KEPT {
                a.push(x);
            }
        })
    }

    // The arguments in the order of the calls.
    pub fn arguments() -> [Vec<f64>; 7] {
        ARGUMENTS.with(|a| std::mem::take(&mut *a.borrow_mut()))
    }

    pub fn taken() -> [Count; 7] {
        COUNTS.with(|c| std::mem::replace(&mut *c.borrow_mut(), [NONE; 7]))
    }

    pub fn exp(x: f64) -> f64 {
        note(0, x);
        libm::exp(x)
    }

    pub fn log(x: f64) -> f64 {
        note(1, x);
        libm::log(x)
    }

    pub fn sin(x: f64) -> f64 {
        note(2, x);
        libm::sin(x)
    }

    pub fn cos(x: f64) -> f64 {
        note(3, x);
        libm::cos(x)
    }

    pub fn pow(b: f64, e: f64) -> f64 {
        note(4, b);
        note(5, e);
        libm::pow(b, e)
    }

    pub fn sqrt(x: f64) -> f64 {
        note(6, x);
        x.sqrt()
    }
}

pub use led::*;
