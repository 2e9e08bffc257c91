//! A descent, orbit by orbit.
use crate::ffi;
use crate::record::{Flags, NrlmsiseInput};
use crate::refusal::{accepted, Refusal};

/// The most orbits of a descent.
pub const MAX_ORBITS: usize = 10_000;

/// How a descent ended.
#[derive(Debug, Clone, Copy, PartialEq, Eq)]
pub enum Ending {
    /// The density gave no loss: negative, NaN or above 1E9 millimetres.
    NoDensity,
    /// The next loss would have led below 200 km; it was not taken.
    Reached,
    /// All orbits were flown.
    Spent,
}

/// Where a descent ended, and how many losses it took.
#[derive(Debug, Clone, Copy, PartialEq, Eq)]
pub struct End {
    /// How it ended.
    pub ending: Ending,
    /// The last altitude (millimetres).
    pub altitude: i64,
    /// How many losses were taken.
    pub taken: usize,
}

/// A descent: the start minus the last altitude is the sum of the losses.
#[derive(Debug, Clone, PartialEq, Eq)]
pub struct Descent {
    /// How it ended.
    pub ending: Ending,
    /// The last altitude (millimetres).
    pub altitude: i64,
    /// The losses taken (millimetres), one an orbit.
    pub losses: Vec<i64>,
}

/// Simulates a descent from `start` millimetres, 200,000,000 to 1,000,000,000, with a flap setting of 1 to 4 for each of at most 10,000
/// orbits. An orbit loses the whole part of (density × 1E15) × setting millimetres, the density being [`gtd7`](crate::gtd7)'s there in
/// kg/m^3, whatever switch 0 says; the record's own altitude is not looked at.
///
/// ```
/// use potirehu::{descent, Ending, Flags, NrlmsiseInput};
/// # let input = NrlmsiseInput { year: 2026, doy: 172, sec: 29000.0, alt: 0.0, g_lat: 60.0, g_long: -70.0, lst: 16.0,
/// #     f107a: 150.0, f107: 150.0, ap: 4.0, ap_array: None };
/// let flown = descent(&input, &Flags::metric(), 300_000_000, &[1, 1, 3, 4])?;
/// assert_eq!((flown.ending, flown.losses.len()), (Ending::Spent, 4));
/// assert_eq!(300_000_000 - flown.altitude, flown.losses.iter().sum::<i64>());
///
/// let refusal = descent(&input, &Flags::metric(), 300_000_000, &[1, 5]).unwrap_err();
/// assert_eq!(refusal.to_string(), "the setting of orbit 2 is outside 1 to 4 (refusal 18 at 2)");
/// # Ok::<(), potirehu::Refusal>(())
/// ```
pub fn descent(input: &NrlmsiseInput, flags: &Flags, start: i64, settings: &[i32]) -> Result<Descent, Refusal> {
    // More settings than the library takes are refused before it looks at the losses.
    let mut losses = vec![0; settings.len().min(MAX_ORBITS)];
    let end = descent_into(input, flags, start, settings, &mut losses)?;
    losses.truncate(end.taken);
    Ok(Descent { ending: end.ending, altitude: end.altitude, losses })
}

/// [`descent()`] with the losses at the start of a list of the caller's, at least as long as the settings. What lies behind the losses
/// taken stays; refused, all of it does.
pub fn descent_into(input: &NrlmsiseInput, flags: &Flags, start: i64, settings: &[i32], losses: &mut [i64]) -> Result<End, Refusal> {
    let (fields, ap, switches) = (input.fields(), input.history(), &flags.switches);
    let mut end = [0; 3];
    // SAFETY: each pointer goes with the length of the slice it is of; losses is lent to us alone, and end is ours.
    let answer = unsafe {
        ffi::potirehu_descent(
            input.year,
            input.doy,
            fields.as_ptr(),
            fields.len() as u64,
            ap.as_ptr(),
            ap.len() as u64,
            switches.as_ptr(),
            switches.len() as u64,
            start,
            settings.as_ptr(),
            settings.len() as u64,
            losses.as_mut_ptr(),
            losses.len() as u64,
            end.as_mut_ptr(),
            end.len() as u64,
        )
    };
    accepted(answer)?;
    let ending = match end[0] {
        1 => Ending::NoDensity,
        2 => Ending::Reached,
        _ => Ending::Spent,
    };
    Ok(End { ending, altitude: end[1], taken: end[2] as usize })
}
