//! One record at many altitudes: the rows, where the density passes a level, and where it is first thin enough.
use crate::ffi;
use crate::record::{Flags, NrlmsiseInput, NrlmsiseOutput, ROW};
use crate::refusal::{accepted, Refusal};

/// The most altitudes of a column.
pub const MAX_ALTITUDES: usize = 512;

/// [`gtd7`](crate::gtd7) at 0 to 512 altitudes (km); the record's own altitude is not looked at.
///
/// ```
/// use potirehu::{column, Flags, NrlmsiseInput};
/// # let input = NrlmsiseInput { year: 2026, doy: 172, sec: 29000.0, alt: 0.0, g_lat: 60.0, g_long: -70.0, lst: 16.0,
/// #     f107a: 150.0, f107: 150.0, ap: 4.0, ap_array: None };
/// let rows = column(&input, &Flags::metric(), &[200.0, 400.0])?;
/// assert_eq!(format!("{:.6e}", rows[1].density()), "4.074714e-12");
///
/// let refusal = column(&input, &Flags::metric(), &[200.0, 2600.0]).unwrap_err();
/// assert_eq!(refusal.to_string(), "altitudes[1] is out of range, 0 to 2500 km (refusal 3 at 18)");
/// # Ok::<(), potirehu::Refusal>(())
/// ```
pub fn column(input: &NrlmsiseInput, flags: &Flags, altitudes: &[f64]) -> Result<Vec<NrlmsiseOutput>, Refusal> {
    // More than the library takes are refused before it looks at the rows.
    let mut rows = vec![NrlmsiseOutput::default(); altitudes.len().min(MAX_ALTITUDES)];
    column_into(input, flags, altitudes, &mut rows)?;
    Ok(rows)
}

/// [`column()`] into rows of the caller's, at least as many as altitudes. What lies behind them stays; refused, all of them do.
pub fn column_into(input: &NrlmsiseInput, flags: &Flags, altitudes: &[f64], rows: &mut [NrlmsiseOutput]) -> Result<(), Refusal> {
    let (fields, ap, switches) = (input.fields(), input.history(), &flags.switches);
    // SAFETY: each pointer goes with the length of the slice it is of; a row is ROW numbers and nothing else, and rows is lent to us
    // alone.
    let answer = unsafe {
        ffi::potirehu_gtd7_column(
            input.year,
            input.doy,
            fields.as_ptr(),
            fields.len() as u64,
            ap.as_ptr(),
            ap.len() as u64,
            switches.as_ptr(),
            switches.len() as u64,
            altitudes.as_ptr(),
            altitudes.len() as u64,
            rows.as_mut_ptr().cast(),
            (ROW * rows.len()) as u64,
        )
    };
    accepted(answer).map(|_| ())
}

/// Where the mass density passes a level: the index of the lower altitude of each pair of neighbours, lowest first, at one of which it
/// is at or above the level and at the other below. The altitudes (km), 0 to 512 of them, must rise strictly. A NaN makes no pair.
///
/// ```
/// use potirehu::{crossings, Flags, NrlmsiseInput};
/// # let input = NrlmsiseInput { year: 2026, doy: 172, sec: 29000.0, alt: 0.0, g_lat: 60.0, g_long: -70.0, lst: 16.0,
/// #     f107a: 150.0, f107: 150.0, ap: 4.0, ap_array: None };
/// assert_eq!(crossings(&input, &Flags::metric(), &[200.0, 300.0, 400.0], 1e-11)?, [1]);
///
/// let refusal = crossings(&input, &Flags::metric(), &[200.0, 200.0], 1e-11).unwrap_err();
/// assert_eq!(refusal.to_string(), "altitudes[1] is not above the one before it (refusal 8 at 1)");
/// # Ok::<(), potirehu::Refusal>(())
/// ```
pub fn crossings(input: &NrlmsiseInput, flags: &Flags, altitudes: &[f64], level: f64) -> Result<Vec<usize>, Refusal> {
    let mut list = [0; MAX_ALTITUDES - 1];
    let n = crossings_into(input, flags, altitudes, level, &mut list)?;
    Ok(list[..n].iter().map(|i| *i as usize).collect())
}

/// [`crossings`] to the start of a list of the caller's; gives how many there are. What lies behind them stays; refused, all of it does.
pub fn crossings_into(input: &NrlmsiseInput, flags: &Flags, altitudes: &[f64], level: f64, list: &mut [u64]) -> Result<usize, Refusal> {
    let (fields, ap, switches) = (input.fields(), input.history(), &flags.switches);
    // SAFETY: each pointer goes with the length of the slice it is of; list is lent to us alone.
    let answer = unsafe {
        ffi::potirehu_crossings(
            input.year,
            input.doy,
            fields.as_ptr(),
            fields.len() as u64,
            ap.as_ptr(),
            ap.len() as u64,
            switches.as_ptr(),
            switches.len() as u64,
            altitudes.as_ptr(),
            altitudes.len() as u64,
            level,
            list.as_mut_ptr(),
            list.len() as u64,
        )
    };
    accepted(answer)
}

/// The first of 0 to 512 altitudes (km) whose mass density is below a level, with its row, or `None`. All are checked, and none behind
/// the first is worked out; they need not rise. A NaN is never below, and nothing is below a NaN.
///
/// ```
/// use potirehu::{first_below, Flags, NrlmsiseInput};
/// # let input = NrlmsiseInput { year: 2026, doy: 172, sec: 29000.0, alt: 0.0, g_lat: 60.0, g_long: -70.0, lst: 16.0,
/// #     f107a: 150.0, f107: 150.0, ap: 4.0, ap_array: None };
/// let (index, air) = first_below(&input, &Flags::metric(), &[200.0, 400.0, 600.0], 1e-11)?.unwrap();
/// assert_eq!((index, format!("{:.6e}", air.density())), (1, "4.074714e-12".to_string()));
/// assert_eq!(first_below(&input, &Flags::metric(), &[200.0, 400.0], 1e-20)?, None);
/// # Ok::<(), potirehu::Refusal>(())
/// ```
pub fn first_below(
    input: &NrlmsiseInput,
    flags: &Flags,
    altitudes: &[f64],
    level: f64,
) -> Result<Option<(usize, NrlmsiseOutput)>, Refusal> {
    let (fields, ap, switches) = (input.fields(), input.history(), &flags.switches);
    let mut row = NrlmsiseOutput::default();
    // SAFETY: each pointer goes with the length of the slice it is of; row has ROW numbers and is ours alone.
    let answer = unsafe {
        ffi::potirehu_first_below(
            input.year,
            input.doy,
            fields.as_ptr(),
            fields.len() as u64,
            ap.as_ptr(),
            ap.len() as u64,
            switches.as_ptr(),
            switches.len() as u64,
            altitudes.as_ptr(),
            altitudes.len() as u64,
            level,
            row.as_mut_ptr(),
            ROW as u64,
        )
    };
    let index = accepted(answer)?;
    Ok((answer != ffi::NOWHERE).then_some((index, row)))
}
