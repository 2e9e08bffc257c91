//! Which fields count under a switch row, and the air of a record of which only some fields are known.
use crate::ffi;
use crate::record::{Flags, NrlmsiseInput, NrlmsiseOutput, ROW};
use crate::refusal::{accepted, Refusal};

/// For each field of a record, by the number that [`Refusal::place`] counts, whether it counts under a switch row: two accepted records
/// that agree in those fields give the same numbers.
///
/// ```
/// use potirehu::{counts, Flags};
/// let flags = Flags::metric().with(10, 0);
/// assert_eq!((counts(&flags)[2], counts(&flags)[5]), (false, false)); // sec and g_long
/// ```
pub fn counts(flags: &Flags) -> [bool; ffi::COUNTS] {
    let mut fields = [0; ffi::COUNTS];
    // SAFETY: each pointer goes with the length of the array it is of; fields is ours alone.
    let answer =
        unsafe { ffi::potirehu_counts(flags.switches.as_ptr(), flags.switches.len() as u64, fields.as_mut_ptr(), fields.len() as u64) };
    accepted(answer).expect("both lengths are those needed");
    fields.map(|mark| mark == 1)
}

/// Bits for [`gtd7_known`]: a field's own.
pub mod known {
    /// The year, which is read by nothing.
    pub const YEAR: u32 = 1;
    /// The day of the year, which always counts.
    pub const DOY: u32 = 1 << 1;
    /// The seconds of the day.
    pub const SEC: u32 = 1 << 2;
    /// The altitude, which always counts.
    pub const ALT: u32 = 1 << 3;
    /// The latitude, which always counts.
    pub const G_LAT: u32 = 1 << 4;
    /// The longitude.
    pub const G_LONG: u32 = 1 << 5;
    /// The local time.
    pub const LST: u32 = 1 << 6;
    /// The mean flux.
    pub const F107A: u32 = 1 << 7;
    /// The day's flux.
    pub const F107: u32 = 1 << 8;
    /// The magnetic index of the day.
    pub const AP: u32 = 1 << 9;
    /// All of them.
    pub const ALL: u32 = (1 << 10) - 1;
}

/// [`gtd7`](crate::gtd7) for a record of which only those fields are known whose bits are set; `ap_array` is known where it is there. A field
/// that is not known is not looked at, whatever stands in it. Where the switch row lets such a field count, the refusal is 1 at the lowest.
///
/// ```
/// use potirehu::{gtd7_known, known, Flags, Kind, NrlmsiseInput};
/// // after a restart: no clock, no longitude, no local time, no magnetic index
/// let input = NrlmsiseInput {
///     year: 0, doy: 172, sec: f64::NAN, alt: 400.0, g_lat: 45.0, g_long: f64::NAN, lst: f64::NAN,
///     f107a: 150.0, f107: 150.0, ap: f64::NAN, ap_array: None,
/// };
/// let is_known = known::DOY | known::ALT | known::G_LAT | known::F107A | known::F107;
/// let flags = [7, 8, 9, 10].iter().fold(Flags::metric(), |row, &entry| row.with(entry, 0));
/// let refusal = gtd7_known(is_known, &input, &flags).unwrap_err(); // entry 14 is still on
/// assert_eq!(refusal.to_string(), "lst counts under the switch row, and is not known (refusal 1 at 6)");
/// let flags = flags.with(14, 0);
/// assert!(gtd7_known(is_known, &input, &flags)?.density() > 0.0);
/// # Ok::<(), potirehu::Refusal>(())
/// ```
pub fn gtd7_known(known: u32, input: &NrlmsiseInput, flags: &Flags) -> Result<NrlmsiseOutput, Refusal> {
    let (fields, ap, switches) = (input.fields(), input.history(), &flags.switches);
    let mut row = NrlmsiseOutput::default();
    // SAFETY: each pointer goes with the length of the array it is of; row has ROW numbers and is ours alone.
    let answer = unsafe {
        ffi::potirehu_gtd7_known(
            known,
            input.year,
            input.doy,
            fields.as_ptr(),
            fields.len() as u64,
            ap.as_ptr(),
            ap.len() as u64,
            switches.as_ptr(),
            switches.len() as u64,
            row.as_mut_ptr(),
            ROW as u64,
        )
    };
    accepted(answer).map(|_| row)
}
