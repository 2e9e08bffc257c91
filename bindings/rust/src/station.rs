//! A station: one record, prepared once, at one altitude after another.
use crate::ffi;
use crate::record::{Flags, NrlmsiseInput, NrlmsiseOutput, ROW};
use crate::refusal::{accepted, Refusal};

/// A record and a switch row with what no altitude changes stored beside them, so that an altitude works out no expansion. A change that
/// is refused leaves the station as it was.
///
/// ```
/// use potirehu::{gtd7, Flags, NrlmsiseInput, Station};
/// # let input = NrlmsiseInput { year: 2026, doy: 172, sec: 29000.0, alt: 400.0, g_lat: 60.0, g_long: -70.0, lst: 16.0,
/// #     f107a: 150.0, f107: 150.0, ap: 4.0, ap_array: None };
/// let mut station = Station::prepare(&input, &Flags::metric())?;
/// assert_eq!(station.gtd7(400.0)?, gtd7(&input, &Flags::metric())?);
///
/// station.set_position(34400.0, 17.5, -70.0)?;
/// let later = NrlmsiseInput { sec: 34400.0, lst: 17.5, ..input };
/// assert_eq!(station.gtd7(400.0)?, gtd7(&later, &Flags::metric())?);
///
/// let refusal = station.set_position(34400.0, f64::NAN, -70.0).unwrap_err();
/// assert_eq!(refusal.to_string(), "lst is NaN or infinite (refusal 2 at 6)");
/// # Ok::<(), potirehu::Refusal>(())
/// ```
#[derive(Debug, Clone)]
pub struct Station {
    // Only the library's calls write these.
    whole: [i32; ffi::WHOLE],
    numbers: [f64; ffi::NUMBERS],
}

impl Station {
    /// Prepares a station; the record's own altitude is not looked at.
    pub fn prepare(input: &NrlmsiseInput, flags: &Flags) -> Result<Station, Refusal> {
        let (fields, ap, switches) = (input.fields(), input.history(), &flags.switches);
        let mut whole = [0; ffi::WHOLE];
        let mut numbers = [0.0; ffi::NUMBERS];
        // SAFETY: each pointer goes with the length of the array it is of; whole and numbers are ours alone.
        let answer = unsafe {
            ffi::potirehu_station(
                input.year,
                input.doy,
                fields.as_ptr(),
                fields.len() as u64,
                ap.as_ptr(),
                ap.len() as u64,
                switches.as_ptr(),
                switches.len() as u64,
                whole.as_mut_ptr(),
                whole.len() as u64,
                numbers.as_mut_ptr(),
                numbers.len() as u64,
            )
        };
        accepted(answer).map(|_| Station { whole, numbers })
    }

    /// The air at an altitude (km): what [`gtd7`](crate::gtd7) gives on record and row as they now are.
    pub fn gtd7(&self, alt: f64) -> Result<NrlmsiseOutput, Refusal> {
        self.altitude(ffi::potirehu_station_gtd7, alt)
    }

    /// The same for drag: what [`gtd7d`](crate::gtd7d) gives.
    pub fn gtd7d(&self, alt: f64) -> Result<NrlmsiseOutput, Refusal> {
        self.altitude(ffi::potirehu_station_gtd7d, alt)
    }

    /// Changes sec. lst does not follow by itself.
    pub fn set_sec(&mut self, sec: f64) -> Result<(), Refusal> {
        self.change(ffi::potirehu_station_sec, sec)
    }

    /// Changes lst.
    pub fn set_lst(&mut self, lst: f64) -> Result<(), Refusal> {
        self.change(ffi::potirehu_station_lst, lst)
    }

    /// Changes g_long. lst does not follow by itself.
    pub fn set_g_long(&mut self, g_long: f64) -> Result<(), Refusal> {
        self.change(ffi::potirehu_station_g_long, g_long)
    }

    /// Changes f107a and f107 together.
    pub fn set_fluxes(&mut self, f107a: f64, f107: f64) -> Result<(), Refusal> {
        let (whole, numbers) = (&self.whole, &mut self.numbers);
        // SAFETY: each pointer goes with the length of the array it is of; numbers is lent to us alone.
        let answer = unsafe {
            ffi::potirehu_station_fluxes(whole.as_ptr(), whole.len() as u64, numbers.as_mut_ptr(), numbers.len() as u64, f107a, f107)
        };
        accepted(answer).map(|_| ())
    }

    /// Moves the station: sec, lst and g_long in one change; refused, all three stay. Each of the three changes above takes as long as this one.
    pub fn set_position(&mut self, sec: f64, lst: f64, g_long: f64) -> Result<(), Refusal> {
        let (whole, numbers) = (&self.whole, &mut self.numbers);
        let (n_whole, n_numbers) = (whole.len() as u64, numbers.len() as u64);
        // SAFETY: each pointer goes with the length of the array it is of; numbers is lent to us alone.
        let answer = unsafe { ffi::potirehu_station_move(whole.as_ptr(), n_whole, numbers.as_mut_ptr(), n_numbers, sec, lst, g_long) };
        accepted(answer).map(|_| ())
    }

    /// Takes another switch row. Where the two mean the same in entries 1 to 14, no expansion is worked out again.
    pub fn set_switches(&mut self, flags: &Flags) -> Result<(), Refusal> {
        let (whole, numbers, switches) = (&mut self.whole, &mut self.numbers, &flags.switches);
        // SAFETY: each pointer goes with the length of the array it is of; whole and numbers are lent to us alone.
        let answer = unsafe {
            ffi::potirehu_station_switches(
                whole.as_mut_ptr(),
                whole.len() as u64,
                numbers.as_mut_ptr(),
                numbers.len() as u64,
                switches.as_ptr(),
                switches.len() as u64,
            )
        };
        accepted(answer).map(|_| ())
    }

    fn altitude(&self, call: ffi::StationAltitude, alt: f64) -> Result<NrlmsiseOutput, Refusal> {
        let (whole, numbers) = (&self.whole, &self.numbers);
        let mut row = NrlmsiseOutput::default();
        // SAFETY: each pointer goes with the length of the array it is of; row has ROW numbers and is ours alone.
        let answer =
            unsafe { call(whole.as_ptr(), whole.len() as u64, numbers.as_ptr(), numbers.len() as u64, alt, row.as_mut_ptr(), ROW as u64) };
        accepted(answer).map(|_| row)
    }

    fn change(&mut self, call: ffi::StationChange, value: f64) -> Result<(), Refusal> {
        let (whole, numbers) = (&self.whole, &mut self.numbers);
        // SAFETY: each pointer goes with the length of the array it is of; numbers is lent to us alone.
        let answer = unsafe { call(whole.as_ptr(), whole.len() as u64, numbers.as_mut_ptr(), numbers.len() as u64, value) };
        accepted(answer).map(|_| ())
    }
}
