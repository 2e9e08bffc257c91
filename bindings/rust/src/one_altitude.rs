//! The air at one altitude, also for drag and with constants of the caller's.
use crate::ffi;
use crate::record::{local_solar_time, Flags, NrlmsiseInput, NrlmsiseOutput, ROW};
use crate::refusal::{accepted, Refusal};

fn one_altitude(call: ffi::OneAltitude, input: &NrlmsiseInput, flags: &Flags) -> Result<NrlmsiseOutput, Refusal> {
    let (fields, ap, switches) = (input.fields(), input.history(), &flags.switches);
    let mut row = NrlmsiseOutput::default();
    // SAFETY: each pointer goes with the length of the array it is of; row has ROW numbers and is ours alone.
    let answer = unsafe {
        call(
            input.year,
            input.doy,
            fields.as_ptr(),
            fields.len() as u64,
            ap.as_ptr(),
            ap.len() as u64,
            switches.as_ptr(),
            switches.len() as u64,
            row.as_mut_ptr(),
            ROW as u64,
        )
    };
    accepted(answer).map(|_| row)
}

/// The air of a record. In `d[5]` anomalous oxygen is left out.
///
/// ```
/// use potirehu::{gtd7, Flags, NrlmsiseInput};
/// let input = NrlmsiseInput {
///     year: 2026, doy: 172, sec: 29000.0, alt: 400.0, g_lat: 60.0, g_long: -70.0, lst: 16.0,
///     f107a: 150.0, f107: 150.0, ap: 4.0, ap_array: None,
/// };
/// let air = gtd7(&input, &Flags::metric())?;
/// assert_eq!(format!("{:.6e}", air.d[5]), "4.074714e-12");
///
/// let refusal = gtd7(&input, &Flags::metric().with(9, -1)).unwrap_err();
/// assert_eq!(refusal.to_string(), "switch 9 is -1, but there is no ap_array (refusal 1 at 10)");
/// # Ok::<(), potirehu::Refusal>(())
/// ```
pub fn gtd7(input: &NrlmsiseInput, flags: &Flags) -> Result<NrlmsiseOutput, Refusal> {
    one_altitude(ffi::potirehu_gtd7, input, flags)
}

/// [`gtd7`] for drag: `d[5]` counts anomalous oxygen, which matters above 500 km.
///
/// ```
/// # use potirehu::{gtd7, gtd7d, Flags, NrlmsiseInput};
/// # let sample = NrlmsiseInput { year: 2026, doy: 172, sec: 29000.0, alt: 400.0, g_lat: 60.0, g_long: -70.0, lst: 16.0,
/// #     f107a: 150.0, f107: 150.0, ap: 4.0, ap_array: None };
/// let high = NrlmsiseInput { alt: 800.0, ..sample };
/// assert!(gtd7d(&high, &Flags::metric())?.density() > gtd7(&high, &Flags::metric())?.density());
/// # Ok::<(), potirehu::Refusal>(())
/// ```
pub fn gtd7d(input: &NrlmsiseInput, flags: &Flags) -> Result<NrlmsiseOutput, Refusal> {
    one_altitude(ffi::potirehu_gtd7d, input, flags)
}

/// [`gtd7d`] with all switches on, in m and kg.
pub fn nrlmsise00(input: &NrlmsiseInput) -> Result<NrlmsiseOutput, Refusal> {
    gtd7d(input, &Flags::metric())
}

/// [`nrlmsise00`] with this `lst`, or [`local_solar_time`] where it is `None`.
pub fn nrlmsise00_with_lst(input: &NrlmsiseInput, lst: Option<f64>) -> Result<NrlmsiseOutput, Refusal> {
    let lst = lst.unwrap_or_else(|| local_solar_time(input.sec, input.g_long));
    nrlmsise00(&NrlmsiseInput { lst, ..*input })
}

/// Nine constants in place of the model's own, for [`gtd7_with`]. Each must be finite and above 0.
#[derive(Debug, Clone, Copy, PartialEq)]
pub struct Parameters {
    /// The gas constant, at present 831.4.
    pub rgas: f64,
    /// The mass of mixed air, at present 28.95; not a species' own mass (1, 4, 14, 16, 28, 32, 40).
    pub xmm: f64,
    /// As far as which He is mixed (km), at present 200.
    pub he: f64,
    /// The same of O, at present 300.
    pub o: f64,
    /// The same of N2, at present 160.
    pub n2: f64,
    /// The same of O2, at present 250.
    pub o2: f64,
    /// The same of Ar, at present 240.
    pub ar: f64,
    /// The same of H, at present 320.
    pub h: f64,
    /// The same of N, at present 450.
    pub n: f64,
}

impl Parameters {
    /// The model's own nine, with which [`gtd7_with`] is [`gtd7`].
    pub const PRESENT: Parameters =
        Parameters { rgas: 831.4, xmm: 28.95, he: 200.0, o: 300.0, n2: 160.0, o2: 250.0, ar: 240.0, h: 320.0, n: 450.0 };

    fn nine(&self) -> [f64; ffi::NINE] {
        [self.rgas, self.xmm, self.he, self.o, self.n2, self.o2, self.ar, self.h, self.n]
    }
}

impl Default for Parameters {
    fn default() -> Self {
        Parameters::PRESENT
    }
}

/// [`gtd7`] with nine constants of the caller's. Far from the present ones they can give NaN and infinities.
///
/// ```
/// use potirehu::{gtd7, gtd7_with, Flags, Kind, NrlmsiseInput, Parameters};
/// # let input = NrlmsiseInput { year: 2026, doy: 172, sec: 29000.0, alt: 400.0, g_lat: 60.0, g_long: -70.0, lst: 16.0,
/// #     f107a: 150.0, f107: 150.0, ap: 4.0, ap_array: None };
/// let flags = Flags::metric();
/// assert_eq!(gtd7_with(&Parameters::PRESENT, &input, &flags)?, gtd7(&input, &flags)?);
///
/// let nitrogen = Parameters { xmm: 28.0, ..Parameters::PRESENT };
/// assert_eq!(gtd7_with(&nitrogen, &input, &flags).unwrap_err().kind, Kind::UnfitConstant);
/// # Ok::<(), potirehu::Refusal>(())
/// ```
pub fn gtd7_with(parameters: &Parameters, input: &NrlmsiseInput, flags: &Flags) -> Result<NrlmsiseOutput, Refusal> {
    let nine = parameters.nine();
    let (fields, ap, switches) = (input.fields(), input.history(), &flags.switches);
    let mut row = NrlmsiseOutput::default();
    // SAFETY: each pointer goes with the length of the array it is of; row has ROW numbers and is ours alone.
    let answer = unsafe {
        ffi::potirehu_gtd7_with(
            nine.as_ptr(),
            nine.len() as u64,
            input.year,
            input.doy,
            fields.as_ptr(),
            fields.len() as u64,
            ap.as_ptr(),
            ap.len() as u64,
            switches.as_ptr(),
            switches.len() as u64,
            row.as_mut_ptr(),
            ROW as u64,
        )
    };
    accepted(answer).map(|_| row)
}
