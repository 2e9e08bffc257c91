//! What a call takes and gives: the record, the switch row and the eleven numbers.
use std::mem;

/// Magnetic history: daily ap; 3-hour ap now and 3, 6, 9 hours before; means of 12 to 33 and 36 to 57 hours before. 0 to 400 each.
pub type ApArray = [f64; 7];

/// The highest altitude accepted (km).
pub const MAX_ALTITUDE_KM: f64 = 2500.0;

/// The f107 of the published samples.
pub const DEFAULT_F107: f64 = 150.0;

/// The f107a of the published samples.
pub const DEFAULT_F107A: f64 = 150.0;

/// The ap of the published samples.
pub const DEFAULT_AP: f64 = 4.0;

/// A record. Every field must be finite and in range, also one that the switch row shuts off: write 0 there.
#[derive(Debug, Clone, Copy, PartialEq)]
pub struct NrlmsiseInput {
    /// Read by nothing.
    pub year: i32,
    /// Day of the year, 1 to 366.
    pub doy: i32,
    /// Seconds of the day (UT), 0 to 86,400.
    pub sec: f64,
    /// Altitude (km), 0 to 2,500.
    pub alt: f64,
    /// Latitude (degrees), -90 to 90.
    pub g_lat: f64,
    /// Longitude (degrees east), -1,000 to 1,000.
    pub g_long: f64,
    /// Local solar time (hours), -24 to 48; [`local_solar_time`] where nothing else is known.
    pub lst: f64,
    /// F10.7, mean of 81 days around the day, 0 to 1,000.
    pub f107a: f64,
    /// F10.7 of the day before, 0 to 1,000.
    pub f107: f64,
    /// Daily ap, 0 to 400.
    pub ap: f64,
    /// Magnetic history, needed where switch 9 is -1.
    pub ap_array: Option<ApArray>,
}

impl NrlmsiseInput {
    pub(crate) fn fields(&self) -> [f64; 8] {
        [self.sec, self.alt, self.g_lat, self.g_long, self.lst, self.f107a, self.f107, self.ap]
    }

    pub(crate) fn history(&self) -> &[f64] {
        self.ap_array.as_ref().map_or(&[], |seven| seven)
    }
}

/// The eleven numbers, in m^-3 and kg/m^3 where switch 0 is 1, else in cm^-3 and g/cm^3. An accepted row can hold NaN, as at exactly
/// 32.5 km.
// The library writes eleven numbers in a row: the layout must be these and nothing else.
#[derive(Debug, Clone, Copy, Default, PartialEq)]
#[repr(C)]
pub struct NrlmsiseOutput {
    /// He, O, N2, O2, Ar, mass density, H, N, anomalous O.
    pub d: [f64; 9],
    /// Exospheric temperature, temperature at the altitude (K).
    pub t: [f64; 2],
}

pub(crate) const ROW: usize = 11;
const _: () = assert!(mem::size_of::<NrlmsiseOutput>() == ROW * mem::size_of::<f64>());
const _: () = assert!(mem::align_of::<NrlmsiseOutput>() == mem::align_of::<f64>());

impl NrlmsiseOutput {
    /// Mass density, `d[5]`.
    pub fn density(&self) -> f64 {
        self.d[5]
    }

    /// Exospheric temperature, `t[0]`.
    pub fn temperature_exo(&self) -> f64 {
        self.t[0]
    }

    /// Temperature at the altitude, `t[1]`.
    pub fn temperature_alt(&self) -> f64 {
        self.t[1]
    }

    pub(crate) fn as_mut_ptr(&mut self) -> *mut f64 {
        (self as *mut Self).cast()
    }
}

/// The switch row: 1 on, 0 off, 2 main effect off and cross effect on; entry 0 at 1 gives m and kg; entry 9: 1 daily ap, -1 `ap_array`,
/// 0 neither.
///
/// A call reads `switches` as they then are. In the Rust `astro::atmosphere`, which derives others from them
/// in `new`, the numbers do not follow an entry written later.
///
/// ```
/// use potirehu::Flags;
/// let mut after_restart = Flags::metric();
/// for entry in [7, 8, 9, 10, 14] {
///     after_restart.switches[entry] = 0;
/// }
/// assert_eq!(Flags::standard().switches[..2], [0, 1]);
/// ```
#[derive(Debug, Clone, Copy, PartialEq, Eq)]
pub struct Flags {
    /// The 24 entries as given.
    pub switches: [i32; 24],
}

impl Flags {
    /// The row as given; no value is refused but where its entry 9 is -1 and the record has no `ap_array`.
    pub fn new(switches: [i32; 24]) -> Self {
        Flags { switches }
    }

    /// The same row but for one entry, from 0 to 23.
    ///
    /// ```
    /// use potirehu::Flags;
    /// assert_eq!(Flags::metric().with(9, -1).switches[9], -1);
    /// ```
    pub fn with(mut self, entry: usize, value: i32) -> Self {
        self.switches[entry] = value;
        self
    }

    /// All on, in cm and g, as the published samples have it.
    pub fn standard() -> Self {
        let mut switches = [1; 24];
        switches[0] = 0;
        Flags { switches }
    }

    /// All on, in m and kg.
    pub fn metric() -> Self {
        Flags { switches: [1; 24] }
    }
}

/// Local solar time (hours, 0 to 24) from the seconds of the day and the longitude.
pub fn local_solar_time(sec: f64, g_long: f64) -> f64 {
    let lst = sec / 3600.0 + g_long / 15.0;
    ((lst % 24.0) + 24.0) % 24.0
}
