//! The calls of `libpotirehu.a` as `include/potirehu.h` declares them; `tests/header.rs` holds the two against each other.
//!
//! What makes a call sound: each pointer is good for as many values as the length behind it says, and what stands behind a `*mut` is
//! lent for the call alone. The library then reads and writes within these lengths only, whatever the values are, keeps no pointer and
//! calls nothing back; where a length is not the one it needs, it refuses. A pointer with the length 0 is not looked at.

pub const WHOLE: usize = 27;
pub const NUMBERS: usize = 259;
pub const BANDS: usize = 1601;
pub const NINE: usize = 9;
pub const COUNTS: usize = 17;
pub const NOWHERE: u64 = 4294967295;

/// A one-altitude call.
#[rustfmt::skip]
pub type OneAltitude = unsafe extern "C" fn(
    year: i32, doy: i32, fields: *const f64, n_fields: u64, ap_array: *const f64, n_ap: u64, switches: *const i32, n_switches: u64,
    row: *mut f64, n_row: u64) -> u64;

/// A station's altitude.
#[rustfmt::skip]
pub type StationAltitude = unsafe extern "C" fn(
    whole: *const i32, n_whole: u64, numbers: *const f64, n_numbers: u64, alt: f64, row: *mut f64, n_row: u64) -> u64;

/// A change of one number of a station.
#[rustfmt::skip]
pub type StationChange = unsafe extern "C" fn(
    whole: *const i32, n_whole: u64, numbers: *mut f64, n_numbers: u64, value: f64) -> u64;

#[rustfmt::skip]
extern "C" {
    pub fn potirehu_gtd7(
        year: i32, doy: i32, fields: *const f64, n_fields: u64, ap_array: *const f64, n_ap: u64, switches: *const i32,
        n_switches: u64, row: *mut f64, n_row: u64) -> u64;
    pub fn potirehu_gtd7_records(
        days: *const i32, n: u64, fields: *const f64, n_fields: u64, ap_arrays: *const f64, n_aps: u64, switches: *const i32,
        n_switches: u64, answers: *mut u64, n_answers: u64, rows: *mut f64, n_rows: u64) -> u64;
    pub fn potirehu_gtd7_column(
        year: i32, doy: i32, fields: *const f64, n_fields: u64, ap_array: *const f64, n_ap: u64, switches: *const i32,
        n_switches: u64, altitudes: *const f64, n: u64, rows: *mut f64, n_rows: u64) -> u64;
    pub fn potirehu_crossings(
        year: i32, doy: i32, fields: *const f64, n_fields: u64, ap_array: *const f64, n_ap: u64, switches: *const i32,
        n_switches: u64, altitudes: *const f64, n: u64, level: f64, list: *mut u64, n_list: u64) -> u64;
    pub fn potirehu_first_below(
        year: i32, doy: i32, fields: *const f64, n_fields: u64, ap_array: *const f64, n_ap: u64, switches: *const i32,
        n_switches: u64, altitudes: *const f64, n: u64, level: f64, row: *mut f64, n_row: u64) -> u64;
    pub fn potirehu_gtd7d(
        year: i32, doy: i32, fields: *const f64, n_fields: u64, ap_array: *const f64, n_ap: u64, switches: *const i32,
        n_switches: u64, row: *mut f64, n_row: u64) -> u64;
    pub fn potirehu_gtd7_with(
        nine: *const f64, n_nine: u64, year: i32, doy: i32, fields: *const f64, n_fields: u64, ap_array: *const f64, n_ap: u64,
        switches: *const i32, n_switches: u64, row: *mut f64, n_row: u64) -> u64;
    pub fn potirehu_counts(switches: *const i32, n_switches: u64, fields: *mut i32, n_fields: u64) -> u64;
    pub fn potirehu_gtd7_known(
        known: u32, year: i32, doy: i32, fields: *const f64, n_fields: u64, ap_array: *const f64, n_ap: u64, switches: *const i32,
        n_switches: u64, row: *mut f64, n_row: u64) -> u64;
    pub fn potirehu_station(
        year: i32, doy: i32, fields: *const f64, n_fields: u64, ap_array: *const f64, n_ap: u64, switches: *const i32,
        n_switches: u64, whole: *mut i32, n_whole: u64, numbers: *mut f64, n_numbers: u64) -> u64;
    pub fn potirehu_station_gtd7(
        whole: *const i32, n_whole: u64, numbers: *const f64, n_numbers: u64, alt: f64, row: *mut f64, n_row: u64) -> u64;
    pub fn potirehu_station_gtd7d(
        whole: *const i32, n_whole: u64, numbers: *const f64, n_numbers: u64, alt: f64, row: *mut f64, n_row: u64) -> u64;
    pub fn potirehu_station_sec(whole: *const i32, n_whole: u64, numbers: *mut f64, n_numbers: u64, sec: f64) -> u64;
    pub fn potirehu_station_lst(whole: *const i32, n_whole: u64, numbers: *mut f64, n_numbers: u64, lst: f64) -> u64;
    pub fn potirehu_station_g_long(whole: *const i32, n_whole: u64, numbers: *mut f64, n_numbers: u64, g_long: f64) -> u64;
    pub fn potirehu_station_fluxes(
        whole: *const i32, n_whole: u64, numbers: *mut f64, n_numbers: u64, f107a: f64, f107: f64) -> u64;
    pub fn potirehu_station_move(
        whole: *const i32, n_whole: u64, numbers: *mut f64, n_numbers: u64, sec: f64, lst: f64, g_long: f64) -> u64;
    pub fn potirehu_station_switches(
        whole: *mut i32, n_whole: u64, numbers: *mut f64, n_numbers: u64, switches: *const i32, n_switches: u64) -> u64;
    pub fn potirehu_descent(
        year: i32, doy: i32, fields: *const f64, n_fields: u64, ap_array: *const f64, n_ap: u64, switches: *const i32,
        n_switches: u64, start: i64, settings: *const i32, n_settings: u64, losses: *mut i64, n_losses: u64, end: *mut i64,
        n_end: u64) -> u64;
    pub fn potirehu_bands(text: *const u8, n_text: u64, table: *mut i32, n_table: u64) -> u64;
    pub fn potirehu_bands_gtd7(
        table: *const i32, n_table: u64, metre: i64, year: i32, doy: i32, fields: *const f64, n_fields: u64, ap_array: *const f64,
        n_ap: u64, row: *mut f64, n_row: u64) -> u64;
    pub fn potirehu_logs(
        seconds_1: *const u64, n_seconds_1: u64, bits_1: *const u64, n_bits_1: u64, seconds_2: *const u64, n_seconds_2: u64,
        bits_2: *const u64, n_bits_2: u64, tolerance: u64, report: *mut u32, n_report: u64) -> u64;
}
