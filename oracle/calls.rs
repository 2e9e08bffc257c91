// Our calls as libpotirehu.a offers them: 0, or a refusal's number and place.
use untouched::astro::atmosphere::NrlmsiseInput as Input;

// A one-altitude call as the library has it.
pub type OneAltitude = unsafe extern "C" fn(
    year: i32,
    doy: i32,
    fields: *const f64,
    n_fields: usize,
    ap_array: *const f64,
    n_ap: usize,
    switches: *const i32,
    n_switches: usize,
    row: *mut f64,
    n_row: usize,
) -> u64;

// Calls of a library that take a record and a switch row, and then what is named; in brackets what stands before the record.
macro_rules! of_a_record {
    ($($call:ident($([$($first:ident: $a:ty),*],)? $($more:ident: $b:ty),*);)*) => {
        extern "C" {
            $(#[allow(dead_code)]
            pub fn $call(
                $($($first: $a,)*)?
                year: i32,
                doy: i32,
                fields: *const f64,
                n_fields: usize,
                ap_array: *const f64,
                n_ap: usize,
                switches: *const i32,
                n_switches: usize,
                $($more: $b),*
            ) -> u64;)*
        }
    };
}
#[allow(unused_imports)]
pub(crate) use of_a_record;

of_a_record! {
    potirehu_gtd7(row: *mut f64, n_row: usize);
    potirehu_gtd7d(row: *mut f64, n_row: usize);
    potirehu_gtd7_column(altitudes: *const f64, n: usize, rows: *mut f64, n_rows: usize);
    potirehu_station(whole: *mut i32, n_whole: usize, numbers: *mut f64, n_numbers: usize);
    potirehu_crossings(altitudes: *const f64, n: usize, level: f64, list: *mut u64, n_list: usize);
    potirehu_first_below(altitudes: *const f64, n: usize, level: f64, row: *mut f64, n_row: usize);
    potirehu_descent(start: i64, settings: *const i32, n_settings: usize, losses: *mut i64, n_losses: usize, end: *mut i64, n_end: usize);
    potirehu_gtd7_with([nine: *const f64, n_nine: usize], row: *mut f64, n_row: usize);
    potirehu_gtd7_known([known: u32], row: *mut f64, n_row: usize);
}

// Such a call, with the record's slices as they are handed over, so that they may have any length.
macro_rules! call {
    ($call:ident([$($first:expr),*], $year:expr, $doy:expr, $fields:expr, $ap:expr, $w:expr, $($more:expr),*)) => {
        parted(unsafe { $call($($first,)* $year, $doy, $fields.as_ptr(), $fields.len(), $ap.as_ptr(), $ap.len(), $w.as_ptr(), $w.len(), $($more),*) })
    };
}

extern "C" {
    fn potirehu_station_gtd7(whole: *const i32, n_whole: usize, numbers: *const f64, n_numbers: usize, alt: f64, row: *mut f64, n_row: usize) -> u64;
    #[allow(dead_code)]
    fn potirehu_station_gtd7d(whole: *const i32, n_whole: usize, numbers: *const f64, n_numbers: usize, alt: f64, row: *mut f64, n_row: usize) -> u64;
    fn potirehu_station_sec(whole: *const i32, n_whole: usize, numbers: *mut f64, n_numbers: usize, sec: f64) -> u64;
    fn potirehu_station_lst(whole: *const i32, n_whole: usize, numbers: *mut f64, n_numbers: usize, lst: f64) -> u64;
    fn potirehu_station_g_long(whole: *const i32, n_whole: usize, numbers: *mut f64, n_numbers: usize, g_long: f64) -> u64;
    #[allow(dead_code)]
    fn potirehu_station_move(whole: *const i32, n_whole: u64, numbers: *mut f64, n_numbers: u64, sec: f64, lst: f64, g_long: f64) -> u64;
    fn potirehu_station_switches(whole: *mut i32, n_whole: usize, numbers: *mut f64, n_numbers: usize, switches: *const i32, n_switches: usize) -> u64;
    #[allow(dead_code)]
    fn potirehu_counts(switches: *const i32, n_switches: usize, fields: *mut i32, n_fields: usize) -> u64;
    #[allow(dead_code)]
    fn potirehu_gtd7_records(
        days: *const i32,
        n: usize,
        fields: *const f64,
        n_fields: usize,
        ap_arrays: *const f64,
        n_aps: usize,
        switches: *const i32,
        n_switches: usize,
        answers: *mut u64,
        n_answers: usize,
        rows: *mut f64,
        n_rows: usize,
    ) -> u64;
    fn potirehu_station_fluxes(whole: *const i32, n_whole: usize, numbers: *mut f64, n_numbers: usize, f107a: f64, f107: f64) -> u64;
}

// The whole number behind a macro of the C header, read where this is compiled; a header without the macro does not compile.
pub const fn header(define: &str) -> usize {
    let (text, define) = (include_bytes!("../include/potirehu.h"), define.as_bytes());
    let mut at = 0;
    let mut seen = 0;
    while seen < define.len() {
        seen = if text[at] == define[seen] { seen + 1 } else { (text[at] == define[0]) as usize };
        at += 1;
    }
    let mut n = 0;
    while text[at].is_ascii_digit() {
        n = 10 * n + (text[at] - b'0') as usize;
        at += 1;
    }
    assert!(n > 0);
    n
}

// A station's two lengths.
pub const WHOLE: usize = header("#define POTIREHU_STATION_WHOLE ");
pub const NUMBERS: usize = header("#define POTIREHU_STATION_NUMBERS ");

// The record's numbers as the calls take them: the eight fields, the array, and its length, 0 where there is none.
pub fn numbers(r: &Input) -> ([f64; 8], [f64; 7], usize) {
    let fields = [r.sec, r.alt, r.g_lat, r.g_long, r.lst, r.f107a, r.f107, r.ap];
    (fields, r.ap_array.unwrap_or([0.0; 7]), if r.ap_array.is_some() { 7 } else { 0 })
}

fn parted(code: u64) -> (u64, u64) {
    (code >> 32, code & 0xffff_ffff)
}

// A one-altitude call.
pub fn one_altitude(call: OneAltitude, year: i32, doy: i32, fields: &[f64], ap: &[f64], w: &[i32], row: &mut [f64]) -> (u64, u64) {
    call!(call([], year, doy, fields, ap, w, row.as_mut_ptr(), row.len()))
}

pub fn ours(r: &Input, w: &[i32; 24], row: &mut [f64]) -> (u64, u64) {
    let (fields, ap, n_ap) = numbers(r);
    one_altitude(potirehu_gtd7, r.year, r.doy, &fields, &ap[..n_ap], w, row)
}

pub fn ours_column(r: &Input, w: &[i32; 24], alts: &[f64], rows: &mut [f64]) -> (u64, u64) {
    let (fields, ap, n_ap) = numbers(r);
    call!(potirehu_gtd7_column([], r.year, r.doy, fields, &ap[..n_ap], w, alts.as_ptr(), alts.len(), rows.as_mut_ptr(), rows.len()))
}

// The crossings: (0, the list's length) or a refusal.
#[allow(dead_code)]
pub fn crossings(year: i32, doy: i32, fields: &[f64], ap: &[f64], w: &[i32], alts: &[f64], level: f64, list: &mut [u64]) -> (u64, u64) {
    call!(potirehu_crossings([], year, doy, fields, ap, w, alts.as_ptr(), alts.len(), level, list.as_mut_ptr(), list.len()))
}

// The answer where no altitude is thin enough.
#[allow(dead_code)]
pub const NOWHERE: u64 = header("#define POTIREHU_NOWHERE ") as u64;

// The first altitude thin enough: (0, its index or NOWHERE) or a refusal.
#[allow(dead_code)]
pub fn first_below(year: i32, doy: i32, fields: &[f64], ap: &[f64], w: &[i32], alts: &[f64], level: f64, row: &mut [f64]) -> (u64, u64) {
    call!(potirehu_first_below([], year, doy, fields, ap, w, alts.as_ptr(), alts.len(), level, row.as_mut_ptr(), row.len()))
}

// A descent.
#[allow(dead_code)]
pub fn descent(year: i32, doy: i32, fields: &[f64], ap: &[f64], w: &[i32], start: i64, settings: &[i32], losses: &mut [i64], end: &mut [i64]) -> (u64, u64) {
    let (n_settings, n_losses, n_end) = (settings.len(), losses.len(), end.len());
    call!(potirehu_descent([], year, doy, fields, ap, w, start, settings.as_ptr(), n_settings, losses.as_mut_ptr(), n_losses, end.as_mut_ptr(), n_end))
}

// The one-altitude call with nine constants.
#[allow(dead_code)]
pub fn gtd7_with(nine: &[f64], year: i32, doy: i32, fields: &[f64], ap: &[f64], w: &[i32], row: &mut [f64]) -> (u64, u64) {
    call!(potirehu_gtd7_with([nine.as_ptr(), nine.len()], year, doy, fields, ap, w, row.as_mut_ptr(), row.len()))
}

// The one-altitude call for a record known in part.
#[allow(dead_code)]
pub fn gtd7_known(known: u32, year: i32, doy: i32, fields: &[f64], ap: &[f64], w: &[i32], row: &mut [f64]) -> (u64, u64) {
    call!(potirehu_gtd7_known([known], year, doy, fields, ap, w, row.as_mut_ptr(), row.len()))
}

// Which fields count under a switch row.
#[allow(dead_code)]
pub fn counts(w: &[i32], fields: &mut [i32]) -> (u64, u64) {
    parted(unsafe { potirehu_counts(w.as_ptr(), w.len(), fields.as_mut_ptr(), fields.len()) })
}

// Many records.
#[allow(dead_code)]
pub fn records(days: &[i32], fields: &[f64], ap: &[f64], w: &[i32], answers: &mut [u64], rows: &mut [f64]) -> (u64, u64) {
    let (days, n, fields, n_fields, ap, n_ap) = (days.as_ptr(), days.len(), fields.as_ptr(), fields.len(), ap.as_ptr(), ap.len());
    let (answers, n_answers, rows, n_rows) = (answers.as_mut_ptr(), answers.len(), rows.as_mut_ptr(), rows.len());
    parted(unsafe { potirehu_gtd7_records(days, n, fields, n_fields, ap, n_ap, w.as_ptr(), w.len(), answers, n_answers, rows, n_rows) })
}

// The same of lengths that are refused: no memory is behind them.
#[allow(dead_code)]
pub fn records_of_lengths(n: usize, [rows, answers, fields, ap, switches]: [usize; 5]) -> (u64, u64) {
    assert!(switches != 24);
    let (whole, number, answer) = (std::ptr::dangling::<i32>(), std::ptr::dangling_mut::<f64>(), std::ptr::dangling_mut());
    parted(unsafe { potirehu_gtd7_records(whole, n, number, fields, number, ap, whole, switches, answer, answers, number, rows) })
}

// Prepares a station.
pub fn station(year: i32, doy: i32, fields: &[f64], ap: &[f64], w: &[i32], whole: &mut [i32], numbers: &mut [f64]) -> (u64, u64) {
    call!(potirehu_station([], year, doy, fields, ap, w, whole.as_mut_ptr(), whole.len(), numbers.as_mut_ptr(), numbers.len()))
}

pub fn station_gtd7(whole: &[i32], numbers: &[f64], alt: f64, row: &mut [f64]) -> (u64, u64) {
    parted(unsafe { potirehu_station_gtd7(whole.as_ptr(), whole.len(), numbers.as_ptr(), numbers.len(), alt, row.as_mut_ptr(), row.len()) })
}

#[allow(dead_code)]
pub fn station_gtd7d(whole: &[i32], numbers: &[f64], alt: f64, row: &mut [f64]) -> (u64, u64) {
    parted(unsafe { potirehu_station_gtd7d(whole.as_ptr(), whole.len(), numbers.as_ptr(), numbers.len(), alt, row.as_mut_ptr(), row.len()) })
}

// What a station's calls change.
#[derive(Clone, Copy, Debug)]
pub enum Change {
    Sec(f64),
    Lst(f64),
    Long(f64),
    Fluxes(f64, f64),
    Move(f64, f64, f64),
}

pub fn station_change(whole: &[i32], numbers: &mut [f64], change: Change) -> (u64, u64) {
    let (w, n_w, n, n_n) = (whole.as_ptr(), whole.len(), numbers.as_mut_ptr(), numbers.len());
    parted(unsafe {
        match change {
            Change::Sec(x) => potirehu_station_sec(w, n_w, n, n_n, x),
            Change::Lst(x) => potirehu_station_lst(w, n_w, n, n_n, x),
            Change::Long(x) => potirehu_station_g_long(w, n_w, n, n_n, x),
            Change::Fluxes(a, b) => potirehu_station_fluxes(w, n_w, n, n_n, a, b),
            Change::Move(sec, lst, long) => potirehu_station_move(w, n_w as u64, n, n_n as u64, sec, lst, long),
        }
    })
}

// A new row for a station, as it is handed over, so that it may have any length.
#[allow(dead_code)]
pub fn station_switches(whole: &mut [i32], numbers: &mut [f64], w: &[i32]) -> (u64, u64) {
    parted(unsafe { potirehu_station_switches(whole.as_mut_ptr(), whole.len(), numbers.as_mut_ptr(), numbers.len(), w.as_ptr(), w.len()) })
}
