// Every refusal that the calls can give, by number, place and words; and that a refused call leaves what was lent to it.
mod common;
use common::{bits, ALTITUDES, HISTORY, SAMPLE};
use potirehu::*;
use std::error::Error;

fn on() -> Flags {
    Flags::metric()
}

fn with(entry: usize, value: i32) -> Flags {
    let mut flags = on();
    flags.switches[entry] = value;
    flags
}

#[track_caller]
fn refused<T>(answer: Result<T, Refusal>, number: u32, place: u32, words: &str) {
    let refusal = answer.err().expect("a refusal");
    assert_eq!((refusal.number(), refusal.place), (number, place));
    assert_eq!(refusal.to_string(), format!("{words} (refusal {number} at {place})"));
}

// The record with its field of this place changed.
fn field(place: u32, x: f64) -> NrlmsiseInput {
    let mut input = NrlmsiseInput { ap_array: Some(HISTORY), ..SAMPLE };
    match place {
        1 => input.doy = x as i32,
        2 => input.sec = x,
        3 => input.alt = x,
        4 => input.g_lat = x,
        5 => input.g_long = x,
        6 => input.lst = x,
        7 => input.f107a = x,
        8 => input.f107 = x,
        9 => input.ap = x,
        place => input.ap_array.as_mut().unwrap()[place as usize - 10] = x,
    }
    input
}

const SAMPLE_FIELDS: [f64; 8] = [29000.0, 400.0, 60.0, -70.0, 16.0, 150.0, 150.0, 4.0];

const NAMES: [&str; 17] = [
    "year",
    "doy",
    "sec",
    "alt",
    "g_lat",
    "g_long",
    "lst",
    "f107a",
    "f107",
    "ap",
    "ap_array[0]",
    "ap_array[1]",
    "ap_array[2]",
    "ap_array[3]",
    "ap_array[4]",
    "ap_array[5]",
    "ap_array[6]",
];

#[test]
fn number_1_no_history() {
    let words = "switch 9 is -1, but there is no ap_array";
    refused(gtd7(&SAMPLE, &with(9, -1)), 1, 10, words);
    refused(gtd7d(&SAMPLE, &with(9, -1)), 1, 10, words);
    refused(Station::prepare(&SAMPLE, &with(9, -1)), 1, 10, words);
    let refusal = gtd7(&SAMPLE, &with(9, -1)).unwrap_err();
    assert_eq!((refusal.kind, refusal.field()), (Kind::MissingApArray, Some("ap_array")));
}

// A record known in part: 1 at each field that counts and is not known, by the reading of `counts`; 2 and 3 of known fields alone.
#[test]
fn number_1_not_known() {
    let marks = counts(&on());
    for place in 0..10 {
        let known = known::ALL & !(1 << place);
        if marks[place] {
            let words = format!("{} counts under the switch row, and is not known", NAMES[place]);
            refused(gtd7_known(known, &SAMPLE, &on()), 1, place as u32, &words);
        } else {
            assert_eq!(bits(&gtd7_known(known, &SAMPLE, &on()).unwrap()), bits(&gtd7(&SAMPLE, &on()).unwrap()));
        }
    }
    refused(gtd7_known(known::ALL, &SAMPLE, &with(9, -1)), 1, 10, "switch 9 is -1, but there is no ap_array");
    let no_longitude = NrlmsiseInput { g_long: f64::NAN, sec: -1.0, ..SAMPLE };
    let known = known::ALL & !(known::G_LONG | known::SEC);
    let zeros = NrlmsiseInput { g_long: 0.0, sec: 0.0, ..SAMPLE };
    assert_eq!(bits(&gtd7_known(known, &no_longitude, &with(10, 0)).unwrap()), bits(&gtd7(&zeros, &with(10, 0)).unwrap()));
    refused(gtd7_known(known, &NrlmsiseInput { lst: f64::NAN, ..no_longitude }, &on()), 2, 6, "lst is NaN or infinite");
    refused(gtd7_known(known, &NrlmsiseInput { lst: 49.0, ..no_longitude }, &with(10, 0)), 3, 6, "lst is out of range, -24 to 48");
    assert_eq!(bits(&gtd7_known(!0, &SAMPLE, &on()).unwrap()), bits(&gtd7(&SAMPLE, &on()).unwrap()));
}

#[test]
fn number_2_each_field() {
    for place in 2..=16 {
        for x in [f64::NAN, f64::INFINITY, f64::NEG_INFINITY] {
            let words = format!("{} is NaN or infinite", NAMES[place as usize]);
            refused(gtd7(&field(place, x), &on()), 2, place, &words);
        }
        let refusal = gtd7(&field(place, f64::NAN), &on()).unwrap_err();
        let name = NAMES[place as usize].split('[').next();
        assert_eq!((refusal.kind, refusal.field()), (Kind::NonFiniteInput, name));
    }
    let words = "altitudes[2] is NaN or infinite";
    refused(column(&SAMPLE, &on(), &[1.0, 2.0, f64::NAN]), 2, 19, words);
    refused(first_below(&SAMPLE, &on(), &[1.0, 2.0, f64::NAN], 1.0), 2, 19, words);
}

#[test]
fn number_3_each_field() {
    let ranges = [
        (1, 1.0, 366.0, "1 to 366"),
        (2, 0.0, 86400.0, "0 to 86400"),
        (3, 0.0, 2500.0, "0 to 2500 km"),
        (4, -90.0, 90.0, "-90 to 90"),
        (5, -1000.0, 1000.0, "-1000 to 1000"),
        (6, -24.0, 48.0, "-24 to 48"),
        (7, 0.0, 1000.0, "0 to 1000"),
        (8, 0.0, 1000.0, "0 to 1000"),
        (9, 0.0, 400.0, "0 to 400"),
    ];
    let history = (10..=16).map(|place| (place, 0.0, 400.0, "0 to 400"));
    for (place, low, high, range) in ranges.into_iter().chain(history) {
        let words = format!("{} is out of range, {range}", NAMES[place as usize]);
        for x in [low, high] {
            assert!(gtd7(&field(place, x), &on()).is_ok(), "{} at {x}", NAMES[place as usize]);
        }
        for x in [low - 1.0, high + 1.0] {
            refused(gtd7(&field(place, x), &on()), 3, place, &words);
        }
        let refusal = gtd7(&field(place, -2000.0), &on()).unwrap_err();
        let name = NAMES[place as usize].split('[').next();
        assert_eq!((refusal.kind, refusal.field()), (Kind::OutOfDomain, name));
    }
    let words = "altitudes[1] is out of range, 0 to 2500 km";
    refused(column(&SAMPLE, &on(), &[1.0, -1.0]), 3, 18, words);
    let refusal = column(&SAMPLE, &on(), &[1.0, -1.0]).unwrap_err();
    assert_eq!(refusal.field(), Some("altitudes"));
    let bands = format!("(band 0 2500001 (switches {}))", ["1"; 24].join(" ")).parse::<Bands>().unwrap();
    for metre in [-1, 2_500_001, i64::MIN, i64::MAX] {
        refused(bands.gtd7(metre, &SAMPLE), 3, 3, "alt is out of range, 0 to 2500 km");
    }
}

#[test]
fn numbers_4_5_8_9_of_columns() {
    let mark = NrlmsiseOutput { d: [-1.0; 9], t: [-1.0; 2] };
    let mut rows = [mark; 2];
    let four = column_into(&SAMPLE, &on(), &[200.0, 300.0, 400.0], &mut rows);
    refused(four, 4, 33, "a slice has not the length needed, 33");
    assert_eq!(rows, [mark; 2]);

    let many = [400.0; 513];
    let words = "there are more than 512 altitudes";
    refused(column(&SAMPLE, &on(), &many), 5, 512, words);
    refused(crossings(&SAMPLE, &on(), &many, 1e-11), 5, 512, words);
    refused(first_below(&SAMPLE, &on(), &many, 1e-11), 5, 512, words);

    let level = [200.0, 300.0, 300.0, 400.0];
    let mut list = [77; 3];
    let eight = crossings_into(&SAMPLE, &on(), &level, 1e-11, &mut list);
    refused(eight, 8, 2, "altitudes[2] is not above the one before it");
    assert_eq!(list, [77; 3]);

    let climb = [200.0, 300.0, 400.0];
    refused(crossings_into(&SAMPLE, &on(), &climb, 1e-11, &mut []), 9, 1, "the list needs a length of 1");
}

// Rows, answers, fields, histories: each of the wrong length with all behind it wrong too.
#[test]
fn number_4_of_many_records() {
    let mark = NrlmsiseOutput { d: [-1.0; 9], t: [-1.0; 2] };
    let (days, fields, histories) = ([172; 3], [SAMPLE_FIELDS; 4], [HISTORY; 2]);
    let (mut answers, mut rows) = ([Answer::default(); 3], [mark; 3]);
    for (n_rows, n_answers, n_fields, n_histories, needed) in
        [(2, 2, 4, 2, 33), (3, 2, 4, 2, 3), (3, 3, 4, 2, 24), (3, 3, 2, 0, 24), (3, 3, 3, 2, 21), (0, 0, 0, 0, 33)]
    {
        let (answers, rows) = (&mut answers[..n_answers], &mut rows[..n_rows]);
        let four = records_into(&days, &fields[..n_fields], &histories[..n_histories], &on(), answers, rows);
        refused(four, 4, needed, &format!("a slice has not the length needed, {needed}"));
    }
    assert_eq!((answers, rows), ([Answer::default(); 3], [mark; 3]));
}

#[test]
fn number_10_where_n2_is_not_mixed() {
    let low = NrlmsiseInput { alt: 72.0, ..SAMPLE };
    let why = "is below 72.5 km, and N2 is not mixed there: switch 15 is not 1, or the N2 altitude of the nine constants is below 72.5";
    refused(gtd7(&low, &with(15, 0)), 10, 3, &format!("alt {why}"));
    refused(gtd7d(&low, &with(15, 2)), 10, 3, &format!("alt {why}"));
    refused(column(&low, &with(15, 0), &[90.0, 72.5, 72.0]), 10, 19, &format!("altitudes[2] {why}"));
    let station = Station::prepare(&low, &with(15, 0)).unwrap();
    refused(station.gtd7(72.0), 10, 3, &format!("alt {why}"));
    let p = Parameters { n2: 70.0, ..Parameters::PRESENT };
    refused(gtd7_with(&p, &low, &on()), 10, 3, &format!("alt {why}"));
    assert_eq!(gtd7(&low, &with(15, 0)).unwrap_err().field(), Some("alt"));
}

#[test]
fn numbers_11_12_13_of_bands() {
    let on = ["1"; 24].join(" ");
    let band = |from: i64, to: i64| format!("(band {from} {to} (switches {on}))\n");
    let read = |lines: &[String]| Bands::read(lines.concat().as_bytes());
    let no_band = |line| format!("line {line} is no band, has FROM not below TO, ends past 2500001, or is the 65th");
    refused(read(&[band(0, 5), "(band 5)\n".into()]), 11, 2, &no_band(2));
    refused(read(&[band(0, 5), band(5, 5)]), 11, 2, &no_band(2));
    refused(read(&[band(0, 2_500_002)]), 11, 1, &no_band(1));
    let many: Vec<String> = (0..65).map(|i| band(i, i + 1)).collect();
    refused(read(&many), 11, 65, &no_band(65));
    refused(Bands::read(&[0xff, 0xfe]), 11, 1, &no_band(1));
    refused(read(&[band(0, 5), band(4, 2_500_001)]), 12, 2, "the band of line 2 overlaps the one before it");
    let gap = |line| format!("there is a gap before the band of line {line}, or the table ends short there");
    refused(read(&[band(0, 5), band(6, 2_500_001)]), 13, 2, &gap(2));
    refused(read(&[band(0, 5)]), 13, 2, &gap(2));
    refused(Bands::read(b""), 13, 1, &gap(1));
}

#[test]
fn numbers_14_15_of_logs() {
    let good = Log { seconds: &[1, 2], bits: &[0, 0] };
    let uneven = Log { seconds: &[1, 2], bits: &[0] };
    let seconds: Vec<u64> = (0..257).collect();
    let long = Log { seconds: &seconds, bits: &[0; 257] };
    let words = |board| format!("the log of board {board} has more than 256 entries, or not as many seconds as densities");
    refused(compare_logs(&uneven, &long, 0), 14, 1, &words(1));
    refused(compare_logs(&good, &long, 0), 14, 2, &words(2));
    let level = Log { seconds: &[3, 3], bits: &[0, 0] };
    refused(compare_logs(&level, &good, 0), 15, 1, "seconds[1] of board 1 is not above the one before it");
    refused(compare_logs(&good, &level, 0), 15, 257, "seconds[1] of board 2 is not above the one before it");
}

#[test]
fn number_16_each_constant() {
    let p = Parameters::PRESENT;
    let unfit = f64::INFINITY;
    let each = [
        ("rgas", Parameters { rgas: unfit, ..p }),
        ("xmm", Parameters { xmm: unfit, ..p }),
        ("he", Parameters { he: unfit, ..p }),
        ("o", Parameters { o: unfit, ..p }),
        ("n2", Parameters { n2: unfit, ..p }),
        ("o2", Parameters { o2: unfit, ..p }),
        ("ar", Parameters { ar: unfit, ..p }),
        ("h", Parameters { h: unfit, ..p }),
        ("n", Parameters { n: unfit, ..p }),
    ];
    let also = ", or is a species' own mass";
    for (i, (name, p)) in each.into_iter().enumerate() {
        let words = format!("{name}, constant {} of nine, is NaN, infinite or not above 0{}", i + 1, if i == 1 { also } else { "" });
        refused(gtd7_with(&p, &SAMPLE, &on()), 16, i as u32 + 1, &words);
    }
    for xmm in [1.0, 4.0, 14.0, 16.0, 28.0, 32.0, 40.0, 0.0, f64::NAN] {
        let words = format!("xmm, constant 2 of nine, is NaN, infinite or not above 0{also}");
        refused(gtd7_with(&Parameters { xmm, ..p }, &SAMPLE, &on()), 16, 2, &words);
    }
}

#[test]
fn numbers_17_18_19_of_descents() {
    let words = "the start is outside 200000000 to 1000000000 millimetres";
    for start in [199_999_999, 1_000_000_001, i64::MIN, i64::MAX] {
        refused(descent(&SAMPLE, &on(), start, &[1]), 17, 0, words);
    }
    let start = 300_000_000;
    refused(descent(&SAMPLE, &on(), start, &[1, 0]), 18, 2, "the setting of orbit 2 is outside 1 to 4");
    let many = "there are more than 10000 settings, or fewer losses than 10000 settings need";
    refused(descent(&SAMPLE, &on(), start, &[1; 10_001]), 19, 10_000, many);
    let mut losses = [-7; 2];
    let short = descent_into(&SAMPLE, &on(), start, &[1; 3], &mut losses);
    refused(short, 19, 3, "the list of losses needs a length of 3");
    assert_eq!(losses, [-7; 2]);
}

#[test]
fn refused_calls_leave_what_was_lent() {
    let mark = NrlmsiseOutput { d: [-1.0; 9], t: [-1.0; 2] };
    let mut rows = [mark; 3];
    for altitudes in [[200.0, f64::NAN], [200.0, 2501.0]] {
        column_into(&SAMPLE, &on(), &altitudes, &mut rows).unwrap_err();
        assert_eq!(rows, [mark; 3]);
    }
    let mut list = [77; 3];
    crossings_into(&field(4, 91.0), &on(), &[200.0, 300.0], 1e-11, &mut list).unwrap_err();
    assert_eq!(list, [77; 3]);
    let mut losses = [-7; 3];
    descent_into(&SAMPLE, &on(), 300_000_000, &[1, 2, 9], &mut losses).unwrap_err();
    assert_eq!(losses, [-7; 3]);
}

#[test]
fn refused_changes_leave_the_station() {
    let mut station = Station::prepare(&SAMPLE, &on()).unwrap();
    let before = format!("{station:?}");
    let rows = |station: &Station| ALTITUDES.map(|alt| bits(&station.gtd7(alt).unwrap()));
    let rows_before = rows(&station);
    refused(station.set_sec(86401.0), 3, 2, "sec is out of range, 0 to 86400");
    refused(station.set_lst(f64::NAN), 2, 6, "lst is NaN or infinite");
    refused(station.set_g_long(-1001.0), 3, 5, "g_long is out of range, -1000 to 1000");
    refused(station.set_fluxes(100.0, f64::INFINITY), 2, 8, "f107 is NaN or infinite");
    refused(station.set_fluxes(-1.0, 100.0), 3, 7, "f107a is out of range, 0 to 1000");
    refused(station.set_position(86401.0, 49.0, 0.0), 3, 2, "sec is out of range, 0 to 86400");
    refused(station.set_position(0.0, 49.0, 1001.0), 3, 5, "g_long is out of range, -1000 to 1000");
    refused(station.set_position(0.0, f64::NAN, 0.0), 2, 6, "lst is NaN or infinite");
    refused(station.set_switches(&with(9, -1)), 1, 10, "switch 9 is -1, but there is no ap_array");
    refused(station.gtd7(2501.0), 3, 3, "alt is out of range, 0 to 2500 km");
    refused(station.gtd7d(f64::NAN), 2, 3, "alt is NaN or infinite");
    assert_eq!(format!("{station:?}"), before);
    assert_eq!(rows(&station), rows_before);
}

#[test]
fn a_refusal_is_an_error() {
    let boxed: Box<dyn Error + Send + Sync> = gtd7(&field(4, 91.0), &on()).unwrap_err().into();
    let refusal = boxed.downcast_ref::<Refusal>().unwrap();
    assert_eq!(*refusal, Refusal { kind: Kind::OutOfDomain, place: 4 });
}
