// Every other call against the one-altitude call, bit by bit.
mod common;
use common::{bits, records, rows_of_switches, ALTITUDES, HISTORY, SAMPLE};
use potirehu::*;

#[test]
fn station_is_gtd7() {
    for flags in rows_of_switches() {
        for input in records() {
            let station = Station::prepare(&NrlmsiseInput { alt: f64::NAN, ..input }, &flags).unwrap();
            for alt in ALTITUDES {
                let here = NrlmsiseInput { alt, ..input };
                assert_eq!(bits(&station.gtd7(alt).unwrap()), bits(&gtd7(&here, &flags).unwrap()));
                assert_eq!(bits(&station.gtd7d(alt).unwrap()), bits(&gtd7d(&here, &flags).unwrap()));
            }
        }
    }
}

#[test]
fn changed_station_is_gtd7_on_the_changed_record() {
    let [_, metric, history, restart] = rows_of_switches();
    let mut now = records()[0];
    let mut station = Station::prepare(&now, &metric).unwrap();
    let same = |station: &Station, now: &NrlmsiseInput, flags: &Flags| {
        for alt in ALTITUDES {
            let here = NrlmsiseInput { alt, ..*now };
            assert_eq!(bits(&station.gtd7(alt).unwrap()), bits(&gtd7(&here, flags).unwrap()));
        }
    };
    now.sec = 86400.0;
    station.set_sec(now.sec).unwrap();
    same(&station, &now, &metric);
    now.lst = -3.5;
    station.set_lst(now.lst).unwrap();
    same(&station, &now, &metric);
    now.g_long = 215.0;
    station.set_g_long(now.g_long).unwrap();
    same(&station, &now, &metric);
    (now.f107a, now.f107) = (90.0, 210.0);
    station.set_fluxes(now.f107a, now.f107).unwrap();
    same(&station, &now, &metric);
    (now.sec, now.lst, now.g_long) = (5400.0, 2.5, 33.0);
    station.set_position(now.sec, now.lst, now.g_long).unwrap();
    same(&station, &now, &metric);
    station.set_switches(&history).unwrap();
    same(&station, &now, &history);
    station.set_switches(&restart).unwrap();
    same(&station, &now, &restart);
}

#[test]
fn present_constants_are_gtd7() {
    assert_eq!(Parameters::default(), Parameters::PRESENT);
    for flags in rows_of_switches() {
        for input in records() {
            for alt in ALTITUDES {
                let here = NrlmsiseInput { alt, ..input };
                let with = gtd7_with(&Parameters::PRESENT, &here, &flags).unwrap();
                assert_eq!(bits(&with), bits(&gtd7(&here, &flags).unwrap()));
            }
        }
    }
}

#[test]
fn each_constant_has_its_place() {
    // At 120 km every altitude that is set below it, and both numbers, count for a number of the row.
    let here = NrlmsiseInput { alt: 120.0, ..SAMPLE };
    let own = gtd7(&here, &Flags::metric()).unwrap();
    let p = Parameters::PRESENT;
    for (species, p) in [
        (0, Parameters { he: 110.0, ..p }),
        (1, Parameters { o: 110.0, ..p }),
        (2, Parameters { n2: 110.0, ..p }),
        (3, Parameters { o2: 110.0, ..p }),
        (4, Parameters { ar: 110.0, ..p }),
        (6, Parameters { h: 110.0, ..p }),
        (7, Parameters { n: 110.0, ..p }),
        (2, Parameters { rgas: 840.0, ..p }),
        (0, Parameters { xmm: 29.5, ..p }),
    ] {
        let row = gtd7_with(&p, &here, &Flags::metric()).unwrap();
        assert_ne!(row.d[species].to_bits(), own.d[species].to_bits(), "{p:?}");
    }
}

// Days that change and stay, every kind of altitude after every other, with a history, without, and mixed, refused ones in between.
#[test]
fn many_records_are_gtd7() {
    let mut all: Vec<NrlmsiseInput> = vec![];
    for (i, input) in records().into_iter().enumerate() {
        for (j, alt) in ALTITUDES.into_iter().enumerate() {
            for (k, after) in ALTITUDES.into_iter().enumerate() {
                all.push(NrlmsiseInput { alt, doy: 1 + (i + j) as i32, ..input });
                all.push(NrlmsiseInput { alt: after, doy: 1 + (i + j + k % 2) as i32, ..input });
                all.push(NrlmsiseInput { doy: if k % 3 == 0 { 367 } else { 12 }, lst: if k % 3 == 1 { f64::NAN } else { 1.0 }, ..input });
            }
        }
    }
    let without: Vec<NrlmsiseInput> = all.iter().map(|input| NrlmsiseInput { ap_array: None, ..*input }).collect();
    let mixed: Vec<NrlmsiseInput> = all.iter().zip(&without).enumerate().map(|(i, (a, b))| if i % 7 < 3 { *a } else { *b }).collect();
    let mut refused = 0;
    for flags in rows_of_switches() {
        for list in [&all, &without, &mixed] {
            let air = potirehu::records(list, &flags);
            assert_eq!(air.len(), list.len());
            for (input, air) in list.iter().zip(air) {
                let alone = gtd7(input, &flags);
                refused += alone.is_err() as usize;
                assert_eq!(air.map(|row| bits(&row)), alone.map(|row| bits(&row)));
            }
        }
    }
    assert!(refused > all.len());
    assert_eq!(potirehu::records(&[], &Flags::metric()), []);
}

#[test]
fn column_is_gtd7() {
    for flags in rows_of_switches() {
        for input in records() {
            let rows = column(&NrlmsiseInput { alt: -1.0, ..input }, &flags, &ALTITUDES).unwrap();
            assert_eq!(rows.len(), ALTITUDES.len());
            for (alt, row) in ALTITUDES.into_iter().zip(&rows) {
                let here = NrlmsiseInput { alt, ..input };
                assert_eq!(bits(row), bits(&gtd7(&here, &flags).unwrap()));
            }
        }
    }
    assert_eq!(column(&SAMPLE, &Flags::metric(), &[]), Ok(vec![]));
    assert_eq!(column(&SAMPLE, &Flags::metric(), &[400.0; 512]).unwrap().len(), 512);
}

#[test]
fn longer_buffers_keep_their_rest() {
    let mark = NrlmsiseOutput { d: [-1.0; 9], t: [-1.0; 2] };
    let mut rows = [mark; 4];
    column_into(&SAMPLE, &Flags::metric(), &[200.0, 400.0], &mut rows).unwrap();
    assert_eq!(rows[1], gtd7(&SAMPLE, &Flags::metric()).unwrap());
    assert_eq!(rows[2..], [mark; 2]);

    let mark_answer = {
        let mut one = [Answer::default()];
        records_into(&[367], &[[0.0; 8]], &[], &Flags::metric(), &mut one, &mut [mark]).unwrap();
        one[0]
    };
    let (mut answers, mut rows) = ([mark_answer; 4], [mark; 4]);
    let fields = [[29000.0, 400.0, 60.0, -70.0, 16.0, 150.0, 150.0, 4.0], [f64::NAN; 8]];
    records_into(&[172, 172], &fields, &[], &Flags::metric(), &mut answers, &mut rows).unwrap();
    assert_eq!(rows, [gtd7(&SAMPLE, &Flags::metric()).unwrap(), mark, mark, mark]);
    assert_eq!(answers[1].accepted(), Err(Refusal { kind: Kind::NonFiniteInput, place: 2 }));
    assert_eq!((answers[0].accepted(), &answers[2..]), (Ok(()), &[mark_answer; 2][..]));

    let mut list = [77; 4];
    let climb = [200.0, 300.0, 400.0];
    assert_eq!(crossings_into(&SAMPLE, &Flags::metric(), &climb, 1e-11, &mut list), Ok(1));
    assert_eq!(list, [1, 77, 77, 77]);

    let mut losses = [-7; 4];
    let end = descent_into(&SAMPLE, &Flags::metric(), 300_000_000, &[1, 2], &mut losses).unwrap();
    assert_eq!((end.ending, end.taken), (Ending::Spent, 2));
    assert_eq!(end.altitude, 300_000_000 - losses[0] - losses[1]);
    assert_eq!(losses[2..], [-7, -7]);
}

#[test]
fn levels_are_those_of_the_column() {
    let (flags, input) = (Flags::metric(), SAMPLE);
    let d: Vec<f64> = column(&input, &flags, &ALTITUDES).unwrap().iter().map(|row| row.d[5]).collect();
    for level in [1.0, d[3], 1e-6, 1e-12, d[12], 1e-30, f64::NAN, f64::INFINITY] {
        let passes = |i: &usize| {
            let (a, b) = (d[*i], d[*i + 1]);
            (a >= level && b < level) || (a < level && b >= level)
        };
        let expect: Vec<usize> = (0..d.len() - 1).filter(passes).collect();
        assert_eq!(crossings(&input, &flags, &ALTITUDES, level).unwrap(), expect);

        let first = first_below(&input, &flags, &ALTITUDES, level).unwrap();
        let index = d.iter().position(|x| *x < level);
        assert_eq!(first.map(|(index, _)| index), index);
        if let Some((index, row)) = first {
            let here = NrlmsiseInput { alt: ALTITUDES[index], ..input };
            assert_eq!(bits(&row), bits(&gtd7(&here, &flags).unwrap()));
        }
    }
}

#[test]
fn bands_are_gtd7_with_their_row() {
    let restart = "1 1 1 1 1 1 1 0 0 0 0 1 1 1 0 1 1 1 1 1 1 1 1 1";
    let on = ["1"; 24].join(" ");
    let text = format!("(band 0 150000 (switches {on}))\n(band 150000 2500001 (switches {restart}))");
    let bands = Bands::read(text.as_bytes()).unwrap();
    assert_eq!(text.parse(), Ok(bands.clone()));
    let rows = rows_of_switches();
    for metre in [0, 50_000, 149_999, 150_000, 150_001, 400_000, 2_500_000] {
        let flags = if metre < 150_000 { rows[1] } else { rows[3] };
        for input in records() {
            let here = NrlmsiseInput { alt: metre as f64 / 1000.0, ..input };
            assert_eq!(bits(&bands.gtd7(metre, &input).unwrap()), bits(&gtd7(&here, &flags).unwrap()));
        }
    }
}

#[test]
fn descents_lose_what_gtd7_says() {
    // Switch 0 is taken as 1.
    for flags in [Flags::standard(), Flags::metric()] {
        let mut altitude = 202_000_000;
        let settings = [4; 60];
        let flown = descent(&SAMPLE, &flags, altitude, &settings).unwrap();
        for loss in &flown.losses {
            let here = NrlmsiseInput { alt: altitude as f64 / 1e6, ..SAMPLE };
            let d = gtd7(&here, &Flags::metric()).unwrap().d[5];
            assert_eq!(*loss, ((d * 1e15) * 4.0) as i64);
            altitude -= loss;
        }
        assert_eq!(flown.altitude, altitude);
        assert_eq!(flown.ending, Ending::Reached);
    }
    let none = descent(&SAMPLE, &Flags::metric(), 200_000_000, &[]).unwrap();
    assert_eq!(none, Descent { ending: Ending::Spent, altitude: 200_000_000, losses: vec![] });
    // A flux and an entry 9 far beyond what they mean: the density is NaN.
    let hot = NrlmsiseInput { alt: 300.0, f107a: 1000.0, f107: 0.0, ap: 0.0, ..SAMPLE };
    let mut far = Flags::metric();
    far.switches[9] = 1000;
    assert!(gtd7(&hot, &far).unwrap().d[5].is_nan());
    let flown = descent(&hot, &far, 300_000_000, &[1]).unwrap();
    assert_eq!(flown, Descent { ending: Ending::NoDensity, altitude: 300_000_000, losses: vec![] });
}

#[test]
fn logs_pair_up() {
    let bits = |d: f64| d.to_bits();
    let nan = Log { seconds: &[7], bits: &[f64::NAN.to_bits()] };
    assert_eq!(compare_logs(&nan, &nan, 0).unwrap(), [Finding::SamePair]);
    let one = Log { seconds: &[10, 20, 30], bits: &[bits(1.0), bits(2.0), bits(3.0)] };
    let two = Log { seconds: &[11, 19, 40], bits: &[bits(1.0), bits(2.5), bits(3.0)] };
    use Finding::*;
    assert_eq!(compare_logs(&one, &two, 1).unwrap(), [SamePair, OtherPair, Single1, Single2]);
    assert_eq!(compare_logs(&one, &two, 0).unwrap(), [Single1, Single2, Single2, Single1, Single1, Single2]);
    let empty = Log { seconds: &[], bits: &[] };
    assert_eq!(compare_logs(&empty, &empty, 5).unwrap(), []);
    let seconds: Vec<u64> = (0..256).collect();
    let full = Log { seconds: &seconds, bits: &[0; 256] };
    let later: Vec<u64> = (1000..1256).collect();
    assert_eq!(compare_logs(&full, &Log { seconds: &later, ..full }, 0).unwrap().len(), 512);
}

#[test]
fn the_short_calls_are_gtd7d() {
    let all_on = gtd7d(&SAMPLE, &Flags::metric()).unwrap();
    assert_eq!(nrlmsise00(&SAMPLE), Ok(all_on));
    assert_eq!(nrlmsise00_with_lst(&SAMPLE, Some(16.0)), Ok(all_on));
    let lst = local_solar_time(SAMPLE.sec, SAMPLE.g_long);
    let derived = gtd7d(&NrlmsiseInput { lst, ..SAMPLE }, &Flags::metric());
    assert_eq!(nrlmsise00_with_lst(&SAMPLE, None), derived);
    assert!((0.0..=24.0).contains(&local_solar_time(0.0, -1000.0)));
}

#[test]
fn the_history_counts_where_switch_9_asks_for_it() {
    let [_, metric, history, _] = rows_of_switches();
    let calm = NrlmsiseInput { ap_array: Some([0.0; 7]), ..SAMPLE };
    let storm = NrlmsiseInput { ap_array: Some(HISTORY), ..SAMPLE };
    assert_ne!(gtd7(&calm, &history), gtd7(&storm, &history));
    assert_eq!(gtd7(&calm, &metric), gtd7(&storm, &metric));
    assert_eq!(gtd7(&SAMPLE, &metric), gtd7(&storm, &metric));
}
