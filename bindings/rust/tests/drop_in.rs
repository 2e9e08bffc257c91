// A caller of the Rust `astro::atmosphere`, with only its `use` line changed.
use potirehu::{
    gtd7, gtd7d, local_solar_time, nrlmsise00, nrlmsise00_with_lst, ApArray, AtmosphereError, Flags, NrlmsiseInput, NrlmsiseOutput,
    DEFAULT_AP, DEFAULT_F107, DEFAULT_F107A, MAX_ALTITUDE_KM,
};

fn planned(alt: f64, history: Option<ApArray>) -> Result<NrlmsiseOutput, AtmosphereError> {
    let (sec, g_long) = (29000.0, -70.0);
    let input = NrlmsiseInput {
        year: 2026,
        doy: 172,
        sec,
        alt: alt.min(MAX_ALTITUDE_KM),
        g_lat: 60.0,
        g_long,
        lst: local_solar_time(sec, g_long),
        f107a: DEFAULT_F107A,
        f107: DEFAULT_F107,
        ap: DEFAULT_AP,
        ap_array: history,
    };
    let mut s = Flags::standard().switches;
    s[0] = 1;
    s[9] = if history.is_some() { -1 } else { 1 };
    let air = gtd7(&input, &Flags::new(s))?;
    let drag = if history.is_some() { gtd7d(&input, &Flags::new(s))? } else { nrlmsise00(&input)? };
    assert!(air.density() <= drag.density() * (1.0 + 1e-12));
    assert_eq!(nrlmsise00_with_lst(&input, None)?, nrlmsise00(&input)?);
    assert!(air.temperature_alt() <= air.temperature_exo());
    Ok(air)
}

#[test]
fn the_desks_way_of_calling() {
    let calm = planned(400.0, None).unwrap();
    let storm = planned(400.0, Some([200.0; 7])).unwrap();
    assert!(storm.d[5] > calm.d[5] && storm.t[0] > calm.t[0]);
    assert_eq!(planned(-1.0, None).unwrap_err().field(), Some("alt"));
    assert_ne!(NrlmsiseOutput::default(), calm);
}
