//! Why a call gave no numbers.
use std::fmt;
use Kind::*;

/// What a refusal's number says. `kind as u32` is the number.
#[derive(Debug, Clone, Copy, PartialEq, Eq, Hash)]
#[non_exhaustive]
pub enum Kind {
    /// 1: switch 9 is -1 and there is no `ap_array`, place 10; of [`gtd7_known`](crate::gtd7_known) also a field that counts and is not known.
    MissingApArray = 1,
    /// 2: a field is NaN or infinite.
    NonFiniteInput = 2,
    /// 3: a field is out of range.
    OutOfDomain = 3,
    /// 4: a slice has not the length needed, which is the place.
    WrongLength = 4,
    /// 5: more than 512 altitudes.
    TooManyAltitudes = 5,
    /// 6: a coefficient set of the wrong length; no call of this crate gives it.
    WrongCoefficients = 6,
    /// 7: a line that is no form of the line program; no call of this crate gives it.
    NoForm = 7,
    /// 8: altitudes that do not rise; the place is the first index not above the one before it.
    AltitudesNotRising = 8,
    /// 9: a list that does not fit; the place is the length needed.
    ListTooShort = 9,
    /// 10: below 72.5 km N2 is not mixed, because switch 15 is not 1 or the N2 altitude of the nine constants is below 72.5.
    N2NotMixed = 10,
    /// 11: a line that is no band; the place is the line, from 1.
    NoBand = 11,
    /// 12: a band that overlaps the one before it; the place is the line, from 1.
    BandOverlap = 12,
    /// 13: a gap before a band, or a table that ends short; the place is the line, from 1.
    BandGap = 13,
    /// 14: a log too long or uneven; the place is the board, 1 or 2.
    UnfitLog = 14,
    /// 15: a board's seconds that do not rise; the place is the index, 256 more for board 2.
    SecondsNotRising = 15,
    /// 16: one of nine constants is unfit; the place is its position, from 1.
    UnfitConstant = 16,
    /// 17: a descent's start is outside 200 to 1,000 km.
    StartOutOfRange = 17,
    /// 18: a flap setting outside 1 to 4; the place is the orbit, from 1.
    UnfitSetting = 18,
    /// 19: more than 10,000 settings, or a list of losses shorter than the settings.
    TooManySettings = 19,
}

// In the order of their numbers, from 1.
const KINDS: [Kind; 19] = [
    MissingApArray,
    NonFiniteInput,
    OutOfDomain,
    WrongLength,
    TooManyAltitudes,
    WrongCoefficients,
    NoForm,
    AltitudesNotRising,
    ListTooShort,
    N2NotMixed,
    NoBand,
    BandOverlap,
    BandGap,
    UnfitLog,
    SecondsNotRising,
    UnfitConstant,
    StartOutOfRange,
    UnfitSetting,
    TooManySettings,
];

// The record's fields up to ap, in the order of their places, with their ranges.
const FIELDS: [(&str, &str); 10] = [
    ("year", "any"),
    ("doy", "1 to 366"),
    ("sec", "0 to 86400"),
    ("alt", "0 to 2500 km"),
    ("g_lat", "-90 to 90"),
    ("g_long", "-1000 to 1000"),
    ("lst", "-24 to 48"),
    ("f107a", "0 to 1000"),
    ("f107", "0 to 1000"),
    ("ap", "0 to 400"),
];

// The constants' names, as Parameters has them.
const CONSTANTS: [&str; 9] = ["rgas", "xmm", "he", "o", "n2", "o2", "ar", "h", "n"];

/// A refusal: what is wrong and where. Whatever was lent to the refused call is as it was.
///
/// ```
/// use potirehu::{gtd7, Flags, Kind, NrlmsiseInput, Refusal};
/// # let sample = NrlmsiseInput { year: 2026, doy: 172, sec: 29000.0, alt: 400.0, g_lat: 60.0, g_long: -70.0, lst: 16.0,
/// #     f107a: 150.0, f107: 150.0, ap: 4.0, ap_array: None };
/// let input = NrlmsiseInput { g_lat: 91.0, ..sample };
/// let refusal = gtd7(&input, &Flags::metric()).unwrap_err();
/// assert_eq!(refusal, Refusal { kind: Kind::OutOfDomain, place: 4 });
/// assert_eq!((refusal.number(), refusal.field()), (3, Some("g_lat")));
/// assert_eq!(refusal.to_string(), "g_lat is out of range, -90 to 90 (refusal 3 at 4)");
/// assert_eq!(format!("{refusal:?}"), "Refusal { kind: OutOfDomain, number: 3, place: 4, field: Some(\"g_lat\") }");
/// ```
#[derive(Clone, Copy, PartialEq, Eq, Hash)]
pub struct Refusal {
    /// What is wrong.
    pub kind: Kind,
    /// Where; [`Kind`] says what it counts. Of a field: 0 year, 1 doy, 2 sec, 3 alt, 4 g_lat, 5 g_long, 6 lst, 7 f107a, 8 f107, 9 ap,
    /// 10 to 16 `ap_array`, 17 plus its index an altitude of a column.
    pub place: u32,
}

impl Refusal {
    /// The number, 1 to 19.
    pub fn number(&self) -> u32 {
        self.kind as u32
    }

    /// The field that the place names, where it names one: the record's own names, `ap_array` for any of its values, `altitudes` for
    /// any altitude of a column.
    pub fn field(&self) -> Option<&'static str> {
        match (self.kind, self.place) {
            (MissingApArray | NonFiniteInput | OutOfDomain | N2NotMixed, place) => Some(match place {
                0..=9 => FIELDS[place as usize].0,
                10..=16 => "ap_array",
                _ => "altitudes",
            }),
            _ => None,
        }
    }

    // The field with its index, and its range.
    fn named_field(&self) -> (String, &'static str) {
        match self.place {
            place @ 0..=9 => (FIELDS[place as usize].0.to_string(), FIELDS[place as usize].1),
            place @ 10..=16 => (format!("ap_array[{}]", place - 10), FIELDS[9].1),
            place => (format!("altitudes[{}]", place - 17), FIELDS[3].1),
        }
    }
}

// What unwrap and expect print: the number and the field too.
impl fmt::Debug for Refusal {
    fn fmt(&self, f: &mut fmt::Formatter<'_>) -> fmt::Result {
        f.debug_struct("Refusal")
            .field("kind", &self.kind)
            .field("number", &self.number())
            .field("place", &self.place)
            .field("field", &self.field())
            .finish()
    }
}

impl fmt::Display for Refusal {
    fn fmt(&self, f: &mut fmt::Formatter<'_>) -> fmt::Result {
        let place = self.place;
        let (field, range) = self.named_field();
        match self.kind {
            MissingApArray if place < 10 => write!(f, "{field} counts under the switch row, and is not known"),
            MissingApArray => write!(f, "switch 9 is -1, but there is no ap_array"),
            NonFiniteInput => write!(f, "{field} is NaN or infinite"),
            OutOfDomain => write!(f, "{field} is out of range, {range}"),
            WrongLength => write!(f, "a slice has not the length needed, {place}"),
            TooManyAltitudes => write!(f, "there are more than {place} altitudes"),
            WrongCoefficients => write!(f, "a set of coefficients has not the length needed, {place}"),
            NoForm => write!(f, "line {place} is no form"),
            AltitudesNotRising => write!(f, "altitudes[{place}] is not above the one before it"),
            ListTooShort => write!(f, "the list needs a length of {place}"),
            N2NotMixed => {
                write!(f, "{field} is below 72.5 km, and N2 is not mixed there: switch 15 is not 1, or the N2 altitude of the nine constants is below 72.5")
            }
            NoBand => write!(f, "line {place} is no band, has FROM not below TO, ends past 2500001, or is the 65th"),
            BandOverlap => write!(f, "the band of line {place} overlaps the one before it"),
            BandGap => write!(f, "there is a gap before the band of line {place}, or the table ends short there"),
            UnfitLog => write!(f, "the log of board {place} has more than 256 entries, or not as many seconds as densities"),
            SecondsNotRising => {
                write!(f, "seconds[{}] of board {} is not above the one before it", place % 256, if place < 256 { 1 } else { 2 })
            }
            UnfitConstant => {
                let name = CONSTANTS.get((place as usize).wrapping_sub(1)).unwrap_or(&"a constant");
                let also = if place == 2 { ", or is a species' own mass" } else { "" };
                write!(f, "{name}, constant {place} of nine, is NaN, infinite or not above 0{also}")
            }
            StartOutOfRange => write!(f, "the start is outside 200000000 to 1000000000 millimetres"),
            UnfitSetting => write!(f, "the setting of orbit {place} is outside 1 to 4"),
            TooManySettings if place == 10_000 => {
                write!(f, "there are more than 10000 settings, or fewer losses than 10000 settings need")
            }
            TooManySettings => write!(f, "the list of losses needs a length of {place}"),
        }?;
        write!(f, " (refusal {} at {place})", self.number())
    }
}

impl std::error::Error for Refusal {}

// A call's answer below 2^32, or its refusal. A number beyond 19 means a library that is newer than this crate.
pub(crate) fn accepted(answer: u64) -> Result<usize, Refusal> {
    let (number, place) = ((answer >> 32) as usize, answer as u32);
    if number == 0 {
        return Ok(place as usize);
    }
    match KINDS.get(number - 1) {
        Some(&kind) => Err(Refusal { kind, place }),
        None => panic!("libpotirehu.a refuses with {number}, which this crate does not know"),
    }
}

#[cfg(test)]
mod tests {
    use super::*;

    #[test]
    fn every_number_has_its_name() {
        for (i, kind) in KINDS.iter().enumerate() {
            let refusal = accepted(((i as u64 + 1) << 32) + 7).unwrap_err();
            assert_eq!((refusal.kind, refusal.number(), refusal.place), (*kind, i as u32 + 1, 7));
        }
        assert_eq!(accepted(0xffff_ffff), Ok(0xffff_ffff));
    }

    #[test]
    fn no_place_stops_the_words() {
        for kind in KINDS {
            for place in (0..30).chain([255, 256, 300, 512, 9_999, 10_000, u32::MAX]) {
                let refusal = Refusal { kind, place };
                let end = format!("(refusal {} at {place})", kind as u32);
                assert!(refusal.to_string().ends_with(&end) && refusal.field() != Some(""));
            }
        }
    }
}
