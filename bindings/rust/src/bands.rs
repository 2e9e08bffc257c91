//! Bands: a switch row for each height band.
use crate::ffi;
use crate::record::{NrlmsiseInput, NrlmsiseOutput, ROW};
use crate::refusal::{accepted, Refusal};
use std::str::FromStr;

/// A table of bands, read from a text with one band a line: `(band FROM TO (switches ..))`, in whole metres, FROM included and TO not,
/// with 24 switches. The bands, in line order, cover 0 to 2,500,000 with no gap or overlap, the last TO being 2,500,001, in at most 64
/// lines.
///
/// ```
/// use potirehu::{gtd7, Bands, Flags, NrlmsiseInput};
/// # let input = NrlmsiseInput { year: 2026, doy: 172, sec: 29000.0, alt: 400.0, g_lat: 60.0, g_long: -70.0, lst: 16.0,
/// #     f107a: 150.0, f107: 150.0, ap: 4.0, ap_array: None };
/// let bands: Bands = "\
/// (band 0 500000 (switches 1 1 1 1 1 1 1 1 1 1 1 1 1 1 1 1 1 1 1 1 1 1 1 1))
/// (band 500000 2500001 (switches 1 0 1 1 1 1 1 0 0 0 0 1 1 1 0 1 1 1 1 1 1 1 1 1))
/// ".parse()?;
/// assert_eq!(bands.gtd7(400_000, &input)?, gtd7(&input, &Flags::metric())?);
///
/// let refusal = "(band 0 500000)".parse::<Bands>().unwrap_err();
/// assert_eq!((refusal.number(), refusal.place), (11, 1));
/// # Ok::<(), potirehu::Refusal>(())
/// ```
#[derive(Debug, Clone, PartialEq, Eq)]
pub struct Bands {
    // Only the library's call writes it; what lies behind the last band stays 0.
    table: [i32; ffi::BANDS],
}

impl Bands {
    /// Reads a text of bands; also by `text.parse()`.
    pub fn read(text: &[u8]) -> Result<Bands, Refusal> {
        let mut table = [0; ffi::BANDS];
        // SAFETY: each pointer goes with the length of the slice it is of; table is ours alone.
        let answer = unsafe { ffi::potirehu_bands(text.as_ptr(), text.len() as u64, table.as_mut_ptr(), table.len() as u64) };
        accepted(answer).map(|_| Bands { table })
    }

    /// Of a line that is refused with 11, counted from 1: the byte of the text, counted from 0, at which it leaves the form of a band, as at
    /// the carriage return of a line that ends with two bytes, or at the end of an empty one. `None` where its form is right, and its
    /// numbers or its place are not.
    ///
    /// ```
    /// use potirehu::Bands;
    /// let text = b"(band 0 2500001 (switches 1 1 1 1 1 1 1 1 1 1 1 1 1 1 1 1 1 1 1 1 1 1 1 1))\r\n";
    /// let refusal = Bands::read(text).unwrap_err();
    /// assert_eq!(Bands::no_band(text, refusal.place), Some(text.len() - 2));
    /// ```
    pub fn no_band(text: &[u8], line: u32) -> Option<usize> {
        let line = text.split(|&byte| byte == b'\n').nth((line as usize).checked_sub(1)?)?;
        let start = line.as_ptr() as usize - text.as_ptr() as usize;
        let mut at = 0;
        for part in
            ["(band ", "N", " ", "N", " (switches "].into_iter().chain([["N", " "]; 24].into_iter().flatten().take(47)).chain(["))"])
        {
            let long = if part == "N" {
                number(&line[at..]).ok_or(start + at)
            } else {
                word(&line[at..], part.as_bytes()).map_err(|k| start + at + k)
            };
            match long {
                Ok(long) => at += long,
                Err(byte) => return Some(byte),
            }
        }
        (at < line.len()).then_some(start + at)
    }

    /// [`gtd7`](crate::gtd7) at a whole metre, 0 to 2,500,000, with the row of the band in which it lies, at metre / 1000 km; the
    /// record's own altitude is not looked at.
    pub fn gtd7(&self, metre: i64, input: &NrlmsiseInput) -> Result<NrlmsiseOutput, Refusal> {
        let (fields, ap) = (input.fields(), input.history());
        let mut row = NrlmsiseOutput::default();
        // SAFETY: each pointer goes with the length of the array it is of; row has ROW numbers and is ours alone.
        let answer = unsafe {
            ffi::potirehu_bands_gtd7(
                self.table.as_ptr(),
                self.table.len() as u64,
                metre,
                input.year,
                input.doy,
                fields.as_ptr(),
                fields.len() as u64,
                ap.as_ptr(),
                ap.len() as u64,
                row.as_mut_ptr(),
                ROW as u64,
            )
        };
        accepted(answer).map(|_| row)
    }
}

// How long a number is that stands at the start: an optional minus, 1 to 9 digits, no leading zero and no -0.
fn number(line: &[u8]) -> Option<usize> {
    let minus = usize::from(line.first() == Some(&b'-'));
    let digits = line[minus..].iter().take(9).take_while(|byte| byte.is_ascii_digit()).count();
    let zero = line.get(minus) == Some(&b'0');
    (digits > 0 && !(zero && minus + digits > 1)).then_some(minus + digits)
}

// How long the word is, where it stands at the start; else where it does not go on.
fn word(line: &[u8], word: &[u8]) -> Result<usize, usize> {
    match (0..word.len()).find(|&k| line.get(k) != Some(&word[k])) {
        Some(k) => Err(k),
        None => Ok(word.len()),
    }
}

impl FromStr for Bands {
    type Err = Refusal;

    fn from_str(text: &str) -> Result<Bands, Refusal> {
        Bands::read(text.as_bytes())
    }
}

#[cfg(test)]
mod tests {
    use super::*;

    #[test]
    fn the_byte_of_a_line_that_is_no_band() {
        let row = format!("(switches{})", " 1".repeat(24));
        let good = format!("(band 0 100 {row})\n");
        let last = format!("(band 100 2500001 {row})\n");
        let n = good.len();
        for (text, line, byte) in [
            (format!("{}{last}", good.replace('\n', "\r\n")), 1, Some(n - 1)),
            (format!("{good}{last}\n"), 3, Some(n + last.len())),
            (format!("\n{good}{last}"), 1, Some(0)),
            (format!("{good}(band 0100 2500001 {row})"), 2, Some(n + 6)),
            (format!("{good}(band 100  2500001 {row})"), 2, Some(n + 10)),
            (format!("{good}(band 100 1234567890 {row})"), 2, Some(n + 19)),
            (format!("{good}(band -0 5 {row})"), 2, Some(n + 6)),
            (format!("{}\n{last}", &good[..n - 2]), 1, Some(n - 2)),
            (format!("(band 100 100 {row})"), 1, None),
        ] {
            let refusal = Bands::read(text.as_bytes()).unwrap_err();
            assert_eq!((refusal.number(), refusal.place), (11, line), "{text}");
            assert_eq!(Bands::no_band(text.as_bytes(), line), byte, "{text}");
        }
        assert_eq!(Bands::no_band(good.as_bytes(), 1), None);
        assert_eq!((Bands::no_band(b"", 0), Bands::no_band(b"", 5)), (None, None));
    }
}
