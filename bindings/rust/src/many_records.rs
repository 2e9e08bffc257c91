//! Many records under one switch row.
use crate::ffi;
use crate::record::{ApArray, Flags, NrlmsiseInput, NrlmsiseOutput, ROW};
use crate::refusal::{accepted, Refusal};

/// [`gtd7`](crate::gtd7) of each record, in their order, a refused one among them. Records that follow each other on one day, at altitudes
/// of one kind (below 32.5 km, to 72.5, to 123.435, to 300, or above) and all with a history or all without, share what the day gives: sort
/// them so.
///
/// ```
/// use potirehu::{records, Flags, NrlmsiseInput};
/// # let sample = NrlmsiseInput { year: 2026, doy: 172, sec: 29000.0, alt: 400.0, g_lat: 60.0, g_long: -70.0, lst: 16.0,
/// #     f107a: 150.0, f107: 150.0, ap: 4.0, ap_array: None };
/// let track = [sample, NrlmsiseInput { g_lat: 91.0, ..sample }, NrlmsiseInput { sec: 29010.0, g_lat: 60.5, ..sample }];
/// let air = records(&track, &Flags::metric());
/// assert_eq!(format!("{:.6e}", air[0].as_ref().unwrap().density()), "4.074714e-12");
/// assert_eq!(air[1].unwrap_err().to_string(), "g_lat is out of range, -90 to 90 (refusal 3 at 4)");
/// assert_eq!(air[2], potirehu::gtd7(&track[2], &Flags::metric()));
/// ```
pub fn records(inputs: &[NrlmsiseInput], flags: &Flags) -> Vec<Result<NrlmsiseOutput, Refusal>> {
    let mut all = Vec::with_capacity(inputs.len());
    // The library takes records that all have a history, or none of which has one.
    for part in inputs.chunk_by(|a, b| a.ap_array.is_some() == b.ap_array.is_some()) {
        let days: Vec<i32> = part.iter().map(|input| input.doy).collect();
        let fields: Vec<[f64; 8]> = part.iter().map(NrlmsiseInput::fields).collect();
        let ap_arrays: Vec<ApArray> = part.iter().filter_map(|input| input.ap_array).collect();
        let (mut answers, mut rows) = (vec![Answer::default(); part.len()], vec![NrlmsiseOutput::default(); part.len()]);
        records_into(&days, &fields, &ap_arrays, flags, &mut answers, &mut rows).expect("every length is as it should be");
        all.extend(answers.iter().zip(rows).map(|(answer, row)| answer.accepted().map(|()| row)));
    }
    all
}

/// A record's answer as [`records_into`] writes it: accepted, or refused.
// The library writes a number of 64 bits: the layout must be this and nothing else.
#[derive(Debug, Clone, Copy, Default, PartialEq, Eq)]
#[repr(transparent)]
pub struct Answer(u64);

impl Answer {
    /// The refusal where it is one.
    pub fn accepted(self) -> Result<(), Refusal> {
        accepted(self.0).map(|_| ())
    }
}

/// [`records`] on memory of the caller's, with nothing copied: of each record its doy, its sec, alt, g_lat, g_long, lst, f107a, f107 and
/// ap, and its history, or no history at all; into at least as many answers and rows. A refused record's row stays as it was, and so does
/// what lies behind. Refused as a whole, with 4 at the length needed, where rows or answers are too few, or fields or histories not as many
/// as days: then all of it stays.
///
/// ```
/// use potirehu::{records_into, Answer, Flags, NrlmsiseOutput};
/// let fields = [[29000.0, 400.0, 60.0, -70.0, 16.0, 150.0, 150.0, 4.0], [29000.0, 400.0, 91.0, -70.0, 16.0, 150.0, 150.0, 4.0]];
/// let (mut answers, mut rows) = ([Answer::default(); 2], [NrlmsiseOutput::default(); 2]);
/// records_into(&[172, 172], &fields, &[], &Flags::metric(), &mut answers, &mut rows)?;
/// assert_eq!(answers[0].accepted(), Ok(()));
/// assert_eq!(format!("{:.6e}", rows[0].density()), "4.074714e-12");
/// assert_eq!(answers[1].accepted().unwrap_err().field(), Some("g_lat"));
///
/// let refusal = records_into(&[172], &fields, &[], &Flags::metric(), &mut answers, &mut rows).unwrap_err();
/// assert_eq!(refusal.to_string(), "a slice has not the length needed, 8 (refusal 4 at 8)");
/// # Ok::<(), potirehu::Refusal>(())
/// ```
pub fn records_into(
    days: &[i32],
    fields: &[[f64; 8]],
    ap_arrays: &[ApArray],
    flags: &Flags,
    answers: &mut [Answer],
    rows: &mut [NrlmsiseOutput],
) -> Result<(), Refusal> {
    let (fields, ap_arrays, switches) = (fields.as_flattened(), ap_arrays.as_flattened(), &flags.switches);
    // SAFETY: each pointer goes with the length of the slice it is of; an answer is a u64 and a row is ROW numbers, and nothing else;
    // answers and rows are lent to us alone.
    let answer = unsafe {
        ffi::potirehu_gtd7_records(
            days.as_ptr(),
            days.len() as u64,
            fields.as_ptr(),
            fields.len() as u64,
            ap_arrays.as_ptr(),
            ap_arrays.len() as u64,
            switches.as_ptr(),
            switches.len() as u64,
            answers.as_mut_ptr().cast(),
            answers.len() as u64,
            rows.as_mut_ptr().cast(),
            (ROW * rows.len()) as u64,
        )
    };
    accepted(answer).map(|_| ())
}
