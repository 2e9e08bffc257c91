//! Two boards' logs held against each other.
use crate::ffi;
use crate::refusal::{accepted, Refusal};

// As many as two logs of 256 entries can give.
const REPORT: usize = 512;

/// A board's log, up to 256 entries: its seconds, strictly rising, and as many densities `d[5]` by their bits (`f64::to_bits`).
#[derive(Debug, Clone, Copy)]
pub struct Log<'a> {
    /// The board's second counts.
    pub seconds: &'a [u64],
    /// The bits of the densities.
    pub bits: &'a [u64],
}

/// What became of the entries of two logs.
#[derive(Debug, Clone, Copy, PartialEq, Eq)]
pub enum Finding {
    /// A pair whose density bits agree.
    SamePair,
    /// A pair whose density bits differ.
    OtherPair,
    /// An entry of board 1 that stands alone.
    Single1,
    /// An entry of board 2 that stands alone.
    Single2,
}

/// Holds two boards' logs against each other: of the two front entries, those no further apart than `tolerance` seconds pair up, else the
/// earlier stands alone; once a log is used up, the rest of the other stand alone. Pairs and singles in the order they arise.
///
/// ```
/// use potirehu::{compare_logs, Finding, Log};
/// let (thin, thick) = (1e-12f64.to_bits(), 2e-12f64.to_bits());
/// let one = Log { seconds: &[1000, 1060, 1120], bits: &[thin, thin, thin] };
/// let two = Log { seconds: &[1001, 1121], bits: &[thin, thick] };
/// assert_eq!(compare_logs(&one, &two, 2)?, [Finding::SamePair, Finding::Single1, Finding::OtherPair]);
///
/// let refusal = compare_logs(&one, &Log { seconds: &[5, 5], ..two }, 2).unwrap_err();
/// assert_eq!(refusal.to_string(), "seconds[1] of board 2 is not above the one before it (refusal 15 at 257)");
/// # Ok::<(), potirehu::Refusal>(())
/// ```
pub fn compare_logs(board_1: &Log<'_>, board_2: &Log<'_>, tolerance: u64) -> Result<Vec<Finding>, Refusal> {
    let mut report = [0; REPORT];
    // SAFETY: each pointer goes with the length of the slice it is of; report is ours alone.
    let answer = unsafe {
        ffi::potirehu_logs(
            board_1.seconds.as_ptr(),
            board_1.seconds.len() as u64,
            board_1.bits.as_ptr(),
            board_1.bits.len() as u64,
            board_2.seconds.as_ptr(),
            board_2.seconds.len() as u64,
            board_2.bits.as_ptr(),
            board_2.bits.len() as u64,
            tolerance,
            report.as_mut_ptr(),
            report.len() as u64,
        )
    };
    let n = accepted(answer)?;
    let entry = |code: &u32| match code {
        1 => Finding::SamePair,
        2 => Finding::OtherPair,
        3 => Finding::Single1,
        _ => Finding::Single2,
    };
    Ok(report[..n].iter().map(entry).collect())
}
