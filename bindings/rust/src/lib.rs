//! Safe Rust over the proved calls of the static library `libexports.a`: a paper's sheet, its marking, and the chance that
//! a frame decodes. What the calls answer is proved; that they are declared and called rightly here is not.
//!
//! ```
//! // One event on the wide air: seed 20.
//! let mut question = Vec::new();
//! for number in [1_u32, 1, 16, 9] {
//!     question.extend(number.to_le_bytes());
//! }
//! question.push(7);
//! question.extend(20.0_f64.to_le_bytes());
//!
//! let mut out = [0; turmexol::BUFFER];
//! let length = turmexol::sheet(&question, &mut out)?;
//! assert_eq!(&out[..length], b"1 19 - 0 0 0\n");
//!
//! let score = turmexol::mark(&question, &[19])?;
//! assert_eq!((score.right, score.counted), (1, 1));
//! # Ok::<(), turmexol::Refusal>(())
//! ```

mod refusal;

pub use refusal::Refusal;

#[link(name = "exports", kind = "static")]
unsafe extern "C" {
    fn paper_sheet(question: *const u8, len: usize, out: *mut u8, out_len: usize) -> i64;
    fn paper_mark(
        question: *const u8,
        len: usize,
        answers: *const u8,
        answers_len: usize,
        right: *mut u32,
        counted: *mut u32,
    ) -> i64;
    fn rate_decode_probability(snr_db: f64, threshold_db: f64, slope_db: f64, p: *mut f64) -> i64;
}

/// The output buffer of the program `sheet`: longer than any sheet, as 15,893 bytes are always enough (turmexol.h says why).
pub const BUFFER: usize = 32_768;

/// The marks of a paper.
#[derive(Clone, Copy, Debug, PartialEq, Eq)]
pub struct Score {
    /// How many answers are the choice after their event.
    pub right: u32,
    /// How many events count: those that are not refused.
    pub counted: u32,
}

/// Writes the question file's sheet to the start of `out` and gives its length; the bytes past it stay as they were.
/// Refused with 10 to 13, and then all of `out` stays as it was.
pub fn sheet(question: &[u8], out: &mut [u8]) -> Result<usize, Refusal> {
    // SAFETY: the pointers go with the lengths of two slices, which do not overlap: one of them is borrowed mutably.
    let status = unsafe {
        paper_sheet(
            question.as_ptr(),
            question.len(),
            out.as_mut_ptr(),
            out.len(),
        )
    };
    usize::try_from(status).map_err(|_| Refusal::of(status))
}

/// Marks the answers to the question file, one byte an event: the rung that the candidate would choose after it.
/// Refused with 10, 11, 12 or 14.
pub fn mark(question: &[u8], answers: &[u8]) -> Result<Score, Refusal> {
    let [mut right, mut counted] = [0; 2];
    // SAFETY: the pointers go with the lengths of two slices, which are only read, and to two numbers of this function.
    let status = unsafe {
        paper_mark(
            question.as_ptr(),
            question.len(),
            answers.as_ptr(),
            answers.len(),
            &raw mut right,
            &raw mut counted,
        )
    };
    match status {
        0 => Ok(Score { right, counted }),
        _ => Err(Refusal::of(status)),
    }
}

/// The chance, from 0 to 1, that a frame decodes. Refused with 8 where an argument is outside its limits: SNR and threshold
/// -200 to 200 dB, slope 0.125 to 16 dB.
pub fn decode_probability(snr_db: f64, threshold_db: f64, slope_db: f64) -> Result<f64, Refusal> {
    let mut p = 0.0;
    // SAFETY: the pointer is to a number of this function.
    let status = unsafe { rate_decode_probability(snr_db, threshold_db, slope_db, &raw mut p) };
    match status {
        0 => Ok(p),
        _ => Err(Refusal::of(status)),
    }
}
