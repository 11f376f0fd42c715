//! The proved code that is measured: two calls of the library, and the two of crates/by_value.

#[link(name = "exports", kind = "static")]
unsafe extern "C" {
    fn paper_sheet(question: *const u8, len: usize, out: *mut u8, out_len: usize) -> i64;
    fn paper_mark(
        question: *const u8,
        len: usize,
        answers: *const u8,
        count: usize,
        right: *mut u32,
        counted: *mut u32,
    ) -> i64;
}

#[link(name = "by_value", kind = "static")]
unsafe extern "C" {
    fn by_value_events(file: *const u8, len: usize) -> u32;
    fn by_value_frames(file: *const u8, len: usize) -> u32;
}

/// The length of a paper's sheet, which is at the start of the slice then.
pub fn sheet(file: &[u8], out: &mut [u8]) -> usize {
    // SAFETY: both slices are lent with their own lengths
    let len = unsafe { paper_sheet(file.as_ptr(), file.len(), out.as_mut_ptr(), out.len()) };
    usize::try_from(len).expect("a sound paper")
}

/// How many answers are right, and how many count.
pub fn mark(file: &[u8], answers: &[u8]) -> (u32, u32) {
    let (mut right, mut counted) = (0, 0);
    // SAFETY: both slices are lent with their own lengths, and the numbers are this function's own
    let status = unsafe {
        paper_mark(
            file.as_ptr(),
            file.len(),
            answers.as_ptr(),
            answers.len(),
            &raw mut right,
            &raw mut counted,
        )
    };
    assert_eq!(status, 0, "a sound paper with as many answers");
    (right, counted)
}

/// Makes the calls of a paper's events by value. The choices are added up as a list's are.
pub fn events(file: &[u8]) -> u32 {
    // SAFETY: the slice is lent with its own length
    unsafe { by_value_events(file.as_ptr(), file.len()) }
}

/// The same of the 256 frames of a paper's first event, each a call.
pub fn frames(file: &[u8]) -> u32 {
    // SAFETY: the slice is lent with its own length
    unsafe { by_value_frames(file.as_ptr(), file.len()) }
}
