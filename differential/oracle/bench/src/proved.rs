//! The C entries of the proved archive, as include/braidhatch.h declares them.

extern "C" {
    fn braidhatch_tape_check(tape: *const u8, tape_len: usize) -> u64;
    fn braidhatch_replay(
        tape: *const u8,
        tape_len: usize,
        answers: *mut u8,
        answers_len: usize,
        report: *mut u8,
        report_len: usize,
    ) -> u64;
}

/// What replay says besides its answers.
pub struct Replayed {
    pub status: u64,
    pub calls: u64,
}

pub fn tape_check(tape: &[u8]) -> u64 {
    // SAFETY: a valid slice.
    unsafe { braidhatch_tape_check(tape.as_ptr(), tape.len()) }
}

pub fn replay(tape: &[u8], answers: &mut [u8]) -> Replayed {
    let mut report = [0; 32];
    // SAFETY: valid slices, apart from each other.
    let status = unsafe {
        braidhatch_replay(
            tape.as_ptr(),
            tape.len(),
            answers.as_mut_ptr(),
            answers.len(),
            report.as_mut_ptr(),
            report.len(),
        )
    };
    let calls = u64::from_le_bytes(report[24..].try_into().expect("eight bytes"));
    Replayed { status, calls }
}
