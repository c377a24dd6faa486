//! The model as C functions, for host/fuzz.c to link: a slice is a pointer and a length.

use std::slice;

/// # Safety
/// The pointer and the length are those of a slice; the pointer may be null where the length is 0.
unsafe fn lent<'a>(bytes: *const u8, length: usize) -> &'a [u8] {
    match length {
        0 => &[],
        _ => unsafe { slice::from_raw_parts(bytes, length) },
    }
}

#[no_mangle]
pub extern "C" fn model_attempt_delay(delay: u64, multiplier: u32, in_progress: u64) -> u64 {
    model::attempt_delay(delay, multiplier, in_progress)
}

/// # Safety
/// As of `lent`.
#[no_mangle]
pub unsafe extern "C" fn model_tape_check(tape: *const u8, tape_len: usize) -> u64 {
    model::tape_check(unsafe { lent(tape, tape_len) }).into()
}

/// # Safety
/// As of `lent`, of the answers too; `four` has room for the four numbers.
#[no_mangle]
pub unsafe extern "C" fn model_replay(
    tape: *const u8,
    tape_len: usize,
    answers: *mut u8,
    answers_len: usize,
    four: *mut [u64; 4],
) {
    let out = match answers_len {
        0 => &mut [],
        _ => unsafe { slice::from_raw_parts_mut(answers, answers_len) },
    };
    let done = model::replay(unsafe { lent(tape, tape_len) }, out);
    let numbers = [done.status.into(), done.place as u64, done.written as u64, done.calls];
    unsafe { *four = numbers };
}
