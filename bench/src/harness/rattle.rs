//! The Rattle library behind its C interface; without the feature `rattle`, the Rust bay stands in for it.

pub const LINKED: bool = cfg!(feature = "rattle");

pub type Verdict = unsafe extern "C" fn(u32, *const u8, usize) -> u64;

#[cfg(feature = "rattle")]
#[link(name = "routine_bay", kind = "static")]
unsafe extern "C" {
    fn routine_bay_verdict(domain: u32, sheet: *const u8, length: usize) -> u64;
    fn routine_bay_play(calls: *const u8, length: usize, answers: *mut u64, capacity: usize) -> usize;
}

#[cfg(not(feature = "rattle"))]
use stand_in::{routine_bay_play, rust_verdict as routine_bay_verdict};

/// The verdict of the Rattle library, to be timed.
pub const RATTLE: Verdict = routine_bay_verdict;

/// The verdict of the Rust bay, behind the same interface.
pub const RUST: Verdict = stand_in::rust_verdict;

pub fn verdict(domain: u32, sheet: &[u8]) -> u64 {
    // SAFETY: the pointer and the length are those of a slice.
    unsafe { routine_bay_verdict(domain, sheet.as_ptr(), sheet.len()) }
}

/// The answers to a list of calls, at most so many; as many as were answered.
pub fn play(calls: &[u8], capacity: usize) -> Vec<u64> {
    const UNTOUCHED: u64 = 0x5a5a_5a5a_5a5a_5a5a;
    let mut answers = vec![UNTOUCHED; capacity];
    // SAFETY: both pointers and lengths are those of a slice.
    let count = unsafe { routine_bay_play(calls.as_ptr(), calls.len(), answers.as_mut_ptr(), capacity) };
    assert!(count <= capacity, "more answers than there was room for");
    let beyond = answers.iter().skip(count).all(|&answer| answer == UNTOUCHED);
    assert!(beyond, "an answer beyond the count was written");
    answers.truncate(count);
    answers
}

mod stand_in {
    use second_bay::play::verdict_answer;
    use std::slice;

    /// The Rust bay's verdict behind the interface of the library.
    ///
    /// # Safety
    /// The pointer must be to `length` bytes.
    pub unsafe extern "C" fn rust_verdict(domain: u32, sheet: *const u8, length: usize) -> u64 {
        // SAFETY: the caller has it so.
        let sheet = unsafe { slice::from_raw_parts(sheet, length) };
        verdict_answer(domain, sheet).number
    }

    #[cfg(not(feature = "rattle"))]
    pub unsafe fn routine_bay_play(
        calls: *const u8,
        length: usize,
        answers: *mut u64,
        capacity: usize,
    ) -> usize {
        // SAFETY: the caller has it so.
        let (calls, answers) =
            unsafe { (slice::from_raw_parts(calls, length), slice::from_raw_parts_mut(answers, capacity)) };
        let played = second_bay::play::play(calls, capacity);
        for (slot, answer) in answers.iter_mut().zip(&played) {
            *slot = answer.number;
        }
        played.len()
    }
}
