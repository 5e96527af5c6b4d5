//! The judge under test: the functions of its C archive, over slices.

use crate::file::Refusal;
use crate::judge::Verdict;

mod c {
    extern "C" {
        pub fn mz_verdict(
            file: *const u8,
            file_len: usize,
            rules: *mut u8,
            rules_len: usize,
        ) -> u32;
        pub fn mz_knowledge(
            file: *const u8,
            file_len: usize,
            n: usize,
            marks: *mut u8,
            marks_len: usize,
        ) -> u32;
        pub fn mz_fault(file: *const u8, file_len: usize) -> u32;
    }
}

const ILLEGAL: u32 = 0x1000_0000;
const REFUSED: u32 = 0x2000_0000;

/// The archive's reply to the verdict question, as in `verdict_word`.
pub fn verdict(file: &[u8], rules: &mut [u8]) -> u32 {
    // SAFETY: pointers and lengths are those of slices, and the lent buffer is lent alone.
    unsafe { c::mz_verdict(file.as_ptr(), file.len(), rules.as_mut_ptr(), rules.len()) }
}

/// The archive's reply to the knowledge question, as in `knowledge_word`.
pub fn knowledge(file: &[u8], n: usize, marks: &mut [u8]) -> u32 {
    // SAFETY: pointers and lengths are those of slices, and the lent buffer is lent alone.
    unsafe { c::mz_knowledge(file.as_ptr(), file.len(), n, marks.as_mut_ptr(), marks.len()) }
}

/// The archive's reply to the third question, as in `fault_word`.
pub fn fault(file: &[u8]) -> u32 {
    // SAFETY: pointer and length are those of a slice.
    unsafe { c::mz_fault(file.as_ptr(), file.len()) }
}

/// A verdict in the archive's words.
pub fn verdict_word(verdict: Verdict) -> u32 {
    match verdict {
        Verdict::Accepted(n) => n,
        Verdict::Illegal(n) => ILLEGAL + n,
        Verdict::Refused { cause, place } => REFUSED + 65536 * cause + place,
    }
}

/// The outcome of the knowledge question in the archive's words.
pub fn knowledge_word(outcome: Result<(), Refusal>) -> u32 {
    match outcome {
        Ok(()) => 0,
        Err(refusal) => verdict_word(refusal.into()),
    }
}

/// The part at fault in the archive's words.
pub fn fault_word((start, length): (usize, usize)) -> u32 {
    start as u32 + 65536 * length as u32
}
