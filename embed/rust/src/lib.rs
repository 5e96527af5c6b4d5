//! The proved judge behind safe functions: the three questions about a trace file.
//! What each one promises is in `include/mirzhelo.h`, byte by byte.

const ILLEGAL: u32 = 0x1000_0000;
const REFUSED: u32 = 0x2000_0000;

extern "C" {
    fn mz_verdict(file: *const u8, file_len: usize, rules: *mut u8, rules_len: usize) -> u32;
    fn mz_knowledge(file: *const u8, file_len: usize, n: usize, marks: *mut u8, marks_len: usize) -> u32;
    fn mz_fault(file: *const u8, file_len: usize) -> u32;
}

/// Why a question is refused: the number of the cause, and the place.
#[derive(Clone, Copy, Debug, PartialEq, Eq)]
pub struct Refusal {
    pub cause: u32,
    pub place: u32,
}

#[derive(Clone, Copy, Debug, PartialEq, Eq)]
pub enum Verdict {
    Refused(Refusal),
    /// The length of the longest accepted beginning.
    Illegal(u32),
    /// The number of events.
    Accepted(u32),
}

fn refusal(reply: u32) -> Option<Refusal> {
    (reply & REFUSED != 0).then(|| Refusal { cause: reply >> 16 & 0xff, place: reply & 0xffff })
}

/// Judges the trace; unless refused, the first bytes of `rules`, one an event, get the rule numbers.
pub fn verdict(file: &[u8], rules: &mut [u8]) -> Verdict {
    // SAFETY: both pointers are valid for their lengths, and a mutable slice overlaps no other.
    let reply = unsafe { mz_verdict(file.as_ptr(), file.len(), rules.as_mut_ptr(), rules.len()) };
    match refusal(reply) {
        Some(refusal) => Verdict::Refused(refusal),
        None if reply & ILLEGAL != 0 => Verdict::Illegal(reply - ILLEGAL),
        None => Verdict::Accepted(reply),
    }
}

/// What the spy knows after the first `n` events: unless refused, a byte for each row.
pub fn knowledge(file: &[u8], n: usize, marks: &mut [u8]) -> Result<(), Refusal> {
    // SAFETY: as above.
    let reply = unsafe { mz_knowledge(file.as_ptr(), file.len(), n, marks.as_mut_ptr(), marks.len()) };
    refusal(reply).map_or(Ok(()), Err)
}

/// Where the part at fault starts in the file, and its length, 8 or 0.
pub fn fault_place(file: &[u8]) -> (usize, usize) {
    // SAFETY: the pointer is valid for its length.
    let reply = unsafe { mz_fault(file.as_ptr(), file.len()) };
    ((reply & 0xffff) as usize, (reply >> 16) as usize)
}

/// The part at fault: eight bytes of the file, or none.
pub fn fault(file: &[u8]) -> &[u8] {
    let (start, length) = fault_place(file);
    &file[start..start + length]
}
