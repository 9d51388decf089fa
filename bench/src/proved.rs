//! The proved loader, as `crates/exports` has it for C.

/// As `Outcome` of `crates/exports`.
#[derive(Clone, Copy, Debug, PartialEq, Eq)]
#[repr(C)]
pub struct Outcome {
    pub number: u8,
    pub layer: u8,
    pub place: usize,
}

unsafe extern "C" {
    fn vizsomek_outcome(bytes: *const u8, length: usize) -> Outcome;
    fn vizsomek_loads(bytes: *const u8, length: usize, times: u32) -> u64;
}

/// How the file fares.
pub fn outcome(bytes: &[u8]) -> Outcome {
    // SAFETY: pointer and length are those of a slice.
    let outcome = unsafe { vizsomek_outcome(bytes.as_ptr(), bytes.len()) };
    assert_ne!(outcome.number, 255, "no memory");
    outcome
}

/// How many of so many loads are accepted.
pub fn loads(bytes: &[u8], times: u32) -> u64 {
    // SAFETY: pointer and length are those of a slice.
    let count = unsafe { vizsomek_loads(bytes.as_ptr(), bytes.len(), times) };
    assert_ne!(count, 1 << 32, "no memory");
    count
}
