//! The checker for Rust: a safe function over `libchecker_c.a`. Slices owe nothing that their types do not already say.

pub const WORDS: usize = 16_384;
pub const BYTES: usize = 8_192;

/// The answer of a call. `place` counts from 0 in the file concerned, or is a clause number under reason 15.
#[derive(Clone, Copy, Debug, PartialEq, Eq)]
pub enum Answer {
    Refuted { steps: u64 },
    Held { steps: u64 },
    Refused { reason: u64, step: u64, place: u64 },
}

extern "C" {
    fn boxcarousel_check(
        formula: *const u8,
        formula_length: usize,
        proof: *const u8,
        proof_length: usize,
        words: *mut u32,
        words_length: usize,
        bytes: *mut u8,
        bytes_length: usize,
        out: *mut [u64; 4],
    );
}

/// Judges a proof against a formula. Work memory that is too short is answered with reason 1; what it holds before does not matter.
pub fn check(formula: &[u8], proof: &[u8], words: &mut [u32], bytes: &mut [u8]) -> Answer {
    let mut out = [0u64; 4];
    // The pointers are those of slices that are borrowed for the call, so they are valid, aligned, and apart where they are written.
    unsafe {
        boxcarousel_check(
            formula.as_ptr(),
            formula.len(),
            proof.as_ptr(),
            proof.len(),
            words.as_mut_ptr(),
            words.len(),
            bytes.as_mut_ptr(),
            bytes.len(),
            &mut out,
        );
    }
    let [verdict, reason, step, place] = out;
    match verdict {
        0 => Answer::Refuted { steps: step },
        1 => Answer::Held { steps: step },
        _ => Answer::Refused {
            reason,
            step,
            place,
        },
    }
}
