//! The functions that the proved implementation gives to C, as a library.

use compare::machine::structs::{Frame, Object, Structs, Value};

extern "C" {
    fn hudzmoke_step(
        text: *const u8,
        text_length: usize,
        n: u64,
        frames: *mut Frame,
        frames_length: usize,
        objects: *mut Object,
        objects_length: usize,
        statics: *mut Value,
        statics_length: usize,
        answer: *mut u64,
        answer_length: usize,
    ) -> u64;

    fn hudzmoke_read(
        text: *const u8,
        text_length: usize,
        answer: *mut u64,
        answer_length: usize,
    ) -> u64;

    fn hudzmoke_check(
        program: *const u8,
        program_length: usize,
        claim: *const u8,
        claim_length: usize,
        memory: *mut u8,
        memory_length: usize,
        answer: *mut u64,
        answer_length: usize,
    ) -> u64;

    fn hudzmoke_write_claim(
        program: *const u8,
        program_length: usize,
        memory: *mut u8,
        memory_length: usize,
        answer: *mut u64,
        answer_length: usize,
    ) -> u64;
}

/// Gives the number. An answer of five words or more gets number, steps (or
/// line), pending object plus one or 0, open frames, objects.
pub fn step(text: &[u8], n: u64, memory: Structs, answer: &mut [u64]) -> u64 {
    let Structs { frames, objects, statics } = memory;
    // SAFETY: each pointer is that of a slice of the length beside it, and the
    // slices lie apart.
    unsafe {
        hudzmoke_step(
            text.as_ptr(),
            text.len(),
            n,
            frames.as_mut_ptr(),
            frames.len(),
            objects.as_mut_ptr(),
            objects.len(),
            statics.as_mut_ptr(),
            statics.len(),
            answer.as_mut_ptr(),
            answer.len(),
        )
    }
}

/// Gives 0 for a program, else the refusal's number. An answer of five words or
/// more gets that number, the line (0 for a program), 0, 0, 0.
pub fn read(text: &[u8], answer: &mut [u64]) -> u64 {
    // SAFETY: each pointer is that of a slice of the length beside it, and the
    // slices lie apart.
    unsafe { hudzmoke_read(text.as_ptr(), text.len(), answer.as_mut_ptr(), answer.len()) }
}

/// Gives the number. An answer of five words or more gets number, then count,
/// 0, 0 (34, accepted), or rule, method, address (35, violated), or line, 0,
/// 0; and 0.
pub fn check(program: &[u8], claim: &[u8], memory: &mut [u8], answer: &mut [u64]) -> u64 {
    // SAFETY: each pointer is that of a slice of the length beside it, and the
    // slices that are written lie apart from the others.
    unsafe {
        hudzmoke_check(
            program.as_ptr(),
            program.len(),
            claim.as_ptr(),
            claim.len(),
            memory.as_mut_ptr(),
            memory.len(),
            answer.as_mut_ptr(),
            answer.len(),
        )
    }
}

/// Gives the number. An answer of five words or more gets number, the text's
/// length (36, written) or the line, 0, 0, 0.
pub fn write_claim(program: &[u8], memory: &mut [u8], answer: &mut [u64]) -> u64 {
    // SAFETY: each pointer is that of a slice of the length beside it, and the
    // slices that are written lie apart from the other.
    unsafe {
        hudzmoke_write_claim(
            program.as_ptr(),
            program.len(),
            memory.as_mut_ptr(),
            memory.len(),
            answer.as_mut_ptr(),
            answer.len(),
        )
    }
}
