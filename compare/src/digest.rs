//! Answers as one printed line each, in lowercase hexadecimal.

use crate::handlers::handler_for;
use crate::machine::Answer;
use crate::program::Program;
use crate::writer::Written;
use crate::Refusal;

const MODULUS: u64 = 4_294_967_291;
const FACTOR: u64 = 257;

/// `read`, the counts of classes, fields, statics, methods, instructions and
/// handlers, the checksum and that of the handlers taken; or `refused`, number
/// and line.
pub fn describe(answer: &Result<Program, Refusal>) -> String {
    match answer {
        Ok(program) => {
            let instructions: usize = program.methods.iter().map(|m| m.code.len()).sum();
            let handlers: usize = program.methods.iter().map(|m| m.handlers.len()).sum();
            format!(
                "read {:02x} {:02x} {:02x} {:02x} {:04x} {:04x} {:08x} {:08x}",
                program.classes.len(),
                program.fields.len(),
                program.statics,
                program.methods.len(),
                instructions,
                handlers,
                checksum(program),
                taken_sum(program),
            )
        }
        Err(refusal) => format!("refused {:02x} {:08x}", refusal.number, refusal.line),
    }
}

/// The stepper's answer and a checksum of its memory: number, steps (or
/// line), pending object plus one or 0, open frames, objects.
pub fn describe_steps(answer: &Answer, memory: [&[u64]; 3]) -> String {
    let [number, steps, pending, frames, objects] = answer.words();
    let sum = sum(memory.into_iter().flatten().copied());
    format!("{number:02x} {steps:08x} {pending:03x} {frames:02x} {objects:03x} {sum:08x}")
}

/// The writer's answer: `written` and the text's length, or `refused`, number
/// and line.
pub fn describe_written(answer: &Written) -> String {
    match answer {
        Written::Text(length) => format!("written {length:08x}"),
        Written::Refused(refusal) => format!("refused {:02x} {:08x}", refusal.number, refusal.line),
    }
}

/// A checksum over the bytes of the program's frames, in order.
pub fn checksum(program: &Program) -> u32 {
    sum(program.frames().concat().into_iter().map(u64::from))
}

/// A checksum over what the search for a handler answers at each address of
/// each method for each class: the number and one more, or 0 for none.
pub fn taken_sum(program: &Program) -> u32 {
    let classes = || 0..program.classes.len() as u8;
    let answers = program.methods.iter().flat_map(|method| {
        (0..method.code.len() as u8).flat_map(move |address| {
            classes().map(move |class| handler_for(program, method, address, class))
        })
    });
    sum(answers.map(|number| number.map_or(0, |number| number as u64 + 1)))
}

/// A checksum over the bytes of the checker's or the writer's memory.
pub fn memory_sum(memory: &[u8]) -> u32 {
    sum(memory.iter().copied().map(u64::from))
}

fn sum(words: impl Iterator<Item = u64>) -> u32 {
    let sum = words.fold(0, |sum, word| (sum * FACTOR + word % MODULUS + 1) % MODULUS);
    u32::try_from(sum).expect("the modulus is below 2^32")
}

#[cfg(test)]
mod tests {
    use super::*;
    use crate::machine::Report;

    /// Five classes and `return-void`, summed by hand in another way: the
    /// value of a polynomial at 257, without reduction until the end.
    #[test]
    fn checksum_is_a_polynomial() {
        let text = b"01ff\n0100\n0101\n0101\n0101\n040000010100\n061100000000000000\n";
        let program = crate::reader::read(text).unwrap();
        let classes = [1, 255, 1, 0, 1, 1, 1, 1, 1, 1];
        let method = [4, 0, 0, 1, 1, 0, 6, 17, 0, 0, 0, 0, 0, 0, 0];
        let mut power = 1u64;
        let mut sum = 0u64;
        for byte in classes.iter().chain(&method).rev() {
            sum = (sum + power * (byte + 1)) % MODULUS;
            power = power * FACTOR % MODULUS;
        }
        assert_eq!(u64::from(checksum(&program)), sum);
        // Five classes at one address, none of them taken.
        let none = (0..5).map(|place| FACTOR.pow(place)).sum::<u64>() % MODULUS;
        let line = format!("read 05 00 00 01 0001 0000 {sum:08x} {none:08x}");
        assert_eq!(describe(&Ok(program)), line);
    }

    /// Two addresses under two handlers, the first line of which has number 1,
    /// and a method without handlers.
    #[test]
    fn handlers_taken_are_summed_by_number() {
        let text = b"01ff\n0100\n0101\n0101\n0101\n\
            040000010100\n060000000000000000\n061100000000000000\n\
            0500010002\n0500020001\n040001010100\n061100000000000000\n";
        let program = crate::reader::read(text).unwrap();
        let answers = [[0, 1, 2, 1, 1], [0, 1, 1, 1, 1], [0; 5]].concat();
        let sum = answers.iter().fold(0, |sum, byte| (sum * 257 + byte + 1) % 4_294_967_291u64);
        assert_eq!(u64::from(taken_sum(&program)), sum);
    }

    #[test]
    fn steps_print_answer_and_memory() {
        let answer =
            Report { number: 33, steps: 4096, pending: Some(255), frames: 0, objects: 256 };
        let line = describe_steps(&Answer::Started(answer), [&[], &[MODULUS + 1], &[3]]);
        assert_eq!(line, "21 00001000 100 00 100 00000206");
        let answer = Answer::Refused(Refusal::new(23, 0));
        let line = describe_steps(&answer, [&[], &[], &[]]);
        assert_eq!(line, "17 00000000 000 00 000 00000000");
    }

    #[test]
    fn refusals_print_number_and_line() {
        assert_eq!(describe(&Err(Refusal::new(4, 61))), "refused 04 0000003d");
        let refused = Written::Refused(Refusal::new(23, 0));
        assert_eq!(describe_written(&refused), "refused 17 00000000");
        assert_eq!(describe_written(&Written::Text(165_936)), "written 00028830");
    }
}
