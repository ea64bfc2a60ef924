//! How the state lies in lent memory.
//!
//! Words of 64 bits. A frame has its method, address, result and registers;
//! an object its class and cells; a static is one word. A number is its 32
//! bits, without sign; object k is 2^32 + k.

use super::run::Machine;
use super::state::{Limits, CELLS};
use super::value::Value;

const FRAME: usize = 3 + CELLS;
const OBJECT: usize = 1 + CELLS;

/// The least lengths in words.
pub const FRAMES: usize = Limits::STEPPER.frames * FRAME;
pub const OBJECTS: usize = Limits::STEPPER.objects * OBJECT;
pub const STATICS: usize = CELLS;

/// The memory lent to the stepper.
pub struct Memory<'l> {
    pub frames: &'l mut [u64],
    pub objects: &'l mut [u64],
    pub statics: &'l mut [u64],
}

impl Memory<'_> {
    pub fn is_enough(&self) -> bool {
        self.frames.len() >= FRAMES
            && self.objects.len() >= OBJECTS
            && self.statics.len() >= STATICS
    }

    /// Lays the state into memory that is enough; what is not used of the
    /// least lengths becomes zero, and what is beyond them stays.
    pub fn lay(&mut self, machine: &Machine) {
        self.frames[..FRAMES].fill(0);
        for (words, frame) in self.frames.chunks_exact_mut(FRAME).zip(&machine.frames) {
            words[0] = frame.method.into();
            words[1] = frame.address.into();
            words[2] = word(&frame.result);
            lay_values(&mut words[3..], frame.registers.iter());
        }
        self.objects[..OBJECTS].fill(0);
        for (words, object) in self.objects.chunks_exact_mut(OBJECT).zip(&machine.heap.objects) {
            words[0] = object.class.into();
            lay_values(&mut words[1..], object.cells.iter());
        }
        lay_values(self.statics, machine.heap.statics.iter());
    }
}

fn lay_values<'v>(words: &mut [u64], values: impl Iterator<Item = &'v Value>) {
    words.iter_mut().zip(values).for_each(|(to, value)| *to = word(value));
}

fn word(value: &Value) -> u64 {
    match *value {
        Value::Number(z) => u64::from(z as u32),
        Value::Object(object) => (1 << 32) + u64::from(object),
    }
}

#[cfg(test)]
mod tests {
    use super::*;

    #[test]
    fn lengths() {
        assert_eq!((FRAMES, OBJECTS, STATICS), (608, 4352, 16));
    }

    #[test]
    fn words() {
        assert_eq!(word(&Value::Number(-1)), 0xffff_ffff);
        assert_eq!(word(&Value::Number(i32::MIN)), 0x8000_0000);
        assert_eq!(word(&Value::Object(0)), 0x1_0000_0000);
        assert_eq!(word(&Value::Object(255)), 0x1_0000_00ff);
    }
}
