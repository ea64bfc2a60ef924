//! How the state lies in lent memory of structs, as C has them.
//!
//! None of them has a byte between its fields, so that two are equal only if
//! all their bytes are.

use super::run::Machine;
use super::state::{Cells, Limits, CELLS};
use super::value;

/// A number, or an object: `object` is 0 for a number, else one more than the
/// object's number.
#[repr(C)]
#[derive(Clone, Copy, Debug, PartialEq, Eq)]
pub struct Value {
    pub object: u32,
    pub number: i32,
}

#[repr(C)]
#[derive(Clone, Copy, Debug, PartialEq, Eq)]
pub struct Frame {
    pub method: u32,
    pub address: u32,
    pub registers: [Value; CELLS],
    pub result: Value,
}

#[repr(C)]
#[derive(Clone, Copy, Debug, PartialEq, Eq)]
pub struct Object {
    pub class: u32,
    pub cells: [Value; CELLS],
}

const ZERO: Value = Value { object: 0, number: 0 };
const NO_FRAME: Frame = Frame { method: 0, address: 0, registers: [ZERO; CELLS], result: ZERO };
const NO_OBJECT: Object = Object { class: 0, cells: [ZERO; CELLS] };

/// The least lengths: frames, objects, statics.
pub const LEAST: [usize; 3] = [Limits::STEPPER.frames, Limits::STEPPER.objects, CELLS];

/// The memory lent to the stepper.
pub struct Structs<'l> {
    pub frames: &'l mut [Frame],
    pub objects: &'l mut [Object],
    pub statics: &'l mut [Value],
}

impl Structs<'_> {
    pub fn is_enough(&self) -> bool {
        let lent = [self.frames.len(), self.objects.len(), self.statics.len()];
        lent.iter().zip(LEAST).all(|(&length, least)| length >= least)
    }

    /// Lays the state into memory that is enough; what is not used of the
    /// least lengths becomes zero, and what is beyond them stays.
    pub fn lay(&mut self, machine: &Machine) {
        self.frames[..LEAST[0]].fill(NO_FRAME);
        for (to, frame) in self.frames.iter_mut().zip(&machine.frames) {
            let (method, address) = (frame.method.into(), frame.address.into());
            let (registers, result) = (values(&frame.registers), value(frame.result));
            *to = Frame { method, address, registers, result };
        }
        self.objects[..LEAST[1]].fill(NO_OBJECT);
        for (to, object) in self.objects.iter_mut().zip(&machine.heap.objects) {
            *to = Object { class: object.class.into(), cells: values(&object.cells) };
        }
        self.statics[..LEAST[2]].copy_from_slice(&values(&machine.heap.statics));
    }
}

fn values(cells: &Cells) -> [Value; CELLS] {
    let mut values = [ZERO; CELLS];
    values.iter_mut().zip(cells.iter()).for_each(|(to, &from)| *to = value(from));
    values
}

fn value(value: value::Value) -> Value {
    match value {
        value::Value::Number(number) => Value { object: 0, number },
        value::Value::Object(object) => Value { object: object + 1, number: 0 },
    }
}

#[cfg(test)]
mod tests {
    use super::*;
    use crate::machine::run::run_after;
    use crate::reader::read;
    use std::mem::size_of;

    #[test]
    fn no_byte_lies_between_fields() {
        assert_eq!([size_of::<Value>(), size_of::<Frame>(), size_of::<Object>()], [8, 144, 132]);
    }

    #[test]
    fn object_0_and_number_0_differ() {
        assert_eq!(value(value::Value::Object(0)), Value { object: 1, number: 0 });
        assert_eq!(value(value::Value::Number(-1)), Value { object: 0, number: -1 });
        assert_eq!(value(value::Value::ZERO), ZERO);
    }

    #[test]
    fn what_is_not_used_becomes_zero_and_what_is_beyond_stays() {
        let program = read(crate::assembly::SAMPLE.as_bytes()).unwrap();
        let old = Value { object: 7, number: 7 };
        let frame = Frame { method: 9, address: 9, registers: [old; 16], result: old };
        let mut frames = vec![frame; 33];
        let mut objects = vec![Object { class: 9, cells: [old; 16] }; 257];
        let mut statics = vec![old; 17];
        let mut lent =
            Structs { frames: &mut frames, objects: &mut objects, statics: &mut statics };
        assert!(lent.is_enough());
        lent.lay(&run_after(&program, 1));
        assert_eq!(frames[0], NO_FRAME);
        assert_eq!(frames[1], Frame { method: 1, ..NO_FRAME });
        assert!(frames[2..32].iter().all(|frame| *frame == NO_FRAME));
        assert!(objects[..256].iter().all(|object| *object == NO_OBJECT));
        assert_eq!(
            (frames[32], objects[256].class, statics[15], statics[16]),
            (frame, 9, ZERO, old)
        );
    }
}
