//! Sets of classes and of methods, made once of a program.

use crate::claim::{classes_below, ByClass, NUMBERS, ZERO};
use crate::opcode::{divides, BINOP, CHECK_CAST, IGET, INVOKE_VIRTUAL, IPUT, THROW};
use crate::program::{Instruction, Method, Program, ARITHMETIC, CAST, NULL, THROWABLE, VIRTUAL};

/// A set of methods, as bits.
pub type Methods = u16;

pub struct Sets {
    /// For each class, itself and every class below it.
    pub below: ByClass,
    /// For each field, the classes that have it.
    pub having: Vec<u64>,
    /// For each virtual method, the classes of receivers that lead there.
    receivers: [u64; 16],
    /// Virtual methods by name, and by count of arguments.
    named: [Methods; 256],
    counted: [Methods; 17],
}

impl Sets {
    pub fn new(program: &Program) -> Sets {
        let below = classes_below(program);
        let having = program.fields.iter().map(|field| below[usize::from(field.class)]).collect();
        let mut sets =
            Sets { below, having, receivers: [0; 16], named: [0; 256], counted: [0; 17] };
        for (number, method) in program.methods.iter().enumerate() {
            if method.kind == VIRTUAL {
                sets.receivers[number] = receivers(program, &below, method);
                sets.named[usize::from(method.name)] |= 1 << number;
                sets.counted[usize::from(method.arguments)] |= 1 << number;
            }
        }
        sets
    }

    pub fn throwable(&self) -> u64 {
        self.below[usize::from(THROWABLE)]
    }

    /// The classes that an instruction itself raises, from these masks of the
    /// registers: those of its throw, of null, of a division by zero and of a
    /// failed cast.
    #[inline]
    pub fn raised(&self, Instruction { o, a, b, c, d }: Instruction, row: &[u64]) -> u64 {
        let mask = |register: u8| row[usize::from(register)];
        let if_zero = |register: u8, class: u8| u64::from(mask(register) & ZERO != 0) << class;
        match o {
            THROW => mask(a) & self.throwable() | if_zero(a, NULL),
            IGET | IPUT => if_zero(b, NULL),
            INVOKE_VIRTUAL => if_zero(c, NULL),
            BINOP if divides(d) => if_zero(c, ARITHMETIC),
            CHECK_CAST => {
                let failing = mask(a) & !NUMBERS & !self.below[usize::from(b)];
                u64::from(failing != 0) << CAST
            }
            _ => 0,
        }
    }

    /// The methods that a virtual call can lead to, each with the bits of
    /// those classes in the receiver's mask that lead there, which are some.
    #[inline]
    pub fn callees(
        &self,
        name: u8,
        count: u8,
        mask: u64,
    ) -> impl Iterator<Item = (usize, u64)> + '_ {
        let fitting = self.named[usize::from(name)] & self.counted[usize::from(count)];
        elements(fitting.into())
            .map(move |method| (method, mask & self.receivers[method]))
            .filter(|&(_, classes)| classes != 0)
    }
}

/// The classes at or below that of a virtual method, but for those at or
/// below a class that has another of this name and count.
fn receivers(program: &Program, below: &ByClass, method: &Method) -> u64 {
    let own = below[usize::from(method.class)];
    let hides = |other: &&Method| {
        (other.kind, other.name, other.arguments) == (VIRTUAL, method.name, method.arguments)
            && other.class != method.class
            && own >> other.class & 1 == 1
    };
    let others = program.methods.iter().filter(hides);
    others.fold(own, |classes, other| classes & !below[usize::from(other.class)])
}

/// The numbers of the bits that are one, rising.
#[inline]
pub fn elements(mut bits: u64) -> impl Iterator<Item = usize> {
    std::iter::from_fn(move || {
        (bits != 0).then(|| {
            let lowest = bits.trailing_zeros() as usize;
            bits &= bits - 1;
            lowest
        })
    })
}

/// The same, falling.
#[inline]
pub fn falling_elements(mut bits: u64) -> impl Iterator<Item = usize> {
    std::iter::from_fn(move || {
        (bits != 0).then(|| {
            let highest = bits.ilog2() as usize;
            bits ^= 1 << highest;
            highest
        })
    })
}

#[cfg(test)]
mod tests {
    use super::*;
    use crate::assembly::*;

    #[test]
    fn elements_rise_and_fall() {
        assert!(elements(0).next().is_none());
        assert!(elements(1 << 63 | 1 << 5 | 1).eq([0, 5, 63]));
        assert!(falling_elements(0).next().is_none());
        assert!(falling_elements(1 << 63 | 1 << 5 | 1).eq([63, 5, 0]));
    }

    /// Classes 5, 6, 7 one below the other, 8 beside 6. Class 6 has the name
    /// with another count, and class 7 a static method of it.
    #[test]
    fn a_call_leads_to_the_nearest_that_fits() {
        let code = || vec![return_void()];
        let methods = vec![
            main_method(1, code()),
            virtual_method((5, 7), 2, 1, code()),
            virtual_method((6, 7), 2, 2, code()),
            Method::new(7, 7, 1, 2, 1).with_code(code()),
            virtual_method((8, 7), 1, 1, code()),
        ];
        let sets = Sets::new(&whole_program(&[0, 1, 1, 1, 0, 5, 6, 5], &[], 0, methods));
        assert!(sets.callees(7, 1, 0b1_1111_1111).eq([(1, 0b0_1110_0000), (4, 0b1_0000_0000)]));
        assert!(sets.callees(7, 2, u64::MAX).eq([(2, 0b0_1100_0000)]));
        assert!(sets.callees(7, 1, 0b0_0001_1111).next().is_none());
        assert!(sets.callees(6, 1, u64::MAX).next().is_none());
    }

    /// From masks in which all registers may be zero, a number or an object of
    /// class 5, and class 6 lies below class 2.
    #[test]
    fn what_an_instruction_raises() {
        let sets = Sets::new(&whole_program(&[0, 1, 1, 1, 0, NULL], &[5], 0, vec![]));
        let raised = |instruction, mask: u64| sets.raised(instruction, &[NUMBERS, mask, NUMBERS]);
        for instruction in [invoke_virtual(7, 2, 1), iget(0, 1, 0), iput(0, 1, 0), throw(1)] {
            assert_eq!(raised(instruction, NUMBERS | 1 << 5), 1 << NULL);
            assert_eq!(raised(instruction, NUMBERS & !ZERO | 1 << 5), 0);
        }
        assert_eq!(raised(throw(1), ZERO | 0b110_1011), 0b100_1110);
        for operation in 0..11 {
            let by_zero = if divides(operation) { 1 << ARITHMETIC } else { 0 };
            assert_eq!(raised(binop(operation, 1, 1, 2), 1 << 5), by_zero);
            assert_eq!(raised(binop(operation, 0, 0, 1), 1 << 5), 0);
        }
        assert_eq!(raised(check_cast(1, NULL), NUMBERS | 1 << NULL | 1 << 6), 0);
        assert_eq!(raised(check_cast(1, NULL), 1 << THROWABLE | 1 << 6), 1 << CAST);
        assert_eq!(raised(check_cast(1, 0), NUMBERS | 0b111_1111), 0);
        assert_eq!(raised(invoke_static(0, 0, 0), NUMBERS), 0);
    }
}
