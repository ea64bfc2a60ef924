//! Methods and programs.

use crate::opcode::{CHECK_CAST, INSTANCE_OF, NEW_INSTANCE};
use crate::program::{Class, Field, Instruction, Method, Program};
use crate::program::{CAST, NO_SUPERCLASS, STATIC, THROWABLE, VIRTUAL};

/// Document 01's sample, with the three classes of document 02.
pub const SAMPLE: &str = "\
01ff
0100
0101
0101
0101
040000010100
060d01000000000000
061100000000000000
040001010100
061100000000000000
";

/// Method 0, of class 0 and name 0.
pub fn main_method(registers: u8, code: Vec<Instruction>) -> Method {
    Method::new(0, 0, STATIC, registers, 0).with_code(code)
}

/// A static method of class 0.
pub fn static_method(name: u8, registers: u8, arguments: u8, code: Vec<Instruction>) -> Method {
    Method::new(0, name, STATIC, registers, arguments).with_code(code)
}

pub fn virtual_method(
    (class, name): (u8, u8),
    registers: u8,
    arguments: u8,
    code: Vec<Instruction>,
) -> Method {
    Method::new(class, name, VIRTUAL, registers, arguments).with_code(code)
}

/// A program that names none of the classes 2 to 4: they are put in, and every
/// class from 2 on moves up by three. Its superclasses are those of class 1 and
/// on, its fields stand by their classes.
pub fn program(
    superclasses: &[u8],
    fields: &[u8],
    statics: usize,
    methods: Vec<Method>,
) -> Program {
    let (throwable, others) = superclasses.split_at(1);
    let others: Vec<u8> = others.iter().map(|&class| moved(class)).collect();
    let superclasses = [throwable, &RAISED, &others].concat();
    let fields: Vec<u8> = fields.iter().map(|&class| moved(class)).collect();
    whole_program(&superclasses, &fields, statics, methods.into_iter().map(moved_up).collect())
}

/// The superclasses of classes 2 to 4.
pub const RAISED: [u8; 3] = [THROWABLE; 3];

/// The number that a class of [`program`] has in the text.
pub fn moved(class: u8) -> u8 {
    if class <= THROWABLE {
        class
    } else {
        class + CAST - THROWABLE
    }
}

fn moved_up(mut method: Method) -> Method {
    method.class = moved(method.class);
    for instruction in &mut method.code {
        match instruction.o {
            NEW_INSTANCE | CHECK_CAST => instruction.b = moved(instruction.b),
            INSTANCE_OF => instruction.c = moved(instruction.c),
            _ => {}
        }
    }
    for handler in &mut method.handlers {
        handler.class = moved(handler.class);
    }
    method
}

/// A program with these superclasses of class 1 and on, classes 2 to 4 among
/// them, and these fields by their classes.
pub fn whole_program(
    superclasses: &[u8],
    fields: &[u8],
    statics: usize,
    methods: Vec<Method>,
) -> Program {
    let all = [NO_SUPERCLASS].iter().chain(superclasses);
    Program {
        classes: all.map(|&superclass| Class { superclass }).collect(),
        fields: fields.iter().map(|&class| Field { class }).collect(),
        statics,
        methods,
    }
}

#[cfg(test)]
mod tests {
    use super::*;
    use crate::assembly::{check_cast, instance_of, new_instance, return_void};
    use crate::program::Handler;

    #[test]
    fn classes_from_2_on_move_up() {
        let code = |class, other| {
            vec![new_instance(2, class), check_cast(3, 1), instance_of(2, 3, other), return_void()]
        };
        let method = |owner, class, other| {
            virtual_method((owner, 2), 4, 1, code(class, other))
                .with_handlers(vec![Handler::new(2, 3, 2, owner)])
        };
        let main = || main_method(1, vec![return_void()]);
        let moving = program(&[0, 0, 1, 3], &[2, 0], 2, vec![main(), method(4, 2, 3)]);
        let methods = vec![main(), method(7, 5, 6)];
        assert_eq!(moving, whole_program(&[0, 1, 1, 1, 0, 1, 6], &[5, 0], 2, methods));
    }
}
