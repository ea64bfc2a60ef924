//! Programs with fields and statics: masks that many addresses share.

use crate::assembly::*;
use crate::program::{Instruction, Program};

pub fn all() -> Vec<Program> {
    vec![
        fields_of_subclasses(),
        before_and_after(),
        list(),
        through_statics(),
        of_no_class(),
        field_of_itself(),
        receivers_later(),
        nothing_stored(),
    ]
}

/// Classes 2, 3 and 4 lie one below the other; 5 lies beside 3, below 2.
const CLASSES: [u8; 5] = [0, 0, 2, 3, 2];

fn alone(registers: u8, fields: &[u8], statics: usize, code: Vec<Instruction>) -> Program {
    program(&CLASSES, fields, statics, vec![main_method(registers, code)])
}

/// Each class has its own mask of a field, its own fields and those above.
fn fields_of_subclasses() -> Program {
    let code = vec![
        new_instance(0, 2),
        new_instance(1, 4),
        iput(1, 0, 0),
        iput(0, 1, 0),
        iput(0, 1, 1),
        new_instance(2, 5),
        branch_zero(EQ, 3, 8),
        copy(2, 1),
        iput(2, 2, 0),
        iput(2, 2, 2),
        iget(3, 2, 1),
        iget(2, 0, 0),
        give(3),
    ];
    alone(4, &[2, 3, 5, 0], 0, code)
}

/// What is put in after it was read, and by another method, is read too.
fn before_and_after() -> Program {
    let main = vec![
        new_instance(0, 3),
        iget(1, 0, 0),
        new_instance(2, 4),
        iput(2, 0, 0),
        invoke_static(1, 1, 0),
        give(1),
    ];
    let other = vec![constant(0, 8), iput(0, 1, 0), iget(0, 1, 0), give(0)];
    program(&CLASSES, &[2], 0, vec![main_method(3, main), static_method(1, 2, 1, other)])
}

/// Objects of a class hold the next one: a class more each time around.
fn list() -> Program {
    let code = vec![
        new_instance(0, 2),
        new_instance(1, 3),
        iput(1, 0, 0),
        new_instance(0, 4),
        iput(0, 1, 0),
        new_instance(1, 5),
        iput(1, 0, 0),
        new_instance(0, 2),
        iget(0, 0, 0),
        branch_zero(NE, 0, 8),
        give(0),
    ];
    alone(2, &[0], 0, code)
}

/// From static to static, the later ones first.
fn through_statics() -> Program {
    let code = vec![
        sget(0, 2),
        sput(0, 3),
        sget(0, 1),
        sput(0, 2),
        sget(0, 0),
        sput(0, 1),
        new_instance(0, 5),
        sput(0, 0),
        sget(0, 3),
        sput(0, 4),
        return_void(),
    ];
    alone(1, &[], 5, code)
}

/// Fields of numbers, of null and of classes without the field.
fn of_no_class() -> Program {
    let code = vec![
        iget(1, 0, 0),
        iput(1, 0, 0),
        constant(0, 6),
        iget(1, 0, 0),
        new_instance(0, 1),
        iput(0, 0, 0),
        iget(1, 0, 0),
        new_instance(0, 5),
        iget(2, 0, 0),
        give(1),
    ];
    alone(3, &[3], 0, code)
}

/// An object into its own field, and out of it into another field.
fn field_of_itself() -> Program {
    let code = vec![
        new_instance(0, 3),
        iput(0, 0, 0),
        iget(0, 0, 0),
        iput(0, 0, 1),
        iget(1, 0, 1),
        iput(1, 1, 1),
        branch_zero(EQ, 1, 2),
        give(1),
    ];
    alone(2, &[0, 2], 0, code)
}

/// The value is there before the receiver is known, and the other way.
fn receivers_later() -> Program {
    let code = vec![
        new_instance(0, 4),
        iput(0, 1, 0),
        iget(2, 1, 0),
        branch_zero(EQ, 2, 1),
        new_instance(1, 3),
        branch_zero(EQ, 3, 1),
        new_instance(1, 5),
        branch_zero(NE, 3, 1),
        copy(0, 2),
        branch_zero(LE, 3, 1),
        give(2),
    ];
    alone(4, &[2], 0, code)
}

/// Fields and statics that nobody writes hold zero.
fn nothing_stored() -> Program {
    let code = vec![new_instance(0, 4), iget(0, 0, 1), sget(0, 1), give(0)];
    alone(1, &[1, 2, 4], 3, code)
}
