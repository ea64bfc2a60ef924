//! Programs with fields: of one class, and of classes that have some.

use crate::assembly::*;
use crate::program::Program;

pub fn all() -> Vec<Program> {
    vec![
        one_field(),
        in_subclasses(),
        not_had(),
        chain_of_objects(),
        statics(),
        two_of_a_kind(),
        many_stores(),
    ]
}

fn one_field() -> Program {
    let code = vec![
        new_instance(0, 1),
        iget(1, 0, 0),
        iput(0, 0, 0),
        iget(1, 0, 0),
        constant(0, 3),
        iput(0, 1, 0),
        give(1),
    ];
    program(&[0], &[1], 0, vec![main_method(2, code)])
}

/// A field has a mask for each class that has it: what is put into class 3 is
/// not in class 2.
fn in_subclasses() -> Program {
    let code = vec![
        new_instance(0, 2),
        new_instance(1, 3),
        iput(0, 1, 0),
        iput(1, 1, 1),
        iget(1, 0, 0),
        new_instance(1, 3),
        iget(0, 1, 0),
        iget(0, 1, 1),
        give(0),
    ];
    program(&[0, 0, 2], &[2, 3], 0, vec![main_method(2, code)])
}

/// An object that may be of a class without the field.
fn not_had() -> Program {
    let code = vec![
        new_instance(0, 2),
        branch_zero(EQ, 1, 3),
        new_instance(0, 3),
        iput(0, 0, 0),
        iget(1, 0, 0),
        iget(1, 1, 1),
        iput(0, 1, 1),
        give(1),
    ];
    program(&[0, 0, 0], &[3, 1], 0, vec![main_method(2, code)])
}

fn chain_of_objects() -> Program {
    let main = vec![
        new_instance(0, 2),
        iput(0, 0, 0),
        invoke_static(1, 1, 0),
        move_result(0),
        return_void(),
    ];
    let walk = vec![copy(0, 1), iget(1, 0, 0), branch_zero(NE, 1, 0), give(0)];
    let methods = vec![main_method(1, main), static_method(1, 2, 1, walk)];
    program(&[0, 0], &[2], 0, methods)
}

fn statics() -> Program {
    let main = vec![
        new_instance(0, 1),
        sput(0, 0),
        invoke_static(1, 0, 0),
        sget(0, 1),
        sput(0, 2),
        return_void(),
    ];
    let copier = vec![sget(0, 0), sput(0, 1), constant(0, 1), sput(0, 1), return_void()];
    let methods = vec![main_method(1, main), static_method(1, 1, 0, copier)];
    program(&[0], &[], 3, methods)
}

/// Two classes with one field, reached together and apart.
fn two_of_a_kind() -> Program {
    let code = vec![
        new_instance(0, 2),
        new_instance(1, 3),
        constant(2, 4),
        iput(2, 0, 0),
        branch_zero(EQ, 2, 6),
        copy(1, 0),
        iput(0, 1, 0),
        iget(2, 1, 0),
        return_void(),
    ];
    program(&[0, 0, 0], &[0], 0, vec![main_method(3, code)])
}

/// Objects and numbers into fields of two classes and into statics.
fn many_stores() -> Program {
    let code = vec![
        new_instance(0, 2),
        sput(0, 0),
        constant(1, 7),
        sput(1, 0),
        iput(1, 0, 0),
        new_instance(1, 1),
        iput(1, 0, 1),
        sput(1, 1),
        iput(0, 1, 0),
        return_void(),
    ];
    program(&[0, 1], &[1, 2], 2, vec![main_method(2, code)])
}
