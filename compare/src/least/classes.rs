//! What lies above and below a class, and what a virtual call finds.

use crate::program::{Method, Program, NO_SUPERCLASS, VIRTUAL};

pub fn has(mask: u64, class: u8) -> bool {
    mask >> class & 1 == 1
}

/// Whether a class is this one or below it: upward, one class at a time.
pub fn is_below(program: &Program, class: u8, other: u8) -> bool {
    let superclass = program.classes[usize::from(class)].superclass;
    class == other || superclass != NO_SUPERCLASS && is_below(program, superclass, other)
}

pub fn classes_having(program: &Program, field: usize) -> impl Iterator<Item = u8> + '_ {
    let owner = program.fields[field].class;
    (0..program.classes.len() as u8).filter(move |&class| is_below(program, class, owner))
}

/// The callee of a virtual call, from the receiver's class upward.
pub fn find(program: &Program, class: u8, name: u8, count: u8) -> Option<usize> {
    let fits = |m: &Method| (m.class, m.name, m.arguments, m.kind) == (class, name, count, VIRTUAL);
    program.methods.iter().position(fits).or_else(|| {
        let superclass = program.classes[usize::from(class)].superclass;
        if superclass == NO_SUPERCLASS {
            None
        } else {
            find(program, superclass, name, count)
        }
    })
}
