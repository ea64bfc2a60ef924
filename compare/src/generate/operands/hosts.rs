//! Programs with one place whose instruction is changed.

use super::super::build::{idle_code, main_method, smallest, tables};
use super::Host;
use crate::program::{Method, STATIC, VIRTUAL};

/// One register, no field and no static.
pub fn narrow() -> Host {
    let mut program = smallest();
    program.methods[0].code = idle_code(2);
    Host { program, method: 0, address: 0 }
}

/// Inside a method that is neither first nor last.
pub fn middle() -> Host {
    let mut program = tables(6, 2, 4);
    program.methods.extend([
        Method::new(0, 1, STATIC, 2, 2).with_code(idle_code(1)),
        Method::new(0, 2, VIRTUAL, 5, 2).with_code(idle_code(4)),
        Method::new(1, 0, STATIC, 1, 1).with_code(idle_code(1)),
    ]);
    Host { program, method: 2, address: 1 }
}

/// All registers, in the last instruction of the text.
pub fn wide() -> Host {
    let mut program = tables(5, 1, 1);
    program.methods.extend([
        Method::new(1, 0, STATIC, 16, 16).with_code(idle_code(1)),
        Method::new(0, 0xff, STATIC, 16, 1).with_code(idle_code(3)),
    ]);
    Host { program, method: 2, address: 2 }
}

/// The most classes, fields, statics, methods and instructions.
pub fn full() -> Host {
    let mut program = tables(60, 16, 16);
    program.methods[0] = main_method(9).with_code(idle_code(32));
    for name in 1..15 {
        program.methods.push(Method::new(0, name, VIRTUAL, 2, 2).with_code(idle_code(1)));
    }
    program.methods.push(Method::new(0, 15, STATIC, 2, 2).with_code(idle_code(1)));
    Host { program, method: 0, address: 30 }
}
