//! Calls, whose operands bind each other, and methods alike in class and name.

use super::build::{distinct, flat_classes, idle_code, instruction_line, method_line, smallest};
use super::Case;
use crate::opcode::{INVOKE_STATIC, INVOKE_VIRTUAL};
use crate::program::{Instruction, Method, Program, STATIC, VIRTUAL};

pub fn cases() -> Vec<Case> {
    [virtual_calls(), static_calls(), callees(), bad_callee_headers(), alike()].concat()
}

/// Code with this instruction first.
fn code_with(instruction: Instruction) -> Vec<Instruction> {
    let mut code = idle_code(2);
    code[0] = instruction;
    code
}

/// Counts and first registers together; some sums are 256.
fn virtual_calls() -> Vec<Case> {
    let mut cases = Vec::new();
    for registers in [1, 3, 16] {
        let counts = vec![0, 1, 2, registers - 1, registers, registers + 1, 0x80, 0xff];
        for count in distinct(counts) {
            let firsts = vec![0, 1, registers - 1, registers, registers + 1, 0x80, 0xff];
            for first in distinct(firsts) {
                let mut program = smallest();
                program.methods[0].registers = registers;
                let call = Instruction::new(INVOKE_VIRTUAL, count, count, first, 0);
                program.methods[0].code = code_with(call);
                let sum = u32::from(count) + u32::from(first);
                let allowed = count != 0 && sum <= u32::from(registers);
                let line = instruction_line(&program, 0, 0);
                cases.push(Case::allowed(program.text(), allowed, line));
            }
        }
    }
    cases
}

/// A caller (method 0) and a callee with this many arguments.
fn caller_and_callee(registers: u8, arguments: u8, call: Instruction) -> Program {
    let mut program = smallest();
    program.methods[0].registers = registers;
    program.methods[0].code = code_with(call);
    let callee = Method::new(0, 1, STATIC, arguments.max(1), arguments);
    program.methods.push(callee.with_code(idle_code(1)));
    program
}

fn static_calls() -> Vec<Case> {
    let mut cases = Vec::new();
    for (registers, arguments) in [(1u8, 0u8), (5, 0), (1, 1), (5, 2), (16, 16), (2, 3)] {
        let counts = vec![0, arguments, arguments.saturating_sub(1), arguments + 1, 0xff];
        for count in distinct(counts) {
            let room = registers - count.min(registers);
            let wraps = count.wrapping_neg();
            for first in distinct(vec![0, 1, room, room + 1, registers, wraps, 0xff]) {
                let call = Instruction::new(INVOKE_STATIC, 1, count, first, 0);
                let program = caller_and_callee(registers, arguments, call);
                let fits = match count {
                    0 => first == 0,
                    _ => u32::from(count) + u32::from(first) <= u32::from(registers),
                };
                let line = instruction_line(&program, 0, 0);
                cases.push(Case::allowed(program.text(), count == arguments && fits, line));
            }
        }
    }
    cases
}

/// From each of five methods a call of each, with right and wrong counts: an
/// earlier one, a later one, the method itself, method 0, a virtual one, and
/// none.
fn callees() -> Vec<Case> {
    let arguments = [0, 2, 1, 0, 3];
    let kinds = [STATIC, STATIC, VIRTUAL, STATIC, STATIC];
    let mut cases = Vec::new();
    for caller in 0..5 {
        for callee in [0, 1, 2, 3, 4, 5, 0xff] {
            let right = arguments.get(usize::from(callee)).copied().unwrap_or(0);
            for count in distinct(vec![right, 1, 3]) {
                let mut program = smallest();
                program.methods = (0..5)
                    .map(|m| Method::new(1, m as u8, kinds[m], 4, arguments[m]))
                    .map(|method| method.with_code(idle_code(1)))
                    .collect();
                let call = Instruction::new(INVOKE_STATIC, callee, count, 0, 0);
                program.methods[caller].code = code_with(call);
                let is_static = kinds.get(usize::from(callee)) == Some(&STATIC);
                let line = instruction_line(&program, caller, 0);
                cases.push(Case::allowed(program.text(), is_static && count == right, line));
            }
        }
    }
    cases
}

/// A callee's frame counts as written, even if it is itself refused later.
fn bad_callee_headers() -> Vec<Case> {
    let call = Instruction::new(INVOKE_STATIC, 1, 1, 0, 0);
    let with_callee = |change: &dyn Fn(&mut Method)| {
        let mut program = caller_and_callee(2, 1, call);
        change(&mut program.methods[1]);
        program.text()
    };
    let at_call = 7;
    let at_callee = 9;
    let as_written =
        |change: &dyn Fn(&mut Method)| Case::refused(with_callee(change), 5, at_callee);
    let not_static = |kind| Case::refused(with_callee(&|m| m.kind = kind), 5, at_call);
    let mut cases = vec![
        Case::read(with_callee(&|_| ())),
        as_written(&|m| m.registers = 0),
        as_written(&|m| m.registers = 17),
        as_written(&|m| m.class = 5),
        as_written(&|m| (m.class, m.name) = (0, 0)),
    ];
    cases.extend([0, 2, 0x80, 0xff].map(not_static));
    // A count over the callee's own registers, called with that count.
    for count in [2, 3, 16] {
        let call = Instruction::new(INVOKE_STATIC, 1, count, 0, 0);
        let mut program = caller_and_callee(16, count, call);
        program.methods[1].registers = count - 1;
        cases.push(Case::refused(program.text(), 5, at_callee));
    }
    cases
}

/// Two and three methods alike in class and name, of any kind and count.
fn alike() -> Vec<Case> {
    let mut cases = Vec::new();
    let headers = [(STATIC, 1, 0), (STATIC, 3, 2), (VIRTUAL, 1, 1), (VIRTUAL, 3, 2)];
    for (first, second) in [(0, 1), (0, 3), (1, 2), (1, 4), (2, 4), (3, 4)] {
        for (kind, registers, arguments) in headers {
            for (same_class, same_name) in [(true, true), (true, false), (false, true)] {
                let mut program = five_methods();
                let (class, name) = (program.methods[first].class, program.methods[first].name);
                let method = &mut program.methods[second];
                (method.kind, method.registers, method.arguments) = (kind, registers, arguments);
                method.class = if same_class { class } else { 2 };
                method.name = if same_name { name } else { 0xfe };
                let line = method_line(&program, second);
                cases.push(Case::allowed(program.text(), !(same_class && same_name), line));
            }
        }
    }
    for [first, second, third] in [[0, 1, 2], [0, 2, 4], [1, 3, 4], [2, 3, 4]] {
        let mut program = five_methods();
        let (class, name) = (program.methods[first].class, program.methods[first].name);
        for method in [second, third] {
            (program.methods[method].class, program.methods[method].name) = (class, name);
        }
        cases.push(Case::refused(program.text(), 5, method_line(&program, second)));
    }
    cases
}

/// Methods of classes 0 and 1 with different names, the last ones 0 and ff.
fn five_methods() -> Program {
    let mut program = smallest();
    program.classes = flat_classes(6);
    program.methods = [(0, 1), (0, 2), (1, 3), (0, 0), (1, 0xff)]
        .into_iter()
        .map(|(class, name)| Method::new(class, name, STATIC, 1, 0).with_code(idle_code(1)))
        .collect();
    program
}
