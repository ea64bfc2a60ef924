//! Several faults in one text: which one is reported.

use super::build::{idle_code, instruction_line, main_method, smallest, tables};
use super::Case;
use crate::frame::{line, text};
use crate::opcode::NOP;
use crate::program::{Handler, Method, Program, STATIC};
use crate::random::Random;
use crate::Refusal;

/// Refusals 2 to 6, each of which can be put on the last instruction of a
/// method.
const NUMBERS: [u8; 5] = [2, 3, 4, 5, 6];

pub fn cases() -> Vec<Case> {
    let mut cases = pairs();
    cases.extend(several());
    cases.extend(falling_code());
    cases.extend(late_lines());
    cases
}

/// A program whose methods all end in `return-void`.
fn host() -> Program {
    let mut program = smallest();
    program.methods = vec![
        main_method(1),
        Method::new(0, 1, STATIC, 2, 2)
            .with_code(idle_code(2))
            .with_handlers(vec![Handler::new(0, 1, 0, 1)]),
        Method::new(1, 0, STATIC, 1, 0).with_code(idle_code(1)),
    ];
    program
}

/// The lines of the methods' last instructions.
fn last_lines(program: &Program) -> Vec<u32> {
    let lengths = program.methods.iter().map(|method| method.code.len());
    lengths.enumerate().map(|(m, length)| instruction_line(program, m, length - 1)).collect()
}

/// The text with these faults, and the fault that is to be reported.
fn case(program: &Program, faults: &[Refusal]) -> Case {
    let mut lines: Vec<Vec<u8>> = program.frames().iter().map(|frame| line(frame)).collect();
    let mut in_order = faults.to_vec();
    // Faults of value first: the others change the form of the line.
    in_order.sort_by_key(|fault| std::cmp::Reverse(fault.number));
    for fault in in_order {
        put(&mut lines[fault.line as usize - 1], fault.number);
    }
    let walk = |number| if number <= 4 { 1 } else { 2 };
    let reported = faults.iter().min_by_key(|f| (walk(f.number), f.line, f.number));
    match reported {
        None => Case::read(lines.concat()),
        Some(fault) => Case::refused(lines.concat(), fault.number, fault.line),
    }
}

/// Puts a fault on the line of a `return-void`. In characters the opcode
/// stands at 2 and operand `a` at 4.
fn put(line: &mut Vec<u8>, number: u8) {
    match number {
        6 => line[2..4].copy_from_slice(format!("{NOP:02x}").as_bytes()),
        5 => line[5] = b'1',
        4 => *line = b"01ff\n".to_vec(),
        3 => line.splice(line.len() - 1.., *b"00\n").for_each(drop),
        _ => line[0] = b'F',
    }
}

/// Every two faults, on one line and on two lines in both orders.
fn pairs() -> Vec<Case> {
    let program = host();
    let lines = last_lines(&program);
    let mut cases = vec![case(&program, &[])];
    for &first_line in &lines {
        for &second_line in &lines {
            for first in NUMBERS {
                for second in NUMBERS {
                    let faults =
                        [Refusal::new(first, first_line), Refusal::new(second, second_line)];
                    if first != second || first_line != second_line {
                        cases.push(case(&program, &faults));
                    }
                }
            }
        }
    }
    cases
}

/// Three to six faults on random lines.
fn several() -> Vec<Case> {
    let mut random = Random::new(2);
    let program = host();
    let lines = last_lines(&program);
    (0..100)
        .map(|_| {
            let count = random.within(3..=6);
            let mut faults: Vec<Refusal> = (0..count)
                .map(|_| Refusal::new(random.pick(&NUMBERS), random.pick(&lines)))
                .collect();
            faults.sort();
            faults.dedup();
            case(&program, &faults)
        })
        .collect()
}

/// Last instructions that fall through, before and after a bad value in a
/// class, a method's frame, a handler, and in the same code.
fn falling_code() -> Vec<Case> {
    let program = host();
    let mut cases = Vec::new();
    for method in 0..3 {
        for length in [1, 2, 5] {
            let mut falling = program.clone();
            falling.methods[method].code = idle_code(length);
            falling.methods[method].code[length - 1].o = NOP;
            let line = instruction_line(&falling, method, length - 1);
            cases.push(Case::refused(falling.text(), 6, line));

            let mut earlier = falling.clone();
            earlier.methods[method].code[0].d = 0x0100_0000;
            let first_line = instruction_line(&falling, method, 0);
            cases.push(Case::refused(earlier.text(), 5, first_line));

            for class in [1, 2 + method] {
                let mut itself = falling.clone();
                itself.classes[class].superclass = class as u8;
                cases.push(Case::refused(itself.text(), 5, class as u32 + 1));
            }

            let mut header = falling.clone();
            header.methods[method].registers = 17;
            cases.push(Case::refused(header.text(), 5, line - length as u32));

            let mut handler = falling.clone();
            handler.methods[method].handlers = vec![Handler::new(0, 0, 0, 0)];
            cases.push(Case::refused(handler.text(), 6, line));

            let mut later = falling.clone();
            later.methods[2].class = 0x80;
            cases.push(match method {
                2 => Case::refused(later.text(), 5, line - length as u32),
                _ => Case::refused(later.text(), 6, line),
            });
        }
    }
    cases
}

/// Faults past line 256, and on the last line that a fault can have.
fn late_lines() -> Vec<Case> {
    let handlers = vec![Handler::new(0, 1, 0, 1); 8];
    let filled = |length| {
        let mut program = tables(60, 16, 16);
        program.methods = (0..16)
            .map(|name| Method::new(1, name, STATIC, 1, 0))
            .map(|method| method.with_code(idle_code(length)).with_handlers(handlers.clone()))
            .collect();
        program
    };
    // 92 lines of tables, 16 methods of 11 lines; the last method at 258.
    let program = filled(2);
    let frames = program.frames();
    let mut cases = vec![Case::read(program.text())];
    let with = |number: usize, frame: &[u8]| {
        let mut frames = frames.clone();
        frames[number - 1] = frame.to_vec();
        text(&frames)
    };
    cases.push(Case::refused(with(257, &[0xff]), 3, 257));
    cases.push(Case::refused(with(257, &[3]), 4, 257));
    cases.push(Case::refused(with(258, &[4, 1, 0, 1, 1, 0]), 5, 258));
    cases.push(Case::refused(with(259, &[6, 3, 0, 0, 0, 0, 0, 1, 0]), 5, 259));
    cases.push(Case::refused(with(260, &[6, 0, 0, 0, 0, 0, 0, 0, 0]), 6, 260));
    cases.push(Case::refused(with(268, &[5, 0, 3, 0, 0]), 5, 268));
    cases.push(Case::refused(program.text()[..program.text().len() - 1].to_vec(), 2, 268));
    for (late, number) in [("\n", 2), ("0500010001", 2), ("00\n", 3), ("0500010001\n", 4)] {
        cases.push(Case::refused([program.text(), late.into()].concat(), number, 269));
    }
    let largest = filled(32);
    cases.push(Case::refused([largest.text(), b"0500010001\n".to_vec()].concat(), 4, 749));
    cases
}
