//! The reader's refusals of values and of code that falls through (5 and 6).

mod calls;

use compare::opcode::*;
use compare::program::{Class, Field, Instruction, Method, Program, STATIC, VIRTUAL};
use compare::reader::read;
use compare::Refusal;

/// Six classes, two fields, one static; method 0 at line 10 with 4 registers
/// and code of three lines, method 1 at line 14 with one line.
fn program() -> Program {
    let nop = Instruction::new(NOP, 0, 0, 0, 0);
    let ret = Instruction::new(RETURN_VOID, 0, 0, 0, 0);
    Program {
        classes: [0xff, 0, 1, 1, 1, 1].map(|superclass| Class { superclass }).to_vec(),
        fields: vec![Field { class: 0 }, Field { class: 5 }],
        statics: 1,
        methods: vec![
            Method::new(0, 0, STATIC, 4, 0).with_code(vec![nop, nop, ret]),
            Method::new(1, 0, STATIC, 2, 2).with_code(vec![ret]),
        ],
    }
}

fn answer(program: &Program) -> Result<(), (u8, u32)> {
    read(&program.text()).map(|_| ()).map_err(|Refusal { number, line }| (number, line))
}

/// The answer after a change.
fn changed(change: impl FnOnce(&mut Program)) -> Result<(), (u8, u32)> {
    let mut program = program();
    change(&mut program);
    answer(&program)
}

/// Whether this is allowed as the first instruction, at line 11.
fn allowed(o: u8, a: u8, b: u8, c: u8, d: u32) -> bool {
    match changed(|p| p.methods[0].code[0] = Instruction::new(o, a, b, c, d)) {
        Ok(()) => true,
        Err(refusal) => {
            assert_eq!(refusal, (5, 11));
            false
        }
    }
}

#[test]
fn tables() {
    assert_eq!(changed(|_| ()), Ok(()));
    assert_eq!(changed(|p| p.classes[0].superclass = 0), Err((5, 1)));
    assert_eq!(changed(|p| p.classes[1].superclass = 0xff), Err((5, 2)));
    assert_eq!(changed(|p| p.classes[1].superclass = 1), Err((5, 2)));
    assert_eq!(changed(|p| p.classes[5].superclass = 5), Err((5, 6)));
    for superclass in 0..5 {
        assert_eq!(changed(|p| p.classes[5].superclass = superclass), Ok(()));
    }
    assert_eq!(changed(|p| p.fields[1].class = 6), Err((5, 8)));
    assert_eq!(changed(|p| p.fields[1].class = 3), Ok(()));
}

#[test]
fn classes_2_to_4_lie_right_below_1() {
    for class in 2..=4 {
        for superclass in [0, 2, 3, 4, 5, 0xff] {
            let answer = changed(|p| p.classes[class].superclass = superclass);
            assert_eq!(answer, Err((5, class as u32 + 1)));
        }
    }
    let two = changed(|p| p.classes[2..4].fill(Class { superclass: 0 }));
    assert_eq!(two, Err((5, 3)));
    let falling = changed(|p| {
        p.methods[0].code[2].o = NOP;
        p.classes[4].superclass = 0;
    });
    assert_eq!(falling, Err((5, 5)));
}

#[test]
fn method_frames() {
    let header = |m: usize, class, name, kind, registers, arguments| {
        let method = Method::new(class, name, kind, registers, arguments);
        changed(|p| p.methods[m] = method.with_code(p.methods[m].code.clone()))
    };
    assert_eq!(header(0, 0, 9, VIRTUAL, 4, 1), Err((5, 10)));
    assert_eq!(header(0, 0, 9, STATIC, 4, 1), Err((5, 10)));
    assert_eq!(header(1, 2, 0xff, VIRTUAL, 16, 16), Ok(()));
    assert_eq!(header(1, 6, 0, VIRTUAL, 1, 1), Err((5, 14)));
    assert_eq!(header(1, 1, 0, VIRTUAL, 1, 0), Err((5, 14)));
    assert_eq!(header(1, 1, 0, 2, 1, 1), Err((5, 14)));
    assert_eq!(header(1, 1, 0, STATIC, 0, 0), Err((5, 14)));
    assert_eq!(header(1, 1, 0, STATIC, 17, 0), Err((5, 14)));
    assert_eq!(header(1, 1, 0, STATIC, 2, 3), Err((5, 14)));
    // Class and name repeated, with another kind and count.
    assert_eq!(header(1, 0, 0, VIRTUAL, 2, 1), Err((5, 14)));
    assert_eq!(header(1, 0, 1, VIRTUAL, 2, 1), Ok(()));
}

#[test]
fn of_three_alike_the_second_is_reported() {
    let three = changed(|p| {
        p.methods[1].class = 0;
        p.methods.push(p.methods[1].clone());
    });
    assert_eq!(three, Err((5, 14)));
}

#[test]
fn unused_fields_are_zero() {
    let used: [(u8, [u8; 3]); 10] = [
        (NOP, [0, 0, 0]),
        (MOVE, [1, 1, 0]),
        (UNOP, [1, 1, 1]),
        (NEW_INSTANCE, [1, 1, 0]),
        (IGET, [1, 1, 1]),
        (SPUT, [1, 0, 0]),
        (INVOKE_VIRTUAL, [9, 1, 1]),
        (INVOKE_STATIC, [1, 2, 1]),
        (RETURN_VOID, [0, 0, 0]),
        (INSTANCE_OF, [1, 1, 1]),
    ];
    for (o, [a, b, c]) in used {
        assert!(allowed(o, a, b, c, 0), "{o:02x}");
        for shift in [0, 8, 16, 24] {
            assert!(!allowed(o, a, b, c, 1 << shift), "{o:02x}");
        }
    }
    for o in [MOVE_RESULT, MOVE_EXCEPTION, RETURN, THROW, CONST] {
        assert!(allowed(o, 3, 0, 0, 0) && !allowed(o, 3, 1, 0, 0) && !allowed(o, 3, 0, 1, 0));
    }
    assert!(!allowed(NOP, 1, 0, 0, 0) && !allowed(NOP, 0, 1, 0, 0) && !allowed(NOP, 0, 0, 1, 0));
    assert!(!allowed(GOTO, 1, 0, 0, 0) && !allowed(GOTO, 0, 1, 0, 0) && !allowed(GOTO, 0, 0, 1, 0));
}

#[test]
fn operands() {
    assert!(allowed(MOVE, 3, 3, 0, 0) && !allowed(MOVE, 4, 0, 0, 0) && !allowed(MOVE, 0, 4, 0, 0));
    assert!(allowed(CONST, 0, 0, 0, 0x8000_0000) && allowed(CONST, 0, 0, 0, u32::MAX));
    assert!(allowed(GOTO, 0, 0, 0, 2) && !allowed(GOTO, 0, 0, 0, 3));
    assert!(!allowed(GOTO, 0, 0, 0, u32::MAX) && !allowed(GOTO, 0, 0, 0, 0x100));
    for c in 0..6 {
        assert!(allowed(IF, 3, 3, c, 2) && !allowed(IF, 3, 4, c, 2) && !allowed(IF, 3, 3, c, 3));
    }
    for c in 6..12 {
        assert!(allowed(IF, 3, 0, c, 2) && !allowed(IF, 3, 1, c, 2) && !allowed(IF, 4, 0, c, 2));
    }
    assert!(!allowed(IF, 0, 0, 12, 0) && !allowed(IF, 0, 0, 0xff, 0));
    assert!(allowed(BINOP, 3, 3, 3, 10) && !allowed(BINOP, 3, 3, 3, 11));
    assert!(!allowed(BINOP, 3, 3, 4, 0) && !allowed(UNOP, 0, 0, 2, 0));
    assert!(allowed(NEW_INSTANCE, 3, 5, 0, 0) && !allowed(NEW_INSTANCE, 3, 6, 0, 0));
    assert!(allowed(CHECK_CAST, 3, 5, 0, 0) && !allowed(CHECK_CAST, 3, 6, 0, 0));
    assert!(allowed(INSTANCE_OF, 3, 3, 5, 0) && !allowed(INSTANCE_OF, 3, 3, 6, 0));
    assert!(allowed(IPUT, 3, 3, 1, 0) && !allowed(IPUT, 3, 3, 2, 0) && !allowed(IGET, 0, 4, 0, 0));
    assert!(allowed(SGET, 3, 0, 0, 0) && !allowed(SGET, 3, 1, 0, 0) && !allowed(SPUT, 4, 0, 0, 0));
    // An opcode past the last is a value, not a kind.
    assert!(!allowed(0x15, 0, 0, 0, 0) && !allowed(0xff, 0, 0, 0, 0));
}

#[test]
fn falling_through() {
    for o in 0..=CHECK_CAST {
        let with_last = changed(|p| p.methods[1].code[0] = Instruction::new(o, 0, 0, 0, 0));
        match o {
            GOTO | RETURN | RETURN_VOID | THROW => assert_eq!(with_last, Ok(())),
            INVOKE_VIRTUAL => assert_eq!(with_last, Err((5, 15))),
            _ => assert_eq!(with_last, Err((6, 15))),
        }
    }
    // The first line wins; on one line 5 comes first.
    let falling = |change: fn(&mut Program)| {
        changed(|p| {
            p.methods[0].code[2].o = NOP;
            change(p);
        })
    };
    assert_eq!(falling(|_| ()), Err((6, 13)));
    assert_eq!(falling(|p| p.methods[0].code[2].a = 1), Err((5, 13)));
    assert_eq!(falling(|p| p.methods[0].kind = 7), Err((5, 10)));
    assert_eq!(falling(|p| p.methods[1].kind = 7), Err((6, 13)));
}

#[test]
fn a_frame_out_of_order_hides_earlier_values() {
    let mut program = program();
    program.classes[0].superclass = 0;
    assert_eq!(answer(&program), Err((5, 1)));
    let text = [program.text(), b"03\n".to_vec()].concat();
    assert_eq!(read(&text), Err(Refusal::new(4, 16)));
}
