//! The reader's refusals of length, form and order (1 to 4), and the sample.

use compare::assembly::SAMPLE;
use compare::digest::describe;
use compare::opcode::{INVOKE_STATIC, RETURN_VOID};
use compare::program::{Class, Instruction, Method, STATIC};
use compare::reader::read;
use compare::Refusal;

const CLASSES: &str = "01ff\n0100\n0101\n0101\n0101\n";
const METHOD: &str = "040000010100\n";
const NOP: &str = "060000000000000000\n";
const RETURN: &str = "061100000000000000\n";
const HANDLER: &str = "0500010000\n";

fn refused(text: impl AsRef<[u8]>) -> (u8, u32) {
    let Refusal { number, line } = read(text.as_ref()).expect_err("refused");
    (number, line)
}

fn accepted(text: impl AsRef<[u8]>) -> bool {
    read(text.as_ref()).is_ok()
}

/// A method of class 0 with this name.
fn method(name: usize) -> String {
    format!("0400{name:02x}010100\n{RETURN}")
}

#[test]
fn sample_is_read() {
    let program = read(SAMPLE.as_bytes()).unwrap();
    assert_eq!(program.classes, [0xff, 0, 1, 1, 1].map(|superclass| Class { superclass }));
    assert!(program.fields.is_empty() && program.statics == 0);
    let call = Instruction::new(INVOKE_STATIC, 1, 0, 0, 0);
    let ret = Instruction::new(RETURN_VOID, 0, 0, 0, 0);
    assert_eq!(
        program.methods,
        [
            Method::new(0, 0, STATIC, 1, 0).with_code(vec![call, ret]),
            Method::new(0, 1, STATIC, 1, 0).with_code(vec![ret]),
        ]
    );
    assert_eq!(program.text(), SAMPLE.as_bytes());
    assert!(describe(&Ok(program)).starts_with("read 05 00 00 02 0003 0000 "));
}

#[test]
fn wide_fields_have_the_high_byte_first() {
    let text = format!("{CLASSES}{METHOD}060200000012345678\n{RETURN}");
    assert_eq!(read(text.as_bytes()).unwrap().methods[0].code[0].d, 0x1234_5678);
}

#[test]
fn length_is_refused_before_all() {
    assert_eq!(refused(vec![b'\n'; 65_536]), (2, 1));
    assert_eq!(refused(vec![b'\n'; 65_537]), (1, 0));
    assert_eq!(refused(SAMPLE.repeat(1000)), (1, 0));
}

#[test]
fn bytes_that_are_no_digit() {
    for byte in [b'A', b'F', b'g', b'`', b'/', b':', b'@', b' ', b'\r', 0, 0xff] {
        let mut text = SAMPLE.as_bytes().to_vec();
        text[27] = byte;
        assert_eq!(refused(&text), (2, 6), "{byte:02x}");
    }
    assert_eq!(refused(SAMPLE.replace('\n', "\r\n")), (2, 1));
    assert_eq!(refused(SAMPLE.to_uppercase()), (2, 1));
}

#[test]
fn digit_counts_and_line_ends() {
    assert_eq!(refused("01ff\n01000\n"), (2, 2));
    assert_eq!(refused("01ff\n\n0100\n"), (2, 2));
    assert_eq!(refused("\n"), (2, 1));
    assert_eq!(refused(format!("{SAMPLE}\n")), (2, 11));
    assert_eq!(refused(SAMPLE.trim_end()), (2, 10));
    // A last line without its end is 2, whatever it holds.
    assert_eq!(refused("01ff\n07"), (2, 2));
    assert_eq!(refused("01ff\n03"), (2, 2));
    assert_eq!(refused(format!("{SAMPLE}0100")), (2, 11));
}

#[test]
fn unknown_kinds_and_wrong_lengths() {
    for kind in ["00", "07", "10", "ff"] {
        assert_eq!(refused(format!("{CLASSES}{kind}\n{METHOD}{RETURN}")), (3, 6));
        assert_eq!(refused(format!("{kind}ff\n")), (3, 1));
    }
    // The length is tested before the place: each of these is the first line.
    for frame in ["01ff", "0200", "03", "040000010100", "0500010000", RETURN.trim_end()] {
        assert_eq!(refused(format!("{frame}00\n")), (3, 1));
        let shorter = &frame[..frame.len() - 2];
        let number = if shorter.is_empty() { 2 } else { 3 };
        assert_eq!(refused(format!("{shorter}\n")), (number, 1));
    }
}

#[test]
fn frames_out_of_order() {
    assert_eq!(refused(format!("03\n{CLASSES}{METHOD}{RETURN}")), (4, 1));
    // Fewer than five classes: the frame that follows cannot stand there.
    for classes in 1..5 {
        for next in ["0200\n", "03\n", METHOD, RETURN, HANDLER] {
            let text = format!("{}{next}", &CLASSES[..5 * classes]);
            assert_eq!(refused(text), (4, classes as u32 + 1));
        }
    }
    assert_eq!(refused(format!("{CLASSES}0200\n0100\n")), (4, 7));
    assert_eq!(refused(format!("{CLASSES}03\n0200\n")), (4, 7));
    assert_eq!(refused(format!("{CLASSES}{RETURN}")), (4, 6));
    assert_eq!(refused(format!("{CLASSES}{HANDLER}")), (4, 6));
    assert_eq!(refused(format!("{CLASSES}{METHOD}{METHOD}")), (4, 7));
    assert_eq!(refused(format!("{CLASSES}{METHOD}{HANDLER}")), (4, 7));
    assert_eq!(refused(format!("{CLASSES}{METHOD}{RETURN}{HANDLER}{RETURN}")), (4, 9));
    for late in ["0100\n", "0200\n", "03\n"] {
        assert_eq!(refused(format!("{SAMPLE}{late}")), (4, 11));
    }
    // The sample as it was before document 02.
    assert_eq!(refused(SAMPLE.replace("0101\n", "")), (4, 3));
}

#[test]
fn frames_missing_at_the_end() {
    assert_eq!(refused(""), (4, 1));
    for classes in 1..=5 {
        assert_eq!(refused(&CLASSES[..5 * classes]), (4, classes as u32 + 1));
    }
    assert_eq!(refused(format!("{CLASSES}0200\n03\n")), (4, 8));
    assert_eq!(refused(format!("{CLASSES}{METHOD}")), (4, 7));
    assert_eq!(refused(format!("{SAMPLE}040002010100\n")), (4, 12));
}

#[test]
fn counts_at_and_past_their_limits() {
    let with_classes =
        |count: usize| format!("{CLASSES}{}{METHOD}{RETURN}", "0100\n".repeat(count - 5));
    assert!(accepted(with_classes(5)));
    assert!(accepted(with_classes(60)));
    assert_eq!(refused(with_classes(61)), (4, 61));
    for kind in ["0200\n", "03\n"] {
        let with = |count: usize| format!("{CLASSES}{}{METHOD}{RETURN}", kind.repeat(count));
        assert!(accepted(with(16)));
        assert_eq!(refused(with(17)), (4, 22));
    }
    let with_methods =
        |count: usize| format!("{CLASSES}{}", (0..count).map(method).collect::<String>());
    assert!(accepted(with_methods(16)));
    assert_eq!(refused(with_methods(17)), (4, 38));
    let with_code =
        |count: usize| format!("{CLASSES}{METHOD}{}{RETURN}{}", NOP.repeat(count - 1), method(1));
    assert!(accepted(with_code(32)));
    assert_eq!(refused(with_code(33)), (4, 39));
    let with_handlers =
        |count: usize| format!("{CLASSES}{METHOD}{RETURN}{}{}", HANDLER.repeat(count), method(1));
    assert!(accepted(with_handlers(8)));
    assert_eq!(refused(with_handlers(9)), (4, 16));
}

#[test]
fn first_line_then_lowest_number() {
    // On one line 2 before 3 before 4.
    assert_eq!(refused("0G\n"), (2, 1));
    assert_eq!(refused("0300\n"), (3, 1));
    assert_eq!(refused("030\n"), (2, 1));
    // On two lines the first, whatever the numbers.
    assert_eq!(refused("03\n07\n0\n"), (4, 1));
    assert_eq!(refused("07\n0\n03\n"), (3, 1));
    assert_eq!(refused("01ff\n0\n07\n"), (2, 2));
    assert_eq!(refused("01ff\n0100\n06\n0100"), (3, 3));
    assert_eq!(refused("01ff\n0100\n0100\n06\n"), (3, 4));
}
