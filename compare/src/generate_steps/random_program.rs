//! Random programs: most go on for a while, some have random everything.

use super::random_code::{Kind, Signature, Tables, Writer, FIRST_ARGUMENT};
use super::Case;
use crate::assembly::{whole_program, RAISED};
use crate::generate::shapes::small_program;
use crate::program::{Method, Program, STATIC, THROWABLE, VIRTUAL};
use crate::random::Random;

pub fn cases() -> Vec<Case> {
    let mut random = Random::new(53);
    let mut cases: Vec<Case> = (0..660).map(|_| likely_case(&mut random)).collect();
    cases.extend((0..110).map(|_| {
        let program = small_program(&mut random);
        Case::of(&program, random.within(0..=30) as u64)
    }));
    cases
}

fn likely_case(random: &mut Random) -> Case {
    let program = likely_program(random);
    let n = match random.below(10) {
        0..=1 => random.within(0..=20),
        2..=5 => random.within(20..=200),
        6..=8 => random.within(200..=3_000),
        _ => random.within(3_000..=20_000),
    };
    Case::of(&program, n as u64)
}

fn signatures(random: &mut Random) -> Vec<Signature> {
    let mut all =
        vec![Signature { name: 0, is_virtual: false, takes: Vec::new(), gives: Kind::Number }];
    for name in 1..=random.within(0..=4) as u8 {
        // A name that is taken again overrides, mostly with the same takes.
        let earlier = all.iter().find(|s: &&Signature| s.is_virtual).cloned();
        if let (Some(earlier), true) = (earlier, random.once_in(2)) {
            all.push(earlier);
            continue;
        }
        let is_virtual = random.once_in(2);
        let mut takes: Vec<Kind> = (0..random.below(3))
            .map(|_| random.pick(&[Kind::Number, Kind::Number, Kind::Object]))
            .collect();
        if is_virtual {
            takes.insert(0, Kind::Object);
        }
        let gives = random.pick(&[Kind::Number, Kind::Number, Kind::Object]);
        all.push(Signature { name, is_virtual, takes, gives });
    }
    all
}

/// The class of each method: class 0 at first under a name, then others.
fn owners(random: &mut Random, classes: u8, methods: &[Signature]) -> Vec<u8> {
    let mut owners: Vec<u8> = Vec::new();
    for (number, method) in methods.iter().enumerate() {
        let taken = |class: &u8| {
            (methods.iter().zip(&owners)).any(|(m, o)| m.name == method.name && o == class)
        };
        let free: Vec<u8> = (0..classes).filter(|class| !taken(class)).collect();
        let first = free.len() == usize::from(classes);
        let stays = number == 0 || (first && !random.once_in(12));
        owners.push(if stays { 0 } else { random.pick(&free) });
    }
    owners
}

/// A program that mostly goes on for a while.
pub fn likely_program(random: &mut Random) -> Program {
    let classes = random.within(8..=10) as u8;
    let others =
        (5..classes)
            .map(|class| if random.once_in(3) { THROWABLE } else { random.byte_below(class) });
    let superclasses: Vec<u8> = [0].into_iter().chain(RAISED).chain(others).collect();
    let fields: Vec<u8> = (0..random.below(6))
        .map(|_| if random.once_in(6) { random.byte_below(classes) } else { 0 })
        .collect();
    let tables = Tables {
        classes,
        fields: fields.len() as u8,
        statics: random.byte_below(5),
        methods: signatures(random),
    };
    let owners = owners(random, classes, &tables.methods);
    let methods = (0..)
        .zip(owners)
        .map(|(number, owner)| likely_method(random, &tables, number, owner))
        .collect();
    whole_program(&superclasses, &fields, usize::from(tables.statics), methods)
}

fn likely_method(random: &mut Random, tables: &Tables, number: usize, owner: u8) -> Method {
    let own = &tables.methods[number];
    let length = if number == 0 { random.within(12..=26) } else { random.within(2..=9) };
    let begins = number == 0 || !own.takes.contains(&Kind::Object) || random.once_in(4);
    let mut writer = Writer::new(random, tables, number);
    if begins {
        writer.begin();
    }
    writer.fill(length);
    let handlers = writer.handlers();
    let code = writer.code;
    let kind = if own.is_virtual { VIRTUAL } else { STATIC };
    let arguments = own.takes.len() as u8;
    Method::new(owner, own.name, kind, FIRST_ARGUMENT + arguments, arguments)
        .with_code(code)
        .with_handlers(handlers)
}
