//! A read program, decoded for running.

use super::arithmetic::{Binary, Relation, Unary};
use crate::opcode::*;
use crate::program::{Handler, Instruction, Method, Program, VIRTUAL};

/// A decoded instruction; each operation of `binop` is one of its own, so that
/// a step chooses once. Registers, classes, fields, statics and methods are
/// numbers of one byte; so are addresses.
#[derive(Clone, Copy, Debug, PartialEq, Eq)]
pub enum Op {
    Nop,
    Move { to: u8, from: u8 },
    Const { to: u8, number: i32 },
    Goto { target: u8 },
    If { test: Relation, left: u8, right: u8, to: u8 },
    IfZero { test: Relation, left: u8, to: u8 },
    Add { to: u8, left: u8, right: u8 },
    Sub { to: u8, left: u8, right: u8 },
    Mul { to: u8, left: u8, right: u8 },
    Div { to: u8, left: u8, right: u8 },
    Rem { to: u8, left: u8, right: u8 },
    And { to: u8, left: u8, right: u8 },
    Or { to: u8, left: u8, right: u8 },
    Xor { to: u8, left: u8, right: u8 },
    Shl { to: u8, left: u8, right: u8 },
    Shr { to: u8, left: u8, right: u8 },
    Ushr { to: u8, left: u8, right: u8 },
    Unary { operation: Unary, to: u8, from: u8 },
    NewInstance { to: u8, class: u8 },
    Iget { to: u8, object: u8, field: u8 },
    Iput { from: u8, object: u8, field: u8 },
    Sget { to: u8, place: u8 },
    Sput { from: u8, place: u8 },
    InvokeVirtual { name: u8, first: u8 },
    InvokeStatic { callee: u8, first: u8 },
    CopyResult { to: u8 },
    Return { from: u8 },
    ReturnVoid,
    Throw { from: u8 },
    InstanceOf { to: u8, from: u8, class: u8 },
    CheckCast { from: u8, class: u8 },
}

#[derive(Clone, Debug)]
pub struct Code {
    pub methods: Vec<Body>,
    pub classes: Vec<ClassInfo>,
    /// For each name and count, the callee by the receiver's class.
    pub dispatch: Vec<Vec<Option<u8>>>,
}

/// A method's decoded code.
#[derive(Clone, Debug)]
pub struct Body {
    pub ops: Vec<Op>,
    /// By number.
    pub handlers: Vec<Handler>,
    pub arguments: u8,
    /// The register of the first argument.
    pub parameters: u8,
}

/// Sets of classes and fields, as bits.
#[derive(Clone, Copy, Debug)]
pub struct ClassInfo {
    /// The class itself and every class above it.
    pub upward: u64,
    pub fields: u16,
}

/// What a virtual call looks for: a name and a count of arguments.
type Selector = (u8, u8);

impl Code {
    pub fn new(program: &Program) -> Code {
        let classes = class_infos(program);
        let is_virtual = |method: &&Method| method.kind == VIRTUAL;
        let mut selectors: Vec<Selector> =
            program.methods.iter().filter(is_virtual).map(|m| (m.name, m.arguments)).collect();
        selectors.sort();
        selectors.dedup();
        let callees = |&selector| {
            (0..classes.len()).map(|class| callee(program, &classes, class, selector)).collect()
        };
        // One more, for every name and count that no method has.
        let mut dispatch: Vec<Vec<Option<u8>>> = selectors.iter().map(callees).collect();
        dispatch.push(vec![None; classes.len()]);
        let methods = program.methods.iter().map(|method| body(method, &selectors)).collect();
        Code { methods, classes, dispatch }
    }
}

fn class_infos(program: &Program) -> Vec<ClassInfo> {
    let mut infos: Vec<ClassInfo> = Vec::new();
    for (number, class) in program.classes.iter().enumerate() {
        let superclass = infos.get(usize::from(class.superclass)).copied();
        let above = superclass.unwrap_or(ClassInfo { upward: 0, fields: 0 });
        let own = program.fields.iter().enumerate().filter(|(_, f)| usize::from(f.class) == number);
        let fields = own.fold(above.fields, |fields, (field, _)| fields | 1 << field);
        infos.push(ClassInfo { upward: above.upward | 1 << number, fields });
    }
    infos
}

/// The virtual method of this name and count nearest above the class.
fn callee(
    program: &Program,
    infos: &[ClassInfo],
    class: usize,
    (name, count): Selector,
) -> Option<u8> {
    let fits = |method: &Method| {
        (method.kind, method.name, method.arguments) == (VIRTUAL, name, count)
            && infos[class].upward >> method.class & 1 == 1
    };
    // A class above has a lower number, so that the nearest has the greatest.
    let found = program.methods.iter().enumerate().filter(|(_, m)| fits(m));
    found.max_by_key(|(_, m)| m.class).map(|(number, _)| number as u8)
}

fn body(method: &Method, selectors: &[Selector]) -> Body {
    Body {
        ops: method.code.iter().map(|&instruction| decode(instruction, selectors)).collect(),
        handlers: method.by_number().copied().collect(),
        arguments: method.arguments,
        parameters: method.registers - method.arguments,
    }
}

fn decode(Instruction { o, a, b, c, d }: Instruction, selectors: &[Selector]) -> Op {
    let target = d as u8;
    match o {
        NOP => Op::Nop,
        MOVE => Op::Move { to: a, from: b },
        CONST => Op::Const { to: a, number: d as i32 },
        GOTO => Op::Goto { target },
        IF if c < TWO_REGISTER_CONDITIONS => {
            Op::If { test: Relation::ALL[usize::from(c)], left: a, right: b, to: target }
        }
        IF => Op::IfZero { test: Relation::ALL[usize::from(c) - 6], left: a, to: target },
        BINOP => binary(Binary::ALL[d as usize], a, b, c),
        UNOP => Op::Unary { operation: Unary::ALL[usize::from(c)], to: a, from: b },
        NEW_INSTANCE => Op::NewInstance { to: a, class: b },
        IGET => Op::Iget { to: a, object: b, field: c },
        IPUT => Op::Iput { from: a, object: b, field: c },
        SGET => Op::Sget { to: a, place: b },
        SPUT => Op::Sput { from: a, place: b },
        INVOKE_VIRTUAL => {
            let known = selectors.binary_search(&(a, b));
            Op::InvokeVirtual { name: known.unwrap_or(selectors.len()) as u8, first: c }
        }
        INVOKE_STATIC => Op::InvokeStatic { callee: a, first: c },
        MOVE_RESULT | MOVE_EXCEPTION => Op::CopyResult { to: a },
        RETURN => Op::Return { from: a },
        RETURN_VOID => Op::ReturnVoid,
        THROW => Op::Throw { from: a },
        INSTANCE_OF => Op::InstanceOf { to: a, from: b, class: c },
        CHECK_CAST => Op::CheckCast { from: a, class: b },
        _ => unreachable!("a read program has no other opcode"),
    }
}

fn binary(operation: Binary, to: u8, left: u8, right: u8) -> Op {
    match operation {
        Binary::Add => Op::Add { to, left, right },
        Binary::Sub => Op::Sub { to, left, right },
        Binary::Mul => Op::Mul { to, left, right },
        Binary::Div => Op::Div { to, left, right },
        Binary::Rem => Op::Rem { to, left, right },
        Binary::And => Op::And { to, left, right },
        Binary::Or => Op::Or { to, left, right },
        Binary::Xor => Op::Xor { to, left, right },
        Binary::Shl => Op::Shl { to, left, right },
        Binary::Shr => Op::Shr { to, left, right },
        Binary::Ushr => Op::Ushr { to, left, right },
    }
}

#[cfg(test)]
mod tests {
    use super::*;

    #[test]
    fn an_instruction_has_eight_bytes() {
        assert_eq!(std::mem::size_of::<Op>(), 8);
    }
}
