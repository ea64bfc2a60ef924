//! One instruction on the top frame.

use super::arithmetic::Binary;
use super::code::{Code, Op};
use super::state::{Frame, Heap};
use super::value::{Exception, Fault, Trouble, Value};
use crate::program::THROWABLE;

/// Why control does not stay in the frame. A call without fault, a throw and an
/// exception are not made yet; of `Fault` and `ObjectsFull` nothing has been
/// changed.
#[derive(Clone, Copy, Debug)]
pub enum Leave {
    Call { callee: u8, first: u8 },
    Return(Value),
    Throw(u32),
    Raise(Exception),
    Fault(Fault),
    ObjectsFull,
    StepsMade,
    AddressOutside,
}

impl From<Fault> for Leave {
    fn from(fault: Fault) -> Leave {
        Leave::Fault(fault)
    }
}

impl From<Trouble> for Leave {
    fn from(trouble: Trouble) -> Leave {
        match trouble {
            Trouble::Raises(exception) => Leave::Raise(exception),
            Trouble::Fault(fault) => Leave::Fault(fault),
        }
    }
}

/// What an instruction works on.
pub struct Context<'m> {
    pub code: &'m Code,
    pub frame: &'m mut Frame,
    pub heap: &'m mut Heap,
}

/// The next address, if control stays in the frame.
#[inline(always)]
pub fn execute(context: &mut Context, op: Op, address: u8) -> Result<u8, Leave> {
    let Context { code, frame, heap } = context;
    let r = &mut frame.registers;
    let choose = |holds: bool, target: u8| if holds { target } else { address + 1 };
    match op {
        Op::Nop => {}
        Op::Move { to, from } => r[to] = r[from],
        Op::Const { to, number } => r[to] = Value::Number(number),
        Op::Add { to, left, right } => r[to] = Binary::Add.apply(r[left], r[right])?,
        Op::Sub { to, left, right } => r[to] = Binary::Sub.apply(r[left], r[right])?,
        Op::Mul { to, left, right } => r[to] = Binary::Mul.apply(r[left], r[right])?,
        Op::Div { to, left, right } => r[to] = Binary::Div.apply(r[left], r[right])?,
        Op::Rem { to, left, right } => r[to] = Binary::Rem.apply(r[left], r[right])?,
        Op::And { to, left, right } => r[to] = Binary::And.apply(r[left], r[right])?,
        Op::Or { to, left, right } => r[to] = Binary::Or.apply(r[left], r[right])?,
        Op::Xor { to, left, right } => r[to] = Binary::Xor.apply(r[left], r[right])?,
        Op::Shl { to, left, right } => r[to] = Binary::Shl.apply(r[left], r[right])?,
        Op::Shr { to, left, right } => r[to] = Binary::Shr.apply(r[left], r[right])?,
        Op::Ushr { to, left, right } => r[to] = Binary::Ushr.apply(r[left], r[right])?,
        Op::Unary { operation, to, from } => r[to] = operation.apply(r[from])?,
        Op::NewInstance { to, class } => r[to] = made(heap, class)?,
        Op::Iget { to, object, field } => r[to] = *cell(code, heap, r[object], field)?,
        Op::Iput { from, object, field } => *cell(code, heap, r[object], field)? = r[from],
        Op::Sget { to, place } => r[to] = heap.statics[place],
        Op::Sput { from, place } => heap.statics[place] = r[from],
        Op::CopyResult { to } => r[to] = frame.result,
        Op::InstanceOf { to, from, class } => r[to] = instance_of(code, heap, r[from], class)?,
        Op::CheckCast { from, class } => check_cast(code, heap, r[from], class)?,
        Op::Goto { target } => return Ok(target),
        Op::If { test, left, right, to } => return Ok(choose(test.holds(r[left], r[right])?, to)),
        Op::IfZero { test, left, to } => return Ok(choose(test.holds(r[left], Value::ZERO)?, to)),
        Op::InvokeStatic { callee, first } => return call(callee, first),
        Op::InvokeVirtual { name, first } => return call(find(code, heap, r[first], name)?, first),
        Op::Return { from } => return Err(Leave::Return(r[from])),
        Op::ReturnVoid => return Err(Leave::Return(Value::ZERO)),
        Op::Throw { from } => return Err(Leave::Throw(thrown(code, heap, r[from])?)),
    }
    Ok(address + 1)
}

#[inline(always)]
fn call(callee: u8, first: u8) -> Result<u8, Leave> {
    Err(Leave::Call { callee, first })
}

/// Whether an object's class is this class or below it.
#[inline(always)]
pub fn at_or_below(code: &Code, heap: &Heap, object: u32, class: u8) -> bool {
    code.classes[heap.class(object)].upward >> class & 1 == 1
}

fn made(heap: &mut Heap, class: u8) -> Result<Value, Leave> {
    heap.make(class).map(Value::Object).ok_or(Leave::ObjectsFull)
}

/// The cell of a field that the object has.
#[inline(always)]
fn cell<'h>(
    code: &Code,
    heap: &'h mut Heap,
    value: Value,
    field: u8,
) -> Result<&'h mut Value, Trouble> {
    let object = &mut heap.objects[value.object()? as usize];
    if code.classes[usize::from(object.class)].fields >> field & 1 == 0 {
        return Err(Fault::FieldNotHad.into());
    }
    Ok(&mut object.cells[field])
}

#[inline(always)]
fn instance_of(code: &Code, heap: &Heap, value: Value, class: u8) -> Result<Value, Fault> {
    let object = value.object_or_null()?;
    let is_one = object.is_some_and(|object| at_or_below(code, heap, object, class));
    Ok(Value::Number(is_one.into()))
}

#[inline(always)]
fn check_cast(code: &Code, heap: &Heap, value: Value, class: u8) -> Result<(), Trouble> {
    match value.object_or_null()? {
        Some(object) if !at_or_below(code, heap, object, class) => Err(Exception::Cast.into()),
        _ => Ok(()),
    }
}

/// The callee of a virtual call on this receiver.
#[inline(always)]
fn find(code: &Code, heap: &Heap, receiver: Value, name: u8) -> Result<u8, Trouble> {
    let class = heap.class(receiver.object()?);
    Ok(code.dispatch[usize::from(name)][class].ok_or(Fault::NoMethod)?)
}

#[inline(always)]
fn thrown(code: &Code, heap: &Heap, value: Value) -> Result<u32, Trouble> {
    let object = value.object()?;
    if at_or_below(code, heap, object, THROWABLE) {
        Ok(object)
    } else {
        Err(Fault::NotThrowable.into())
    }
}
