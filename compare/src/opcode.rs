//! Opcodes: field `o` of an instruction.

pub const NOP: u8 = 0x00;
pub const MOVE: u8 = 0x01;
pub const CONST: u8 = 0x02;
pub const GOTO: u8 = 0x03;
pub const IF: u8 = 0x04;
pub const BINOP: u8 = 0x05;
pub const UNOP: u8 = 0x06;
pub const NEW_INSTANCE: u8 = 0x07;
pub const IGET: u8 = 0x08;
pub const IPUT: u8 = 0x09;
pub const SGET: u8 = 0x0a;
pub const SPUT: u8 = 0x0b;
pub const INVOKE_VIRTUAL: u8 = 0x0c;
pub const INVOKE_STATIC: u8 = 0x0d;
pub const MOVE_RESULT: u8 = 0x0e;
pub const MOVE_EXCEPTION: u8 = 0x0f;
pub const RETURN: u8 = 0x10;
pub const RETURN_VOID: u8 = 0x11;
pub const THROW: u8 = 0x12;
pub const INSTANCE_OF: u8 = 0x13;
pub const CHECK_CAST: u8 = 0x14;

/// Conditions of `if` (field `c`): 0 to 5 compare two registers, the rest one
/// register with zero.
pub const CONDITIONS: u8 = 12;
pub const TWO_REGISTER_CONDITIONS: u8 = 6;

/// Operations of `binop` (field `d`): add to ushr.
pub const BINARY_OPERATIONS: u32 = 11;

/// Whether an operation of `binop` is div or rem, which raise if the divisor is
/// zero.
pub fn divides(operation: u32) -> bool {
    matches!(operation, 3 | 4)
}

/// Operations of `unop` (field `c`): neg and not.
pub const UNARY_OPERATIONS: u8 = 2;

/// The greatest opcode.
pub const LAST: u8 = CHECK_CAST;

/// Whether control never goes on to the next address after this opcode.
pub fn ends_code(o: u8) -> bool {
    matches!(o, GOTO | RETURN | RETURN_VOID | THROW)
}
