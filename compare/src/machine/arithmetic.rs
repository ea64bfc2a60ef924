//! Operations on numbers and comparisons of values.

use super::value::{Exception, Fault, Trouble, Value};

#[derive(Clone, Copy, Debug, PartialEq, Eq)]
pub enum Binary {
    Add,
    Sub,
    Mul,
    Div,
    Rem,
    And,
    Or,
    Xor,
    Shl,
    Shr,
    Ushr,
}

#[derive(Clone, Copy, Debug, PartialEq, Eq)]
pub enum Unary {
    Neg,
    Not,
}

#[derive(Clone, Copy, Debug, PartialEq, Eq)]
pub enum Relation {
    Eq,
    Ne,
    Lt,
    Ge,
    Gt,
    Le,
}

impl Binary {
    /// In the order of the operation's number.
    pub const ALL: [Binary; 11] = {
        use Binary::*;
        [Add, Sub, Mul, Div, Rem, And, Or, Xor, Shl, Shr, Ushr]
    };

    /// Both operands are tested as numbers before a divisor is tested for
    /// zero. Numbers wrap; division rounds toward zero; a shift uses the low
    /// five bits of its count.
    #[inline(always)]
    pub fn apply(self, left: Value, right: Value) -> Result<Value, Trouble> {
        let (x, y) = (left.number()?, right.number()?);
        let number = match self {
            Binary::Add => x.wrapping_add(y),
            Binary::Sub => x.wrapping_sub(y),
            Binary::Mul => x.wrapping_mul(y),
            Binary::Div | Binary::Rem if y == 0 => return Err(Exception::Arithmetic.into()),
            Binary::Div => x.wrapping_div(y),
            Binary::Rem => x.wrapping_rem(y),
            Binary::And => x & y,
            Binary::Or => x | y,
            Binary::Xor => x ^ y,
            Binary::Shl => x.wrapping_shl(y as u32),
            Binary::Shr => x.wrapping_shr(y as u32),
            Binary::Ushr => (x as u32).wrapping_shr(y as u32) as i32,
        };
        Ok(Value::Number(number))
    }
}

impl Unary {
    /// In the order of the operation's number.
    pub const ALL: [Unary; 2] = [Unary::Neg, Unary::Not];

    #[inline(always)]
    pub fn apply(self, operand: Value) -> Result<Value, Fault> {
        let x = operand.number()?;
        Ok(Value::Number(match self {
            Unary::Neg => x.wrapping_neg(),
            Unary::Not => !x,
        }))
    }
}

impl Relation {
    /// In the order of the condition's number.
    pub const ALL: [Relation; 6] = {
        use Relation::*;
        [Eq, Ne, Lt, Ge, Gt, Le]
    };

    /// Equality takes any values; order needs numbers.
    #[inline(always)]
    pub fn holds(self, left: Value, right: Value) -> Result<bool, Fault> {
        Ok(match self {
            Relation::Eq => left == right,
            Relation::Ne => left != right,
            Relation::Lt => left.number()? < right.number()?,
            Relation::Ge => left.number()? >= right.number()?,
            Relation::Gt => left.number()? > right.number()?,
            Relation::Le => left.number()? <= right.number()?,
        })
    }
}

#[cfg(test)]
mod tests {
    use super::*;
    use Binary::*;

    fn number(operation: Binary, x: i32, y: i32) -> i32 {
        operation.apply(Value::Number(x), Value::Number(y)).unwrap().number().unwrap()
    }

    #[test]
    fn marked_cases() {
        assert_eq!(number(Add, 2_147_483_647, 1), -2_147_483_648);
        assert_eq!(number(Div, -2_147_483_648, -1), -2_147_483_648);
        assert_eq!(number(Rem, -2_147_483_648, -1), 0);
        assert_eq!(number(Div, -7, 2), -3);
        assert_eq!(number(Rem, -7, 2), -1);
        assert_eq!(number(Shl, 1, 33), 2);
        assert_eq!(number(Shr, -8, 1), -4);
        assert_eq!(number(Ushr, -8, 28), 15);
        assert_eq!(Unary::Neg.apply(Value::Number(i32::MIN)), Ok(Value::Number(i32::MIN)));
    }

    #[test]
    fn kinds_are_tested_before_zero() {
        let (zero, object) = (Value::ZERO, Value::Object(3));
        let fault = Err(Trouble::Fault(Fault::ObjectAsNumber));
        for operation in [Div, Rem] {
            assert_eq!(operation.apply(zero, zero), Err(Trouble::Raises(Exception::Arithmetic)));
            assert_eq!(operation.apply(object, zero), fault);
            assert_eq!(operation.apply(zero, object), fault);
        }
        assert_eq!(Add.apply(zero, object), fault);
        assert_eq!(Unary::Not.apply(object), Err(Fault::ObjectAsNumber));
    }

    #[test]
    fn order_needs_numbers_and_equality_does_not() {
        let (zero, object) = (Value::ZERO, Value::Object(0));
        assert_eq!(Relation::Eq.holds(zero, object), Ok(false));
        assert_eq!(Relation::Ne.holds(zero, object), Ok(true));
        assert_eq!(Relation::Eq.holds(object, object), Ok(true));
        for relation in &Relation::ALL[2..] {
            assert_eq!(relation.holds(zero, object), Err(Fault::ObjectAsNumber));
            assert_eq!(relation.holds(object, zero), Err(Fault::ObjectAsNumber));
        }
        let holds = |x, y| Relation::ALL.map(|r| r.holds(Value::Number(x), Value::Number(y)));
        let expected = [false, true, true, false, false, true];
        assert_eq!(holds(i32::MIN, i32::MAX), expected.map(Ok));
    }
}
