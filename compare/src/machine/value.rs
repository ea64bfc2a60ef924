//! Values, and what comes of a value where another one is needed.

use crate::program::{ARITHMETIC, CAST, NULL};

/// A signed number or an object, by its place in the order of making. Null is
/// number 0.
#[derive(Clone, Copy, Debug, PartialEq, Eq)]
pub enum Value {
    Number(i32),
    Object(u32),
}

/// The faults, each with its number.
#[derive(Clone, Copy, Debug, PartialEq, Eq)]
#[repr(u8)]
pub enum Fault {
    NumberAsObject = 2,
    ObjectAsNumber = 3,
    FieldNotHad = 5,
    NoMethod = 6,
    NotThrowable = 7,
}

/// The exceptions that instructions raise, each with its class.
#[derive(Clone, Copy, Debug, PartialEq, Eq)]
#[repr(u8)]
pub enum Exception {
    Null = NULL,
    Arithmetic = ARITHMETIC,
    Cast = CAST,
}

/// Why an instruction has no effect of its own.
#[derive(Clone, Copy, Debug, PartialEq, Eq)]
pub enum Trouble {
    Raises(Exception),
    Fault(Fault),
}

impl From<Fault> for Trouble {
    fn from(fault: Fault) -> Trouble {
        Trouble::Fault(fault)
    }
}

impl From<Exception> for Trouble {
    fn from(exception: Exception) -> Trouble {
        Trouble::Raises(exception)
    }
}

impl Value {
    pub const ZERO: Value = Value::Number(0);

    /// The number, or fault 3.
    #[inline(always)]
    pub fn number(self) -> Result<i32, Fault> {
        match self {
            Value::Number(z) => Ok(z),
            Value::Object(_) => Err(Fault::ObjectAsNumber),
        }
    }

    /// The object; null raises, another number is fault 2.
    #[inline(always)]
    pub fn object(self) -> Result<u32, Trouble> {
        match self {
            Value::Object(object) => Ok(object),
            Value::Number(0) => Err(Exception::Null.into()),
            Value::Number(_) => Err(Fault::NumberAsObject.into()),
        }
    }

    /// The object, none for null, or fault 2.
    #[inline(always)]
    pub fn object_or_null(self) -> Result<Option<u32>, Fault> {
        match self {
            Value::Object(object) => Ok(Some(object)),
            Value::Number(0) => Ok(None),
            Value::Number(_) => Err(Fault::NumberAsObject),
        }
    }
}

#[cfg(test)]
mod tests {
    use super::*;

    #[test]
    fn kinds_are_told_apart() {
        assert_eq!(Value::Number(-1).number(), Ok(-1));
        assert_eq!(Value::Object(0).number(), Err(Fault::ObjectAsNumber));
        assert_eq!(Value::Object(7).object(), Ok(7));
        assert_eq!(Value::ZERO.object(), Err(Trouble::Raises(Exception::Null)));
        assert_eq!(Value::Number(1).object(), Err(Trouble::Fault(Fault::NumberAsObject)));
        assert_eq!(Value::ZERO.object_or_null(), Ok(None));
        assert_eq!(Value::Number(1).object_or_null(), Err(Fault::NumberAsObject));
        assert_ne!(Value::ZERO, Value::Object(0));
    }
}
