//! A panel program: its tables, in the order of the text.

/// Superclass byte of class 0, which has no superclass.
pub const NO_SUPERCLASS: u8 = 0xff;

/// Classes that every program has: Throwable, and right below it those of the
/// exceptions that null, a division by zero and a failed cast raise.
pub const THROWABLE: u8 = 1;
pub const NULL: u8 = 2;
pub const ARITHMETIC: u8 = 3;
pub const CAST: u8 = 4;

/// Kinds of a method.
pub const VIRTUAL: u8 = 0;
pub const STATIC: u8 = 1;

#[derive(Clone, Debug, Default, PartialEq, Eq)]
pub struct Program {
    pub classes: Vec<Class>,
    pub fields: Vec<Field>,
    /// Number of statics; they have no other property.
    pub statics: usize,
    pub methods: Vec<Method>,
}

#[derive(Clone, Copy, Debug, PartialEq, Eq)]
pub struct Class {
    pub superclass: u8,
}

/// An instance field, had by `class` and every class below it.
#[derive(Clone, Copy, Debug, PartialEq, Eq)]
pub struct Field {
    pub class: u8,
}

#[derive(Clone, Debug, PartialEq, Eq)]
pub struct Method {
    pub class: u8,
    pub name: u8,
    pub kind: u8,
    pub registers: u8,
    /// Number of arguments, held in the last registers.
    pub arguments: u8,
    pub code: Vec<Instruction>,
    /// In the order of the text; their numbers are those of
    /// [`by_number`](Method::by_number).
    pub handlers: Vec<Handler>,
}

/// An instruction as its raw fields; the opcode `o` says what they mean.
#[derive(Clone, Copy, Debug, PartialEq, Eq)]
pub struct Instruction {
    pub o: u8,
    pub a: u8,
    pub b: u8,
    pub c: u8,
    pub d: u32,
}

/// Covers the addresses `from <= address < to`, goes to `target`, and catches
/// `class` and every class below it.
#[derive(Clone, Copy, Debug, PartialEq, Eq)]
pub struct Handler {
    pub from: u8,
    pub to: u8,
    pub target: u8,
    pub class: u8,
}

impl Method {
    /// A method with neither code nor handlers yet.
    pub fn new(class: u8, name: u8, kind: u8, registers: u8, arguments: u8) -> Method {
        Method { class, name, kind, registers, arguments, code: Vec::new(), handlers: Vec::new() }
    }

    /// The same method with this code.
    pub fn with_code(mut self, code: Vec<Instruction>) -> Method {
        self.code = code;
        self
    }

    /// The same method with these handlers, in the order of the text.
    pub fn with_handlers(mut self, handlers: Vec<Handler>) -> Method {
        self.handlers = handlers;
        self
    }
}

impl Instruction {
    pub fn new(o: u8, a: u8, b: u8, c: u8, d: u32) -> Instruction {
        Instruction { o, a, b, c, d }
    }
}

impl Handler {
    pub fn new(from: u8, to: u8, target: u8, class: u8) -> Handler {
        Handler { from, to, target, class }
    }
}
