//! The pieces of random code: an instruction, or a few that belong together.

use super::random_code::{Kind, Writer, NUMBERS, SCRATCH};
use crate::assembly::*;
use crate::program::Instruction;

impl Writer<'_> {
    pub(super) fn piece(&mut self) -> Vec<Instruction> {
        let number = self.register(Kind::Number);
        let object = self.register(Kind::Object);
        let class = self.class();
        match self.random.below(25) {
            0..=5 => self.operation(),
            6..=8 => self.branching(),
            9 => vec![constant(number, self.random.within(0..=40) as i32 - 8)],
            10 => vec![copy(object, self.register(Kind::Object))],
            11 => vec![new_instance(object, class)],
            12..=14 => self.storage(),
            15..=19 => self.call(),
            20 => vec![instance_of(number, object, class)],
            21 => vec![check_cast(object, if self.random.once_in(8) { class } else { 0 })],
            22 => vec![self.random.pick(&[move_exception(8), move_result(7), nop()])],
            23 => self.raising(),
            _ => match self.random.below(6) {
                0..=2 => vec![throw(NUMBERS)],
                3 => vec![throw(object)],
                4 => vec![copy(self.random.byte_below(9), self.random.byte_below(9))],
                _ => vec![nop()],
            },
        }
    }

    /// Null or zero where an object or a divisor is due, or a narrow cast.
    fn raising(&mut self) -> Vec<Instruction> {
        let number = self.register(Kind::Number);
        let object = self.register(Kind::Object);
        let mut last = vec![
            binop(self.random.pick(&[DIV, REM]), number, number, SCRATCH),
            invoke_virtual(self.random.byte_below(4), 1, SCRATCH),
            throw(SCRATCH),
            check_cast(object, self.class()),
        ];
        if self.tables.fields > 0 {
            last.extend([iget(number, SCRATCH, 0), iput(number, SCRATCH, 0)]);
        }
        vec![constant(SCRATCH, 0), self.random.pick(&last)]
    }

    fn operation(&mut self) -> Vec<Instruction> {
        let [to, left, right] = [0; 3].map(|_| self.register(Kind::Number));
        match self.random.below(8) {
            0 => vec![unop(self.random.byte_below(2), to, left)],
            1 => {
                let operation = self.random.pick(&[DIV, REM]);
                vec![constant(SCRATCH, 7), binop(operation, to, left, SCRATCH)]
            }
            _ => {
                let safe = [ADD, SUB, MUL, AND, OR, XOR, SHL, SHR, USHR];
                let any = if self.random.once_in(30) { &[DIV, REM][..] } else { &safe[..] };
                vec![binop(self.random.pick(any), to, left, right)]
            }
        }
    }

    fn branching(&mut self) -> Vec<Instruction> {
        self.open.push(self.code.len());
        let [x, y] = [0; 2].map(|_| self.register(Kind::Number));
        let [v, w] = [0; 2].map(|_| self.register(Kind::Object));
        let condition = self.random.byte_below(6);
        vec![match self.random.below(8) {
            0..=2 => branch(condition, x, y, 0),
            3..=5 => branch_zero(condition, x, 0),
            6 => branch(condition % 2, v, w, 0),
            _ => branch_zero(condition % 2, v, 0),
        }]
    }

    /// The instruction, which gets an object; mostly made anew if null.
    fn not_null(&mut self, instruction: Instruction) -> Vec<Instruction> {
        if self.random.once_in(5) {
            return vec![instruction];
        }
        let made = new_instance(instruction.a, self.class());
        vec![instruction, branch_zero(NE, instruction.a, self.code.len() + 3), made]
    }

    fn storage(&mut self) -> Vec<Instruction> {
        let kind = self.kind();
        let (value, object) = (self.register(kind), self.register(Kind::Object));
        let field = self.place(kind, self.tables.fields);
        let place = self.place(kind, self.tables.statics);
        let get = match (self.random.below(4), field, place) {
            (0, Some(field), _) => iget(value, object, field),
            (1, Some(field), _) => return vec![iput(value, object, field)],
            (2, _, Some(place)) => sget(value, place),
            (3, _, Some(place)) => return vec![sput(value, place)],
            _ => return vec![nop()],
        };
        match kind {
            Kind::Number => vec![get],
            Kind::Object => self.not_null(get),
        }
    }

    /// Arguments moved into place, the call, and mostly its result.
    fn call(&mut self) -> Vec<Instruction> {
        let count = self.tables.methods.len();
        // Mostly a later method, so that recursion is not the rule.
        let first = if self.random.once_in(8) { 0 } else { self.number + 1 };
        if first >= count {
            return self.operation();
        }
        let number = self.random.within(first..=count - 1);
        let callee = &self.tables.methods[number];
        let mut code = Vec::new();
        for (to, &kind) in (SCRATCH..).zip(&callee.takes) {
            code.push(copy(to, self.register(kind)));
        }
        let count = callee.takes.len() as u8;
        code.push(match (callee.is_virtual, count) {
            (true, _) => invoke_virtual(callee.name, count, SCRATCH),
            (false, 0) => invoke_static(number as u8, 0, 0),
            (false, _) => invoke_static(number as u8, count, SCRATCH),
        });
        let to = self.register(callee.gives);
        if callee.gives == Kind::Number && !self.random.once_in(4) {
            code.push(move_result(to));
        }
        code
    }
}
