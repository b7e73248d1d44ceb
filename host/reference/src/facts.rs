//! What a checker needs to know of an instruction.

use super::{Form, Function, Instruction, Settles};
use cesca_types::{Class, Effect, Facts};

impl Form {
    /// Where the form goes on, and what it does to the stack.
    pub fn class(self) -> Class {
        use Form::*;
        match self {
            Jmp => Class::Jump,
            Jz | Jnz | Jc | Jnc | Jv | Jnv | Jlz | Jp | Jgz | Jleu | Jlt | Jle => Class::Branch,
            JmpReg => Class::JumpRegister,
            Call => Class::Call,
            Ret => Class::Return,
            Push => Class::Push,
            Pop => Class::Pop,
            Swap => Class::Swap,
            Hlt => Class::Halt,
            _ => Class::Next,
        }
    }

    /// Whether the form's condition looks at V.
    pub fn tests_overflow(self) -> bool {
        matches!(self, Form::Jv | Form::Jnv | Form::Jlt | Form::Jle)
    }

    /// Whether the form writes to the roll.
    pub fn writes_roll(self) -> bool {
        use Form::*;
        matches!(self, LcdCommand | LcdImm | LcdReg | LcdLoad)
    }
}

impl Instruction {
    /// What a checker needs to know of the instruction.
    pub fn facts(self) -> Facts {
        self.facts_by(Function::settles_overflow)
    }

    /// The same, if these functions of the ALU settle V.
    pub fn facts_by(self, settles: Settles) -> Facts {
        Facts {
            cycles: self.form.cycles(),
            class: self.form.class(),
            operand: self.operand(),
            overflow: self.overflow(settles),
            tests: self.form.tests_overflow(),
            roll: self.form.writes_roll(),
        }
    }

    /// The address it may go to, or the register it stores on the stack, otherwise 0.
    fn operand(self) -> u8 {
        match self.form.class() {
            Class::Jump | Class::Branch | Class::Call => self.imm,
            Class::Push | Class::Swap => self.a,
            _ => 0,
        }
    }

    /// What it does to V: what its function does, if it has one.
    fn overflow(self, settles: Settles) -> Effect {
        let function = match self.form {
            Form::Alu | Form::AluNone => self.function(),
            Form::AddImm => Function::Add,
            Form::CmpImm => Function::Sub,
            Form::MaskImm | Form::MaskIn => Function::And,
            _ => return Effect::Leaves,
        };
        match settles(function) {
            true => Effect::Settles,
            false => Effect::Unsettles,
        }
    }

    /// The ALU function that its field names.
    pub fn function(self) -> Function {
        Function::from_number(self.f)
    }
}

#[cfg(test)]
mod tests {
    use super::*;

    /// Checks the facts of a word against those that the papers give.
    fn check(word: [u8; 2], cycles: u8, class: Class, operand: u8, overflow: Effect) {
        let facts = Instruction::decode(word).facts();
        let found = (facts.cycles, facts.class, facts.operand, facts.overflow);
        assert_eq!(found, (cycles, class, operand, overflow), "word {word:02X?}");
    }

    #[test]
    fn ways_on() {
        check([0xA1, 0x77], 3, Class::Jump, 0x77, Effect::Leaves);
        check([0xA6, 0x77], 3, Class::JumpRegister, 0, Effect::Leaves);
        check([0xA8, 0x04], 6, Class::Call, 4, Effect::Leaves);
        check([0xAC, 0x99], 4, Class::Return, 0, Effect::Leaves);
        check([0xB0, 0x10], 3, Class::Branch, 0x10, Effect::Leaves);
        check([0xDC, 0x20], 3, Class::Branch, 0x20, Effect::Leaves);
        check([0x5E, 0x99], 5, Class::Push, 2, Effect::Leaves);
        check([0x88, 0x99], 4, Class::Pop, 0, Effect::Leaves);
        check([0x97, 0x99], 5, Class::Swap, 3, Effect::Leaves);
        check([0xF8, 0x99], 2, Class::Halt, 0, Effect::Leaves);
        check([0xFC, 0x99], 8, Class::Next, 0, Effect::Leaves);
    }

    #[test]
    fn effects_on_overflow() {
        check([0x00, 0x00], 4, Class::Next, 0, Effect::Settles); // mov R0, R0
        check([0x20, 0x01], 3, Class::Next, 0, Effect::Settles); // mov NONE, R1
        check([0x00, 0x10], 4, Class::Next, 0, Effect::Settles); // add
        check([0x20, 0x20], 3, Class::Next, 0, Effect::Settles); // sub NONE
        check([0x20, 0x30], 3, Class::Next, 0, Effect::Settles); // addc NONE
        check([0x00, 0x40], 4, Class::Next, 0, Effect::Settles); // subb
        check([0x00, 0x50], 4, Class::Next, 0, Effect::Unsettles); // and
        check([0x20, 0xF0], 3, Class::Next, 0, Effect::Unsettles); // rol NONE
        check([0x10, 0x01], 4, Class::Next, 0, Effect::Settles); // add Imm8
        check([0x24, 0x01], 3, Class::Next, 0, Effect::Settles); // cmp Imm8
        check([0x28, 0x01], 3, Class::Next, 0, Effect::Unsettles); // mask Ra
        check([0x2C, 0x01], 5, Class::Next, 0, Effect::Unsettles); // mask IN
        check([0x30, 0x01], 3, Class::Next, 0, Effect::Leaves); // mov Imm8
        check([0x40, 0x00], 4, Class::Next, 0, Effect::Leaves); // mov IN
        check([0x60, 0x01], 4, Class::Next, 0, Effect::Leaves); // mov R0, [1]
        check([0x70, 0x00], 4, Class::Next, 0, Effect::Leaves); // mov R0, [R0]
    }

    #[test]
    fn effects_of_functions_that_are_said_to_settle() {
        let effect = |word| Instruction::decode(word).facts_by(|it| it == Function::And).overflow;
        assert_eq!(effect([0x00, 0x50]), Effect::Settles); // and
        assert_eq!(effect([0x20, 0x50]), Effect::Settles); // and NONE
        assert_eq!(effect([0x00, 0x00]), Effect::Unsettles); // mov R0, R0
        assert_eq!(effect([0x10, 0x01]), Effect::Unsettles); // add Imm8
        assert_eq!(effect([0x28, 0x01]), Effect::Settles); // mask Ra
        assert_eq!(effect([0x30, 0x01]), Effect::Leaves); // mov Imm8
    }

    #[test]
    fn testers_and_roll_writers() {
        let rows = |holds: fn(Form) -> bool| -> Vec<u8> {
            let forms = Form::ALL.into_iter().filter(|form| holds(*form));
            forms.map(Form::row).collect()
        };
        assert_eq!(rows(Form::tests_overflow), [24, 25, 30, 31]);
        assert_eq!(rows(Form::writes_roll), [32, 33, 34, 35]);
    }
}
