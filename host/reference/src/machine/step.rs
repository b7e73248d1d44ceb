//! A step, an arm for each row that the CESCA document details.

use super::Machine;
use crate::{alu, Form, Function, Instruction};
use cesca_types::{AluAnswer, Flags, Overflow};

impl Machine<'_> {
    /// Makes the step of an instruction that nothing stops.
    #[rustfmt::skip]
    pub(super) fn step(&mut self, instruction: Instruction) {
        use Form::*;
        let Instruction { form, imm, .. } = instruction;
        let [d, a, b] = [instruction.d, instruction.a, instruction.b].map(usize::from);
        let [ra, rb] = [self.state.regs[a], self.state.regs[b]];
        let function = instruction.function();
        let Flags { z, c, v, s } = self.state.flags;
        let v = v == Overflow::Set;
        self.state.pc = self.state.pc.wrapping_add(1);
        match form {
            Alu => self.state.regs[d] = self.alu(function, ra, rb),          // Rd = ALU(Ra, Rb)
            AddImm => self.state.regs[d] = self.alu(Function::Add, ra, imm), // Rd = Ra + Imm8
            AluNone => self.compare(function, ra, rb),                       // ALU(Ra, Rb)
            CmpImm => self.compare(Function::Sub, ra, imm),                  // Ra - Imm8
            MaskImm => self.compare(Function::And, ra, imm),                 // Ra & Imm8
            MaskIn => self.compare(Function::And, self.input(), imm),        // IN_Reg & Imm8

            MovImm => self.state.regs[d] = imm,                 // Rd = Imm8
            MovIn => self.state.regs[d] = self.input(),         // Rd = IN_Reg
            Ack => self.acknowledge(),                          // IN_Reg <- Ack
            Store => self.store(imm, ra),                       // RAM[Addr8] = Ra
            StoreAt => self.store(rb, ra),                      // RAM[Rb] = Ra
            Push => self.push(ra),                              // Stack <- Ra
            Load => self.state.regs[d] = self.load(imm),        // Rd = RAM[Addr8]
            LoadAt => self.state.regs[d] = self.load(ra),       // Rd = RAM[Ra]
            Pop => self.state.regs[d] = self.pop(),             // Rd <- Stack
            Swap => self.state.regs[d] = self.exchange(ra),     // Rd <- Stack <- Ra

            Jmp => self.jump_if(true, imm),                     // PC = Addr8
            JmpReg => self.jump_if(true, ra),                   // PC = Ra
            Call => self.call(imm),                             // Stack <- PC, PC = Addr8
            Ret => self.state.pc = self.pop(),                  // PC <- Stack
            Jz => self.jump_if(z, imm),                         // if(Z) PC = Addr8
            Jnz => self.jump_if(!z, imm),                       // if(!Z)
            Jc => self.jump_if(c, imm),                         // if(C)
            Jnc => self.jump_if(!c, imm),                       // if(!C), printed if(!Z)
            Jv => self.jump_if(v, imm),                         // if(V)
            Jnv => self.jump_if(!v, imm),                       // if(!V)
            Jlz => self.jump_if(s, imm),                        // if(S)
            Jp => self.jump_if(!s, imm),                        // if(!S)
            Jgz => self.jump_if(!s && !z, imm),                 // if(!S & !Z)
            Jleu => self.jump_if(z || c, imm),                  // if(Z | C)
            Jlt => self.jump_if(v ^ s, imm),                    // if(V ^ S)
            Jle => self.jump_if((v ^ s) || z, imm),             // if((V ^ S) | Z)

            LcdCommand => self.transfer(256 + u16::from(imm)),  // LCD[Command] <- Imm8
            LcdImm => self.transfer(imm.into()),                // LCD[Data] <- Imm8
            LcdReg => self.transfer(ra.into()),                 // LCD[Data] <- Ra
            LcdLoad => self.transfer(self.load(imm).into()),    // LCD[Data] <- RAM[Addr8]
            OutReg => self.state.out = ra,                      // OUT_Reg <- Ra
            OutLoad => self.state.out = self.load(imm),         // OUT_Reg <- RAM[Addr8]
            Hlt => self.state.halted = true,                    // halts the clock
            Nop => (),                                          // does nothing
        }
    }

    /// The ALU's result; the flags follow it.
    fn alu(&mut self, function: Function, x: u8, y: u8) -> u8 {
        let AluAnswer { value, z, c, s, v } = alu(function, x, y, self.state.flags.c);
        self.state.flags = Flags { z, c, v, s };
        value
    }

    /// Sets the flags as the ALU's result asks.
    fn compare(&mut self, function: Function, x: u8, y: u8) {
        self.alu(function, x, y);
    }

    /// The input register: the key at the position, 0 past the end.
    fn input(&self) -> u8 {
        self.lent.keys.get(self.state.position).copied().unwrap_or(0)
    }

    /// Goes on to the next key, if this isn't the end.
    fn acknowledge(&mut self) {
        if self.state.position < self.lent.keys.len() {
            self.state.position += 1;
        }
    }

    /// The data byte at an address.
    fn load(&self, at: u8) -> u8 {
        self.lent.ram[usize::from(at)]
    }

    /// Puts a data byte at an address.
    fn store(&mut self, at: u8, byte: u8) {
        self.lent.ram[usize::from(at)] = byte;
    }

    /// Takes SP one down, then puts a byte there.
    fn push(&mut self, byte: u8) {
        self.state.sp = self.state.sp.wrapping_sub(1);
        self.exchange(byte);
    }

    /// The byte at SP, which then goes one up.
    fn pop(&mut self) -> u8 {
        let byte = self.lent.stack[usize::from(self.state.sp)];
        self.state.sp = self.state.sp.wrapping_add(1);
        byte
    }

    /// The byte that was at SP, where this one is put.
    fn exchange(&mut self, byte: u8) -> u8 {
        std::mem::replace(&mut self.lent.stack[usize::from(self.state.sp)], byte)
    }

    /// Goes to the target if the condition holds.
    fn jump_if(&mut self, condition: bool, target: u8) {
        if condition {
            self.state.pc = target;
        }
    }

    /// Goes to a routine; PC, one past the call already, is pushed.
    fn call(&mut self, target: u8) {
        self.push(self.state.pc);
        self.state.pc = target;
    }

    /// Writes the next word of the roll.
    fn transfer(&mut self, word: u16) {
        self.lent.roll[self.words] = word;
        self.words += 1;
    }
}
