//! The plain machine, but for taking all words apart before its first step, to measure the library
//! by: a match on the operation, the ALU's functions included.

mod registers;
mod word;

use crate::parts::{exchange, key, pop, push, send, Alu, Memory};
use cesca_types::{Lent, Overflow, Refusal, Report, State, Stop};
use registers::Registers;
use std::hint::cold_path;
use word::{Operation::*, Word};

/// What a run of at most `budget` steps from `start` reports, or why there is none.
pub fn run(lent: Lent<'_>, budget: u32, start: State) -> Result<Report, Refusal> {
    let memory = Memory::checked(lent, budget, start.position)?;
    let Memory { opcodes, arguments, keys, ram, stack, roll } = memory;
    let State { regs, mut pc, mut sp, mut out, mut flags, mut halted, mut position } = start;
    let code = Word::all(opcodes, arguments);
    let mut regs = Registers::new(regs);
    let (length, mut room) = (roll.len(), roll.iter_mut());
    let (mut steps, mut cycles) = (0, 0);
    let stop = loop {
        if halted {
            break Stop::Halted;
        }
        if steps == budget {
            break Stop::Spent;
        }
        let Word { operation, cycles: taken, d, a, b, argument } = code[usize::from(pc)];
        let [x, y] = [regs.get(a), regs.get(b)];
        let address = usize::from(argument);
        let mut next = pc.wrapping_add(1);
        let mut jump_if = |condition| {
            if condition {
                next = argument;
            } else {
                cold_path(); // a branch, as in the plain machine
            }
        };
        match operation {
            Jv | Jnv | Jlt | Jle if flags.v == Overflow::Unsettled => break Stop::Unsettled,
            LcdCommand | LcdImm | LcdReg | LcdLoad if room.len() == 0 => break Stop::Full,

            Mov => regs.put(d, flags.alu(Mov as u8, x, y)),
            Add => regs.put(d, flags.alu(Add as u8, x, y)),
            Sub => regs.put(d, flags.alu(Sub as u8, x, y)),
            Addc => regs.put(d, flags.alu(Addc as u8, x, y)),
            Subb => regs.put(d, flags.alu(Subb as u8, x, y)),
            And => regs.put(d, flags.alu(And as u8, x, y)),
            Or => regs.put(d, flags.alu(Or as u8, x, y)),
            Not => regs.put(d, flags.alu(Not as u8, x, y)),
            Xor => regs.put(d, flags.alu(Xor as u8, x, y)),
            Nand => regs.put(d, flags.alu(Nand as u8, x, y)),
            Nor => regs.put(d, flags.alu(Nor as u8, x, y)),
            Xnor => regs.put(d, flags.alu(Xnor as u8, x, y)),
            Sll => regs.put(d, flags.alu(Sll as u8, x, y)),
            Srl => regs.put(d, flags.alu(Srl as u8, x, y)),
            Sra => regs.put(d, flags.alu(Sra as u8, x, y)),
            Rol => regs.put(d, flags.alu(Rol as u8, x, y)),
            AddImm => regs.put(d, flags.add(x, argument, false)),
            CmpImm => regs.put(d, flags.sub(x, argument, false)),
            MaskImm => regs.put(d, flags.bits(x & argument)),
            MaskIn => regs.put(d, flags.bits(key(keys, position) & argument)),

            MovImm => regs.put(d, argument),
            MovIn => regs.put(d, key(keys, position)),
            Ack => position = keys.len().min(position + 1),
            Store => ram[address] = x,
            StoreAt => ram[usize::from(y)] = x,
            Push => push(stack, &mut sp, x),
            Load => regs.put(d, ram[address]),
            LoadAt => regs.put(d, ram[usize::from(x)]),
            Pop => regs.put(d, pop(stack, &mut sp)),
            Swap => regs.put(d, exchange(stack, sp, x)),

            Jmp => next = argument,
            JmpReg => next = x,
            Call => {
                push(stack, &mut sp, next);
                next = argument
            }
            Ret => next = pop(stack, &mut sp),
            Jz => jump_if(flags.z),
            Jnz => jump_if(!flags.z),
            Jc => jump_if(flags.c),
            Jnc => jump_if(!flags.c),
            Jv => jump_if(flags.v == Overflow::Set),
            Jnv => jump_if(flags.v == Overflow::Clear),
            Jlz => jump_if(flags.s),
            Jp => jump_if(!flags.s),
            Jgz => jump_if(!flags.s && !flags.z),
            Jleu => jump_if(flags.z || flags.c),
            Jlt => jump_if(flags.s != (flags.v == Overflow::Set)),
            Jle => jump_if(flags.s != (flags.v == Overflow::Set) || flags.z),

            LcdCommand => send(&mut room, u16::from(argument) | 256),
            LcdImm => send(&mut room, u16::from(argument)),
            LcdReg => send(&mut room, u16::from(x)),
            LcdLoad => send(&mut room, u16::from(ram[address])),
            OutReg => out = x,
            OutLoad => out = ram[address],
            Hlt => halted = true,
            Nop => {}
        }
        pc = next;
        cycles += u32::from(taken);
        steps += 1;
    };
    let state = State { regs: regs.bytes(), pc, sp, out, flags, halted, position };
    let words = length - room.len();
    Ok(Report { stop, steps, cycles, words, state })
}
