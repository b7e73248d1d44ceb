//! The machine as one writes it in Rust for speed, to measure the proved library by: a match on
//! the opcode in one loop, and all of the state in locals.

use crate::parts::{exchange, key, pop, push, send, Alu, Memory};
use cesca_types::{Lent, Overflow, Refusal, Report, State, Stop, BANK};
use std::hint::cold_path;

/// What a run of at most `budget` steps from `start` reports, or why there is none.
pub fn run(lent: Lent<'_>, budget: u32, start: State) -> Result<Report, Refusal> {
    let memory = Memory::checked(lent, budget, start.position)?;
    Ok(watched(memory, budget, start, |_| ()))
}

/// The same, with the counters set to how often each address executed; a refusal leaves them.
pub fn run_counted(
    lent: Lent<'_>,
    counters: &mut [u32; BANK],
    budget: u32,
    start: State,
) -> Result<Report, Refusal> {
    let memory = Memory::checked(lent, budget, start.position)?;
    counters.fill(0);
    Ok(watched(memory, budget, start, |pc| counters[usize::from(pc)] += 1))
}

/// What a run reports, with the address of every step shown to `watch` once it is made. Inlined, so
/// that a run which watches nothing pays nothing.
#[expect(clippy::manual_range_patterns, reason = "ranges would be compared one by one")]
#[inline(always)]
fn watched(memory: Memory<'_>, budget: u32, start: State, mut watch: impl FnMut(u8)) -> Report {
    let Memory { opcodes, arguments, keys, ram, stack, roll } = memory;
    let State { mut regs, mut pc, mut sp, mut out, mut flags, mut halted, mut position } = start;
    let (length, mut room) = (roll.len(), roll.iter_mut());
    let (mut steps, mut cycles) = (0, 0);
    let stop = loop {
        if halted {
            break Stop::Halted;
        }
        if steps == budget {
            break Stop::Spent;
        }
        let at = usize::from(pc);
        let (opcode, argument) = (opcodes[at], arguments[at]);
        let [d, a, b] = [opcode >> 2, opcode, argument].map(|field| usize::from(field & 3));
        let address = usize::from(argument);
        let mut next = pc.wrapping_add(1);
        let mut jump_if = |condition| {
            if condition {
                next = argument;
            } else {
                // The hint makes this a branch, which the processor guesses. Without it there
                // is a conditional move, which waits for the flags.
                cold_path();
            }
            3
        };
        #[rustfmt::skip]
        let taken = match opcode >> 2 {
            0x30 | 0x31 | 0x36 | 0x37 if flags.v == Overflow::Unsettled => break Stop::Unsettled,
            0x38 | 0x39 | 0x3A | 0x3B if room.len() == 0 => break Stop::Full,

            0x00 | 0x01 | 0x02 | 0x03 => { regs[d] = flags.alu(argument >> 4, regs[a], regs[b]); 4 }
            0x04 | 0x05 | 0x06 | 0x07 => { regs[d] = flags.add(regs[a], argument, false); 4 }
            0x08 => { flags.alu(argument >> 4, regs[a], regs[b]); 3 }
            0x09 => { flags.sub(regs[a], argument, false); 3 }
            0x0A => { flags.bits(regs[a] & argument); 3 }
            0x0B => { flags.bits(key(keys, position) & argument); 5 }

            0x0C | 0x0D | 0x0E | 0x0F => { regs[d] = argument; 3 }
            0x10 | 0x11 | 0x12 | 0x13 => { regs[d] = key(keys, position); 4 }
            0x14 => { position = keys.len().min(position + 1); 3 }
            0x15 => { ram[address] = regs[a]; 4 }
            0x16 => { ram[usize::from(regs[b])] = regs[a]; 5 }
            0x17 => { push(stack, &mut sp, regs[a]); 5 }
            0x18 | 0x19 | 0x1A | 0x1B => { regs[d] = ram[address]; 4 }
            0x1C | 0x1D | 0x1E | 0x1F => { regs[d] = ram[usize::from(regs[a])]; 4 }
            0x20 | 0x21 | 0x22 | 0x23 => { regs[d] = pop(stack, &mut sp); 4 }
            0x24 | 0x25 | 0x26 | 0x27 => { regs[d] = exchange(stack, sp, regs[a]); 5 }

            0x28 => { next = argument; 3 }
            0x29 => { next = regs[a]; 3 }
            0x2A => { push(stack, &mut sp, next); next = argument; 6 }
            0x2B => { next = pop(stack, &mut sp); 4 }
            0x2C => jump_if(flags.z),
            0x2D => jump_if(!flags.z),
            0x2E => jump_if(flags.c),
            0x2F => jump_if(!flags.c),
            0x30 => jump_if(flags.v == Overflow::Set),
            0x31 => jump_if(flags.v == Overflow::Clear),
            0x32 => jump_if(flags.s),
            0x33 => jump_if(!flags.s),
            0x34 => jump_if(!flags.s && !flags.z),
            0x35 => jump_if(flags.z || flags.c),
            0x36 => jump_if(flags.s != (flags.v == Overflow::Set)),
            0x37 => jump_if(flags.s != (flags.v == Overflow::Set) || flags.z),

            0x38 => { send(&mut room, u16::from(argument) | 256); 3 }
            0x39 => { send(&mut room, u16::from(argument)); 3 }
            0x3A => { send(&mut room, u16::from(regs[a])); 3 }
            0x3B => { send(&mut room, u16::from(ram[address])); 4 }
            0x3C => { out = regs[a]; 3 }
            0x3D => { out = ram[address]; 4 }
            0x3E => { halted = true; 2 }
            _ => 8,
        };
        watch(pc);
        pc = next;
        cycles += taken;
        steps += 1;
    };
    let state = State { regs, pc, sp, out, flags, halted, position };
    let words = length - room.len();
    Report { stop, steps, cycles, words, state }
}
