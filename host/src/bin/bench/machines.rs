//! The machines on one program, each with buffers of its own.

use crate::timing::{medians, timed};
use baselines::{plain, predecoded};
use cesca::{run, run_busy, Lent, Records, Refusal, Report, State, BANK, PAGE};
use reference::Listing;
use std::hint::black_box;

/// The words of the roll, more than a program here writes.
const ROLL: usize = 100_000;

/// A machine: what a run reports, or why it is refused.
pub trait Machine: FnMut(Lent<'_>, u32, State) -> Result<Report, Refusal> {}

impl<M: FnMut(Lent<'_>, u32, State) -> Result<Report, Refusal>> Machine for M {}

/// A machine with a program and the buffers of its runs, never cleared between them.
pub struct Bench<'a, M> {
    machine: M,
    program: &'a Listing,
    keys: Vec<u8>,
    ram: [u8; BANK],
    stack: [u8; BANK],
    roll: Vec<u16>,
}

/// What the library, the plain machine and the predecoded one took, in the middle of the
/// repetitions.
pub struct Turns {
    /// The seconds of each machine.
    pub seconds: [f64; 3],
    /// The library's time over each of the others', repetition by repetition.
    pub ratios: [f64; 2],
}

/// The times of so many runs of a program by each machine in turn.
pub fn in_turn(program: &Listing, budget: u32, runs: u32) -> Turns {
    let mut library = library(program);
    let mut plain = plain(program);
    let mut predecoded = Bench::new(predecoded::run, program);
    let [library, plain, predecoded, over_plain, over_predecoded] = medians(|| {
        let turns = [
            library.timed(budget, runs),
            plain.timed(budget, runs),
            predecoded.timed(budget, runs),
        ];
        let [library, plain, predecoded] = turns.map(|(report, _)| report);
        assert_eq!(library, plain, "the plain machine reports the same");
        assert_eq!(library, predecoded, "the predecoded machine reports the same");
        let [library, plain, predecoded] = turns.map(|(_, seconds)| seconds);
        [library, plain, predecoded, library / plain, library / predecoded]
    });
    Turns { seconds: [library, plain, predecoded], ratios: [over_plain, over_predecoded] }
}

/// The library with a program.
pub fn library(program: &Listing) -> Bench<'_, impl Machine> {
    Bench::new(run, program)
}

/// The library with a program, counting its addresses and writing the page.
pub fn busy(program: &Listing) -> Bench<'_, impl Machine> {
    let (mut counters, mut page) = ([0; BANK], vec![0; PAGE]);
    let machine = move |lent: Lent<'_>, budget, start| {
        let records = Records { counters: &mut counters, page: &mut page };
        run_busy(lent, records, budget, start).map(|busy| busy.report)
    };
    Bench::new(machine, program)
}

/// The plain machine with a program.
pub fn plain(program: &Listing) -> Bench<'_, impl Machine> {
    Bench::new(plain::run, program)
}

/// The plain machine with a program, counting its addresses.
pub fn counted(program: &Listing) -> Bench<'_, impl Machine> {
    let mut counters = [0; BANK];
    let machine =
        move |lent: Lent<'_>, budget, start| plain::run_counted(lent, &mut counters, budget, start);
    Bench::new(machine, program)
}

impl<'a, M: Machine> Bench<'a, M> {
    /// A machine with a program, two hundred keys and nothing in its other buffers.
    fn new(machine: M, program: &'a Listing) -> Bench<'a, M> {
        let (ram, stack, roll) = ([0; BANK], [0; BANK], vec![0; ROLL]);
        Bench { machine, program, keys: (1..=200).collect(), ram, stack, roll }
    }

    /// The report of a run from the start state.
    pub fn run(&mut self, budget: u32) -> Report {
        let lent = Lent {
            opcodes: &self.program.opcodes,
            arguments: &self.program.arguments,
            keys: &self.keys,
            ram: &mut self.ram,
            stack: &mut self.stack,
            roll: &mut self.roll,
        };
        let report = (self.machine)(black_box(lent), black_box(budget), black_box(State::start()));
        black_box(report).expect("nothing to refuse")
    }

    /// The report of the last of so many runs, and the seconds of all.
    pub fn timed(&mut self, budget: u32, runs: u32) -> (Report, f64) {
        timed(|| {
            for _ in 1..runs {
                self.run(budget);
            }
            self.run(budget)
        })
    }
}
