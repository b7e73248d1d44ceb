//! What each routine needs: callees before their callers.

use super::reach::Reach;
use super::Hindrance;
use cesca_types::BANK;

/// The least need of each routine, by its entry.
pub fn needs(reach: &Reach) -> Result<[u8; BANK], Hindrance> {
    let mut search = Search::new(reach);
    // Whatever is reached in another routine is reached by calls that begin in routine 0.
    search.visit(0)?;
    Ok(search.needs)
}

/// How far the search is with a routine.
#[derive(Clone, Copy, PartialEq, Eq)]
enum Progress {
    Ahead,
    /// Its callees are being visited.
    Under,
    Done,
}

/// A search through the calls, depth first.
struct Search<'a> {
    reach: &'a Reach,
    /// The calls of each routine as a chain: the first by entry, the one after each by address.
    first: [Option<u8>; BANK],
    after: [Option<u8>; BANK],
    /// How far it is, by entry.
    progress: [Progress; BANK],
    /// The greatest depth in a routine at first, its need when it is done, by entry.
    needs: [u8; BANK],
}

impl Search<'_> {
    /// The search before its first visit.
    fn new(reach: &Reach) -> Search<'_> {
        let [mut first, mut after] = [[None; BANK]; 2];
        let mut needs = [0; BANK];
        for place in reach.places() {
            let entry = usize::from(place.entry);
            needs[entry] = place.depth.max(needs[entry]);
            if place.callee().is_some() {
                after[usize::from(place.at)] = first[entry].replace(place.at);
            }
        }
        Search { reach, first, after, progress: [Progress::Ahead; BANK], needs }
    }

    /// The need of the routine with this entry, found once those of its callees are.
    ///
    /// No more calls are nested than there are routines, so the search itself stays shallow.
    fn visit(&mut self, entry: u8) -> Result<u8, Hindrance> {
        let routine = usize::from(entry);
        match self.progress[routine] {
            Progress::Done => return Ok(self.needs[routine]),
            Progress::Under => return Err(Hindrance::Recursion),
            Progress::Ahead => self.progress[routine] = Progress::Under,
        }
        let mut call = self.first[routine];
        while let Some(at) = call {
            let place = self.reach.place(at);
            let below = self.visit(place.facts.operand)?;
            self.needs[routine] = self.needs[routine].max(place.depth + 1 + below);
            call = self.after[usize::from(at)];
        }
        self.progress[routine] = Progress::Done;
        Ok(self.needs[routine])
    }
}
