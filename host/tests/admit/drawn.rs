//! Random sheets and lists that no instruction stands against yet.

use crate::random::Random;
use cesca::{BANK, MOST_ROUTINES};
use reference::{Routine, SheetWord};
use std::ops::Range;

/// A sheet and a list that pass the grounds up to 8.
pub struct Drawn {
    /// The word for each address.
    pub sheet: Vec<SheetWord>,
    /// The routines by number.
    pub routines: Vec<Routine>,
}

/// How a routine's depth moves from an address to the next.
struct Walk {
    routine: u8,
    need: u8,
    climbs: bool,
}

impl Drawn {
    /// A random sheet: segments of addresses, each of one routine.
    pub fn random(random: &mut Random) -> Drawn {
        let segments = segments(random);
        let owners = owners(random, segments.len());
        let climbs = random.once_in(6);
        let most = random.pick(&[0, 2, 8, 8, 40, 255]);
        let mut drawn = Drawn { sheet: vec![SheetWord(0); BANK], routines: Vec::new() };
        for routine in 0..=owners.iter().copied().max().unwrap_or(0) {
            let need = if routine == 0 { most } else { random.below(most + 1) };
            let walk = Walk { routine, need: need as u8, climbs };
            let pairs = segments.iter().zip(&owners).filter(|(_, owner)| **owner == routine);
            let own = pairs.map(|(segment, _)| segment.clone()).collect();
            drawn.describe(random, &walk, own);
        }
        drawn
    }

    /// Describes a routine's segments; one of them has its entry.
    fn describe(&mut self, random: &mut Random, walk: &Walk, mut own: Vec<Range<usize>>) {
        let later = walk.routine > 0 && random.once_in(4);
        let chosen = if later { random.below(own.len() as u32) as usize } else { 0 };
        let Range { start, end } = own[chosen];
        let offset = if later { random.below((end - start) as u32) as usize } else { 0 };
        let entry = start + offset;
        own[chosen].end = entry;
        self.walk(random, walk, entry..end, SheetWord::new(walk.routine, 0, false));
        for segment in own {
            let first = walk.somewhere(random);
            self.walk(random, walk, segment, first);
        }
        self.routines.push(Routine { entry: entry as u8, need: walk.need });
    }

    /// Describes a segment from this word on.
    fn walk(&mut self, random: &mut Random, walk: &Walk, segment: Range<usize>, first: SheetWord) {
        let mut word = first;
        for at in segment {
            self.sheet[at] = word;
            word = walk.after(random, word);
        }
    }
}

impl Walk {
    /// A word at which a segment may begin that nothing falls into.
    fn somewhere(&self, random: &mut Random) -> SheetWord {
        let depth = random.below(u32::from(self.need.min(4)) + 1) as u8;
        SheetWord::new(self.routine, depth, random.once_in(2))
    }

    /// A word for the next address, which some instruction can lead to.
    fn after(&self, random: &mut Random, word: SheetWord) -> SheetWord {
        let (up, down) = if self.climbs { (15, 15) } else { (3, 6) };
        let depth = match random.below(16) {
            chance if chance < up => word.depth().saturating_add(1).min(self.need),
            chance if chance < down => word.depth().saturating_sub(1),
            _ => word.depth(),
        };
        let may_settle = word.settled() || depth == word.depth();
        SheetWord::new(self.routine, depth, may_settle && random.once_in(2))
    }
}

/// Segments of addresses, the first from 0, with gaps between them or without.
fn segments(random: &mut Random) -> Vec<Range<usize>> {
    let longest = random.pick(&[2, 6, 20, 80, 256]);
    let gap = random.pick(&[1, 1, 4, 40]);
    let end = if random.once_in(3) { 1 + random.below(256) as usize } else { BANK };
    let mut segments = Vec::new();
    let mut at = 0;
    while at < end {
        let length = 1 + random.below(longest) as usize;
        segments.push(at..(at + length).min(BANK));
        at += length + random.below(gap) as usize;
    }
    segments
}

/// The routine of each of so many segments; the first is of routine 0.
fn owners(random: &mut Random, segments: usize) -> Vec<u8> {
    let most = random.pick(&[1, 3, 6, MOST_ROUTINES]).min(segments);
    let routines = 1 + random.below(most as u32);
    let owner = |segment| if segment < routines { segment } else { random.below(routines) };
    let mut owners: Vec<u8> = (0..segments as u32).map(owner).map(|owner| owner as u8).collect();
    for last in (2..segments).rev() {
        owners.swap(last, 1 + random.below(last as u32) as usize);
    }
    owners
}
