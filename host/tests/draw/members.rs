//! Listings that are admitted with a sheet of the member's own: the drawing never asks for more.

use crate::checks::{check_against, drawn, routine_of, routines};
use crate::filled::admitted;
use crate::programs::Program;
use crate::random::each_case;
use reference::Listing;

/// The members' listings.
const CASES: u64 = 5_000;

/// How often a drawing must differ from the member's sheet in each way.
const ENOUGH: u32 = 300;

/// In how many drawings something is better than the member had it.
#[derive(Debug, Default)]
struct Gains {
    needs: u32,
    marks: u32,
    addresses: u32,
    routines: u32,
    /// Drawings that describe a hundred addresses or more.
    long: u32,
}

impl Gains {
    /// Counts what a drawing has against the member's listing.
    fn add(&mut self, drawing: &Listing, member: &Listing) {
        let words = || drawing.sheet_words().into_iter().zip(member.sheet_words());
        let described = words().filter(|(word, _)| word.described());
        let pairs: Vec<_> = described.collect();
        let need =
            |pair: &(_, _)| routine_of(drawing, pair.0).need < routine_of(member, pair.1).need;
        self.needs += u32::from(pairs.iter().any(need));
        self.marks += u32::from(pairs.iter().any(|(word, its)| word.settled() && !its.settled()));
        self.addresses +=
            u32::from(words().any(|(word, its)| !word.described() && its.described()));
        self.routines += u32::from(routines(drawing).count() < routines(member).count());
        self.long += u32::from(pairs.len() >= 100);
    }

    /// Checks that each was met often enough.
    fn check(&self) {
        let Gains { needs, marks, addresses, routines, long } = *self;
        let counts = [needs, marks, addresses, routines, long];
        assert!(counts.iter().all(|count| *count >= ENOUGH), "{self:?}");
    }
}

#[test]
fn a_members_listing_is_never_better_than_the_drawing() {
    let mut gains = Gains::default();
    each_case(CASES, |random| {
        let member = admitted(random);
        let drawing = drawn(&Program::of(&member)).expect("the member's sheet is admitted");
        check_against(&drawing, &member);
        gains.add(&drawing, &member);
    });
    gains.check();
}
