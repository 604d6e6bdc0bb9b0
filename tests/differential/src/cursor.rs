//! an index filled from every message, and places of its chart asked for, by the index as it is filled and by
//! others: damaged in an entry, too short, of any numbers.

use crate::call::{self, Call};
use second_reading::cases::{some_asking, Rng};
use second_reading::cursor::{Taken, GROUP};
use second_reading::grid::points;
use second_reading::read::unpacked;
use second_reading::{place_of, points_in_row, Lent, Reply, Rows, UnderCursor};

/// What is aimed at beside the message's own refusal.
const AIMS: [&[u32]; 8] = [&[], &[], &[14], &[24], &[25], &[25], &[24, 25], &[14, 25]];

/// The calls that take a message.
pub fn calls(rng: &mut Rng, message: &[u8], lent: &Lent) -> Vec<Call> {
    let aims = rng.pick(&AIMS);
    let asking = some_asking(rng, message, lent, aims);
    let mut calls = vec![call::index(message, lent, &asking.room)];
    let taken = match Taken::of(message, lent) {
        Ok(taken) => taken,
        Err(reply) => {
            let there = UnderCursor::Refused(reply);
            let asked = |&place| call::cursor(message, lent, &asking.index, place, there, None);
            calls.extend(asking.places.iter().map(asked));
            return calls;
        }
    };
    let own = taken.entries();
    let by = if asking.index.get(..own.len()) == Some(&own[..]) { FILLED } else { OTHER };
    for &place in &asking.places {
        let there = taken.under(&asking.index, place.0, place.1);
        let met = Met::of(&taken, there, by);
        calls.push(call::cursor(message, lent, &asking.index, place, there, Some(met)));
    }
    // "The answer must equal what a full read gives there": another call holds the codec to what reading must give
    let read = unpacked(message, lent);
    let n = points(taken.grid()) as usize;
    let any = rng.below(n);
    let first = any / GROUP * GROUP;
    let end = rng.pick(&[0, n - 1, first, (first + GROUP - 1).min(n - 1)]);
    let mut asked = |place: (u32, u32), given: UnderCursor| {
        let there = taken.under(&own, place.0, place.1);
        assert_eq!(there, given, "the second reading's cursor is not its reading");
        let met = Met::of(&taken, there, FILLED);
        calls.push(call::cursor(message, lent, &own, place, there, Some(met)));
    };
    for point in [any, end] {
        let place = place_of(taken.grid(), point as u32).expect("one of its points");
        asked(place, read[point].map_or(UnderCursor::Absent, UnderCursor::Value));
    }
    // and just outside, or far
    let (row, column) = place_of(taken.grid(), any as u32).expect("one of its points");
    let (rows, long) = (taken.grid().nj as u32, points_in_row(taken.grid(), row));
    let off = rng.pick(&[(row, long), (row, long), (rows, column), (row, u32::MAX), (u32::MAX, column)]);
    asked(off, UnderCursor::Refused(Reply::of(24)));
    calls
}

/// What the cursor gives.
const GIVEN: [&str; 4] = ["24", "25", "absent", "value"];

/// On which charts.
const CHARTS: [&str; 4] = ["one group", "some groups", "many groups", "an octant"];

/// By which index. The first is never refused by 25, and of one group it alone is not.
const INDEXES: [&str; 2] = ["as it is filled", "another"];
const FILLED: usize = 0;
const OTHER: usize = 1;

/// What a call meets.
#[derive(Clone, Copy)]
pub struct Met {
    chart: usize,
    given: usize,
    by: usize,
}

impl Met {
    fn of(taken: &Taken, there: UnderCursor, by: usize) -> Met {
        let chart = match (taken.grid().rows, taken.groups()) {
            (Rows::Even, 1) => 0,
            (Rows::Even, 2..=9) => 1,
            (Rows::Even, _) => 2,
            _ => 3,
        };
        let given = match there {
            UnderCursor::Refused(reply) => reply.number as usize - 24,
            UnderCursor::Absent => 2,
            UnderCursor::Value(_) => 3,
        };
        Met { chart, given, by }
    }
}

/// How often each was given on each chart, by each index.
#[derive(Default)]
pub struct Cursors([[[usize; INDEXES.len()]; GIVEN.len()]; CHARTS.len()]);

impl Cursors {
    pub fn count(&mut self, call: &Call) {
        if let Some(Met { chart, given, by }) = call.met {
            self.0[chart][given][by] += 1;
        }
    }

    /// What was never given, though it can be.
    pub fn missed(&self) -> Vec<String> {
        let mut missed = Vec::new();
        for (chart, all) in self.0.iter().enumerate() {
            for (given, times) in all.iter().enumerate() {
                for (by, &count) in times.iter().enumerate() {
                    let can_be = match (GIVEN[given], by) {
                        ("24", _) => true,
                        ("25", by) => by == OTHER,
                        (_, by) => by == FILLED || chart > 0,
                    };
                    if count == 0 && can_be {
                        let (given, chart, by) = (GIVEN[given], CHARTS[chart], INDEXES[by]);
                        missed.push(format!("cursor: {given} on {chart}, by an index {by}"));
                    }
                    assert!(count == 0 || can_be, "the second reading takes an index that it must not");
                }
            }
        }
        missed
    }
}

impl std::fmt::Display for Cursors {
    fn fmt(&self, f: &mut std::fmt::Formatter<'_>) -> std::fmt::Result {
        let all = CHARTS.iter().zip(self.0);
        let charts: Vec<String> = all.map(|(chart, given)| format!("{chart} {given:?}")).collect();
        let (given, by) = (GIVEN.join(", "), INDEXES.join(" and "));
        write!(f, "how often the cursor gave {given}, by an index {by}: {}", charts.join(", "))
    }
}
