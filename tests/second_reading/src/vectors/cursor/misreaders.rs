//! Readers who read R-6 wrong, each in one way: the table has an answer to each of them.

use super::Told::{Absent, Filled, Refused, Value};
use super::{entry_before, refused, table, Call, Home, Told, Vector, MOST};
use crate::cursor::{count, GROUP};
use crate::grid::{place_of, point_at, points, points_in_row};
use crate::read::{bds, grid, presence, refusal, unpacked};
use crate::{BitmapKind, Grid, Lent, Rows};

/// Ways to read the request wrong.
#[derive(Clone, Copy, PartialEq, Debug)]
enum Wrong {
    /// Nothing.
    None,
    /// A grid point's number used to find its data bits.
    GridNumber,
    /// Ones counted in the order of the chart.
    ChartOrder,
    /// The group of point i is (i + 1) / 256.
    GroupOff,
    /// n / 256 groups.
    GroupsDown,
    /// n / 256 + 1 groups.
    GroupsUp,
    /// The stored bitmap ignored: every point a one.
    StoredIgnored,
    /// With no bitmap no point counts as a one.
    NoneCounts,
    /// Bits after the nth counted, to the end of the octet.
    BitsAfter,
    /// 25 judged on the whole index.
    WholeIndex,
    /// 25 before 24.
    IndexFirst,
    /// 24 and 25 before the message's own.
    OwnLast,
    /// 14 before the message's own.
    RoomFirst,
    /// An absent place told before 25.
    AbsentFirst,
    /// The sum in 32 bits.
    Wraps,
    /// Above m not refused.
    AboveTaken,
    /// The entry after the last group's is its next, where there is one.
    EntryAfter,
    /// Short indexes taken where the group's own entries are there.
    ShortTaken,
    /// The message's own count in the place of the entry.
    OwnCount,
    /// The ones up to the place, and not before it.
    OnesUpTo,
    /// Every row of a thinned grid as long as the longest.
    RowsEven,
    /// A row and a column that wrap at 16 bits.
    Places16,
    /// Section and place not told.
    NoStop,
    /// The entries after the last group set to 0.
    AfterCleared,
}

const ALL: [Wrong; 23] = [
    Wrong::GridNumber,
    Wrong::ChartOrder,
    Wrong::GroupOff,
    Wrong::GroupsDown,
    Wrong::GroupsUp,
    Wrong::StoredIgnored,
    Wrong::NoneCounts,
    Wrong::BitsAfter,
    Wrong::WholeIndex,
    Wrong::IndexFirst,
    Wrong::OwnLast,
    Wrong::RoomFirst,
    Wrong::AbsentFirst,
    Wrong::Wraps,
    Wrong::AboveTaken,
    Wrong::EntryAfter,
    Wrong::ShortTaken,
    Wrong::OwnCount,
    Wrong::OnesUpTo,
    Wrong::RowsEven,
    Wrong::Places16,
    Wrong::NoStop,
    Wrong::AfterCleared,
];

/// What a misreader knows of a message that is taken.
struct Seen {
    grid: Grid,
    bits: Vec<bool>,
    present: u64,
    /// Bits beyond the grid's points that count in the last group.
    after: u64,
    values: Vec<u32>,
}

fn seen(wrong: Wrong, message: &[u8], lent: &Lent) -> Seen {
    let grid = grid(message);
    let header = crate::header(message, lent);
    let mut bits = presence(message, lent);
    let values = unpacked(message, lent).into_iter().flatten().collect();
    let present = count(&bits) as u64;
    let mut after = 0;
    match (wrong, header.bitmap) {
        (Wrong::StoredIgnored, BitmapKind::Stored(_)) => bits = vec![true; bits.len()],
        (Wrong::NoneCounts, BitmapKind::Without) => bits = vec![false; bits.len()],
        (Wrong::BitsAfter, BitmapKind::Stored(_)) => {
            let all = crate::bits::bits_of(&lent.octets);
            let end = bits.len().div_ceil(8) * 8;
            after = count(&all[bits.len()..end]) as u64;
        }
        _ => {}
    }
    Seen {
        grid,
        bits,
        present,
        after,
        values,
    }
}

impl Seen {
    fn groups(&self, wrong: Wrong) -> usize {
        let n = self.bits.len();
        match wrong {
            Wrong::GroupsDown => n / GROUP,
            Wrong::GroupsUp => n / GROUP + 1,
            _ => n.div_ceil(GROUP),
        }
    }

    fn ones(&self, group: usize) -> u64 {
        let n = self.bits.len();
        let (from, to) = ((GROUP * group).min(n), (GROUP * group + GROUP).min(n));
        let after = if to == n { self.after } else { 0 };
        count(&self.bits[from..to]) as u64 + after
    }

    fn before(&self, point: usize) -> u64 {
        count(&self.bits[..point.min(self.bits.len())]) as u64
    }

    fn point(&self, wrong: Wrong, row: u32, column: u32) -> Option<usize> {
        let (row, column) = match wrong {
            Wrong::Places16 => (row % 65_536, column % 65_536),
            _ => (row, column),
        };
        let long = points_in_row(&self.grid, row);
        let even = self.grid.rows == Rows::Even;
        let column = match wrong {
            Wrong::RowsEven if !even && long > 0 && column < 73 => column.min(long - 1),
            _ => column,
        };
        point_at(&self.grid, row, column).map(|point| point as usize)
    }

    fn group_refused(&self, wrong: Wrong, index: &[u32], group: usize) -> bool {
        let groups = self.groups(wrong);
        if index.len() < groups && wrong != Wrong::ShortTaken {
            return true;
        }
        let Some(&entry) = index.get(group) else {
            return true;
        };
        let sum = match wrong {
            Wrong::Wraps => entry.wrapping_add(self.ones(group) as u32) as u64,
            _ => entry as u64 + self.ones(group),
        };
        let next = match index.get(group + 1) {
            Some(&next) if group + 1 < groups || wrong == Wrong::EntryAfter => next as u64,
            _ if group + 1 < groups => return true,
            _ => self.present,
        };
        sum != next || (sum > self.present && wrong != Wrong::AboveTaken)
    }

    fn index_refused(&self, wrong: Wrong, index: &[u32], group: usize) -> bool {
        match wrong {
            Wrong::WholeIndex => {
                (0..self.groups(wrong)).any(|group| self.group_refused(wrong, index, group))
            }
            _ => self.group_refused(wrong, index, group),
        }
    }

    fn under(&self, wrong: Wrong, index: &[u32], row: u32, column: u32) -> Told {
        let point = self.point(wrong, row, column);
        let off = wrong == Wrong::GroupOff;
        let group = point.map(|point| (point + off as usize) / GROUP);
        // where there is no place, the last group is looked at
        let last = self.groups(wrong).saturating_sub(1);
        if wrong == Wrong::IndexFirst && self.index_refused(wrong, index, group.unwrap_or(last)) {
            return Refused(25);
        }
        let (Some(point), Some(group)) = (point, group) else {
            return Refused(24);
        };
        if wrong == Wrong::AbsentFirst && !self.bits[point] {
            return Absent;
        }
        if self.index_refused(wrong, index, group) {
            return Refused(25);
        }
        if !self.bits[point] {
            return Absent;
        }
        let first = (GROUP * group).min(point);
        let number = match wrong {
            Wrong::GridNumber => point as u64,
            Wrong::ChartOrder => {
                let here = place_of(&self.grid, point as u32);
                let earlier = |other: &usize| place_of(&self.grid, *other as u32) < here;
                let all = (0..self.bits.len()).filter(earlier);
                all.filter(|&other| self.bits[other]).count() as u64
            }
            Wrong::OwnCount => self.before(point),
            _ => index[group] as u64 + count(&self.bits[first..point]) as u64,
        };
        let number = number + (wrong == Wrong::OnesUpTo) as u64;
        // past the values there is nothing, which is no answer of the table
        match self.values.get(number as usize) {
            Some(&x) => Value(x),
            None => Value(MOST),
        }
    }
}

/// What a misreader tells of a vector; and what stands after the entries that it took.
fn told(wrong: Wrong, vector: &Vector) -> (Told, Option<u32>) {
    let Home { message, lent } = &vector.home;
    let own = refusal(message, lent);
    let of_own = match wrong {
        Wrong::NoStop => Refused(own.number),
        _ => refused(own),
    };
    let own_first = wrong != Wrong::OwnLast && wrong != Wrong::RoomFirst;
    if own.number != 0 && own_first {
        return (of_own, None);
    }
    match &vector.call {
        Call::Fill(room) | Call::FillAlone(room) => {
            if own.number != 0 {
                // room is judged without knowing how many groups there are
                let short = *room == 0 && wrong == Wrong::RoomFirst;
                return (if short { Refused(14) } else { of_own }, None);
            }
            let seen = seen(wrong, message, lent);
            let groups = seen.groups(wrong);
            if *room < groups {
                return (Refused(14), None);
            }
            let entry = |group| (seen.before(GROUP * group) + up_to(wrong, &seen, group)) as u32;
            let after = (*room > groups).then_some(match wrong {
                Wrong::AfterCleared => 0,
                _ => entry_before(groups),
            });
            (Filled((0..groups).map(entry).collect()), after)
        }
        Call::Ask(index, row, column) => {
            if own.number != 0 {
                let short = index.is_empty() && wrong == Wrong::OwnLast;
                return (if short { Refused(25) } else { of_own }, None);
            }
            (
                seen(wrong, message, lent).under(wrong, index, *row, *column),
                None,
            )
        }
    }
}

fn up_to(wrong: Wrong, seen: &Seen, group: usize) -> u64 {
    let first = seen.bits.get(GROUP * group).copied().unwrap_or(false);
    (wrong == Wrong::OnesUpTo && first) as u64
}

fn by_hand(vector: &Vector) -> (Told, Option<u32>) {
    let after = match (vector.room(), &vector.told) {
        (Some(room), Filled(entries)) if room > entries.len() => Some(entry_before(entries.len())),
        _ => None,
    };
    (vector.told.clone(), after)
}

/// Vectors of many points are left out: a misreader counts slowly.
fn small(vector: &Vector) -> bool {
    let message = &vector.home.message;
    let taken = refusal(message, &vector.home.lent).number == 0;
    !taken || (points(&grid(message)) < 4_000 && bds(message).len() < 20_000)
}

/// A reader who is not wrong agrees with the table throughout, and one who is does not.
#[test]
fn each_misreading_is_seen() {
    let vectors: Vec<Vector> = table().vectors.into_iter().filter(small).collect();
    for vector in &vectors {
        assert_eq!(
            told(Wrong::None, vector),
            by_hand(vector),
            "{}",
            vector.name
        );
    }
    for wrong in ALL {
        let caught = |vector: &&Vector| told(wrong, vector) != by_hand(vector);
        let names: Vec<&str> = vectors.iter().filter(caught).map(|v| &v.name[..]).collect();
        assert!(names.len() >= 3, "{wrong:?} is seen on {names:?}");
        assert!(NAMED.iter().any(|line| line.1 == wrong), "{wrong:?}");
    }
}

/// Vectors, most of them named so, and a misreading that each has an answer to.
const NAMED: [(&str, Wrong); 30] = [
    ("misread-grid-number", Wrong::GridNumber),
    ("misread-grid-number-next", Wrong::GridNumber),
    ("misread-chart-order", Wrong::ChartOrder),
    ("misread-own-count", Wrong::OwnCount),
    ("misread-ones-up-to", Wrong::OnesUpTo),
    ("25-misread-group-of-255", Wrong::GroupOff),
    ("25-misread-group-of-511", Wrong::GroupOff),
    ("misread-group-of-256", Wrong::WholeIndex),
    ("fill-misread-one-group", Wrong::GroupsUp),
    ("misread-one-group", Wrong::GroupsUp),
    ("14-misread-two-groups", Wrong::GroupsDown),
    ("25-misread-two-groups", Wrong::GroupsDown),
    ("misread-stored", Wrong::StoredIgnored),
    ("misread-stored-absent", Wrong::StoredIgnored),
    ("misread-bits-after", Wrong::BitsAfter),
    ("misread-no-bitmap", Wrong::NoneCounts),
    ("misread-whole-index", Wrong::WholeIndex),
    ("24-misread-before-25", Wrong::IndexFirst),
    ("24-misread-bad-entry", Wrong::IndexFirst),
    ("25-misread-absent", Wrong::AbsentFirst),
    ("25-misread-wraps", Wrong::Wraps),
    ("25-misread-above-m", Wrong::AboveTaken),
    ("25-misread-entry-after", Wrong::EntryAfter),
    ("25-misread-one-short", Wrong::ShortTaken),
    ("fill-misread-entries-after", Wrong::AfterCleared),
    ("24-misread-row-of-its-own", Wrong::RowsEven),
    ("20-bds-fill", Wrong::NoStop),
    ("20-bds-fill-none", Wrong::RoomFirst),
    ("20-bds-ask-short", Wrong::OwnLast),
    ("24-plain-65536-0", Wrong::Places16),
];

#[test]
fn each_is_named() {
    let vectors = table().vectors;
    for (name, wrong) in NAMED {
        let vector = vectors.iter().find(|vector| vector.name == name);
        let vector = vector.unwrap_or_else(|| panic!("no vector {name}"));
        assert_ne!(told(wrong, vector), by_hand(vector), "{name}: {wrong:?}");
    }
}
