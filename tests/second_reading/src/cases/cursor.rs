//! Cases for the cursor: messages of one group of grid points or more, and what to ask of
//! any message.

use super::{
    blind, damage, draft_of, field_of, plan, rng_for, some_field, some_kind, some_octant,
    some_width, sound_grid_of, Field, Plan, Rng, Size,
};
use crate::cursor::{count, Taken, GROUP};
use crate::grid::{place_of, points, points_in_row};
use crate::{BitmapKind, Grid, Lent, Rows};

/// A case for the cursor.
pub struct CursorCase {
    pub message: Vec<u8>,
    pub lent: Lent,
    pub asking: Asking,
}

/// What a message is asked with: a list to be filled, an index, and places.
pub struct Asking {
    pub room: Vec<u32>,
    pub index: Vec<u32>,
    pub places: Vec<(u32, u32)>,
}

/// The replies that the cases aim at.
pub const CURSOR_REPLIES: [u32; 18] = [
    1, 2, 3, 4, 20, 21, 22, 23, 6, 7, 8, 9, 10, 11, 12, 14, 24, 25,
];

/// What they aim at: 24, 25 and 14 more often than the message's own.
const CURSOR_AIMS: [u32; 42] = [
    25, 1, 24, 25, 2, 14, 25, 3, 24, 25, 4, 14, 25, 20, 24, 25, 21, 14, 25, 22, 24, 25, 23, 14, 25,
    6, 7, 24, 25, 8, 14, 25, 9, 6, 24, 25, 10, 11, 6, 14, 12, 25,
];

/// Sides of a chart of one group of points, of two and of three, at their edges.
const GROUPED: [(usize, usize); 14] = [
    (255, 1),
    (16, 16),
    (257, 1),
    (1, 257),
    (20, 15),
    (15, 20),
    (37, 8),
    (32, 16),
    (1, 512),
    (512, 1),
    (27, 19),
    (171, 3),
    (600, 1),
    (24, 25),
];

/// Marks in stretches, so that a group may have no ones, few, or nothing but ones.
fn marks_in_stretches(rng: &mut Rng, kind: BitmapKind, n: usize) -> Vec<bool> {
    if kind == BitmapKind::Without {
        return vec![true; n];
    }
    let mut marks = Vec::new();
    while marks.len() < n {
        let percent = rng.pick(&[0, 0, 50, 50, 90, 100]);
        let (short, any) = (1 + rng.below(40), 1 + rng.below(300));
        let long = rng.pick(&[short, any, GROUP]);
        marks.extend((0..long).map(|_| rng.chance(percent)));
    }
    marks.truncate(n);
    marks
}

/// A field for the cursor: often of more groups than one, and an octant's 14 now and
/// then. Both are rarer where a proof has to count the ones.
fn cursor_field(rng: &mut Rng, size: Size, aims: &[u32]) -> Field {
    let (octants, grouped) = match size {
        Size::Small => (0, 0),
        Size::Short => (3, 20),
        Size::Whole => (6, 40),
    };
    let grid = if rng.chance(octants) {
        some_octant(rng)
    } else if rng.chance(grouped) {
        let (ni, nj) = rng.pick(&GROUPED);
        sound_grid_of(rng, aims, ni, nj)
    } else {
        return some_field(rng, aims.contains(&10), Size::Small, aims);
    };
    let mut kind = some_kind(rng);
    while aims.contains(&10) && kind == BitmapKind::Without {
        kind = some_kind(rng);
    }
    let bits = match size {
        Size::Whole => some_width(rng),
        _ => rng.pick(&[0, 1, 1, 2, 3]),
    };
    let marks = marks_in_stretches(rng, kind, points(&grid) as usize);
    field_of(rng, grid, kind, marks, bits)
}

/// A number that an index may hold anywhere.
fn any_entry(rng: &mut Rng) -> u32 {
    let (any, small) = (rng.draw() as u32, rng.below(700) as u32);
    rng.pick(&[any, small, small, 0, 1 << 31, u32::MAX, u32::MAX])
}

fn any_entries(rng: &mut Rng, many: usize) -> Vec<u32> {
    (0..many).map(|_| any_entry(rng)).collect()
}

/// A point of the grid, the ends of groups most of all.
fn some_point(rng: &mut Rng, n: usize) -> usize {
    let any = rng.below(n);
    let first = any / GROUP * GROUP;
    let last = (first + GROUP - 1).min(n - 1);
    rng.pick(&[any, any, any, first, last, 0, n - 1])
}

/// A place outside the chart, or at least a wide way off.
fn some_place_off(rng: &mut Rng, grid: &Grid, (row, column): (u32, u32)) -> (u32, u32) {
    let rows = grid.nj as u32;
    let (long, any) = (points_in_row(grid, row), rng.draw() as u32);
    // the longest row of a thinned grid has 73 points
    let longest = if grid.rows == Rows::Even { long } else { 73 };
    rng.pick(&[
        (rows, column),
        (rows, 0),
        (row, long),
        (row, long),
        (row, longest),
        (row, u32::MAX),
        (u32::MAX, column),
        (u32::MAX, u32::MAX),
        (row + 65_536, column),
        (row, column + 65_536),
        (row, any.max(long)),
        (any.max(rows), column),
    ])
}

/// What an index of this message becomes, so that 25 may come of it at this point or
/// may not.
fn some_index(rng: &mut Rng, taken: &Taken, point: usize, refused: bool) -> Vec<u32> {
    let mut index = taken.entries();
    let (groups, group) = (index.len(), point / GROUP);
    let ones = count(taken.group(group)) as u32;
    let present = taken.present() as u32;
    let last = group == groups - 1;
    if rng.chance(50) {
        // entries of other groups, and entries after all of them
        for k in 0..groups {
            if k != group && k != group + 1 && rng.chance(60) {
                index[k] = any_entry(rng);
            }
        }
        let more = rng.pick(&[0, 1, 1, 3]);
        index.extend(any_entries(rng, more));
    }
    if !refused {
        if !last && rng.chance(40) {
            // another entry, and the next one that goes with it
            let most = present - ones;
            let any = rng.below(most as usize + 1) as u32;
            index[group] = rng.pick(&[0, most, any]);
            index[group + 1] = index[group] + ones;
        }
        return index;
    }
    let near = rng.pick(&[1, 1, u32::MAX]);
    match rng.below(8) {
        0 => index[group] = index[group].wrapping_add(near),
        1 if !last => index[group + 1] = index[group + 1].wrapping_add(near),
        2 if !last => {
            // above m, and the next entry says the same
            index[group] = present - ones + 1 + rng.pick(&[0, 0, 5, 1 << 31]);
            index[group + 1] = index[group] + ones;
        }
        3 if !last => {
            // the next entry where a sum of 32 bits would come to
            index[group] = u32::MAX - rng.pick(&[0, 1, ones / 2, ones, ones.saturating_sub(1)]);
            index[group + 1] = index[group].wrapping_add(ones);
        }
        4 => index.truncate(groups - 1),
        5 => index.truncate(rng.below(groups)),
        6 => index = any_entries(rng, groups),
        _ => index[group] = rng.pick(&[u32::MAX, 1 << 31, present + 1, index[group] + 256]),
    }
    index
}

/// What to ask of a message, with 14, 24 and 25 in view.
pub fn some_asking(rng: &mut Rng, message: &[u8], lent: &Lent, aims: &[u32]) -> Asking {
    let Ok(taken) = Taken::of(message, lent) else {
        let (room, index) = (rng.below(4), rng.below(4));
        let (row, column) = (rng.below(3) as u32, rng.below(3) as u32);
        return Asking {
            room: any_entries(rng, room),
            index: any_entries(rng, index),
            places: vec![(row, column), (rng.draw() as u32, column)],
        };
    };
    let groups = taken.groups();
    let (fewer, more) = (rng.below(groups), rng.pick(&[0, 0, 1, 2, 5]));
    let room = match aims.contains(&14) {
        true => rng.pick(&[groups - 1, groups - 1, 0, fewer]),
        false => groups + more,
    };
    let n = points(taken.grid()) as usize;
    let place = |point: usize| place_of(taken.grid(), point as u32).expect("one of its points");
    let points: Vec<usize> = (0..2).map(|_| some_point(rng, n)).collect();
    let index = some_index(rng, &taken, points[0], aims.contains(&25));
    let mut places: Vec<(u32, u32)> = points.into_iter().map(place).collect();
    let off = some_place_off(rng, taken.grid(), places[1]);
    if aims.contains(&24) {
        places[0] = off;
    } else if rng.chance(20) {
        places.push(off);
    }
    Asking {
        room: any_entries(rng, room),
        index,
        places,
    }
}

/// The case of a number for the cursor.
pub fn cursor_case(seed: u64, index: usize, size: Size) -> CursorCase {
    let mut rng = rng_for(seed, 5, index);
    let rng = &mut rng;
    let plan = plan(rng, index, &CURSOR_AIMS);
    let aims: Vec<u32> = match plan {
        Plan::Aimed(one) => vec![one],
        Plan::Twice(one, other) => vec![one, other],
        _ => Vec::new(),
    };
    let field = cursor_field(rng, size, &aims);
    let mut draft = draft_of(rng, &field);
    for &aim in &aims {
        damage(rng, &mut draft, aim, false);
    }
    let mut message = draft.assemble();
    let mut lent = draft.lent;
    if matches!(plan, Plan::Blind) && rng.chance(95) {
        blind(rng, &mut message, &mut lent);
    }
    let asking = some_asking(rng, &message, &lent, &aims);
    CursorCase {
        message,
        lent,
        asking,
    }
}
