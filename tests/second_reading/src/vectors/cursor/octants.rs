//! "A place is then a row and a position in that row." 3,447 points are 14 groups, the
//! last of 119 points.

use super::Told::{Absent, Filled, Refused, Value};
use super::{marks_of, Chart, Home, Table, MOST};
use crate::vectors::messages::{bits, carried, octets, packed, stored};
use crate::vectors::octants::{Octant, Present, NORTH, OCTANTS, SOUTH};

pub fn add(table: &mut Table) {
    table.group("octants");
    flat(table);
    firsts_and_lasts(table);
    positions(table);
    index(table);
}

/// Entries of an octant without a bitmap.
fn all() -> Vec<u32> {
    (0..14).map(|group| 256 * group).collect()
}

/// How many rows begin before each group: in the north the first begin at points 0, 73,
/// 146, 219, 292, 365, 438, 511 and 584, in the south at 0, 2, 5, 10, 16 and so on.
const FIRSTS_NORTH: [u32; 14] = [0, 4, 8, 11, 15, 18, 22, 26, 30, 35, 40, 45, 52, 62];
const FIRSTS_SOUTH: [u32; 14] = [0, 18, 26, 32, 37, 42, 46, 50, 54, 58, 61, 65, 68, 72];

/// How many rows end before each group: of those that begin before it one has not ended.
const LASTS_NORTH: [u32; 14] = [0, 3, 7, 10, 14, 17, 21, 25, 29, 34, 39, 44, 51, 61];
const LASTS_SOUTH: [u32; 14] = [0, 17, 25, 31, 36, 41, 45, 49, 53, 57, 60, 64, 67, 71];

/// A chart of an octant by the row in the message and the position in it. Rows run north:
/// the chart's row 0 is the message's last.
fn chart(octant: &Octant, at: impl Fn(u32, u32, u32) -> Option<u32>) -> Chart {
    let counts = octant.counts();
    let rows = (0..73).map(|row: usize| {
        let count = counts[72 - row] as u32;
        let columns = (0..count).map(|position| at(72 - row as u32, position, count));
        columns.collect()
    });
    rows.collect()
}

/// Every octant, with its GDS and without: no bitmap, N = 0.
fn flat(table: &mut Table) {
    for octant in OCTANTS {
        for (by, sections) in [("", octant.flat()), ("-no-gds", octant.listed())] {
            let of = format!("octant-{}{by}", octant.number);
            let home: Home = sections.into();
            let rule = "with no bitmap every point counts as a one";
            table
                .fill(&home, 14, Filled(all()), &format!("fill-{of}"), rule)
                .chart(chart(&octant, |_, _, _| Some(0)));
            let rule = "14 if too short: 3,447 points are 14 groups";
            table.fill(&home, 13, Refused(14), &format!("14-{of}"), rule);
            edges(table, &octant, &home, &of, &all());
        }
    }
}

/// 24 past a row's own length, though other rows are longer: the chart's row 0 has 2 points
/// in the north and 73 in the south, row 72 the other way round, row 36 has 52.
fn edges(table: &mut Table, octant: &Octant, home: &Home, of: &str, index: &[u32]) {
    let (top, bottom) = if octant.north { (2, 73) } else { (73, 2) };
    for (row, long) in [(0, top), (36, 52), (72, bottom)] {
        // where another row has its last point, and past the longest
        let mut past = vec![long, 72, 73, MOST];
        past.retain(|&position| position >= long);
        past.dedup();
        for position in past {
            let name = format!("24-{of}-{row}-{position}");
            let rule = "24: a position past its row's own length";
            table.ask(home, index, (row, position), Refused(24), &name, rule);
        }
    }
    for (row, position) in [(73, 0), (73, 1), (MOST, 0), (65_536, 0)] {
        let name = format!("24-{of}-{row}-{position}");
        table.ask(
            home,
            index,
            (row, position),
            Refused(24),
            &name,
            "24: rows 0 to 72",
        );
    }
}

/// The first point of each row present by a carried bitmap, or the last one by a stored
/// one; its value is the row in the message.
fn firsts_and_lasts(table: &mut Table) {
    for (octant, firsts, lasts) in [
        (NORTH, FIRSTS_NORTH, LASTS_NORTH),
        (SOUTH, FIRSTS_SOUTH, LASTS_SOUTH),
    ] {
        for (by, present, index) in [
            ("all", Present::All, all()),
            ("firsts", Present::Firsts, firsts.to_vec()),
            ("lasts", Present::Lasts, lasts.to_vec()),
        ] {
            for (gds, with_gds) in [("", true), ("-no-gds", false)] {
                let of = format!("octant-{}{gds}-{by}", octant.number);
                let home = Home {
                    message: octant.rowed(with_gds, present, 7).message(),
                    lent: octant.lent(present),
                };
                let here = |position: u32, count: u32| match present {
                    Present::All => true,
                    Present::Firsts => position == 0,
                    Present::Lasts => position == count - 1,
                };
                let rule = "ones before each group, in message order";
                table
                    .fill(
                        &home,
                        14,
                        Filled(index.clone()),
                        &format!("fill-{of}"),
                        rule,
                    )
                    .chart(chart(&octant, |row, position, count| {
                        here(position, count).then_some(row)
                    }));
                // a row of the chart, how many points it has, and its row in the message
                let rows = match octant.north {
                    true => [(0, 2, 72), (36, 52, 36), (64, 72, 8), (72, 73, 0)],
                    false => [(0, 73, 72), (8, 72, 64), (36, 52, 36), (72, 2, 0)],
                };
                for (row, long, value) in rows {
                    for position in [0, 1, long - 1] {
                        if position == 1 && long == 2 {
                            continue;
                        }
                        let told = match here(position, long) {
                            true => Value(value),
                            false => Absent,
                        };
                        let name = format!("{of}-{row}-{position}");
                        let rule = "a row and a position in that row";
                        table.ask(&home, &index, (row, position), told, &name, rule);
                    }
                    let name = format!("24-{of}-{row}-{long}");
                    let rule = "24: a position past its row's own length";
                    table.ask(&home, &index, (row, long), Refused(24), &name, rule);
                }
            }
        }
    }
}

/// 128 times the chart's row, and the position; absent where the position is 3 more than a
/// multiple of 7. So each point knows its place.
fn positions(table: &mut Table) {
    let at = |row: u32, position: u32, _: u32| {
        (position % 7 != 3).then_some(128 * (72 - row) + position)
    };
    for octant in [NORTH, SOUTH] {
        let mut points = Vec::new();
        for (row, &count) in (0..).zip(&octant.counts()) {
            points.extend((0..count as u32).map(|position| at(row, position, count as u32)));
        }
        let values: String = points
            .iter()
            .flatten()
            .map(|x| format!("{x:014b}"))
            .collect();
        let mut sections = octant.flat().pds(8, &[0xC0]);
        sections.bds = packed(14, &values);
        // carried in the north, stored in the south, with ones after the last point
        let mut home: Home;
        if octant.north {
            sections.bms = carried(&marks_of(&points));
            home = sections.into();
        } else {
            sections.bms = stored(65_535);
            let mut marks = bits(&marks_of(&points));
            marks.resize(3_480, true);
            home = sections.into();
            home = home.lend(65_535, &octets(&marks));
        }
        let index = places_before(&octant);
        let of = format!("octant-{}-positions", octant.number);
        table
            .fill(
                &home,
                14,
                Filled(index.to_vec()),
                &format!("fill-{of}"),
                "each point knows its row and its position",
            )
            .chart(chart(&octant, at));
        for (row, position) in [(0, 0), (0, 1), (36, 50), (40, 2), (36, 51), (70, 4)] {
            let name = format!("{of}-{row}-{position}");
            let rule = "a row and a position in that row";
            let told = Value(128 * row + position);
            table.ask(&home, &index, (row, position), told, &name, rule);
        }
        for (row, position) in [(36, 3), (36, 10), (36, 45)] {
            let name = format!("{of}-{row}-{position}");
            table.ask(
                &home,
                &index,
                (row, position),
                Absent,
                &name,
                "absent where the bit is 0",
            );
        }
        edges(table, &octant, &home, &of, &index);
    }
}

/// Ones before each group of the message above. Of c points of a row (c + 3) / 7 are
/// absent: in the north before point 256 three times 10, of rows of 73 points, and 5 of the
/// 37 points after them; in the south 34 in 17 rows, and 3 of 18 points. All 488 are absent.
fn places_before(octant: &Octant) -> [u32; 14] {
    let absent = match octant.north {
        true => [
            0, 35, 70, 106, 142, 178, 216, 252, 289, 325, 361, 398, 434, 471,
        ],
        false => [
            0, 37, 73, 109, 146, 182, 219, 256, 292, 329, 366, 402, 437, 472,
        ],
    };
    std::array::from_fn(|group| 256 * group as u32 - absent[group])
}

/// 25 in one group of the 14 alone.
fn index(table: &mut Table) {
    // grid 37 with the rows' first points: row 36 of the chart begins at point 2,398, in
    // group 9, whose 35 ones before it become 40 after it
    let home = Home {
        message: NORTH.rowed(true, Present::Firsts, 7).message(),
        lent: NORTH.lent(Present::Firsts),
    };
    let with = |group: usize, entry: u32| {
        let mut index = FIRSTS_NORTH;
        index[group] = entry;
        index
    };
    for (by, index, told) in [
        ("9-low", with(9, 34), Refused(25)),
        ("9-high", with(9, 36), Refused(25)),
        ("10-low", with(10, 39), Refused(25)),
        ("10-high", with(10, 41), Refused(25)),
        ("8-all-ones", with(8, MOST), Value(36)),
        ("11-all-ones", with(11, MOST), Value(36)),
        ("13-0", with(13, 0), Value(36)),
        ("0-1", with(0, 1), Value(36)),
    ] {
        let number = if told == Refused(25) { "25-" } else { "" };
        let name = format!("{number}octant-37-entry-{by}");
        let rule = "the place's own group decides, 9 of 14";
        table.ask(&home, &index, (36, 0), told, &name, rule);
    }
    // the last group begins at point 3,328, three points into the chart's row 11
    for (by, index, told) in [
        ("13-low", with(13, 61), Refused(25)),
        ("13-high", with(13, 63), Refused(25)),
        ("12-all-ones", with(12, MOST), Value(72)),
    ] {
        let number = if told == Refused(25) { "25-" } else { "" };
        let name = format!("{number}octant-37-last-entry-{by}");
        let rule = "the place's own group decides, the last of 14: 62 and its 11 ones are m, 73";
        table.ask(&home, &index, (0, 0), told, &name, rule);
    }
    let name = "25-octant-37-13-entries";
    let rule = "25: fewer entries than groups";
    table.ask(&home, &FIRSTS_NORTH[..13], (72, 0), Refused(25), name, rule);
}
