//! thinned octants and their fields.

use super::Table;
use crate::vectors::messages::Sections;
use crate::vectors::octants::{Octant, Present, NORTH, OCTANTS, PRESENT, SOUTH};
use crate::{Lent, Source};

pub fn add(table: &mut Table) {
    table.group("check-octants");
    taken(table);
    refused(table);
    lists(table);
    points(table);
}

/// A message of the octant whose values are rows, a field beside it, and what is
/// lent.
fn add_one(
    table: &mut Table,
    reply: u32,
    name: &str,
    rule: &str,
    sections: &Sections,
    source: Source,
    lent: Lent,
) {
    table
        .add(reply, name, rule, sections.message(), source)
        .lent = lent;
}

fn taken(table: &mut Table) {
    for octant in OCTANTS {
        for (by, with_gds) in [("", true), ("-no-gds", false)] {
            for (kind, present) in PRESENT {
                add_one(
                    table,
                    0,
                    &format!("check-octant-{}{by}{kind}", octant.number),
                    "R-1: an octant and its field",
                    &octant.rowed(with_gds, present, 8),
                    octant.field(present),
                    octant.lent(present),
                );
            }
        }
    }
}

fn refused(table: &mut Table) {
    let right = |octant: &Octant| octant.field(Present::All);
    for octant in OCTANTS {
        let number = octant.number;
        let own = octant.counts();
        let more = |row: usize| {
            let mut counts = own.clone();
            counts[row] += 1;
            octant.with_counts(&counts)
        };
        for (reply, name, rule, sections) in [
            (
                8,
                "octet-5-255",
                "8: length 178 goes with octet 5 = 33",
                octant.flat().gds(5, &[255]),
            ),
            (8, "length-176", "8: a GDS of 176 octets", octant.long(176)),
            (
                8,
                "octet-4-255",
                "8: octet 4 is 0",
                octant.flat().gds(4, &[255]),
            ),
            (
                9,
                "other-half",
                "9: the other half's counts",
                octant.with_counts(&octant.other_half().counts()),
            ),
            (
                9,
                "formula",
                "9: 74 points at the equator",
                octant.with_counts(&octant.by_the_formula()),
            ),
            (9, "first-row", "9: a point more in the first row", more(0)),
            (9, "last-row", "9: a point more in the last row", more(72)),
        ] {
            add_one(
                table,
                reply,
                &format!("check-octant-{number}-{name}"),
                rule,
                &sections,
                right(&octant),
                Lent::default(),
            );
        }
        for (name, grid) in octant.wrong() {
            add_one(
                table,
                9,
                &format!("check-octant-{number}-{name}"),
                "9: a thinned GDS that isn't by value one of the eight",
                &octant.with_fields(&grid),
                right(&octant),
                Lent::default(),
            );
        }
    }
    for number in [36, 46] {
        add_one(
            table,
            7,
            &format!("check-grid-{number}"),
            "7: no GDS, octet 7 not in the catalogue",
            &NORTH.rowed(false, Present::All, 8).pds(7, &[number]),
            right(&NORTH),
            Lent::default(),
        );
    }
}

fn lists(table: &mut Table) {
    for octant in [NORTH, SOUTH] {
        for (by, with_gds) in [("", true), ("-no-gds", false)] {
            for (reply, numbers, marks, rule) in [
                (
                    15,
                    3_446,
                    3_446,
                    "15: point count of message and source differ",
                ),
                (0, 3_447, 3_447, "R-1: n is the sum of the counts"),
                (
                    15,
                    3_448,
                    3_448,
                    "15: point count of message and source differ",
                ),
                (18, 3_446, 3_447, "18: source lists unequal"),
                (18, 3_447, 3_446, "18: source lists unequal"),
                (18, 3_448, 3_447, "18: source lists unequal"),
                (18, 3_447, 3_448, "18: source lists unequal"),
                (18, 0, 0, "18: source lists 0 long"),
                (
                    15,
                    5_329,
                    5_329,
                    "15: point count of message and source differ",
                ),
            ] {
                let mut source = octant.field(Present::All);
                source.numbers.resize(numbers, 2_500);
                source.marks.resize(marks, 1);
                add_one(
                    table,
                    reply,
                    &format!(
                        "check-octant-{}{by}-numbers-{numbers}-marks-{marks}",
                        octant.number
                    ),
                    rule,
                    &octant.rowed(with_gds, Present::All, 8),
                    source,
                    Lent::default(),
                );
            }
        }
    }
}

fn points(table: &mut Table) {
    for octant in [NORTH, SOUTH] {
        let number = octant.number;
        let first_row = octant.counts()[0] as usize;
        // the ends of the first two rows, and of the last
        for point in [0, first_row - 1, first_row, 3_445, 3_446] {
            let mut source = octant.field(Present::All);
            source.numbers[point] += 1;
            add_one(
                table,
                17,
                &format!("17-octant-{number}-point-{point}"),
                "17: a present point is out by more than half a step",
                &octant.rowed(true, Present::All, 8),
                source,
                Lent::default(),
            );
            for (kind, present) in PRESENT {
                let mut source = octant.field(present);
                source.marks[point] ^= 1;
                add_one(
                    table,
                    15,
                    &format!("15-octant-{number}{kind}-mark-{point}"),
                    "15: marks of message and source differ",
                    &octant.rowed(true, present, 8),
                    source,
                    octant.lent(present),
                );
            }
        }
        let mut source = octant.field(Present::All);
        source.d = 2;
        add_one(
            table,
            15,
            &format!("15-octant-{number}-d"),
            "15: D of message and source differ",
            &octant.rowed(true, Present::All, 8),
            source,
            Lent::default(),
        );
        // the same field upside down
        let mut source = octant.field(Present::All);
        source.numbers.reverse();
        add_one(
            table,
            17,
            &format!("17-octant-{number}-reversed"),
            "17: points are numbered in message order",
            &octant.rowed(true, Present::All, 8),
            source,
            Lent::default(),
        );
    }
}
