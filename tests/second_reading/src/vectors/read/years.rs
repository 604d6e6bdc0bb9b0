//! "100 is to be taken and 0 refused", on an octant and under a stored bitmap;
//! and year of century 0 beside each other fault: after 4 and after a length that
//! went wrong, before 7.

use super::pairs::{room, with_lengths};
use super::Table;
use crate::vectors::lengths::MOST_EVEN;
use crate::vectors::messages::{hex, set, set_length, specimen, stored, Sections};
use crate::vectors::octants::{NORTH, POINTS};

pub fn add(table: &mut Table) {
    elsewhere(table);
    beside(table);
}

/// 29 February 2000, 06:00.
fn leap_day(sections: Sections) -> Vec<u8> {
    sections
        .pds(13, &[100, 2, 29, 6, 0])
        .pds(25, &[20])
        .message()
}

fn elsewhere(table: &mut Table) {
    table
        .add(
            0,
            "octant-37-year-100",
            "R-3: 100 is to be taken, on a thinned grid too",
            leap_day(NORTH.flat()),
        )
        .room(POINTS, POINTS)
        .says("points", 3_447)
        .says("year", 2_000)
        .says("month", 2)
        .says("day", 29);
    table
        .add(
            6,
            "octant-37-year-0",
            "R-3: 0 refused, on a thinned grid too",
            NORTH.flat().pds(13, &[0]).message(),
        )
        .room(POINTS, POINTS);
    let under = Sections {
        bms: stored(5),
        ..specimen()
    };
    table
        .add(
            0,
            "stored-year-100",
            "R-3: 100 is to be taken, under a stored bitmap too",
            leap_day(under),
        )
        .lend(5, &hex("D0"))
        .says("year", 2_000)
        .says("month", 2)
        .says("day", 29)
        .points(&[Some(0), Some(2), None, Some(7)]);
}

/// The specimen with year of century 0, these faults, and a length put anew.
fn year_0(faults: &[u32], put: impl Fn(&mut Sections)) -> Vec<u8> {
    with_lengths(faults, "0000", |sections| {
        set(&mut sections.pds, 13, &[0]);
        put(sections);
    })
}

fn beside(table: &mut Table) {
    table.add(
        4,
        "year-0-and-4",
        "the first that applies: 4 before 6 by year 0",
        year_0(&[4], |_| {}),
    );
    // the data section's length, odd, under its least and past the end; the section
    // starts at 77
    for (reply, length) in [(20, 15), (21, 10), (22, MOST_EVEN)] {
        table.stop(
            (reply, 4, 77),
            &format!("year-0-and-{reply}"),
            &format!("where 5 stood: {reply} before 6 by year 0"),
            year_0(&[], |sections| set_length(&mut sections.bds, length)),
        );
    }
    // two octets after the data section, which ends at 90
    table.stop(
        (23, 5, 91),
        "year-0-and-23",
        "where 5 stood: 23 before 6 by year 0",
        year_0(&[], |sections| sections.bds.extend([0, 0])),
    );
    for other in [7, 8, 9, 10, 11, 12, 14] {
        table
            .add(
                6,
                &format!("year-0-and-{other}"),
                &format!("the first that applies: 6 by year 0 before {other}"),
                year_0(&[other], |_| {}),
            )
            .room(room(&[other]), room(&[other]));
    }
}
