//! fields of thinned octants, the octant given and from the catalogue.

use super::{packing, Given, Table};
use crate::vectors::messages::set;
use crate::vectors::octants::{Octant, Present, NORTH, OCTANTS, PRESENT, SOUTH};
use crate::{Grid, Rows};

pub fn add(table: &mut Table) {
    table.group("pack-octants");
    taken(table);
    fields(table);
    lists(table);
    pairs(table);
}

/// The field of which each point is 2,500 and its row, from 0 in message order.
fn rowed(octant: &Octant, with_grid: bool, present: Present, width: u8) -> Given {
    packing(
        octant.parts(with_grid, present, width),
        octant.field(present),
    )
}

fn taken(table: &mut Table) {
    for octant in OCTANTS {
        for (by, with_grid, rule) in [
            ("", true, "R-1: a given octant is written with its counts"),
            ("-no-grid", false, "R-1: take them with or without the GDS"),
        ] {
            for (kind, present) in PRESENT {
                let values: Vec<u32> = octant
                    .rows(present)
                    .iter()
                    .map(|x| x.unwrap_or(0))
                    .collect();
                let name = format!("pack-octant-{}{by}{kind}", octant.number);
                let vector = table.add(0, &name, rule, rowed(&octant, with_grid, present, 7));
                vector.scale(0, "439C4000").values(&values).room(3_300);
                // the message that the reader's vector has
                vector.message = Some(octant.rowed(with_grid, present, 7).message());
            }
        }
        // a spread of 72 with 3 bits: E = 4 makes (72 + 8) / 16 = 5, E = 3 makes 9
        let values: Vec<u32> = octant
            .rows(Present::All)
            .iter()
            .map(|x| x.map_or(0, |row| (row + 8) / 16))
            .collect();
        table
            .add(
                0,
                &format!("pack-octant-{}-n-3", octant.number),
                "E is the least for which all X are below 2^N",
                rowed(&octant, true, Present::All, 3),
            )
            .scale(4, "439C4000")
            .values(&values)
            .room(1_600);
        for number in [0, 36, octant.next().number] {
            let mut given = rowed(&octant, true, Present::All, 7);
            set(&mut given.pds, 7, &[number]);
            table
                .add(
                    0,
                    &format!("pack-octant-{}-named-{number}", octant.number),
                    "a given grid is judged by 9, and octet 7 is not compared",
                    given,
                )
                .scale(0, "439C4000")
                .room(3_300);
        }
    }
}

fn fields(table: &mut Table) {
    for octant in OCTANTS {
        let own = octant.grid();
        let other = octant.other_half().grid();
        let mut wrong = octant.wrong();
        wrong.push((
            "counts-of-the-other-half".into(),
            Grid {
                rows: other.rows,
                ..own
            },
        ));
        wrong.push((
            "corners-of-the-other-half".into(),
            Grid {
                rows: own.rows,
                ..other
            },
        ));
        wrong.push((
            "neither".into(),
            Grid {
                rows: Rows::Neither,
                ..own
            },
        ));
        wrong.push((
            "even".into(),
            Grid {
                rows: Rows::Even,
                ..own
            },
        ));
        for (name, grid) in wrong {
            let mut given = rowed(&octant, true, Present::All, 7);
            given.form.grid = Some(grid);
            table
                .add(
                    9,
                    &format!("pack-9-octant-{}-{name}", octant.number),
                    "9: a thinned grid that isn't by value one of the eight",
                    given,
                )
                .room(3_300);
        }
    }
}

fn lists(table: &mut Table) {
    for octant in [NORTH, SOUTH] {
        for (by, with_grid) in [("", true), ("-no-grid", false)] {
            let not_n = "13: source lists not n long, and n is the sum of the counts";
            let unequal = "18: source lists unequal";
            for (reply, numbers, marks, rule) in [
                (13, 3_446, 3_446, not_n),
                (0, 3_447, 3_447, "R-1: n is the sum of the counts"),
                (13, 3_448, 3_448, not_n),
                (13, 5_329, 5_329, not_n),
                (18, 3_446, 3_447, unequal),
                (18, 3_447, 3_446, unequal),
                (18, 3_448, 3_447, unequal),
                (18, 3_447, 3_448, unequal),
                (18, 0, 0, "18: source lists 0 long"),
            ] {
                let mut given = rowed(&octant, with_grid, Present::All, 7);
                given.source.numbers.resize(numbers, 2_500);
                given.source.marks.resize(marks, 1);
                table
                    .add(
                        reply,
                        &format!(
                            "pack-octant-{}{by}-numbers-{numbers}-marks-{marks}",
                            octant.number
                        ),
                        rule,
                        given,
                    )
                    .room(3_300);
            }
        }
        // 8, 28, 178, 3,028 and 4
        for (reply, room) in [(14, 3_100), (14, 3_245), (0, 3_246), (0, 3_247)] {
            table
                .add(
                    reply,
                    &format!("pack-14-octant-{}-{room}", octant.number),
                    "14: lent output too short; later octets stay",
                    rowed(&octant, true, Present::All, 7),
                )
                .room(room);
        }
        for (reply, held) in [(10, 430), (0, 431)] {
            let mut given = rowed(&octant, true, Present::Lasts, 7);
            given.lent.octets.truncate(held);
            table.add(
                reply,
                &format!("pack-10-octant-{}-of-{held}", octant.number),
                "10: its octets hold at least n bits",
                given,
            );
        }
    }
}

/// Grid 37 with a stored bitmap and these faults, each of which alone gets the
/// reply that is its number. 7 is only possible without a grid, 9 only with one.
fn with(faults: &[u32]) -> Given {
    let mut given = rowed(&NORTH, !faults.contains(&7), Present::Lasts, 7);
    for fault in faults {
        match fault {
            // octets 1-3 say 29
            5 => set(&mut given.pds, 3, &[29]),
            18 => given.source.marks[0] = 2,
            15 => given.source.d = 2,
            // flag bit 1
            11 => given.form.flags = 8,
            // month 13
            6 => set(&mut given.pds, 14, &[13]),
            // the number before the octants'
            7 => set(&mut given.pds, 7, &[36]),
            // the south's counts
            9 => given.form.grid.as_mut().expect("not with 7").rows = Rows::FromPole,
            10 => given.lent.octets.truncate(430),
            // octet 8 denies the bitmap
            13 => given.pds[7] &= 0x80,
            _ => panic!("no fault {fault}"),
        }
    }
    given
}

fn pairs(table: &mut Table) {
    for (reply, others) in [
        (5, &[18, 15, 11, 6, 7, 9, 10, 13][..]),
        (18, &[15, 11, 6, 7, 9, 10, 13]),
        (15, &[11, 6, 7, 9, 10, 13]),
        (11, &[6, 7, 9, 10, 13]),
        (6, &[7, 9, 10, 13]),
        (7, &[10, 13]),
        (9, &[10, 13]),
        (10, &[13]),
        (13, &[]),
    ] {
        let rule = "the fault that the pairs have, alone";
        let name = format!("pack-octant-alone-{reply}");
        table.add(reply, &name, rule, with(&[reply]));
        for &other in others {
            let rule = format!("the first that applies: {reply} before {other}");
            let name = format!("pack-octant-pair-{reply}-and-{other}");
            table.add(reply, &name, &rule, with(&[reply, other]));
        }
    }
    for number in [36, 46] {
        let mut given = rowed(&NORTH, false, Present::All, 7);
        set(&mut given.pds, 7, &[number]);
        table.add(
            7,
            &format!("pack-7-grid-{number}-field"),
            "7: no grid given, octet 7 not in the catalogue",
            given,
        );
    }
}
