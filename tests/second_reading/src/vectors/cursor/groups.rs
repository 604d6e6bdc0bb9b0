//! "each group of 256 grid points", "filled once per message (14 if too short)": rows of
//! points at the edges of groups.

use super::Told::{Absent, Filled, Refused, Value};
use super::{row_of, Home, Table, MOST};

pub fn add(table: &mut Table) {
    table.group("groups");
    all_present(table);
    every_third_absent(table);
}

/// How many points a row has, and how many groups they make.
const ROWS: [(u32, usize); 12] = [
    (1, 1),
    (2, 1),
    (88, 1),
    (255, 1),
    (256, 1),
    (257, 2),
    (511, 2),
    (512, 2),
    (513, 3),
    (768, 3),
    (769, 4),
    (1_000, 4),
];

/// "With no bitmap every point counts as a one."
const ALL: [u32; 4] = [0, 256, 512, 768];

/// Columns 2, 5, 8 and so on absent: 85 of the first 256 points, 170 of 512, 256 of 768.
const THIRDS: [u32; 4] = [0, 171, 342, 512];

/// A row whose value at column c is 1,023 - c.
fn all_present(table: &mut Table) {
    for (points, groups) in ROWS {
        let drawn: Vec<Option<u32>> = (0..points).map(|column| Some(1_023 - column)).collect();
        let home = row_of(&drawn, 10, false).into();
        filled(
            table,
            &format!("row-{points}"),
            &home,
            &ALL[..groups],
            &drawn,
        );
        // the first and the last point of each group
        for group in 0..groups as u32 {
            let ends = [256 * group, (256 * group + 255).min(points - 1)];
            for column in &ends[..if ends[0] == ends[1] { 1 } else { 2 }] {
                let told = Value(1_023 - column);
                asked(
                    table,
                    &format!("row-{points}"),
                    &home,
                    &ALL[..groups],
                    *column,
                    told,
                );
            }
        }
        edges(
            table,
            &format!("row-{points}"),
            &home,
            &ALL[..groups],
            points,
        );
    }
}

/// A row with a carried bitmap whose data number k has the value 1,023 - k: of column c,
/// c less the absent columns before it, a third of c.
fn every_third_absent(table: &mut Table) {
    for (points, groups) in ROWS {
        let number = |column: u32| column - column / 3;
        let drawn: Vec<Option<u32>> = (0..points)
            .map(|column| (column % 3 != 2).then(|| 1_023 - number(column)))
            .collect();
        let home = row_of(&drawn, 10, true).into();
        let name = format!("thirds-{points}");
        filled(table, &name, &home, &THIRDS[..groups], &drawn);
        // by hand: columns of each group, and what stands there
        for (column, told) in [
            (0, Value(1_023)),
            (1, Value(1_022)),
            (2, Absent),
            (254, Absent),
            (255, Value(853)),
            (256, Value(852)),
            (257, Absent),
            (510, Value(683)),
            (511, Value(682)),
            (512, Absent),
            (513, Value(681)),
            (767, Absent),
            (768, Value(511)),
            (769, Value(510)),
            (999, Value(357)),
        ] {
            if column < points {
                asked(table, &name, &home, &THIRDS[..groups], column, told);
            }
        }
        edges(table, &name, &home, &THIRDS[..groups], points);
    }
}

/// The index filled with just enough room, with more, with one entry too few and with
/// none.
fn filled(table: &mut Table, name: &str, home: &Home, entries: &[u32], drawn: &[Option<u32>]) {
    let groups = entries.len();
    let told = Filled(entries.to_vec());
    table
        .fill(
            home,
            groups,
            told.clone(),
            &format!("fill-{name}"),
            "the number of ones before each group of 256 grid points: as many entries as groups",
        )
        .chart(vec![drawn.to_vec()]);
    for more in [1, 3] {
        table.fill_alone(
            home,
            groups + more,
            told.clone(),
            &format!("fill-{name}-{more}-more"),
            "entries after the last group stay",
        );
    }
    table.fill(
        home,
        groups - 1,
        Refused(14),
        &format!("14-{name}-one-short"),
        "14 if too short: one entry fewer than groups",
    );
    if groups > 1 {
        table.fill(
            home,
            0,
            Refused(14),
            &format!("14-{name}-none"),
            "14 if too short: no entries",
        );
    }
}

/// A place in the one row, by the index as it is filled.
fn asked(
    table: &mut Table,
    name: &str,
    home: &Home,
    index: &[u32],
    column: u32,
    told: super::Told,
) {
    let rule = match told {
        Absent => "absent where the bit is 0",
        _ => "the value whose data number is the group's entry plus the ones before it there",
    };
    table.ask(
        home,
        index,
        (0, column),
        told,
        &format!("{name}-column-{column}"),
        rule,
    );
}

/// 24 after the last point, 25 with one entry too few at the first point and at the last
/// one, and entries after the last group that are not looked at.
fn edges(table: &mut Table, name: &str, home: &Home, index: &[u32], points: u32) {
    let last = points - 1;
    table.ask(
        home,
        index,
        (0, points),
        Refused(24),
        &format!("24-{name}-column-{points}"),
        "24: the row has columns 0 to n - 1",
    );
    let short = &index[..index.len() - 1];
    let rule = "25: fewer entries than groups";
    for (place, column) in [("first", 0), ("last", last)] {
        table.ask(
            home,
            short,
            (0, column),
            Refused(25),
            &format!("25-{name}-one-short-{place}"),
            rule,
        );
    }
    table.ask(
        home,
        short,
        (0, points),
        Refused(24),
        &format!("24-{name}-one-short-past"),
        "24 before 25",
    );
    for (what, entry) in [("0", 0), ("all-ones", MOST)] {
        let longer = [index, &[entry]].concat();
        // the first point is present in every row, with the highest value
        table.ask(
            home,
            &longer,
            (0, 0),
            Value(1_023),
            &format!("{name}-one-more-{what}"),
            "entries past the last group may be anything",
        );
    }
}
