//! One picture under each setting of the scanning flags, on each kind of grid: a place has
//! the same value under all, and another data number.

use super::Told::{Absent, Filled, Refused, Value};
use super::{marks_of, Home, Table};
use crate::vectors::kinds::{Kind, FIVE, LATLON};
use crate::vectors::messages::{bits, carried, octets, packed, specimen, stored, Sections};

pub fn add(table: &mut Table) {
    table.group("scan");
    small(table);
    for kind in FIVE {
        pictures(table, &kind);
    }
}

/// 20 columns and 15 rows: column 4 is absent, and columns 10 to 19 of row 2. Elsewhere 32
/// times the row, and the column.
const COLUMNS: usize = 20;
const ROWS: usize = 15;

fn picture(row: usize, column: usize) -> Option<u32> {
    let absent = column == 4 || (row == 2 && column >= 10);
    (!absent).then_some((32 * row + column) as u32)
}

/// Scanning flags; how many ones stand before point 256 in message order: the 275 present
/// points but for those of the last 44 points, which are
///
/// * row 12's columns 16 to 19 and rows 13 and 14 (00), its columns 3 to 0 (80): 42 ones;
/// * row 2's columns 16 to 19, all absent, and rows 1 and 0 (40): 38; its columns 3 to 0
///   (C0): 42;
/// * of column 17 rows 1 to 14 (20) or 13 to 0 (60), and columns 18 and 19, row 2 absent in
///   each: 41;
/// * of column 2 rows 1 to 14 (A0) or 13 to 0 (E0), and columns 1 and 0: 44.
const SETTINGS: [(u8, u32); 8] = [
    (0x00, 275 - 42),
    (0x20, 275 - 41),
    (0x40, 275 - 38),
    (0x60, 275 - 41),
    (0x80, 275 - 42),
    (0xA0, 275 - 44),
    (0xC0, 275 - 42),
    (0xE0, 275 - 44),
];

/// A picture's points in message order, walked as the flags say: columns run west, rows
/// run north, points of one column are consecutive.
fn walked<T>(scan: u8, rows: usize, columns: usize, at: impl Fn(usize, usize) -> T) -> Vec<T> {
    let mut all_columns: Vec<usize> = (0..columns).collect();
    let mut all_rows: Vec<usize> = (0..rows).collect();
    if scan & 0x80 != 0 {
        all_columns.reverse();
    }
    if scan & 0x40 != 0 {
        all_rows.reverse();
    }
    let mut points = Vec::new();
    if scan & 0x20 != 0 {
        for &column in &all_columns {
            points.extend(all_rows.iter().map(|&row| at(row, column)));
        }
    } else {
        for &row in &all_rows {
            points.extend(all_columns.iter().map(|&column| at(row, column)));
        }
    }
    points
}

/// A message of points with a carried bitmap.
fn message(kind: &Kind, scan: u8, rows: u16, columns: u16, points: &[Option<u32>]) -> Sections {
    let values: String = points
        .iter()
        .flatten()
        .map(|x| format!("{x:09b}"))
        .collect();
    Sections {
        gds: kind.spelled(&kind.turned(columns, rows, scan)),
        bms: carried(&marks_of(points)),
        bds: packed(9, &values),
        ..specimen()
    }
}

/// 3 columns and 2 rows, drawn by hand: one group.
fn small(table: &mut Table) {
    const DRAWN: [[Option<u32>; 3]; 2] = [[Some(1), None, Some(30)], [Some(400), Some(0), None]];
    for (scan, _) in SETTINGS {
        let points = walked(scan, 2, 3, |row, column| DRAWN[row][column]);
        let home: Home = message(&LATLON, scan, 2, 3, &points).into();
        let rule = "the same chart under each setting of the scanning flags";
        table
            .fill(
                &home,
                1,
                Filled(vec![0]),
                &format!("fill-small-scan-{scan:02X}"),
                rule,
            )
            .chart(DRAWN.iter().map(|row| row.to_vec()).collect());
        for (row, columns) in (0..).zip(DRAWN) {
            for (column, x) in (0..).zip(columns) {
                let name = format!("small-scan-{scan:02X}-{row}-{column}");
                table.ask(
                    &home,
                    &[0],
                    (row, column),
                    x.map_or(Absent, Value),
                    &name,
                    rule,
                );
            }
        }
    }
}

/// Places of the picture: its corners, absent ones, and others.
const PLACES: [(u32, u32, Option<u32>); 10] = [
    (0, 0, Some(0)),
    (0, 19, Some(19)),
    (14, 0, Some(448)),
    (14, 19, Some(467)),
    (0, 4, None),
    (14, 4, None),
    (2, 10, None),
    (2, 19, None),
    (2, 9, Some(73)),
    (12, 16, Some(400)),
];

fn pictures(table: &mut Table, kind: &Kind) {
    for (scan, second) in SETTINGS {
        let points = walked(scan, ROWS, COLUMNS, picture);
        let mut sections = message(kind, scan, ROWS as u16, COLUMNS as u16, &points);
        let mut home: Home = sections.clone().into();
        // the bitmap stored, on every other kind
        if kind.number % 2 == 1 {
            sections.bms = stored(33);
            home = Home::from(sections).lend(33, &octets(&bits(&marks_of(&points))));
        }
        let of = format!("{}-scan-{scan:02X}", kind.name);
        let index = [0, second];
        let rows = (0..ROWS).map(|row| (0..COLUMNS).map(|column| picture(row, column)).collect());
        table
            .fill(
                &home,
                2,
                Filled(index.to_vec()),
                &format!("fill-{of}"),
                "ones before point 256 in message order, and the same chart",
            )
            .chart(rows.collect());
        for (row, column, x) in PLACES {
            let name = format!("{of}-{row}-{column}");
            let rule = "the same chart under each setting of the scanning flags";
            table.ask(
                &home,
                &index,
                (row, column),
                x.map_or(Absent, Value),
                &name,
                rule,
            );
        }
        for (row, column) in [(0, 20), (15, 0), (14, 20), (15, 19)] {
            let name = format!("24-{of}-{row}-{column}");
            let rule = "24: rows 0 to 14, columns 0 to 19, whatever the flags say";
            table.ask(&home, &index, (row, column), Refused(24), &name, rule);
        }
    }
}
