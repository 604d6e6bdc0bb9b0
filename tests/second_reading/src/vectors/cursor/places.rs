//! "then 24 for a place outside the chart", before 25.

use super::Told::{Filled, Refused, Value};
use super::{Home, Table, MOST};
use crate::vectors::messages::{flat, plain};

pub fn add(table: &mut Table) {
    table.group("places");
    specimen(table);
    rectangles(table);
}

const OFF: &str = "24 for a place outside the chart";
const BEFORE: &str = "24 before 25: the index is not looked at";

/// The specimen without its bitmap: points 2 and 3, of values 5 and 7, are the chart's row
/// 0, and 0 and 1, of 0 and 2, its row 1.
fn specimen(table: &mut Table) {
    let home: Home = plain().into();
    table
        .fill(
            &home,
            1,
            Filled(vec![0]),
            "fill-plain",
            "the specimen without its bitmap",
        )
        .chart(vec![vec![Some(5), Some(7)], vec![Some(0), Some(2)]]);
    for (row, column, x) in [(0, 0, 5), (0, 1, 7), (1, 0, 0), (1, 1, 2)] {
        let name = format!("plain-{row}-{column}");
        let rule = "rows run north: chart row 0 is the last in the message";
        table.ask(&home, &[0], (row, column), Value(x), &name, rule);
        let name = format!("25-plain-{row}-{column}");
        let rule = "25, the place being on the chart";
        table.ask(&home, &[], (row, column), Refused(25), &name, rule);
    }
    off(table, &home, "plain", &[0], (2, 2));
    // two columns times this row is 2^32, and nothing in 32 bits
    for (row, column) in [(2_147_483_648, 0), (2_147_483_648, 1), (2_147_483_649, 0)] {
        let name = format!("24-plain-{row}-{column}");
        table.ask(&home, &[0], (row, column), Refused(24), &name, OFF);
    }
    // row 0, column 2 and 3 would be points 2 and 3 were they counted on
    for (row, column) in [(0, 3), (1, 3), (3, 0), (3, 1)] {
        let name = format!("24-plain-{row}-{column}");
        table.ask(&home, &[0], (row, column), Refused(24), &name, OFF);
    }
}

/// Just outside and far, each with the index as it is filled and with none.
fn off(table: &mut Table, home: &Home, of: &str, index: &[u32], (rows, columns): (u32, u32)) {
    let mut places = vec![
        (0, columns),
        (rows, 0),
        (rows, columns),
        (0, MOST),
        (MOST, 0),
        (MOST, MOST),
        (0, 65_536),
        (65_536, 0),
        (rows - 1, columns + 65_536),
        (rows, MOST),
        (MOST, columns),
    ];
    if rows > 1 {
        places.extend([(rows - 1, columns), (rows - 1, MOST)]);
    }
    if columns > 1 {
        places.extend([(rows, columns - 1), (MOST, columns - 1)]);
    }
    for (row, column) in places {
        let name = format!("24-{of}-{row}-{column}");
        table.ask(home, index, (row, column), Refused(24), &name, OFF);
        for (by, bad) in [("empty", vec![]), ("all-ones", vec![MOST; index.len()])] {
            let name = format!("24-{of}-{row}-{column}-{by}");
            table.ask(home, &bad, (row, column), Refused(24), &name, BEFORE);
        }
    }
}

/// Without a bitmap and with N = 0: one row, one column, and a rectangle.
fn rectangles(table: &mut Table) {
    for (columns, rows, index) in [
        (600, 1, &[0, 256, 512][..]),
        (1, 600, &[0, 256, 512]),
        (20, 15, &[0, 256]),
        (16, 16, &[0]),
    ] {
        let of = format!("{columns}-by-{rows}");
        let home: Home = flat(columns, rows).into();
        let entries = Filled(index.to_vec());
        let name = format!("fill-{of}");
        let drawn = vec![vec![Some(0); columns.into()]; rows.into()];
        let rule = "with no bitmap every point counts as a one";
        table
            .fill(&home, index.len(), entries, &name, rule)
            .chart(drawn);
        let (rows, columns) = (rows as u32, columns as u32);
        for (row, column) in [(0, 0), (rows - 1, columns - 1)] {
            let name = format!("{of}-{row}-{column}");
            let rule = "N = 0: every value is 0";
            table.ask(&home, index, (row, column), Value(0), &name, rule);
        }
        off(table, &home, &of, index, (rows, columns));
    }
}
