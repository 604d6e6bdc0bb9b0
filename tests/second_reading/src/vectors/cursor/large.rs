//! As many points as a grid may have: 256 groups.

use super::Told::{Absent, Filled, Refused, Value};
use super::{Home, Table, MOST};
use crate::vectors::messages::{flat, listed, packed, stored};

pub fn add(table: &mut Table) {
    table.group("large");
    constant(table);
    few(table);
    alternating(table);
}

/// Entries without a bitmap.
fn all(groups: u32) -> Vec<u32> {
    (0..groups).map(|group| 256 * group).collect()
}

/// No bitmap and N = 0: the widest row, the highest column, the largest square, and grids
/// of the catalogue: 144 x 73, 360 x 181, 145 x 37. The charts below have values that
/// differ: of these the largest are not asked at every place.
fn constant(table: &mut Table) {
    for (of, sections, (rows, columns), groups) in [
        ("65534-by-1", flat(65_534, 1), (1, 65_534), 256),
        ("1-by-65534", flat(1, 65_534), (65_534, 1), 256),
        ("256-by-256", flat(256, 256), (256, 256), 256),
        ("grid-2", listed(2), (73, 144), 42),
        ("grid-3", listed(3), (181, 360), 255),
        ("grid-29", listed(29), (37, 145), 21),
    ] {
        let home: Home = sections.into();
        let index = all(groups);
        let rule = "with no bitmap every point counts as a one";
        let name = format!("fill-{of}");
        let told = Filled(index.clone());
        if groups < 100 {
            table.fill(&home, groups as usize, told, &name, rule);
        } else {
            table.fill_alone(&home, groups as usize, told, &name, rule);
        }
        let name = format!("fill-{of}-one-more");
        let rule = "entries after the last group stay";
        table.fill_alone(
            &home,
            groups as usize + 1,
            Filled(index.clone()),
            &name,
            rule,
        );
        let name = format!("14-{of}");
        table.fill(
            &home,
            groups as usize - 1,
            Refused(14),
            &name,
            "14 if too short",
        );
        for (row, column) in [(0, 0), (rows - 1, columns - 1), (rows / 2, columns / 2)] {
            let name = format!("{of}-{row}-{column}");
            let rule = "N = 0: every value is 0";
            table.ask(&home, &index, (row, column), Value(0), &name, rule);
            let name = format!("25-{of}-{row}-{column}-one-short");
            let rule = "25: fewer entries than groups";
            let short = &index[..groups as usize - 1];
            table.ask(&home, short, (row, column), Refused(25), &name, rule);
        }
        for (row, column) in [(rows, 0), (0, columns), (MOST, MOST)] {
            let name = format!("24-{of}-{row}-{column}");
            let rule = "24 for a place outside the chart";
            table.ask(&home, &index, (row, column), Refused(24), &name, rule);
        }
    }
    // 256 columns times this row is 2^32
    let home: Home = flat(256, 256).into();
    let name = "24-256-by-256-16777216-0";
    let rule = "24 for a place outside the chart";
    table.ask(&home, &all(256), (16_777_216, 0), Refused(24), name, rule);
}

/// 256 x 256 points by a stored bitmap, rows running north: points 0, 32,768 and 65,535
/// alone, values 200, 100 and 50. They are the chart's (255, 0), (127, 0) and (0, 255).
fn few(table: &mut Table) {
    let mut sections = flat(256, 256).pds(8, &[0xC0]);
    sections.bms = stored(700);
    sections.bds = packed(8, "11001000 01100100 00110010");
    let mut marks = vec![0; 8_192];
    marks[0] = 0x80;
    marks[4_096] = 0x80;
    marks[8_191] = 0x01;
    let home = Home::from(sections).lend(700, &marks);
    // group g before which stand no ones, one, and two: point 32,768 begins group 128
    let mut index = vec![2; 256];
    index[0] = 0;
    index[1..129].fill(1);
    let rule = "the lent stored bitmap: three ones among 65,536";
    table.fill_alone(&home, 256, Filled(index.clone()), "fill-few", rule);
    table.fill(&home, 255, Refused(14), "14-few", "14 if too short");
    for (row, column, told) in [
        (255, 0, Value(200)),
        (127, 0, Value(100)),
        (0, 255, Value(50)),
        (255, 1, Absent),
        (127, 1, Absent),
        (128, 0, Absent),
        (0, 254, Absent),
    ] {
        let name = format!("few-{row}-{column}");
        table.ask(&home, &index, (row, column), told, &name, rule);
    }
    for (by, group, entry, place) in [
        ("first", 0, 1, (255, 0)),
        ("next", 1, 0, (255, 0)),
        ("middle", 128, 2, (127, 0)),
        ("last-low", 255, 1, (0, 255)),
        ("last-high", 255, 3, (0, 255)),
    ] {
        let mut other = index.clone();
        other[group] = entry;
        let name = format!("25-few-{by}");
        let rule = "25: the group's entry plus its ones isn't the next entry, or m";
        table.ask(&home, &other, place, Refused(25), &name, rule);
    }
}

/// 256 x 256 points without a bitmap, of one bit each: 0 and 1 in turn in the even rows of
/// the message, 1 throughout in the odd ones.
fn alternating(table: &mut Table) {
    let mut sections = flat(256, 256);
    let rows = "01".repeat(128) + &"1".repeat(256);
    sections.bds = packed(1, &rows.repeat(128));
    let home: Home = sections.into();
    let rule = "one bit for a value: a row of the message is a group";
    table
        .fill(&home, 256, Filled(all(256)), "fill-alternating", rule)
        .chart(
            (0..256)
                .map(|row: u32| {
                    let odd = (255 - row) % 2;
                    (0..256).map(|column| Some(odd.max(column % 2))).collect()
                })
                .collect(),
        );
    for (row, column, x) in [
        (255, 0, 0),
        (255, 1, 1),
        (254, 0, 1),
        (0, 0, 1),
        (1, 254, 0),
    ] {
        let name = format!("alternating-{row}-{column}");
        table.ask(&home, &all(256), (row, column), Value(x), &name, rule);
    }
}
