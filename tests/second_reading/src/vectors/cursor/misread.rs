//! For misreadings of R-6, vectors that would come out otherwise; `misreaders` tries each
//! misreading on the whole table.

use super::Told::{Absent, Filled, Refused, Value};
use super::{index, row_of, Home, Table, MOST};
use crate::vectors::messages::{bits, flat, octets, packed, stored};
use crate::vectors::octants::{Present, NORTH};

pub fn add(table: &mut Table) {
    table.group("misread");
    numbers(table);
    groups(table);
    bitmap(table);
    refusals(table);
}

/// The value of another point.
fn numbers(table: &mut Table) {
    // points 0 to 3: absent, 1, absent, 2; and 3 at point 4
    let points = [None, Some(1), None, Some(2), Some(3)];
    let home: Home = row_of(&points, 4, true).into();
    let rule = "data number 1, after one present point; its own number, 3, is past the values";
    table.ask(&home, &[0], (0, 3), Value(2), "misread-grid-number", rule);
    let rule = "data number 0; its own number, 1, is the next value";
    table.ask(
        &home,
        &[0],
        (0, 1),
        Value(1),
        "misread-grid-number-next",
        rule,
    );

    // columns run west: (0, 0) is the last point; chart order would make it the first
    let mut sections = row_of(&points, 4, true);
    sections.gds[27] = 0xC0;
    let home: Home = sections.into();
    let rule = "columns run west: the last of three values; in the chart's order the first";
    table.ask(&home, &[0], (0, 0), Value(3), "misread-chart-order", rule);
    table.ask(
        &home,
        &[0],
        (0, 4),
        Absent,
        "misread-chart-order-absent",
        rule,
    );

    // of index [1, 101, ..] the first value is data number 1's
    let home = index::three();
    let rule = "the entry is taken as it stands: data number 1, not the count of ones before, 0";
    table.ask(
        &home,
        &[1, 101, 0],
        (0, 0),
        Value(4),
        "misread-own-count",
        rule,
    );
    let rule = "the ones before the place, not up to it: the first value, not the second";
    table.ask(
        &home,
        &[0, 100, 228],
        (0, 0),
        Value(1),
        "misread-ones-up-to",
        rule,
    );
}

/// Another group.
fn groups(table: &mut Table) {
    let home = index::three();
    let filled = [0, 100, 228];
    let rule = "point 255 is in the first group: (255 + 1) / 256 is the second";
    let short = [1, 100, 228];
    table.ask(
        &home,
        &short,
        (0, 255),
        Refused(25),
        "25-misread-group-of-255",
        rule,
    );
    let rule = "point 256 is in the second group: the first group's bad entry is another's";
    table.ask(
        &home,
        &short,
        (0, 256),
        Value(301),
        "misread-group-of-256",
        rule,
    );
    let rule = "point 511 is in the second group";
    let bad = [0, 101, 228];
    table.ask(
        &home,
        &bad,
        (0, 511),
        Refused(25),
        "25-misread-group-of-511",
        rule,
    );
    table.ask(
        &home,
        &filled,
        (0, 511),
        Absent,
        "misread-group-of-511",
        rule,
    );
    // 256 points: one group, and not two; 257: two, and not one
    let one: Home = flat(256, 1).into();
    let two: Home = flat(257, 1).into();
    let rule = "256 points are one group, not n / 256 + 1";
    table.fill(&one, 1, Filled(vec![0]), "fill-misread-one-group", rule);
    table.ask(&one, &[0], (0, 255), Value(0), "misread-one-group", rule);
    let rule = "257 points are two groups, not n / 256";
    table.fill(&two, 1, Refused(14), "14-misread-two-groups", rule);
    let rule = "one entry is too few for 257 points, though 1 and 256 are m";
    table.ask(
        &two,
        &[1],
        (0, 0),
        Refused(25),
        "25-misread-two-groups",
        rule,
    );
}

/// Other bits.
fn bitmap(table: &mut Table) {
    // 12 points by stored bitmap 7: 0110 1100 1011, then ones
    let mut sections = flat(12, 1).pds(8, &[0xC0]);
    sections.bms = stored(7);
    sections.bds = packed(3, "001 010 011 100 101 110 111");
    let marks = octets(&bits("0110 1100 1011 1111"));
    let home = Home::from(sections).lend(7, &marks);
    let rule = "the ones are the stored bitmap's: data number 1; were every point one, 2";
    table.fill(&home, 1, Filled(vec![0]), "fill-misread-stored", rule);
    table.ask(&home, &[0], (0, 2), Value(2), "misread-stored", rule);
    let rule = "absent by the stored bitmap";
    table.ask(&home, &[0], (0, 0), Absent, "misread-stored-absent", rule);
    let rule = "seven ones are m; with the bits after the twelfth there would be 11";
    table.ask(&home, &[0], (0, 11), Value(7), "misread-bits-after", rule);
    // no bitmap: m is n
    let home: Home = row_of(&[Some(6), Some(5), Some(4)], 3, false).into();
    let rule = "with no bitmap every point counts as a one, not as none";
    table.ask(&home, &[0], (0, 2), Value(4), "misread-no-bitmap", rule);
}

/// Refused otherwise, or in another order.
fn refusals(table: &mut Table) {
    let home = index::three();
    let rule = "25 of the place's own group: the last entry is another's";
    table.ask(
        &home,
        &[0, 100, 5],
        (0, 0),
        Value(1),
        "misread-whole-index",
        rule,
    );
    let rule = "24 before 25: an index of no entries, and no such column";
    table.ask(
        &home,
        &[],
        (0, 600),
        Refused(24),
        "24-misread-before-25",
        rule,
    );
    let rule = "24 before 25: 25 would look at the last group's entry, and refuse it";
    table.ask(
        &home,
        &[0, 100, 5],
        (0, 600),
        Refused(24),
        "24-misread-bad-entry",
        rule,
    );
    let rule = "an absent place with a bad index is 25";
    table.ask(
        &home,
        &[1, 100, 228],
        (0, 100),
        Refused(25),
        "25-misread-absent",
        rule,
    );
    let rule = "4,294,967,295 and 100 are not 99";
    table.ask(
        &home,
        &[MOST, 99, 228],
        (0, 0),
        Refused(25),
        "25-misread-wraps",
        rule,
    );
    let rule = "above m, though the next entry agrees";
    table.ask(
        &home,
        &[209, 309, 228],
        (0, 0),
        Refused(25),
        "25-misread-above-m",
        rule,
    );
    let rule = "the last group's next is m, not the entry after it";
    let index = [0, 100, 227, 307];
    table.ask(
        &home,
        &index,
        (0, 520),
        Refused(25),
        "25-misread-entry-after",
        rule,
    );
    let rule = "fewer entries than groups, though this group's and the next are there";
    table.ask(
        &home,
        &[0, 100],
        (0, 0),
        Refused(25),
        "25-misread-one-short",
        rule,
    );
    let rule = "entries after the last group stay, and are not counted";
    let entries = Filled(vec![0, 100, 228]);
    table.fill(&home, 7, entries, "fill-misread-entries-after", rule);
    // a row of 2 points, though the longest has 73
    let home = Home {
        message: NORTH.rowed(true, Present::Firsts, 7).message(),
        lent: NORTH.lent(Present::Firsts),
    };
    let name = "24-misread-row-of-its-own";
    let rule = "24: the northernmost row has two points, not 73";
    table.ask(&home, &[0; 14], (0, 2), Refused(24), name, rule);
}
