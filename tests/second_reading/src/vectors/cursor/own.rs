//! "Refusals: the message's own", before 14, 24 and 25: 1 to 4, 20 to 23 with section and
//! place, 6 to 12.

use super::Told::{Absent, Filled, Refused, Stopped, Value};
use super::{Home, Table, Told, MOST};
use crate::vectors::kinds::FOUR;
use crate::vectors::lengths::{called, homes, octant_carried, whole, Home as Lengths, MOST_EVEN};
use crate::vectors::messages::{hex, specimen, stored};
use crate::vectors::read::{with, with_lengths};
use crate::Lent;

pub fn add(table: &mut Table) {
    table.group("own");
    alone(table);
    lengths(table);
    more_lengths(table);
    kinds(table);
    lent(table);
}

/// A message that is refused: filled with room for all and for nothing, and asked at a
/// place and by an index that would do, and that would not.
fn both(table: &mut Table, home: &Home, told: &Told, of: &str, what: &str) {
    let number = told.reply();
    let of = format!("{number}-{of}");
    let rule = format!("the message's own: {what}");
    table.fill(home, 300, told.clone(), &format!("{of}-fill"), &rule);
    let rule = format!("the message's own before 14: {what}");
    table.fill(home, 0, told.clone(), &format!("{of}-fill-none"), &rule);
    for (by, index, place, before) in [
        ("ask", &[0][..], (0, 0), ""),
        ("ask-off", &[0], (MOST, MOST), " before 24"),
        ("ask-short", &[], (0, 0), " before 25"),
        ("ask-off-short", &[], (9, 9), " before 24 and 25"),
    ] {
        let rule = format!("the message's own{before}: {what}");
        table.ask(
            home,
            index,
            place,
            told.clone(),
            &format!("{of}-{by}"),
            &rule,
        );
    }
}

/// The specimen with a fault.
fn alone(table: &mut Table) {
    let home: Home = specimen().into();
    table.fill(
        &home,
        1,
        Filled(vec![0]),
        "fill-specimen",
        "bitmap 1101, values 0, 2, 7",
    );
    for (row, column, told) in [
        (0, 0, Absent),
        (0, 1, Value(7)),
        (1, 0, Value(0)),
        (1, 1, Value(2)),
    ] {
        let name = format!("specimen-{row}-{column}");
        let rule = "bitmap 1101, values 0, 2, 7; rows run north";
        table.ask(&home, &[0], (row, column), told, &name, rule);
    }
    for (number, what) in [
        (1, "slice above 262,144 octets"),
        (2, "first four octets not 'GRIB'"),
        (3, "edition not 1"),
        (4, "last four octets not '7777'"),
        (6, "month 13"),
        (7, "no GDS, octet 7 not in the catalogue"),
        (8, "GDS octet 5 is 0"),
        (9, "rows running south, La2 above La1"),
        (10, "11 unused bits, five points"),
        (11, "BDS flag bit 1 set"),
        (12, "14 unused bits, ten bits of values"),
    ] {
        let home = Home {
            message: with(&[number]),
            lent: Lent::default(),
        };
        both(table, &home, &Refused(number), "specimen", what);
    }
    let nothing = Home {
        message: Vec::new(),
        lent: Lent::default(),
    };
    both(table, &nothing, &Refused(1), "empty", "no octets");
    let seven = Home {
        message: b"GRIB\0\0\x07".to_vec(),
        lent: Lent::default(),
    };
    both(table, &seven, &Refused(1), "octets-7", "slice below 8");
    let end = Home {
        message: b"GRIB\0\0\x0C\x017777".to_vec(),
        lent: Lent::default(),
    };
    both(
        table,
        &end,
        &Stopped(22, 1, 9),
        "no-sections",
        "a length whose own octets don't fit",
    );
}

/// A length of the specimen for a section that gives this reply there, at this place.
const LENGTHS: [(u32, u32, u32, usize, &str); 12] = [
    (20, 1, 9, 29, "odd length"),
    (20, 2, 37, 33, "odd length"),
    (20, 3, 69, 9, "odd length"),
    (20, 4, 77, 15, "odd length"),
    (21, 1, 9, 26, "under its bounds"),
    (21, 2, 37, 30, "under its bounds"),
    (21, 3, 69, 4, "under its bounds"),
    (21, 4, 77, 10, "under its bounds"),
    (22, 1, 9, 1_024, "running past the end section"),
    (22, 2, 37, MOST_EVEN, "running past the end section"),
    (22, 3, 69, MOST_EVEN, "running past the end section"),
    (22, 4, 77, MOST_EVEN, "running past the end section"),
];

fn lengths(table: &mut Table) {
    for (reply, section, place, length, what) in LENGTHS {
        let home: Home = whole().says(section, length).into();
        let told = Stopped(reply, section, place);
        both(table, &home, &told, called(section), what);
        // and before what stands after it
        let message = with_lengths(&[6, 10, 12], "0000", |sections| {
            crate::vectors::messages::set_length(sections.section(section), length);
        });
        let home = Home {
            message,
            lent: Lent::default(),
        };
        let name = format!("{reply}-{}-and-6-ask", called(section));
        table.ask(
            &home,
            &[],
            (9, 9),
            told,
            &name,
            "section by section where 5 stood, before 6",
        );
    }
    let home: Home = whole().says(1, 1_026).into();
    both(
        table,
        &home,
        &Stopped(21, 1, 9),
        "pds-over",
        "over its bounds",
    );
    let home: Home = whole().followed_by(&[0, 0]).into();
    both(
        table,
        &home,
        &Stopped(23, 5, 91),
        "left-over",
        "octets left over",
    );
}

/// The other messages of the lengths: their last section odd, cut, and octets left over,
/// each at its place; and as they are, filled.
fn more_lengths(table: &mut Table) {
    for home in homes() {
        let Lengths {
            name, lent, end, ..
        } = &home;
        let last = home.start(4);
        let length = (end - last) as usize;
        let of = |sections: crate::vectors::messages::Sections| Home {
            message: sections.message(),
            lent: lent.clone(),
        };
        for (told, by, sections) in [
            (Stopped(20, 4, last), "bds-odd", home.says(4, length + 1)),
            (Stopped(22, 4, last), "bds-past", home.says(4, length + 2)),
            (Stopped(22, 4, last), "bds-cut", home.cut(4, 2)),
            (Stopped(23, 5, *end), "left-over", home.followed_by(&[7])),
        ] {
            let rule = "R-2: section by section from the front, with section and place";
            let name = format!("{}-{name}-{by}", told.reply());
            table.fill(
                &of(sections.clone()),
                14,
                told.clone(),
                &format!("{name}-fill"),
                rule,
            );
            table.ask(
                &of(sections),
                &[0],
                (0, 0),
                told,
                &format!("{name}-ask"),
                rule,
            );
        }
    }
    // the counts of an octant one too many, and a bitmap of one point too few
    let octant = octant_carried();
    for (reply, sections) in [
        (9, octant.sections.clone().gds(34, &[74])),
        (10, octant.sections.clone().bms(4, &[10])),
    ] {
        let rule = "the message's own, on a thinned octant";
        let home: Home = sections.into();
        let name = format!("{reply}-octant");
        table.fill(&home, 14, Refused(reply), &format!("{name}-fill"), rule);
        table.ask(
            &home,
            &[0; 14],
            (0, 0),
            Refused(reply),
            &format!("{name}-ask"),
            rule,
        );
    }
}

/// 8 and 9 of the other kinds.
fn kinds(table: &mut Table) {
    for kind in FOUR {
        let (first, octets, ..) = kind.broken();
        for (reply, sections) in [
            (8, kind.sections().gds(5, &[33])),
            (9, kind.sections().gds(first, &hex(octets))),
        ] {
            let rule = "the message's own, R-4: 8 and 9 of its kind";
            let home: Home = sections.into();
            let name = format!("{reply}-{}", kind.name);
            table.fill(&home, 1, Refused(reply), &format!("{name}-fill"), rule);
            table.ask(
                &home,
                &[],
                (9, 9),
                Refused(reply),
                &format!("{name}-ask"),
                rule,
            );
        }
    }
}

/// 10: no such stored bitmap.
fn lent(table: &mut Table) {
    let mut sections = specimen();
    sections.bms = stored(5);
    for (by, number, octets) in [
        ("not-lent", 0, &[][..]),
        ("another-number", 6, &[0xD0]),
        ("no-octets", 5, &[]),
    ] {
        let home = Home::from(sections.clone()).lend(number, octets);
        both(table, &home, &Refused(10), by, "no such stored bitmap");
    }
    let home = Home::from(sections).lend(5, &[0xD0]);
    let rule = "the stored bitmap 1101";
    table.fill(&home, 1, Filled(vec![0]), "fill-specimen-stored", rule);
    table.ask(&home, &[0], (0, 0), Absent, "specimen-stored-0-0", rule);
    table.ask(&home, &[0], (0, 1), Value(7), "specimen-stored-0-1", rule);
}
