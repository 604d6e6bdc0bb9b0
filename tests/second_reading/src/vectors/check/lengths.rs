//! where the lengths went wrong, with the section and the place, before 18,
//! 15, 16 and 17: '"1 to 12" includes them'.

use super::{field, specimen_field, Table};
use crate::vectors::lengths::{
    called, homes, octant_carried, whole, Home, CUT, LEFT_OVER, MOST_EVEN, ODD, ODD_OVER_PASSES,
    ODD_PASSES, ODD_UNDER, ONES, OVER_PASSES, PASSES, UNDER,
};
use crate::vectors::messages::{hex, set_length, Sections};
use crate::vectors::read::with_lengths;
use crate::Source;

pub fn add(table: &mut Table) {
    table.group("check-20-to-23");
    each(table);
    two_faults(table);
    before_the_source(table);
}

/// A line about a home: its bitmap lent, and this source beside it.
fn line(
    table: &mut Table,
    home: &Home,
    stop: (u32, u32, u32),
    what: &str,
    rule: &str,
    sections: &Sections,
    source: &Source,
) {
    let name = format!("{}-check-{}-{what}", stop.0, home.name);
    let vector = table.stop(stop, &name, rule, sections.message(), source.clone());
    vector.lent = home.lent.clone();
}

/// Each of the four in each section that it can name, beside the field that the
/// message would render.
fn each(table: &mut Table) {
    for home in homes() {
        let name = format!("20-to-23-check-{}", home.name);
        let rule = "no length went wrong, and the field is rendered";
        let message = home.sections.message();
        table.add(0, &name, rule, message, home.field.clone()).lent = home.lent.clone();

        for section in home.present() {
            let at = section as usize - 1;
            let (under, odd) = ([26, 30, 4, 10][at], [29, 33, 7, 13][at]);
            // a PDS that passes the end so far is over 1,024 before
            let far = if section == 1 { OVER_PASSES } else { PASSES };
            for ((reply, rule), what, sections) in [
                (UNDER, format!("says-{under}"), home.says(section, under)),
                (ODD, format!("{odd}"), home.stands(section, odd)),
                (far, "says-most".into(), home.says(section, MOST_EVEN)),
                (CUT, "0-left".into(), home.cut(section, 0)),
                (CUT, "2-left".into(), home.cut(section, 2)),
            ] {
                let stop = (reply, section, home.start(section));
                let what = format!("{}-{what}", called(section));
                line(table, &home, stop, &what, rule, &sections, &home.field);
            }
        }
        for count in [1, 2, 100] {
            let stop = (23, 5, home.end);
            let what = format!("{count}-left-over");
            let sections = home.followed_by(&vec![0; count]);
            line(table, &home, stop, &what, LEFT_OVER, &sections, &home.field);
        }
    }
    // a PDS that passes the end within its bounds
    for home in [whole(), octant_carried()] {
        let sections = home.says(1, 1_024);
        let (reply, rule) = PASSES;
        line(
            table,
            &home,
            (reply, 1, 9),
            "pds-says-1024",
            rule,
            &sections,
            &home.field,
        );
    }
}

/// Two faults of one length, of two lengths, and of a length and the message.
fn two_faults(table: &mut Table) {
    for home in [whole(), octant_carried()] {
        for (section, (reply, rule), length) in [
            (1, ODD_UNDER, 27),
            (1, ODD_PASSES, 1_023),
            (1, ODD_OVER_PASSES, 1_025),
            (1, OVER_PASSES, 1_026),
            (1, ODD_OVER_PASSES, 1_027),
            (1, OVER_PASSES, 65_564),
            (2, ODD_UNDER, 31),
            (2, ODD_PASSES, ONES),
            (3, ODD_UNDER, 5),
            (3, ODD_PASSES, ONES),
            (4, ODD_UNDER, 11),
            (4, ODD_PASSES, ONES),
        ] {
            let stop = (reply, section, home.start(section));
            let what = format!("{}-says-{length}", called(section));
            let sections = home.says(section, length);
            line(table, &home, stop, &what, rule, &sections, &home.field);
        }
        // the one in front decides
        for (reply, front, length, behind, length_behind) in [
            (22, 1, 1_024, 2, 33),
            (21, 1, 26, 4, 15),
            (22, 2, MOST_EVEN, 3, 9),
            (21, 2, 30, 3, 9),
            (22, 3, MOST_EVEN, 4, 15),
            (21, 3, 4, 4, 15),
        ] {
            let stop = (reply, front, home.start(front));
            let what = format!("{}-and-{}", called(front), called(behind));
            let rule = "section by section from the front";
            let mut sections = home.says(front, length);
            set_length(sections.section(behind), length_behind);
            line(table, &home, stop, &what, rule, &sections, &home.field);
        }
    }
    // after 2, 3 and 4, and before 6, 8, 9, 10, 11 and 12: a GDS of 33 octets
    let with = |fault: u32| {
        with_lengths(&[fault], "0000", |sections| {
            set_length(&mut sections.gds, 33)
        })
    };
    for fault in [2, 3, 4] {
        let name = format!("20-check-after-{fault}");
        let rule = format!("where 5 stood: {fault} before 20");
        table.add(fault, &name, &rule, with(fault), specimen_field());
    }
    for fault in [6, 8, 9, 10, 11, 12] {
        let name = format!("20-check-before-{fault}");
        let rule = format!("where 5 stood: 20 before {fault}");
        table.stop((20, 2, 37), &name, &rule, with(fault), specimen_field());
    }
}

/// Each of the four in each section, with a fault that is judged after it.
fn before_the_source(table: &mut Table) {
    let home = whole();
    let mut unequal = specimen_field();
    unequal.marks.pop();
    for (other, source) in [
        (18, unequal),
        (15, field(2, "2500 2502 - 2507")),
        // E is then -1
        (16, specimen_field()),
        (17, field(1, "2500 2502 - 2508")),
    ] {
        for (reply, section, place, length) in [
            (20, 1, 9, 29),
            (20, 2, 37, 33),
            (20, 3, 69, 9),
            (20, 4, 77, 13),
            (21, 1, 9, 26),
            (21, 2, 37, 30),
            (21, 3, 69, 4),
            (21, 4, 77, 10),
            (22, 1, 9, 84),
            (22, 2, 37, 56),
            (22, 3, 69, 24),
            (22, 4, 77, 16),
            // what is left over starts 12 octets after the data section
            (23, 5, 89, 12),
        ] {
            let mut sections = home.says(section.min(4), length);
            if other == 16 {
                sections = sections.bds(5, &hex("8001"));
            }
            let what = format!("{}-before-{other}", called(section));
            let rule = format!("\"1 to 12\" includes 20 to 23: {reply} before {other}");
            line(
                table,
                &home,
                (reply, section, place),
                &what,
                &rule,
                &sections,
                &source,
            );
        }
    }
}
