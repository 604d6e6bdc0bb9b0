//! R-2: "reading, 5 becomes 20 to 23 in that order, section by section from the
//! front, where 5 stood". Two lengths that went wrong: the section in front
//! decides. And one beside each other fault: after 4, before 6.

use super::pairs::{room, with_lengths};
use super::Table;
use crate::vectors::lengths::{called, octant_carried, whole, MOST_EVEN};
use crate::vectors::messages::{set_length, Sections};

pub fn add(table: &mut Table) {
    two_sections(table);
    beside(table);
    all_at_once(table);
}

/// A length for a section that gives this reply there: odd, under its least, past
/// the end of every message below.
const LENGTHS: [(u32, u32, usize); 12] = [
    (20, 1, 29),
    (20, 2, 33),
    (20, 3, 9),
    (20, 4, 15),
    (21, 1, 26),
    (21, 2, 30),
    (21, 3, 4),
    (21, 4, 10),
    (22, 1, 1_024),
    (22, 2, MOST_EVEN),
    (22, 3, MOST_EVEN),
    (22, 4, MOST_EVEN),
];

/// Octets left over after the data section.
const LEFT: [u8; 2] = [0, 0];

fn two_sections(table: &mut Table) {
    for home in [whole(), octant_carried()] {
        for (reply, front, length) in LENGTHS {
            let place = home.start(front);
            let mut add = |behind: u32, other: u32, sections: Sections| {
                let name = format!(
                    "{reply}-{}-{}-before-{other}-{}",
                    home.name,
                    called(front),
                    called(behind)
                );
                let rule =
                    format!("section by section from the front: {reply} in {front} before {other} in {behind}");
                table
                    .stop((reply, front, place), &name, &rule, sections.message())
                    .room(home.points, home.points);
            };
            for (other, behind, length_behind) in LENGTHS {
                if behind > front {
                    let mut sections = home.says(front, length);
                    set_length(sections.section(behind), length_behind);
                    add(behind, other, sections);
                }
            }
            let mut sections = home.says(front, length);
            sections.bds.extend(LEFT);
            add(5, 23, sections);
        }
        // three sections and octets left over
        for (stop, name, lengths) in [
            ((22, 1, 9), "22-21-20-21", [1_024, 30, 9, 10]),
            ((21, 1, 9), "21-22-20-20", [26, MOST_EVEN, 9, 15]),
            ((20, 1, 9), "20-21-22-22", [29, 30, MOST_EVEN, MOST_EVEN]),
        ] {
            let mut sections = home.sections.clone();
            for (section, length) in (1..).zip(lengths) {
                set_length(sections.section(section), length);
            }
            sections.bds.extend(LEFT);
            table
                .stop(
                    stop,
                    &format!("{}-{}-all-sections-{name}", stop.0, home.name),
                    "section by section from the front: the PDS decides",
                    sections.message(),
                )
                .room(home.points, home.points);
        }
    }
}

/// A length of the specimen that went wrong: reply, section, place; without the GDS
/// the place is another, and there is no section 2.
const STOPS: [(u32, u32, u32, Option<u32>); 13] = [
    (20, 1, 9, Some(9)),
    (20, 2, 37, None),
    (20, 3, 69, Some(37)),
    (20, 4, 77, Some(45)),
    (21, 1, 9, Some(9)),
    (21, 2, 37, None),
    (21, 3, 69, Some(37)),
    (21, 4, 77, Some(45)),
    (22, 1, 9, Some(9)),
    (22, 2, 37, None),
    (22, 3, 69, Some(37)),
    (22, 4, 77, Some(45)),
    (23, 5, 91, Some(59)),
];

/// The specimen with these faults, and with the length that this reply has in this
/// section.
fn with(faults: &[u32], reply: u32, section: u32) -> Vec<u8> {
    with_lengths(faults, "0000", |sections| {
        if reply == 23 {
            sections.bds.extend(LEFT);
        }
        for line in LENGTHS {
            if (line.0, line.1) == (reply, section) {
                set_length(sections.section(section), line.2);
            }
        }
    })
}

fn beside(table: &mut Table) {
    for (reply, section, place, _) in STOPS {
        let stop = (reply, section, place);
        let called = called(section);
        for other in [1, 2, 3, 4] {
            // a message that is too long once for each reply
            if other == 1 && section != 4 && section != 5 {
                continue;
            }
            table.add(
                other,
                &format!("{reply}-{called}-after-{other}"),
                &format!("where 5 stood: {other} before {reply}"),
                with(&[other], reply, section),
            );
        }
        for other in [6, 8, 9, 10, 11, 12, 14] {
            table
                .stop(
                    stop,
                    &format!("{reply}-{called}-before-{other}"),
                    &format!("where 5 stood: {reply} before {other}"),
                    with(&[other], reply, section),
                )
                .room(room(&[other]), room(&[other]));
        }
    }
    // 7 is only possible without a GDS: the BMS starts at 37, the BDS at 45, and the
    // end section at 59
    for (reply, section, _, place) in STOPS {
        if let Some(place) = place {
            table.stop(
                (reply, section, place),
                &format!("{reply}-{}-before-7", called(section)),
                &format!("where 5 stood: {reply} before 7"),
                with(&[7], reply, section),
            );
        }
    }
}

fn all_at_once(table: &mut Table) {
    let later = [6, 8, 9, 10, 11, 12, 14];
    for (reply, section, place, _) in STOPS {
        table
            .stop(
                (reply, section, place),
                &format!("{reply}-{}-before-all-after-it", called(section)),
                &format!("where 5 stood: {reply} before 6, 8 to 12 and 14"),
                with(&later, reply, section),
            )
            .room(room(&later), room(&later));
    }
}
