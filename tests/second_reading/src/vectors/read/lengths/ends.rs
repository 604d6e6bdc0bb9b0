//! The end section too early: a length whose own octets don't fit, and a section
//! that ends just before, at or after the end section's start.

use super::line;
use crate::vectors::lengths::{
    called, homes, listed, long_pds, no_bms, no_gds, octant, octant_carried, octant_stored, whole,
    Broken, CUT, ODD_OVER_PASSES, ODD_PASSES, ODD_UNDER, ODD_UNDER_PASSES, OVER_PASSES, PASSES,
    UNDER, UNDER_PASSES,
};
use crate::vectors::messages::{hex, set_length};
use crate::vectors::read::Table;

pub fn add(table: &mut Table) {
    reaching(table);
    cut(table);
    cut_at_the_length(table);
}

/// Lengths that reach the end section's start exactly: the section is right, and
/// the next one announced has nothing left. "a length whose own octets don't fit is
/// 22"; its first octet would be the end section's.
fn reaching(table: &mut Table) {
    for (home, section, length, next) in [
        (whole(), 1, 82, 2),
        (whole(), 2, 54, 3),
        (whole(), 3, 22, 4),
        (no_bms(), 1, 74, 2),
        (no_bms(), 2, 46, 4),
        (no_gds(), 1, 110, 3),
        (no_gds(), 3, 82, 4),
        (listed(), 1, 40, 4),
        (long_pds(), 2, 54, 3),
        (long_pds(), 3, 22, 4),
        (octant(), 1, 218, 2),
        (octant(), 2, 190, 4),
        (octant_carried(), 1, 720, 2),
        (octant_carried(), 2, 692, 3),
        (octant_carried(), 3, 514, 4),
        (octant_stored(), 1, 288, 2),
        (octant_stored(), 2, 260, 3),
        (octant_stored(), 3, 82, 4),
    ] {
        line(
            table,
            &home,
            (22, next, home.end),
            &format!("{}-reaches-{}", called(section), called(next)),
            CUT.1,
            &home.says(section, length),
        );
    }
    // one octet pair, and two, before it: what is left is no length
    for (home, section, length, next, place) in [
        (whole(), 1, 80, 2, 89),
        (whole(), 2, 52, 3, 89),
        (whole(), 3, 20, 4, 89),
        (octant_carried(), 1, 718, 2, 727),
        (octant_carried(), 2, 690, 3, 727),
        (octant_carried(), 3, 512, 4, 727),
    ] {
        line(
            table,
            &home,
            (22, next, place),
            &format!("{}-two-before-the-end", called(section)),
            CUT.1,
            &home.says(section, length),
        );
    }
}

/// The end section stands in a section: after 0, 1 or 2 octets its length can't be
/// read, and after 3 and more it passes the end section's start.
fn cut(table: &mut Table) {
    for home in homes() {
        for section in home.present() {
            let own = home.sections.clone().section(section).len();
            for (name, left, (reply, rule)) in [
                ("none", 0, CUT),
                ("one", 1, CUT),
                ("two", 2, CUT),
                ("three", 3, PASSES),
                ("all-but-two", own - 2, PASSES),
                ("all-but-one", own - 1, PASSES),
            ] {
                line(
                    table,
                    &home,
                    (reply, section, home.start(section)),
                    &format!("{}-{name}-left", called(section)),
                    rule,
                    &home.cut(section, left),
                );
            }
        }
    }
}

/// Three octets of a section, so that its length can just be read: it is judged as
/// any other. And one or two, of any value: they aren't.
fn cut_at_the_length(table: &mut Table) {
    for home in [whole(), no_gds(), octant(), octant_carried()] {
        for section in home.present() {
            let lengths: &[(usize, Broken)] = match section {
                1 => &[
                    (0, UNDER),
                    (1, ODD_UNDER),
                    (3, ODD_UNDER),
                    (26, UNDER_PASSES),
                    (27, ODD_UNDER_PASSES),
                    (29, ODD_PASSES),
                    (1_024, PASSES),
                    (1_025, ODD_OVER_PASSES),
                    (1_026, OVER_PASSES),
                ],
                2 => &[
                    (0, UNDER),
                    (3, ODD_UNDER),
                    (30, UNDER_PASSES),
                    (31, ODD_UNDER_PASSES),
                    (32, PASSES),
                    (33, ODD_PASSES),
                    (178, PASSES),
                ],
                3 => &[
                    (0, UNDER),
                    (3, ODD_UNDER),
                    (4, UNDER_PASSES),
                    (5, ODD_UNDER_PASSES),
                    (6, PASSES),
                    (7, ODD_PASSES),
                ],
                _ => &[
                    (0, UNDER),
                    (3, ODD_UNDER),
                    (10, UNDER_PASSES),
                    (11, ODD_UNDER_PASSES),
                    (12, PASSES),
                    (13, ODD_PASSES),
                ],
            };
            for &(length, (reply, rule)) in lengths {
                let mut sections = home.cut(section, 3);
                set_length(sections.section(section), length);
                line(
                    table,
                    &home,
                    (reply, section, home.start(section)),
                    &format!("{}-three-left-says-{length}", called(section)),
                    rule,
                    &sections,
                );
            }
            for octets in ["FF", "01", "FFFF", "0001", "FFFE"] {
                let mut sections = home.cut(section, 0);
                *sections.section(section) = hex(octets);
                line(
                    table,
                    &home,
                    (22, section, home.start(section)),
                    &format!("{}-only-{octets}", called(section)),
                    CUT.1,
                    &sections,
                );
            }
        }
    }
}
