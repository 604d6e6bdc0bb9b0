//! Lengths that a section has and says, so that the walk would land.

use super::line;
use crate::vectors::lengths::{
    called, homes, octant, whole, Broken, ODD, ODD_OVER, ODD_UNDER, OVER, UNDER,
};
use crate::vectors::read::Table;

/// Lengths that a section has and says, so that the walk would land.
pub fn add(table: &mut Table) {
    for home in homes() {
        for section in home.present() {
            let lengths: &[(usize, Broken)] = match section {
                1 => &[
                    (26, UNDER),
                    (27, ODD_UNDER),
                    (29, ODD),
                    (1_023, ODD),
                    (1_025, ODD_OVER),
                    (1_026, OVER),
                    (1_027, ODD_OVER),
                    (1_028, OVER),
                ],
                2 => &[
                    (30, UNDER),
                    (31, ODD_UNDER),
                    (33, ODD),
                    (41, ODD),
                    (43, ODD),
                    (177, ODD),
                    (179, ODD),
                ],
                3 => &[(4, UNDER), (5, ODD_UNDER), (7, ODD), (9, ODD)],
                _ => &[(10, UNDER), (11, ODD_UNDER), (13, ODD), (15, ODD)],
            };
            for &(length, (reply, rule)) in lengths {
                line(
                    table,
                    &home,
                    (reply, section, home.start(section)),
                    &format!("{}-{length}", called(section)),
                    rule,
                    &home.stands(section, length),
                );
            }
        }
    }
    // the neighbours that are taken
    for home in homes() {
        for length in [28, 30, 1_022, 1_024] {
            let name = format!("21-{}-pds-{length}", home.name);
            let rule = "an even PDS length of 28 to 1,024";
            let message = home.stands(1, length).message();
            let vector = table.add(0, &name, rule, message);
            vector.room(home.points, home.points).lent = home.lent.clone();
        }
    }
    // even and not under the least: what the lengths mean is judged later
    for (reply, name, rule, sections) in [
        (0, "21-gds-32", "the least GDS", whole().stands(2, 32)),
        (
            8,
            "21-gds-34",
            "8: no kind has this length",
            whole().stands(2, 34),
        ),
        (
            8,
            "21-gds-176",
            "8: no kind has this length",
            octant().stands(2, 176),
        ),
        (
            0,
            "21-gds-178",
            "R-1: the GDS is 178 octets",
            octant().stands(2, 178),
        ),
        (
            8,
            "21-gds-180",
            "8: no kind has this length",
            octant().stands(2, 180),
        ),
        (
            10,
            "21-bms-6",
            "10: the least BMS, without bits",
            whole().stands(3, 6),
        ),
        (0, "21-bms-8", "an even BMS length", whole().stands(3, 8)),
        (
            10,
            "21-bms-10",
            "10: bits for more points",
            whole().stands(3, 10),
        ),
        (
            12,
            "21-bds-12",
            "12: the least BDS, too short for its data",
            whole().stands(4, 12),
        ),
        (0, "21-bds-14", "an even BDS length", whole().stands(4, 14)),
        (
            12,
            "21-bds-16",
            "12: too long for its data",
            whole().stands(4, 16),
        ),
    ] {
        table
            .add(reply, name, rule, sections.message())
            .room(3_447, 3_447);
    }
}
