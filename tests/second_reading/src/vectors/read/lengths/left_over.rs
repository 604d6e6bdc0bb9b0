//! The end section too late: octets left over.

use super::line;
use crate::vectors::lengths::{
    homes, long_pds, no_bms, no_gds, octant_carried, octant_stored, whole, LEFT_OVER,
};
use crate::vectors::messages::{hex, plain, specimen};
use crate::vectors::read::Table;

/// "23 names section 5 and the first octet left over".
pub fn add(table: &mut Table) {
    for home in homes() {
        for count in [1, 2, 3, 4, 5, 12, 500] {
            line(
                table,
                &home,
                (23, 5, home.end),
                &format!("{count}-left-over"),
                LEFT_OVER,
                &home.followed_by(&vec![0; count]),
            );
        }
        line(
            table,
            &home,
            (23, 5, home.end),
            "7777-left-over",
            "23: octets left over, though they are '7777'",
            &home.followed_by(b"7777"),
        );
        line(
            table,
            &home,
            (23, 5, home.end),
            "section-left-over",
            "23: octets left over, though they are a section",
            &home.followed_by(&home.sections.bds),
        );
    }
    // a data section that says less than it has, down to its least
    for (home, length, place) in [
        (whole(), 12, 89),
        (no_bms(), 12, 81),
        (no_gds(), 74, 117),
        (no_gds(), 12, 55),
        (long_pds(), 12, 1_085),
        (octant_carried(), 74, 727),
        (octant_carried(), 12, 665),
        (octant_stored(), 74, 295),
        (octant_stored(), 12, 233),
    ] {
        line(
            table,
            &home,
            (23, 5, place),
            &format!("bds-says-{length}"),
            LEFT_OVER,
            &home.says(4, length),
        );
    }
    // what stands in an unannounced section's place is the data section
    let mut sections = specimen().pds(8, &[0x80]);
    sections.bms = hex("00000C 08 0000 439C4000 00 00");
    sections.bds = vec![0; 2];
    table.stop(
        (23, 5, 81),
        "23-bms-unannounced",
        "23: without a BMS announced, 12 octets in its place are the data section",
        sections.message(),
    );
    let mut sections = plain().pds(8, &[0x00]);
    sections.bds = vec![0; 2];
    table.stop(
        (23, 5, 69),
        "23-gds-unannounced",
        "23: without a GDS announced, its 32 octets are the data section",
        sections.message(),
    );
}
