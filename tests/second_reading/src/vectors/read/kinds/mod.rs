//! Mercator, Lambert, Gaussian and polar stereographic grids. What must be taken,
//! and where its points lie.
//!
//! * `fields`   each field of each kind at its edges, and what is ignored;
//! * `scan`     the scan test, where it holds and where not;
//! * `section`  8: kinds, lengths, octets 4 to 6; and lengths that went wrong;
//! * `pairs`    two faults and more at once.

mod fields;
mod pairs;
mod scan;
mod section;

use super::Table;
use crate::vectors::kinds::{Kind, FOUR, PLACES};
use crate::vectors::messages::{row, Sections};
use crate::Grid;

pub fn add(table: &mut Table) {
    taken(table);
    scanned(table);
    octet_7(table);
    room(table);
    fields::add(table);
    scan::add(table);
    section::add(table);
    pairs::add(table);
}

fn taken(table: &mut Table) {
    for kind in FOUR {
        for (by, sections, lent) in kind.messages() {
            // the specimen's bitmap is 1101; plain, every point is present
            let points = match by {
                "-plain" => [Some(0), Some(2), Some(5), Some(7)],
                _ => [Some(0), Some(2), None, Some(7)],
            };
            table
                .add(
                    0,
                    &format!("{}{by}", kind.name),
                    "R-4: add these four with the layouts in document 003",
                    sections.message(),
                )
                .lend(lent.number, &lent.octets)
                .says("kind", kind.number as i64)
                .says("rows", 0)
                .says("points", 4)
                .says("present", if by == "-plain" { 4 } else { 3 })
                .says("D", 1)
                .says("R", 0x439C_4000)
                .says("row of point 0", 1)
                .says("column of point 0", 0)
                .says("row of point 1", 1)
                .says("column of point 1", 1)
                .grid(kind.grid())
                .points(&points);
        }
    }
}

/// Six points, the third of them absent, on this grid.
fn six(kind: &Kind, grid: &Grid) -> Sections {
    Sections {
        gds: kind.spelled(grid),
        ..row(6, "110111", 3, "001 010 011 100 101")
    }
}

fn scanned(table: &mut Table) {
    for kind in FOUR {
        for (scan, first, second) in PLACES {
            // the other bits of octet 28 are carried and mean nothing
            for low in [0x00, 0x1F] {
                let grid = kind.turned(3, 2, scan | low);
                let rule = match kind.tested {
                    true => "the chart's row 0 is north and column 0 is west, by these flags",
                    false => "R-4: chart row 0 is the greatest y, as bit 2 says",
                };
                let name = format!("{}-scan-{:02X}", kind.name, scan | low);
                table
                    .add(0, &name, rule, six(&kind, &grid).message())
                    .grid(grid)
                    .says("row of point 0", first[0])
                    .says("column of point 0", first[1])
                    .says("row of point 1", second[0])
                    .says("column of point 1", second[1])
                    .points(&[Some(1), Some(2), None, Some(3), Some(4), Some(5)]);
            }
        }
    }
}

fn octet_7(table: &mut Table) {
    for kind in FOUR {
        for number in [0, 2, 37, 45] {
            table
                .add(
                    0,
                    &format!("7-{}-named-{number}", kind.name),
                    "with a GDS it decides, and octet 7 is not compared",
                    kind.plain().pds(7, &[number]).message(),
                )
                .grid(kind.grid());
        }
    }
}

fn room(table: &mut Table) {
    for kind in FOUR {
        for (reply, values, marks) in [(14, 3, 4), (14, 4, 3), (0, 4, 4), (0, 5, 7), (14, 0, 0)] {
            table
                .add(
                    reply,
                    &format!("14-{}-values-{values}-marks-{marks}", kind.name),
                    "14: lent output too short; elements after n stay",
                    kind.sections().message(),
                )
                .room(values, marks);
        }
    }
}
