//! Each field of each kind at its edges, how many points there are, and what is
//! ignored.

use crate::vectors::edges::COUNTS;
use crate::vectors::kinds::{Sort, FOUR};
use crate::vectors::messages::hex;
use crate::vectors::read::Table;
use crate::Grid;

/// How many octets stand before the GDS.
const BEFORE: usize = 36;

pub fn add(table: &mut Table) {
    edges(table);
    counts(table);
    ignored(table);
    together(table);
}

/// On one row, so that no scan test is made.
fn edges(table: &mut Table) {
    for kind in FOUR {
        for field in kind.fields {
            for &(reply, octets, value) in field.sort.octets() {
                let name = format!("9-{}-{}-{octets}", kind.name, field.figure.name());
                let message = kind.flat(2, 1).gds(field.first, &hex(octets)).message();
                let vector = table.add(reply, &name, field.sort.rule(), message);
                if reply == 0 {
                    vector.grid(field.figure.put(kind.sized(2, 1), value));
                }
                if field.sort.signed() && octets == "800000" {
                    vector.changes(BEFORE + field.first);
                }
            }
        }
    }
}

fn counts(table: &mut Table) {
    for kind in FOUR {
        for (reply, ni, nj) in COUNTS {
            let name = format!("9-{}-{ni}-by-{nj}", kind.name);
            let room = match reply {
                0 => ni as usize * nj as usize,
                _ => 32,
            };
            let message = kind.flat(ni, nj).message();
            let vector = table.add(reply, &name, Sort::Side.rule(), message);
            vector.room(room, room);
            if reply == 0 {
                vector.grid(kind.sized(ni, nj));
            }
        }
    }
}

fn ignored(table: &mut Table) {
    let rule = "R-4, document 003: reserved; ignored on reading, written zero";
    for kind in FOUR {
        for &octet in kind.reserved {
            for value in [0x01, 0xFF] {
                let name = format!("{}-reserved-{octet}-{value:02X}", kind.name);
                table
                    .add(0, &name, rule, kind.plain().gds(octet, &[value]).message())
                    .grid(kind.grid())
                    .changes(BEFORE + octet);
            }
        }
        let mut all = kind.plain();
        let mut minus = kind.flat(2, 1);
        for &octet in kind.reserved {
            all = all.gds(octet, &[0xFF]);
            minus = minus.gds(octet, &[0xFF]);
        }
        let name = format!("{}-reserved", kind.name);
        table
            .add(0, &name, rule, all.message())
            .grid(kind.grid())
            .changes(BEFORE + kind.reserved[0]);
        // every signed field at once, and the reserved octets; the first is La1
        let mut grid = kind.sized(2, 1);
        for field in kind.fields.iter().filter(|field| field.sort.signed()) {
            minus = minus.gds(field.first, &hex("800000"));
            grid = field.figure.put(grid, 0);
        }
        table
            .add(
                0,
                &format!("{}-minus-zeros", kind.name),
                "R-4: signed fields as before: minus zero reads as 0 and is written as plus zero",
                minus.message(),
            )
            .grid(grid)
            .changes(BEFORE + 11);
    }
}

/// Every bounded field at its bound, all the others at their most.
fn together(table: &mut Table) {
    for kind in FOUR {
        for (name, sign) in [("most", 1), ("least", -1)] {
            let mut grid = Grid {
                kind: kind.number,
                ..Grid::default()
            };
            for field in kind.fields {
                let number = match field.sort {
                    Sort::Side => [2, 1][(field.first == 9) as usize],
                    Sort::Latitude => 90_000 * sign,
                    Sort::Longitude => 360_000 * sign,
                    Sort::Metres => 16_777_215,
                    Sort::Degrees => 65_535,
                    Sort::Circles => 65_534,
                    Sort::Octet => 255,
                };
                grid = field.figure.put(grid, number);
            }
            let mut sections = kind.flat(2, 1);
            sections.gds = kind.spelled(&grid);
            table
                .add(
                    0,
                    &format!("9-{}-all-at-their-{name}", kind.name),
                    "9, R-4: 01's bounds, and other fields are carried",
                    sections.message(),
                )
                .grid(grid);
        }
    }
}
