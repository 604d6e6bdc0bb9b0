//! "The scan test against latitudes holds for Mercator and Gaussian only".

use crate::vectors::edges::SIGNS;
use crate::vectors::kinds::{Kind, FOUR, PLACES, TESTED};
use crate::vectors::messages::hex;
use crate::vectors::read::Table;
use crate::Figure;

pub fn add(table: &mut Table) {
    for kind in FOUR {
        settings(table, &kind);
        signs(table, &kind);
    }
}

/// Octets 18-20 one above 50,000, which is La1, as much, and one below: La2, or where no
/// test is made LoV. Under each setting of the flags, with one row and with two.
fn settings(table: &mut Table, kind: &Kind) {
    let (figure, called) = match kind.tested {
        true => (Figure::La2, "la2"),
        false => (Figure::Lov, "lov"),
    };
    for (scan, ..) in PLACES {
        for (north, from, by, reply) in TESTED {
            if north != (scan & 0x40 != 0) {
                continue;
            }
            for (nj, rows) in [(1, "one-row"), (2, "two-rows")] {
                let (reply, rule) = match (kind.tested, nj) {
                    (true, 2) if north => (reply, "9: rows running north need La2 above La1"),
                    (true, 2) => (reply, "9: else La2 below La1"),
                    (true, _) => (0, "with Nj = 1 this is not tested"),
                    (false, _) => (0, "R-4: the scan test holds for Mercator and Gaussian only"),
                };
                let grid = figure.put(kind.sized(2, nj), 50_000 + by);
                let grid = Figure::Scan.put(grid, scan as i64);
                let mut sections = kind.flat(2, nj);
                sections.gds = kind.spelled(&grid);
                let name = format!("9-{}-scan-{scan:02X}-{called}-{from}-{rows}", kind.name);
                let vector = table.add(reply, &name, rule, sections.message());
                if reply == 0 {
                    vector.grid(grid);
                }
            }
        }
    }
}

/// Octets 11-13 and 18-20 around zero: La1 and La2, or La1 and LoV.
fn signs(table: &mut Table, kind: &Kind) {
    for (tested, name, la1, other, scan) in SIGNS {
        let (reply, rule) = match kind.tested {
            true => (
                tested,
                "the scan test compares values: a sign bit and a magnitude, minus zero is 0",
            ),
            false => (0, "R-4: the scan test holds for Mercator and Gaussian only"),
        };
        let sections = kind.flat(2, 2).gds(11, &hex(la1)).gds(18, &hex(other));
        let message = sections.gds(28, &[scan]).message();
        let vector = table.add(reply, &format!("9-{}-{name}", kind.name), rule, message);
        let minus = [(11, la1), (18, other)]
            .into_iter()
            .find(|at| at.1 == "800000");
        if let Some((first, _)) = minus.filter(|_| reply == 0) {
            vector.changes(36 + first);
        }
    }
    if !kind.tested {
        for (name, la1) in [
            ("minus-90000", "815F90"),
            ("90000", "015F90"),
            ("0", "000000"),
        ] {
            for scan in [0x00, 0x40] {
                let sections = kind.flat(2, 2).gds(11, &hex(la1)).gds(28, &[scan]);
                table.add(
                    0,
                    &format!("9-{}-from-{name}-scan-{scan:02X}", kind.name),
                    "R-4: the scan test holds for Mercator and Gaussian only",
                    sections.message(),
                );
            }
        }
    }
}
