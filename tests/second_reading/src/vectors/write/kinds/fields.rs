//! Each field of each kind at its edges, in numbers; how many points; the scan test.

use crate::vectors::edges::{COUNTS, LATITUDES, LONGITUDES};
use crate::vectors::given::flat;
use crate::vectors::kinds::{Sort, FOUR, PLACES, TESTED};
use crate::vectors::write::Table;
use crate::Figure;

pub fn add(table: &mut Table) {
    table.group("9-kinds");
    edges(table);
    counts(table);
    table.group("9-kinds-scan");
    scan(table);
}

/// The numbers that can be given in a field, and the reply to each.
fn given(sort: Sort) -> Vec<(u32, i64)> {
    let wide = |numbers: &[(u32, i32)]| {
        let numbers = numbers.iter();
        numbers.map(|&(reply, x)| (reply, x.into())).collect()
    };
    match sort {
        Sort::Side => Vec::new(),
        Sort::Latitude => wide(&LATITUDES),
        Sort::Longitude => wide(&LONGITUDES),
        Sort::Metres => vec![
            (0, 0),
            (0, 1),
            (0, 8_388_607),
            (0, 8_388_608),
            (0, 16_777_214),
            (0, 16_777_215),
            (9, 16_777_216),
            (9, 16_777_217),
            (9, 2_147_483_647),
            (9, 2_147_483_648),
            (9, 4_294_967_295),
        ],
        Sort::Degrees => vec![(0, 0), (0, 1), (0, 65_534), (0, 65_535)],
        Sort::Circles => vec![(0, 0), (0, 1), (0, 32_768), (0, 65_534), (9, 65_535)],
        Sort::Octet => vec![(0, 0), (0, 1), (0, 127), (0, 128), (0, 255)],
    }
}

/// On one row, so that no scan test is made.
fn edges(table: &mut Table) {
    for kind in FOUR {
        for field in kind.fields {
            for (reply, number) in given(field.sort) {
                let rule = match (field.sort, reply) {
                    (Sort::Metres, 9) => "9: a step does not fit its three octets",
                    (sort, _) => sort.rule(),
                };
                let name = format!("9-{}-{}-{number}", kind.name, field.figure.name());
                let grid = field.figure.put(kind.sized(2, 1), number);
                let vector = table.add(reply, &name, rule, flat(grid));
                if reply == 0 {
                    let mut sections = kind.flat(2, 1);
                    sections.gds = kind.spelled(&grid);
                    vector.message = Some(sections.message());
                }
            }
        }
    }
}

fn counts(table: &mut Table) {
    for kind in FOUR {
        for (reply, ni, nj) in COUNTS {
            let name = format!("9-{}-{ni}-by-{nj}", kind.name);
            let parts = flat(kind.sized(ni, nj));
            table.add(reply, &name, Sort::Side.rule(), parts);
        }
    }
}

/// La2 above La1, as much and below, or where no test is made LoV; under each setting of
/// the flags, with one row and with two, around 50,000 and around 0.
fn scan(table: &mut Table) {
    for kind in FOUR {
        let (figure, called) = match kind.tested {
            true => (Figure::La2, "la2"),
            false => (Figure::Lov, "lov"),
        };
        for (scan, ..) in PLACES {
            for (north, from, by, tested) in TESTED {
                if north != (scan & 0x40 != 0) {
                    continue;
                }
                for (nj, rows) in [(1, "one-row"), (2, "two-rows")] {
                    let (reply, rule) = match (kind.tested, nj) {
                        (true, 2) if north => (tested, "9: rows running north need La2 above La1"),
                        (true, 2) => (tested, "9: else La2 below La1"),
                        (true, _) => (0, "with Nj = 1 this is not tested"),
                        (false, _) => {
                            (0, "R-4: the scan test holds for Mercator and Gaussian only")
                        }
                    };
                    for (la1, at) in [(50_000, ""), (-1, "-minus-1"), (0, "-0")] {
                        let grid = figure.put(kind.sized(2, nj), la1 + by);
                        let grid = Figure::La1.put(grid, la1);
                        let grid = Figure::Scan.put(grid, scan as i64);
                        let name =
                            format!("9-{}-scan-{scan:02X}-{called}-{from}{at}-{rows}", kind.name);
                        table.add(reply, &name, rule, flat(grid));
                    }
                }
            }
        }
    }
}
