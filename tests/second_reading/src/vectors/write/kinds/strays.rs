//! Numbers that a grid's kind does not have, which are not looked at; and numbers that
//! stand for no grid, which 9 refuses.

use crate::vectors::given;
use crate::vectors::kinds::{FIVE, FOUR, LATLON, NO_KINDS, THINNED};
use crate::vectors::octants::{Octant, Present, NORTH, OCTANTS, POINTS, SOUTH};
use crate::vectors::write::Table;
use crate::{Grid, Parts, Rows};

pub fn add(table: &mut Table) {
    table.group("kinds-strays");
    strays(table);
    octant_strays(table);
    table.group("9-no-kind");
    no_kind(table);
    thinned(table);
}

const NOT_LOOKED_AT: &str = "R-4: a number that this kind of grid does not have is not looked at";

fn strays(table: &mut Table) {
    for kind in FIVE {
        let message = kind.sections().message();
        let mut all = [kind.grid(), kind.grid()];
        let mut add = |name: String, grid: Grid| {
            let mut parts = kind.parts();
            parts.form.grid = Some(grid);
            let name = format!("{}-stray-{name}", kind.name);
            table.add(0, &name, NOT_LOOKED_AT, parts).message = Some(message.clone());
        };
        for figure in kind.strays() {
            let (least, most) = figure.range();
            for (number, all) in [least, most].into_iter().zip(&mut all) {
                *all = figure.put(*all, number);
                if number != 0 {
                    let name = format!("{}-{number}", figure.name());
                    add(name, figure.put(kind.grid(), number));
                }
            }
        }
        add("all-least".into(), all[0]);
        add("all-most".into(), all[1]);
    }
}

/// A thinned octant has what a latitude/longitude grid has.
fn octant_strays(table: &mut Table) {
    for octant in OCTANTS {
        let mut parts = octant.parts(true, Present::Firsts, 7);
        let mut grid = octant.grid();
        for figure in LATLON.strays() {
            grid = figure.put(grid, figure.range().1);
        }
        parts.form.grid = Some(grid);
        let name = format!("octant-{}-stray-all-most", octant.number);
        let vector = table.add(0, &name, NOT_LOOKED_AT, parts);
        vector.message = Some(octant.rowed(true, Present::Firsts, 7).message());
    }
}

const NO_KIND: &str = "9: numbers that stand for a grid of no kind";

/// Parts with another grid, and lists of so many points.
fn with(mut parts: Parts, grid: Grid, points: usize) -> Parts {
    parts.form.grid = Some(grid);
    parts.values.resize(points, 0);
    parts.marks.resize(points, 1);
    parts
}

fn no_kind(table: &mut Table) {
    for number in NO_KINDS {
        for home in FIVE {
            let grid = Grid {
                kind: number,
                ..home.grid()
            };
            let name = format!("9-kind-{number}-of-{}", home.name);
            table.add(9, &name, NO_KIND, with(home.plain_parts(), grid, 4));
        }
        // lists of no points, as such a grid has none
        let grid = Grid {
            kind: number,
            ..LATLON.grid()
        };
        let name = format!("9-kind-{number}-no-points");
        table.add(9, &name, NO_KIND, with(given::plain(), grid, 0));
        for (start, rows) in THINNED {
            let name = format!("9-kind-{number}-{start}");
            let grid = Grid { rows, ..grid };
            table.add(9, &name, NO_KIND, with(given::plain(), grid, 4));
        }
    }
}

fn octant_of(octant: &Octant, kind: u8, rows: Rows) -> Parts {
    let grid = Grid {
        kind,
        rows,
        ..octant.grid()
    };
    with(octant.parts(true, Present::All, 7), grid, POINTS)
}

fn thinned(table: &mut Table) {
    for kind in FOUR {
        for (start, rows) in THINNED {
            for points in [0, 4, POINTS] {
                let grid = Grid {
                    rows,
                    ..kind.grid()
                };
                let name = format!("9-{}-{start}-{points}", kind.name);
                table.add(9, &name, NO_KIND, with(kind.plain_parts(), grid, points));
            }
        }
    }
    for octant in [NORTH, SOUTH] {
        for number in [1, 2, 3, 4, 5, 6, 255] {
            let name = format!("9-octant-{}-kind-{number}", octant.number);
            let parts = octant_of(&octant, number, octant.grid().rows);
            table.add(9, &name, NO_KIND, parts);
        }
    }
}
