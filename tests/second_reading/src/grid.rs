//! Grids: the catalogue, the rules for a grid's numbers, and the chart.

use crate::bits::{bit, bits_of_number, bits_of_signed, number_in, octet, octets_of, signed_in};
use crate::Figure::*;
use crate::{Figure, Grid, Rows};

/// The kinds of grid, by document 003's table 6 for GDS octet 6.
pub const LAT_LON: u8 = 0;
pub const MERCATOR: u8 = 1;
pub const LAMBERT: u8 = 3;
pub const GAUSSIAN: u8 = 4;
pub const POLAR: u8 = 5;

/// All of them.
pub const KINDS: [u8; 5] = [LAT_LON, MERCATOR, LAMBERT, GAUSSIAN, POLAR];

/// What stands in some octets of a GDS.
#[derive(Clone, Copy, PartialEq, Eq, Debug)]
pub enum What {
    /// A number without a sign.
    Number(Figure),
    /// A sign bit and a magnitude; "Latitude magnitude is at most 90,000".
    Latitude(Figure),
    /// A sign bit and a magnitude; "longitude at most 360,000".
    Longitude(Figure),
    /// "ignored on reading, written zero"
    Reserved,
}

use What::{Latitude, Longitude, Number, Reserved};

/// A line of a layout: the first octet, the last one, what stands in them.
pub type Line = (usize, usize, What);

/// Document 003, "LATITUDE/LONGITUDE GRIDS INCLUDING GAUSSIAN (GDS Octets 7 - 32)",
/// and document 01: "Ni 7-8; Nj 9-10; La1 11-13; Lo1 14-16; resolution flags 17; La2
/// 18-20; Lo2 21-23; Di 24-25; Dj 26-27; scanning flags 28; 29-32 reserved".
const LAT_LON_LAYOUT: &[Line] = &[
    (7, 8, Number(Ni)),
    (9, 10, Number(Nj)),
    (11, 13, Latitude(La1)),
    (14, 16, Longitude(Lo1)),
    (17, 17, Number(Flags)),
    (18, 20, Latitude(La2)),
    (21, 23, Longitude(Lo2)),
    (24, 25, Number(Di)),
    (26, 27, Number(Dj)),
    (28, 28, Number(Scan)),
    (29, 32, Reserved),
];

/// The same page, "Gaussian Grid: N - number of latitude circles between a pole and
/// the equator" in octets 26-27.
const GAUSSIAN_LAYOUT: &[Line] = &[
    (7, 8, Number(Ni)),
    (9, 10, Number(Nj)),
    (11, 13, Latitude(La1)),
    (14, 16, Longitude(Lo1)),
    (17, 17, Number(Flags)),
    (18, 20, Latitude(La2)),
    (21, 23, Longitude(Lo2)),
    (24, 25, Number(Di)),
    (26, 27, Number(Circles)),
    (28, 28, Number(Scan)),
    (29, 32, Reserved),
];

/// "POLAR STEREOGRAPHIC GRIDS (GDS Octets 7 - 32)".
const POLAR_LAYOUT: &[Line] = &[
    (7, 8, Number(Ni)),
    (9, 10, Number(Nj)),
    (11, 13, Latitude(La1)),
    (14, 16, Longitude(Lo1)),
    (17, 17, Number(Flags)),
    (18, 20, Longitude(Lov)),
    (21, 23, Number(Dx)),
    (24, 26, Number(Dy)),
    (27, 27, Number(Centre)),
    (28, 28, Number(Scan)),
    (29, 32, Reserved),
];

/// "LAMBERT CONFORMAL SECANT OR TANGENT CONE GRIDS (GDS Octets 7 - 42)".
const LAMBERT_LAYOUT: &[Line] = &[
    (7, 8, Number(Ni)),
    (9, 10, Number(Nj)),
    (11, 13, Latitude(La1)),
    (14, 16, Longitude(Lo1)),
    (17, 17, Number(Flags)),
    (18, 20, Longitude(Lov)),
    (21, 23, Number(Dx)),
    (24, 26, Number(Dy)),
    (27, 27, Number(Centre)),
    (28, 28, Number(Scan)),
    (29, 31, Latitude(Latin1)),
    (32, 34, Latitude(Latin2)),
    (35, 37, Latitude(PoleLa)),
    (38, 40, Longitude(PoleLo)),
    (41, 42, Reserved),
];

/// "MERCATOR GRIDS (GDS Octets 7 - 42)".
const MERCATOR_LAYOUT: &[Line] = &[
    (7, 8, Number(Ni)),
    (9, 10, Number(Nj)),
    (11, 13, Latitude(La1)),
    (14, 16, Longitude(Lo1)),
    (17, 17, Number(Flags)),
    (18, 20, Latitude(La2)),
    (21, 23, Longitude(Lo2)),
    (24, 26, Latitude(Latin1)),
    (27, 27, Reserved),
    (28, 28, Number(Scan)),
    (29, 31, Number(Dx)),
    (32, 34, Number(Dy)),
    (35, 42, Reserved),
];

/// The layout of a kind; no lines of a number that is no kind's.
pub fn layout_of(kind: u8) -> &'static [Line] {
    match kind {
        LAT_LON => LAT_LON_LAYOUT,
        MERCATOR => MERCATOR_LAYOUT,
        LAMBERT => LAMBERT_LAYOUT,
        GAUSSIAN => GAUSSIAN_LAYOUT,
        POLAR => POLAR_LAYOUT,
        _ => &[],
    }
}

/// "GDS 42 octets for the first two, else 32", the first two being Mercator and
/// Lambert.
pub fn length_of(kind: u8) -> usize {
    match kind {
        MERCATOR | LAMBERT => 42,
        _ => 32,
    }
}

/// Numbers that stand for no grid: a kind that is none of the five, or thinned rows
/// with another kind than 0. 9 refuses it; it has no rows and no points.
pub fn of_no_kind(grid: &Grid) -> bool {
    !KINDS.contains(&grid.kind) || (grid.kind != LAT_LON && grid.rows != Rows::Even)
}

/// The grid without the numbers that its kind does not have.
pub fn own_figures(grid: &Grid) -> Grid {
    let mut own = Grid {
        kind: grid.kind,
        rows: grid.rows,
        ..Grid::default()
    };
    for &(_, _, what) in layout_of(grid.kind) {
        if let Number(figure) | Latitude(figure) | Longitude(figure) = what {
            own = figure.put(own, figure.of(grid));
        }
    }
    own
}

/// "Without a GDS, PDS octet 7 picks from this catalogue; resolution flags are
/// 128". One line per line of the table, in its order: number, Ni, Nj, La1, Lo1,
/// La2, Lo2, Di, Dj, Scan.
const CATALOGUE: [[i32; 10]; 7] = [
    [2, 144, 73, 90000, 0, -90000, 357500, 2500, 2500, 0],
    [3, 360, 181, 90000, 0, -90000, 359000, 1000, 1000, 0],
    [29, 145, 37, 0, 0, 90000, 360000, 2500, 2500, 64],
    [30, 145, 37, -90000, 0, 0, 360000, 2500, 2500, 64],
    [33, 181, 46, 0, 0, 90000, 360000, 2000, 2000, 64],
    [34, 181, 46, -90000, 0, 0, 360000, 2000, 2000, 64],
    [45, 288, 145, 90000, 0, -90000, 358750, 1250, 1250, 0],
];

/// The eight octants of R-1, by document 003's "Details of Octets 7-32": number,
/// La1, Lo1, La2, Lo2, in degrees, south below 0.
const OCTANTS: [[i32; 5]; 8] = [
    [37, 0, 330, 90, 60],
    [38, 0, 60, 90, 150],
    [39, 0, 150, 90, 240],
    [40, 0, 240, 90, 330],
    [41, -90, 330, 0, 60],
    [42, -90, 60, 0, 150],
    [43, -90, 150, 0, 240],
    [44, -90, 240, 0, 330],
];

/// Document 003: "a table of the exact values of NPOINTS as a function of
/// latitude". A line of it is the first and the last latitude, in hundredths of a
/// degree, and the number of points of each row there, north or south. In our copy
/// of it the last four numbers, 6, 5, 3 and 2, have slipped from their lines.
const NPOINTS: [[u32; 3]; 57] = [
    [0, 875, 73],
    [1000, 1250, 72],
    [1375, 1625, 71],
    [1750, 1875, 70],
    [2000, 2125, 69],
    [2250, 2250, 68],
    [2375, 2500, 67],
    [2625, 2625, 66],
    [2750, 2875, 65],
    [3000, 3000, 64],
    [3125, 3125, 63],
    [3250, 3250, 62],
    [3375, 3375, 61],
    [3500, 3625, 60],
    [3750, 3750, 59],
    [3875, 3875, 58],
    [4000, 4000, 57],
    [4125, 4125, 56],
    [4250, 4250, 55],
    [4375, 4375, 54],
    [4500, 4500, 52],
    [4625, 4625, 51],
    [4750, 4750, 50],
    [4875, 4875, 49],
    [5000, 5000, 48],
    [5125, 5125, 47],
    [5250, 5250, 45],
    [5375, 5375, 44],
    [5500, 5500, 43],
    [5625, 5625, 42],
    [5750, 5750, 40],
    [5875, 5875, 39],
    [6000, 6000, 38],
    [6125, 6125, 36],
    [6250, 6250, 35],
    [6375, 6375, 33],
    [6500, 6500, 32],
    [6625, 6625, 30],
    [6750, 6750, 29],
    [6875, 6875, 28],
    [7000, 7000, 26],
    [7125, 7125, 25],
    [7250, 7250, 23],
    [7375, 7375, 22],
    [7500, 7500, 20],
    [7625, 7625, 19],
    [7750, 7750, 17],
    [7875, 7875, 16],
    [8000, 8000, 14],
    [8125, 8125, 12],
    [8250, 8250, 11],
    [8375, 8375, 9],
    [8500, 8500, 8],
    [8625, 8625, 6],
    [8750, 8750, 5],
    [8875, 8875, 3],
    [9000, 9000, 2],
];

/// "The latitudinal increment is always 1.25 deg.; this results in 73 rows where
/// the pole is included as a "row"": the points of each row, from the equator on.
fn from_the_equator() -> Vec<u32> {
    let latitudes = (0..73).map(|row| 125 * row);
    latitudes
        .map(|latitude| {
            let there = |line: &&[u32; 3]| line[0] <= latitude && latitude <= line[1];
            NPOINTS.iter().find(there).expect("a row of the table")[2]
        })
        .collect()
}

/// The points of each row of a thinned grid, in message order. "37 to 40 are
/// north, 41 to 44 south with the counts reversed".
fn counts(rows: Rows) -> Vec<u32> {
    match rows {
        Rows::FromEquator => from_the_equator(),
        Rows::FromPole => from_the_equator().into_iter().rev().collect(),
        Rows::Even | Rows::Neither => Vec::new(),
    }
}

/// An octant by its line above: "Ni and Di are all ones, Nj is 73"; document 003
/// has resolution flags 10000000, Dj 1.25 degrees and scanning mode 01000000.
fn octant(line: &[i32; 5]) -> Grid {
    Grid {
        ni: 65_535,
        nj: 73,
        la1: 1_000 * line[1],
        lo1: 1_000 * line[2],
        flags: 0b1000_0000,
        la2: 1_000 * line[3],
        lo2: 1_000 * line[4],
        di: 65_535,
        dj: 1_250,
        scan: 0b0100_0000,
        rows: if line[0] <= 40 {
            Rows::FromEquator
        } else {
            Rows::FromPole
        },
        ..Grid::default()
    }
}

/// The catalogue's grid of that number, if it has one. R-1, of the octants: "Take
/// them with or without the GDS."
pub fn from_catalogue(number: u8) -> Option<Grid> {
    if let Some(line) = OCTANTS.iter().find(|line| line[0] == number as i32) {
        return Some(octant(line));
    }
    let line = CATALOGUE.iter().find(|line| line[0] == number as i32)?;
    Some(Grid {
        ni: line[1] as u16,
        nj: line[2] as u16,
        la1: line[3],
        lo1: line[4],
        flags: 128,
        la2: line[5],
        lo2: line[6],
        di: line[7] as u16,
        dj: line[8] as u16,
        scan: line[9] as u8,
        ..Grid::default()
    })
}

/// "octets 33-178 list the row counts", two octets each. Which of the two
/// lists they are, or neither.
fn rows_listed(gds: &[u8]) -> Rows {
    let listed: Vec<u32> = (0..73)
        .map(|row| number_in(gds, 33 + 2 * row, 34 + 2 * row) as u32)
        .collect();
    if listed == counts(Rows::FromEquator) {
        Rows::FromEquator
    } else if listed == counts(Rows::FromPole) {
        Rows::FromPole
    } else {
        Rows::Neither
    }
}

/// The grid that a GDS describes, by the layout of its kind. Of a thinned one R-1:
/// "octets 33-178 list the row counts".
pub fn from_gds(gds: &[u8]) -> Grid {
    let mut grid = Grid {
        kind: octet(gds, 6),
        ..Grid::default()
    };
    for &(first, last, what) in layout_of(grid.kind) {
        grid = match what {
            Number(figure) => figure.put(grid, number_in(gds, first, last) as i64),
            Latitude(figure) | Longitude(figure) => figure.put(grid, signed_in(gds, first, last)),
            Reserved => grid,
        };
    }
    if gds.len() == 178 {
        grid.rows = rows_listed(gds);
    }
    grid
}

/// The GDS of a grid that 9 does not refuse: its length in octets 1-3, "octet 4 is 0;
/// octet 5 is 255", octet 6 its kind, and the layout of its kind. Of a thinned one R-1:
/// "The GDS is 178 octets, octet 5 is 33, and octets 33-178 list the row counts".
pub fn to_gds(grid: &Grid) -> Vec<u8> {
    let (length, octet_5) = match grid.rows {
        Rows::Even => (length_of(grid.kind), 255),
        _ => (178, 33),
    };
    let mut bits = Vec::new();
    bits.extend(bits_of_number(length as u64, 24));
    bits.extend(bits_of_number(0, 8));
    bits.extend(bits_of_number(octet_5, 8));
    bits.extend(bits_of_number(grid.kind as u64, 8));
    for &(first, last, what) in layout_of(grid.kind) {
        let width = 8 * (last - first + 1);
        bits.extend(match what {
            Number(figure) => bits_of_number(figure.of(grid) as u64, width),
            Latitude(figure) | Longitude(figure) => bits_of_signed(figure.of(grid), width),
            Reserved => vec![false; width],
        });
    }
    for count in counts(grid.rows) {
        bits.extend(bits_of_number(count as u64, 16));
    }
    octets_of(&bits)
}

/// "points n = Ni x Nj"; thinned, "n is the sum of the counts"
pub fn points(grid: &Grid) -> u64 {
    if of_no_kind(grid) {
        return 0;
    }
    match grid.rows {
        Rows::Even => grid.ni as u64 * grid.nj as u64,
        rows => counts(rows).iter().map(|&count| count as u64).sum(),
    }
}

/// 9: "Ni, Nj, n, a latitude, a longitude or the scan test outside the rules"; R-4: "9
/// covers 01's bounds and a missing Gaussian N; other fields are carried".
pub fn grid_outside_rules(grid: &Grid) -> bool {
    if of_no_kind(grid) {
        return true;
    }
    // R-1: "a thinned GDS that isn't by value one of the eight, reserved octets
    // aside, is 9"
    if grid.rows != Rows::Even {
        return !OCTANTS.iter().any(|line| octant(line) == own_figures(grid));
    }
    // "Ni, Nj: least 1, most 65,534"
    if grid.ni < 1 || grid.ni > 65_534 || grid.nj < 1 || grid.nj > 65_534 {
        return true;
    }
    // "points n = Ni x Nj: least 1, most 65,536"
    if points(grid) < 1 || points(grid) > 65_536 {
        return true;
    }
    for &(first, last, what) in layout_of(grid.kind) {
        let outside = match what {
            // "Latitude magnitude is at most 90,000, longitude at most 360,000."
            Latitude(figure) => figure.of(grid).abs() > 90_000,
            Longitude(figure) => figure.of(grid).abs() > 360_000,
            // a step in metres is given in 32 bits, and has three octets
            Number(figure) => figure.of(grid) >= 1 << (8 * (last - first + 1)),
            Reserved => false,
        };
        if outside {
            return true;
        }
    }
    // "a missing Gaussian N": all ones
    if grid.kind == GAUSSIAN && grid.circles == 65_535 {
        return true;
    }
    // "The scan test against latitudes holds for Mercator and Gaussian only", of
    // the four; on the other two nothing is tested.
    if grid.kind == LAMBERT || grid.kind == POLAR {
        return false;
    }
    // "If Nj > 1, rows running north need La2 above La1, else La2 below La1;
    // with Nj = 1 this is not tested."
    if grid.nj > 1 {
        let rows_run_north = bit(grid.scan, 2);
        let as_needed = if rows_run_north {
            grid.la2 > grid.la1
        } else {
            grid.la2 < grid.la1
        };
        if !as_needed {
            return true;
        }
    }
    false
}

/// The place of a step along `count` rows or columns, or the step to a place: the
/// same where they run as the chart's are numbered, else counted from the far end.
fn turned(step: u64, count: u64, runs_back: bool) -> u64 {
    if runs_back {
        count - 1 - step
    } else {
        step
    }
}

/// How many points a row of the chart has; none where there is no such row.
pub fn points_in_row(grid: &Grid, row: u32) -> u32 {
    if of_no_kind(grid) {
        return 0;
    }
    if grid.rows == Rows::Even {
        return if row < grid.nj as u32 {
            grid.ni as u32
        } else {
            0
        };
    }
    // "Bit 2 set: rows run north." The counts stand in message order, and the
    // chart's row 0 is north.
    let mut counts = counts(grid.rows);
    if bit(grid.scan, 2) {
        counts.reverse();
    }
    counts.get(row as usize).copied().unwrap_or(0)
}

/// The chart row and column of a grid point, or nothing for a point that the
/// grid does not have. R-4: on Lambert and polar grids "chart row 0 is the greatest
/// y", and bit 2 says whether rows run towards it.
pub fn place_of(grid: &Grid, point: u32) -> Option<(u32, u32)> {
    if of_no_kind(grid) {
        return None;
    }
    if grid.rows != Rows::Even {
        return place_of_thinned(grid, point);
    }
    let (ni, nj, point) = (grid.ni as u64, grid.nj as u64, point as u64);
    if point >= ni * nj {
        return None;
    }
    // "Bit 3 set: points of one column are consecutive, else of one row."
    let (column_step, row_step) = if bit(grid.scan, 3) {
        (point / nj, point % nj)
    } else {
        (point % ni, point / ni)
    };
    // "Scanning bit 1 set: columns run west." Column 0 is west.
    let column = turned(column_step, ni, bit(grid.scan, 1));
    // "Bit 2 set: rows run north." Row 0 is north.
    let row = turned(row_step, nj, bit(grid.scan, 2));
    Some((row as u32, column as u32))
}

/// "A place is then a row and a position in that row." Points of one row are
/// consecutive, and bit 3 has nothing to say: the rows are not of one length. Bit 1
/// turns each row by its own count.
fn place_of_thinned(grid: &Grid, point: u32) -> Option<(u32, u32)> {
    let counts = counts(grid.rows);
    let mut left = point;
    for (row_step, &count) in counts.iter().enumerate() {
        if left < count {
            let column = turned(left as u64, count as u64, bit(grid.scan, 1));
            let row = turned(row_step as u64, counts.len() as u64, bit(grid.scan, 2));
            return Some((row as u32, column as u32));
        }
        left -= count;
    }
    None
}

/// The grid point at a chart row and column, or nothing outside the chart.
pub fn point_at(grid: &Grid, row: u32, column: u32) -> Option<u32> {
    if column >= points_in_row(grid, row) {
        return None;
    }
    if grid.rows != Rows::Even {
        return Some(point_at_thinned(grid, row, column));
    }
    let (ni, nj, row, column) = (grid.ni as u64, grid.nj as u64, row as u64, column as u64);
    let column_step = turned(column, ni, bit(grid.scan, 1));
    let row_step = turned(row, nj, bit(grid.scan, 2));
    let point = if bit(grid.scan, 3) {
        column_step * nj + row_step
    } else {
        row_step * ni + column_step
    };
    Some(point as u32)
}

/// The same on a thinned grid: the points of the rows before, and the steps in its
/// own.
fn point_at_thinned(grid: &Grid, row: u32, column: u32) -> u32 {
    let counts = counts(grid.rows);
    let row_step = turned(row as u64, counts.len() as u64, bit(grid.scan, 2)) as usize;
    let count = counts[row_step] as u64;
    let before: u32 = counts[..row_step].iter().sum();
    before + turned(column as u64, count, bit(grid.scan, 1)) as u32
}

/// The (row, column) of each point in message order, written out by walking the
/// chart as the flags say. The listing uses this one.
pub fn layout(grid: &Grid) -> Vec<(u32, u32)> {
    if of_no_kind(grid) {
        return Vec::new();
    }
    // "The chart's row 0 is north and column 0 is west"
    let nj = match grid.rows {
        Rows::Even => grid.nj as usize,
        rows => counts(rows).len(),
    };
    let mut rows: Vec<u32> = (0..nj as u32).collect();
    // "Bit 2 set: rows run north."
    if bit(grid.scan, 2) {
        rows.reverse();
    }
    // "Scanning bit 1 set: columns run west."
    let columns_of = |row: u32| -> Vec<u32> {
        let mut columns: Vec<u32> = (0..points_in_row(grid, row)).collect();
        if bit(grid.scan, 1) {
            columns.reverse();
        }
        columns
    };
    let mut places = Vec::new();
    // "Bit 3 set: points of one column are consecutive, else of one row."
    if bit(grid.scan, 3) && grid.rows == Rows::Even {
        for column in columns_of(0) {
            for &row in &rows {
                places.push((row, column));
            }
        }
    } else {
        for &row in &rows {
            for column in columns_of(row) {
                places.push((row, column));
            }
        }
    }
    places
}

#[cfg(test)]
mod tests {
    use super::*;

    #[test]
    fn the_catalogue_keeps_the_rules() {
        for number in 0..=255 {
            let listed =
                [2, 3, 29, 30, 33, 34, 45].contains(&number) || (37..=44).contains(&number);
            let grid = from_catalogue(number);
            assert_eq!(grid.is_some(), listed);
            if let Some(grid) = grid {
                assert!(!grid_outside_rules(&grid));
                assert_eq!(grid.flags, 128);
                assert_eq!(from_gds(&to_gds(&grid)), grid);
            }
        }
    }

    #[test]
    fn edges_of_the_point_count() {
        let grid = |ni, nj| Grid {
            ni,
            nj,
            la1: 1,
            la2: 2,
            scan: 64,
            ..Grid::default()
        };
        assert!(!grid_outside_rules(&grid(256, 256)));
        assert!(grid_outside_rules(&grid(257, 256)));
        assert!(!grid_outside_rules(&grid(65_534, 1)));
        assert!(!grid_outside_rules(&grid(1, 65_534)));
        assert!(grid_outside_rules(&grid(65_535, 1)));
        assert!(grid_outside_rules(&grid(1, 65_535)));
        assert!(grid_outside_rules(&grid(0, 1)));
        assert!(grid_outside_rules(&grid(1, 0)));
    }

    #[test]
    fn edges_of_the_corners() {
        let good = Grid {
            ni: 1,
            nj: 2,
            la1: -90_000,
            la2: 90_000,
            lo1: -360_000,
            lo2: 360_000,
            scan: 64,
            ..Grid::default()
        };
        assert!(!grid_outside_rules(&good));
        assert!(grid_outside_rules(&Grid {
            la1: -90_001,
            ..good
        }));
        assert!(grid_outside_rules(&Grid {
            la2: 90_001,
            ..good
        }));
        assert!(grid_outside_rules(&Grid {
            lo1: -360_001,
            ..good
        }));
        assert!(grid_outside_rules(&Grid {
            lo2: 360_001,
            ..good
        }));
        assert!(grid_outside_rules(&Grid {
            la1: i32::MIN,
            ..good
        }));
        assert!(grid_outside_rules(&Grid { scan: 0, ..good }));
        assert!(grid_outside_rules(&Grid {
            la2: -90_000,
            ..good
        }));
        assert!(!grid_outside_rules(&Grid {
            nj: 1,
            scan: 0,
            ..good
        }));
    }

    #[test]
    fn all_eight_settings() {
        // Two columns and three rows; the numbers are drawn on the chart.
        let grid = |scan| Grid {
            ni: 2,
            nj: 3,
            scan,
            ..Grid::default()
        };
        let drawn = |scan: u8| -> Vec<u32> {
            let places = (0..3).flat_map(|row| (0..2).map(move |column| (row, column)));
            places
                .map(|(row, column)| point_at(&grid(scan), row, column).unwrap())
                .collect()
        };
        assert_eq!(drawn(0x00), [0, 1, 2, 3, 4, 5]);
        assert_eq!(drawn(0x80), [1, 0, 3, 2, 5, 4]);
        assert_eq!(drawn(0x40), [4, 5, 2, 3, 0, 1]);
        assert_eq!(drawn(0xC0), [5, 4, 3, 2, 1, 0]);
        assert_eq!(drawn(0x20), [0, 3, 1, 4, 2, 5]);
        assert_eq!(drawn(0xA0), [3, 0, 4, 1, 5, 2]);
        assert_eq!(drawn(0x60), [2, 5, 1, 4, 0, 3]);
        assert_eq!(drawn(0xE0), [5, 2, 4, 1, 3, 0]);
        for scan in 0..=255 {
            assert_eq!(drawn(scan), drawn(scan & 0xE0));
            let grid = grid(scan);
            for point in 0..6 {
                let (row, column) = place_of(&grid, point).unwrap();
                assert_eq!(layout(&grid)[point as usize], (row, column));
                assert_eq!(point_at(&grid, row, column), Some(point));
            }
            assert_eq!(place_of(&grid, 6), None);
            assert_eq!(point_at(&grid, 3, 0), None);
            assert_eq!(point_at(&grid, 0, 2), None);
            let rows: Vec<u32> = (0..4).map(|row| points_in_row(&grid, row)).collect();
            assert_eq!(rows, [2, 2, 2, 0]);
        }
    }

    /// Document 003: "73 rows", "3447 points", and "IFIX(2.0 + (90.0/1.25) *
    /// COS(LATITUDE))" for each row "other than the equator".
    #[test]
    fn an_octant_has_3447_points() {
        let counts = from_the_equator();
        assert_eq!((counts.len(), counts.iter().sum()), (73, 3_447));
        assert_eq!(counts[0], 73);
        for (row, &count) in counts.iter().enumerate().skip(1) {
            let latitude = (1.25 * row as f64).to_radians();
            assert_eq!(count, (2.0 + 72.0 * latitude.cos()) as u32, "row {row}");
        }
        for number in 37..=44 {
            let grid = from_catalogue(number).expect("an octant");
            assert_eq!(points(&grid), 3_447);
            assert_eq!(to_gds(&grid).len(), 178);
        }
    }

    #[test]
    fn an_octant_is_one_by_value() {
        for number in 37..=44 {
            let good = from_catalogue(number).expect("an octant");
            let other_half = from_catalogue((number - 37 + 4) % 8 + 37).expect("an octant");
            for wrong in [
                Grid { ni: 73, ..good },
                Grid { nj: 72, ..good },
                Grid {
                    la1: good.la1 + 1,
                    ..good
                },
                Grid {
                    lo1: good.lo1 - 360_000,
                    ..good
                },
                Grid { flags: 0, ..good },
                Grid {
                    la2: good.la2 - 1,
                    ..good
                },
                Grid { lo2: 0, ..good },
                Grid { di: 1_250, ..good },
                Grid { dj: 65_535, ..good },
                Grid { scan: 0, ..good },
                Grid {
                    rows: other_half.rows,
                    ..good
                },
                Grid {
                    rows: Rows::Neither,
                    ..good
                },
                Grid {
                    rows: Rows::Even,
                    ..good
                },
            ] {
                assert!(grid_outside_rules(&wrong), "{wrong:?}");
            }
            // a row of one point more: no octant's counts
            for row in 0..73 {
                let mut gds = to_gds(&good);
                gds[33 + 2 * row] += 1;
                assert_eq!(from_gds(&gds).rows, Rows::Neither);
            }
        }
    }

    /// Grid 37 begins with the equator, 41 with the pole; both at the bottom.
    #[test]
    fn rows_of_an_octant() {
        let (north, south) = (from_catalogue(37).unwrap(), from_catalogue(41).unwrap());
        assert_eq!(points_in_row(&north, 0), 2);
        assert_eq!(points_in_row(&north, 72), 73);
        assert_eq!(points_in_row(&south, 0), 73);
        assert_eq!(points_in_row(&south, 72), 2);
        assert_eq!(place_of(&north, 0), Some((72, 0)));
        assert_eq!(place_of(&north, 72), Some((72, 72)));
        assert_eq!(place_of(&north, 73), Some((71, 0)));
        assert_eq!(place_of(&north, 3_446), Some((0, 1)));
        assert_eq!(place_of(&south, 0), Some((72, 0)));
        assert_eq!(place_of(&south, 1), Some((72, 1)));
        assert_eq!(place_of(&south, 2), Some((71, 0)));
        assert_eq!(place_of(&south, 3_446), Some((0, 72)));
        for grid in [north, south] {
            assert_eq!(place_of(&grid, 3_447), None);
            assert_eq!(points_in_row(&grid, 73), 0);
            assert_eq!(points_in_row(&grid, u32::MAX), 0);
            assert_eq!(point_at(&grid, 73, 0), None);
        }
        assert_eq!(point_at(&north, 0, 1), Some(3_446));
        assert_eq!(point_at(&north, 0, 2), None);
        assert_eq!(point_at(&south, 0, 72), Some(3_446));
        assert_eq!(point_at(&south, 0, 73), None);
    }

    /// Over any thinned record, octant or not: the places are those of the walk
    /// over the chart, each once, and lead back.
    #[test]
    fn places_of_any_thinned_grid() {
        for rows in [Rows::FromEquator, Rows::FromPole, Rows::Neither] {
            for scan in (0..8).map(|k| 32 * k + 3) {
                let grid = Grid {
                    ni: 7,
                    nj: 9,
                    scan,
                    rows,
                    ..Grid::default()
                };
                let walk = layout(&grid);
                assert_eq!(walk.len() as u64, points(&grid));
                for (point, &(row, column)) in walk.iter().enumerate() {
                    let point = point as u32;
                    assert_eq!(place_of(&grid, point), Some((row, column)));
                    assert_eq!(point_at(&grid, row, column), Some(point));
                    assert!(column < points_in_row(&grid, row));
                }
                assert_eq!(place_of(&grid, walk.len() as u32), None);
                for row in 0..80 {
                    let count = points_in_row(&grid, row);
                    assert_eq!(point_at(&grid, row, count), None);
                    assert_eq!(point_at(&grid, row, u32::MAX), None);
                }
            }
        }
    }

    /// A grid of each kind that the rules take, each of its numbers another one.
    fn of_each_kind() -> [Grid; 5] {
        KINDS.map(|kind| {
            let all = Grid {
                kind,
                ni: 2,
                nj: 3,
                la1: 50_000,
                lo1: -2_000,
                flags: 128,
                la2: 51_000,
                lo2: -1_000,
                di: 2_813,
                dj: 1_000,
                scan: 64,
                rows: Rows::Even,
                dx: 81_271,
                dy: 16_777_215,
                lov: -95_000,
                latin1: 33_000,
                latin2: -45_000,
                pole_la: -90_000,
                pole_lo: 360_000,
                centre: 192,
                circles: 32,
            };
            own_figures(&all)
        })
    }

    /// Document 003: "GDS Octets 7 - 32" or "7 - 42", each octet once.
    #[test]
    fn each_layout_is_whole() {
        for kind in KINDS {
            let mut next = 7;
            for &(first, last, _) in layout_of(kind) {
                assert_eq!(first, next);
                next = last + 1;
            }
            assert_eq!(next, length_of(kind) + 1);
        }
    }

    #[test]
    fn each_kind_comes_back() {
        for grid in of_each_kind() {
            let gds = to_gds(&grid);
            assert_eq!(gds.len(), length_of(grid.kind));
            assert_eq!(gds[3..6], [0, 255, grid.kind]);
            assert_eq!(from_gds(&gds), grid);
            assert!(!grid_outside_rules(&grid));
        }
    }

    #[test]
    fn edges_of_each_field() {
        for good in of_each_kind() {
            // one row: no scan test
            let good = Grid { nj: 1, ..good };
            let refused = |figure: Figure, number: i64| {
                let grid = figure.put(good, number);
                grid_outside_rules(&grid)
            };
            for &(_, _, what) in layout_of(good.kind) {
                let (figure, bound) = match what {
                    Latitude(figure) => (figure, 90_000),
                    Longitude(figure) => (figure, 360_000),
                    Number(figure @ (Dx | Dy)) => {
                        assert!(!refused(figure, 0) && !refused(figure, 16_777_215));
                        assert!(refused(figure, 16_777_216) && refused(figure, u32::MAX.into()));
                        continue;
                    }
                    Number(figure @ (Ni | Nj | Circles)) => {
                        assert!(refused(figure, 65_535));
                        assert!(!refused(figure, 1));
                        continue;
                    }
                    Number(figure) => {
                        assert!(!refused(figure, 0) && !refused(figure, figure.range().1));
                        continue;
                    }
                    Reserved => continue,
                };
                for sign in [1, -1] {
                    assert!(!refused(figure, sign * bound), "{figure:?}");
                    assert!(refused(figure, sign * (bound + 1)), "{figure:?}");
                }
                assert!(refused(figure, i32::MIN.into()) && refused(figure, i32::MAX.into()));
            }
            // what it does not have is not looked at
            for figure in crate::FIGURES {
                let other = figure.put(good, figure.range().1);
                if own_figures(&other) == good {
                    assert!(!grid_outside_rules(&other), "{figure:?}");
                }
            }
        }
    }

    /// "The scan test against latitudes holds for Mercator and Gaussian only", and
    /// as before for latitude/longitude grids.
    #[test]
    fn where_the_scan_test_holds() {
        for good in of_each_kind() {
            let turned = Grid { scan: 0, ..good };
            let tested = [LAT_LON, MERCATOR, GAUSSIAN].contains(&good.kind);
            assert_eq!(grid_outside_rules(&turned), tested);
            assert!(!grid_outside_rules(&Grid { nj: 1, ..turned }));
        }
    }

    /// The chart is the same function of Ni, Nj and the flags for all kinds.
    #[test]
    fn one_chart_for_all_kinds() {
        for scan in (0..8).map(|k| 32 * k) {
            let places = |grid: Grid| {
                let grid = Grid { scan, ..grid };
                let rows: Vec<u32> = (0..4).map(|row| points_in_row(&grid, row)).collect();
                for (point, &(row, column)) in layout(&grid).iter().enumerate() {
                    assert_eq!(place_of(&grid, point as u32), Some((row, column)));
                    assert_eq!(point_at(&grid, row, column), Some(point as u32));
                }
                (layout(&grid), rows, points(&grid))
            };
            let [lat_lon, others @ ..] = of_each_kind().map(places);
            for other in others {
                assert_eq!(other, lat_lon);
            }
        }
    }

    #[test]
    fn no_kind_no_points() {
        let mut none = Vec::new();
        for grid in of_each_kind() {
            none.extend([2, 6, 255].map(|kind| Grid { kind, ..grid }));
            if grid.kind != LAT_LON {
                let thinned = [Rows::FromEquator, Rows::FromPole, Rows::Neither];
                none.extend(thinned.map(|rows| Grid { rows, ..grid }));
            }
        }
        for number in 37..=44 {
            let octant = from_catalogue(number).expect("an octant");
            none.extend([1, 3, 4, 5, 6].map(|kind| Grid { kind, ..octant }));
        }
        for grid in none {
            assert!(grid_outside_rules(&grid));
            assert_eq!((points(&grid), layout(&grid).len()), (0, 0));
            assert_eq!(place_of(&grid, 0), None);
            assert_eq!(point_at(&grid, 0, 0), None);
            assert_eq!(points_in_row(&grid, 0), 0);
        }
    }
}
