//! The thinned octants of R-1, grids 37 to 44 of document 003, put together by
//! hand: their octets, their numbers, what is wrong with one that is none of the
//! eight, and fields whose points know their row.

use super::given;
use super::messages::{
    bits, carried, flat, hex, listed, octets, packed, set_length, stored, Sections,
};
use crate::{BitmapKind, Grid, Lent, Parts, Rows, Source};

/// "Document 003 gives 73 rows and 3,447 points".
pub const POINTS: usize = 3_447;

/// Points of each row from the equator to the pole, a line for ten degrees.
const COUNTS: [u16; 73] = [
    73, 73, 73, 73, 73, 73, 73, 73, //
    72, 72, 72, 71, 71, 71, 70, 70, //
    69, 69, 68, 67, 67, 66, 65, 65, //
    64, 63, 62, 61, 60, 60, 59, 58, //
    57, 56, 55, 54, 52, 51, 50, 49, //
    48, 47, 45, 44, 43, 42, 40, 39, //
    38, 36, 35, 33, 32, 30, 29, 28, //
    26, 25, 23, 22, 20, 19, 17, 16, //
    14, 12, 11, 9, 8, 6, 5, 3, //
    2,
];

/// One of the eight.
#[derive(Clone, Copy)]
pub struct Octant {
    pub number: u8,
    pub north: bool,
    /// La1, Lo1, La2, Lo2.
    corners: [i32; 4],
    /// The same in octets.
    octets: [&'static str; 4],
}

/// The eight, in their order.
pub const OCTANTS: [Octant; 8] = [
    Octant {
        number: 37,
        north: true,
        corners: [0, 330_000, 90_000, 60_000],
        octets: ["000000", "050910", "015F90", "00EA60"],
    },
    Octant {
        number: 38,
        north: true,
        corners: [0, 60_000, 90_000, 150_000],
        octets: ["000000", "00EA60", "015F90", "0249F0"],
    },
    Octant {
        number: 39,
        north: true,
        corners: [0, 150_000, 90_000, 240_000],
        octets: ["000000", "0249F0", "015F90", "03A980"],
    },
    Octant {
        number: 40,
        north: true,
        corners: [0, 240_000, 90_000, 330_000],
        octets: ["000000", "03A980", "015F90", "050910"],
    },
    Octant {
        number: 41,
        north: false,
        corners: [-90_000, 330_000, 0, 60_000],
        octets: ["815F90", "050910", "000000", "00EA60"],
    },
    Octant {
        number: 42,
        north: false,
        corners: [-90_000, 60_000, 0, 150_000],
        octets: ["815F90", "00EA60", "000000", "0249F0"],
    },
    Octant {
        number: 43,
        north: false,
        corners: [-90_000, 150_000, 0, 240_000],
        octets: ["815F90", "0249F0", "000000", "03A980"],
    },
    Octant {
        number: 44,
        north: false,
        corners: [-90_000, 240_000, 0, 330_000],
        octets: ["815F90", "03A980", "000000", "050910"],
    },
];

/// Grid 37, of the north.
pub const NORTH: Octant = OCTANTS[0];

/// Grid 42, of the south.
pub const SOUTH: Octant = OCTANTS[5];

/// Which points of an octant are present, and where a bitmap says so.
#[derive(Clone, Copy, PartialEq)]
pub enum Present {
    /// All, without a bitmap.
    All,
    /// The first point of each row, by a carried bitmap.
    Firsts,
    /// The last point of each row, by stored bitmap 700.
    Lasts,
}

/// The three, and what a vector's name calls them.
pub const PRESENT: [(&str, Present); 3] = [
    ("", Present::All),
    ("-carried", Present::Firsts),
    ("-stored", Present::Lasts),
];

impl Octant {
    /// "37 to 40 are north, 41 to 44 south with the counts reversed."
    pub fn counts(&self) -> Vec<u16> {
        let mut counts = COUNTS.to_vec();
        if !self.north {
            counts.reverse();
        }
        counts
    }

    /// The octant on the other side of the equator.
    pub fn other_half(&self) -> Octant {
        OCTANTS[(self.number as usize - 37 + 4) % 8]
    }

    /// The next octant to the east.
    pub fn next(&self) -> Octant {
        let first = if self.north { 37 } else { 41 };
        let east = (self.number - first + 1) % 4;
        OCTANTS[(first - 37 + east) as usize]
    }

    /// The grid as it is given to the writer.
    pub fn grid(&self) -> Grid {
        let [la1, lo1, la2, lo2] = self.corners;
        Grid {
            ni: 65_535,
            nj: 73,
            la1,
            lo1,
            flags: 128,
            la2,
            lo2,
            di: 65_535,
            dj: 1_250,
            scan: 64,
            rows: if self.north {
                Rows::FromEquator
            } else {
                Rows::FromPole
            },
            ..Grid::default()
        }
    }

    /// The GDS: 178 octets, octet 5 is 33, the counts in octets 33-178.
    pub fn gds(&self) -> Vec<u8> {
        let [la1, lo1, la2, lo2] = self.octets;
        let text =
            format!("0000B2 00 21 00 FFFF 0049 {la1} {lo1} 80 {la2} {lo2} FFFF 04E2 40 00000000");
        let mut gds = hex(&text);
        for count in self.counts() {
            gds.extend(count.to_be_bytes());
        }
        gds
    }

    /// A message of it with its GDS, no bitmap and N = 0. PDS octet 7 is 255, the
    /// number of no grid.
    pub fn flat(&self) -> Sections {
        Sections {
            gds: self.gds(),
            ..flat(2, 2)
        }
    }

    /// The same without the GDS: PDS octet 7 names it.
    pub fn listed(&self) -> Sections {
        listed(self.number)
    }

    /// The row of each point that is present, from 0 in message order, and nothing
    /// for the others.
    pub fn rows(&self, present: Present) -> Vec<Option<u32>> {
        let mut points = Vec::new();
        for (row, &count) in self.counts().iter().enumerate() {
            for position in 0..count {
                let here = match present {
                    Present::All => true,
                    Present::Firsts => position == 0,
                    Present::Lasts => position == count - 1,
                };
                points.push(here.then_some(row as u32));
            }
        }
        points
    }

    /// A message with the row of each present point as its value, of so many bits.
    /// With its GDS or without it.
    pub fn rowed(&self, with_gds: bool, present: Present, width: u8) -> Sections {
        let points = self.rows(present);
        let values: String = points
            .iter()
            .flatten()
            .map(|row| format!("{row:0w$b}", w = width as usize))
            .collect();
        let mut sections = if with_gds { self.flat() } else { self.listed() };
        sections.bds = packed(width, &values);
        sections.bms = match present {
            Present::All => Vec::new(),
            Present::Firsts => carried(&marks_text(&points)),
            Present::Lasts => stored(700),
        };
        sections.pds(8, &[octet_8(with_gds, present)])
    }

    /// The parts of such a message.
    pub fn parts(&self, with_grid: bool, present: Present, width: u8) -> Parts {
        let points = self.rows(present);
        let mut parts = if with_grid {
            given::flat_of(self.grid(), POINTS)
        } else {
            given::listed(self.number, POINTS)
        };
        parts.pds[7] = octet_8(with_grid, present);
        parts.form.bits = width;
        parts.form.bitmap = match present {
            Present::All => BitmapKind::Without,
            Present::Firsts => BitmapKind::Carried,
            Present::Lasts => BitmapKind::Stored(700),
        };
        parts.lent = self.lent(present);
        parts.values = points.iter().map(|x| x.unwrap_or(0)).collect();
        parts.marks = points.iter().map(|x| x.is_some() as u8).collect();
        parts
    }

    /// The bitmap to be lent with such a message.
    pub fn lent(&self, present: Present) -> Lent {
        match present {
            Present::Lasts => Lent {
                number: 700,
                octets: octets(&bits(&marks_text(&self.rows(present)))),
            },
            _ => Lent::default(),
        }
    }

    /// The field that such a message renders: D 1, R 2,500, E 0.
    pub fn field(&self, present: Present) -> Source {
        let points = self.rows(present);
        Source {
            numbers: points
                .iter()
                .map(|x| x.map_or(0, |x| 2_500 + x as i32))
                .collect(),
            marks: points.iter().map(|x| x.is_some() as u8).collect(),
            d: 1,
        }
    }

    /// One number for each field that is not its own, so that the grid is none of
    /// the eight.
    pub fn wrong(&self) -> Vec<(String, Grid)> {
        let (own, other, next) = (self.grid(), self.other_half().grid(), self.next().grid());
        // 330,000 is -30,000 by the compass, and another number
        let west = own.lo1 - 360_000;
        let mut wrong = Vec::new();
        let mut add = |name: String, grid: Grid| wrong.push((name, grid));
        add("ni-73".into(), Grid { ni: 73, ..own });
        add("nj-72".into(), Grid { nj: 72, ..own });
        add(
            format!("la1-{}", other.la1),
            Grid {
                la1: other.la1,
                ..own
            },
        );
        add(
            format!("lo1-{}", next.lo1),
            Grid {
                lo1: next.lo1,
                ..own
            },
        );
        add(format!("lo1-{west}"), Grid { lo1: west, ..own });
        add("flags-0".into(), Grid { flags: 0, ..own });
        add(
            format!("la2-{}", other.la2),
            Grid {
                la2: other.la2,
                ..own
            },
        );
        add(
            format!("lo2-{}", next.lo2),
            Grid {
                lo2: next.lo2,
                ..own
            },
        );
        add("di-1250".into(), Grid { di: 1_250, ..own });
        add("dj-65535".into(), Grid { dj: 65_535, ..own });
        add("scan-0".into(), Grid { scan: 0, ..own });
        wrong
    }

    /// More such numbers, at the edges of each field.
    pub fn more_wrong(&self) -> Vec<(String, Grid)> {
        let own = self.grid();
        let mut wrong = Vec::new();
        let mut add = |name: String, grid: Grid| wrong.push((name, grid));
        for ni in [0, 72, 74, 65_534] {
            add(format!("ni-{ni}"), Grid { ni, ..own });
        }
        for nj in [0, 1, 74, 65_535] {
            add(format!("nj-{nj}"), Grid { nj, ..own });
        }
        for (la1, la2) in [(own.la1 + 1, own.la2 - 1), (own.la1 - 1, own.la2 + 1)] {
            add(format!("la1-{la1}"), Grid { la1, ..own });
            add(format!("la2-{la2}"), Grid { la2, ..own });
        }
        for by in [1, -1] {
            let (lo1, lo2) = (own.lo1 + by, own.lo2 + by);
            add(format!("lo1-{lo1}"), Grid { lo1, ..own });
            add(format!("lo2-{lo2}"), Grid { lo2, ..own });
        }
        add(
            format!("lo1-{}", -own.lo1),
            Grid {
                lo1: -own.lo1,
                ..own
            },
        );
        add(
            format!("lo2-{}", own.lo2 - 360_000),
            Grid {
                lo2: own.lo2 - 360_000,
                ..own
            },
        );
        for flags in [127, 129, 136, 255] {
            add(format!("flags-{flags}"), Grid { flags, ..own });
        }
        for di in [0, 65_534] {
            add(format!("di-{di}"), Grid { di, ..own });
        }
        for dj in [0, 1_249, 1_251] {
            add(format!("dj-{dj}"), Grid { dj, ..own });
        }
        for scan in [32, 65, 96, 192, 255] {
            add(format!("scan-{scan}"), Grid { scan, ..own });
        }
        wrong
    }

    /// The flat message with the fields of another grid in its GDS, and its own
    /// counts.
    pub fn with_fields(&self, grid: &Grid) -> Sections {
        let fields = [
            &grid.ni.to_be_bytes()[..],
            &grid.nj.to_be_bytes(),
            &signed(grid.la1),
            &signed(grid.lo1),
            &[grid.flags],
            &signed(grid.la2),
            &signed(grid.lo2),
            &grid.di.to_be_bytes(),
            &grid.dj.to_be_bytes(),
            &[grid.scan],
        ]
        .concat();
        self.flat().gds(7, &fields)
    }

    /// The flat message with these counts in its GDS.
    pub fn with_counts(&self, counts: &[u16]) -> Sections {
        let octets: Vec<u8> = counts
            .iter()
            .flat_map(|count| count.to_be_bytes())
            .collect();
        self.flat().gds(33, &octets)
    }

    /// Its counts by the formula that document 003 gives for every row but the
    /// equator's: there 74.
    pub fn by_the_formula(&self) -> Vec<u16> {
        let mut counts = self.counts();
        let equator = if self.north { 0 } else { 72 };
        counts[equator] = 74;
        counts
    }

    /// The flat message with its GDS made so many octets long, and the GDS saying
    /// so.
    pub fn long(&self, length: usize) -> Sections {
        let mut sections = self.flat();
        sections.gds.resize(length, 0);
        set_length(&mut sections.gds, length);
        sections
    }
}

/// PDS octet 8 of a message with these sections.
fn octet_8(with_gds: bool, present: Present) -> u8 {
    match (with_gds, present) {
        (true, Present::All) => 0x80,
        (true, _) => 0xC0,
        (false, Present::All) => 0x00,
        (false, _) => 0x40,
    }
}

/// A sign bit and a magnitude in three octets.
fn signed(number: i32) -> [u8; 3] {
    let [_, high, middle, low] = number.unsigned_abs().to_be_bytes();
    [high | if number < 0 { 0x80 } else { 0 }, middle, low]
}

fn marks_text(points: &[Option<u32>]) -> String {
    points
        .iter()
        .map(|x| if x.is_some() { '1' } else { '0' })
        .collect()
}

#[cfg(test)]
mod tests {
    use super::*;

    #[test]
    fn counts_and_octets() {
        assert_eq!(COUNTS.iter().map(|&n| n as usize).sum::<usize>(), POINTS);
        for octant in OCTANTS {
            assert_eq!(octant.gds().len(), 178);
            let spelled = octant.with_fields(&octant.grid());
            assert_eq!(spelled.gds, octant.gds());
            assert_eq!(octant.with_counts(&octant.counts()).gds, octant.gds());
            assert_eq!(octant.other_half().north, !octant.north);
            // the left and right columns are shared with the neighbours
            assert_eq!(octant.corners[3], octant.next().corners[1]);
            let mut names = std::collections::HashSet::new();
            for (name, grid) in [octant.wrong(), octant.more_wrong()].concat() {
                assert_ne!(grid, octant.grid());
                assert!(names.insert(name));
            }
        }
    }
}
