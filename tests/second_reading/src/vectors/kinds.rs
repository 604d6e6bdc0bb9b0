//! The four kinds of grid of R-4, put together by hand from document 003's layouts:
//! a GDS of each in octets and in numbers, where each field stands, what its edges
//! are, and fields on each.

use super::given;
use super::messages::{hex, plain, set_length, specimen, stored, Sections};
use crate::Figure::{self, *};
use crate::{Grid, Lent, Parts, Rows};

/// What a field of a GDS is.
#[derive(Clone, Copy, PartialEq)]
pub enum Sort {
    /// Ni, Nj: two octets, 1 to 65,534.
    Side,
    /// Three octets with a sign, to 90,000.
    Latitude,
    /// Three octets with a sign, to 360,000.
    Longitude,
    /// Three octets without a sign, carried.
    Metres,
    /// Two octets without a sign, carried.
    Degrees,
    /// Gaussian N: two octets without a sign, not all ones.
    Circles,
    /// An octet, carried whole.
    Octet,
}

use Sort::{Circles as Rounds, Degrees, Latitude, Longitude, Metres, Octet, Side};

/// A field: its number, its first octet, what it is, and which number the GDS below
/// has in it.
pub struct Field {
    pub figure: Figure,
    pub first: usize,
    pub sort: Sort,
    pub own: i64,
}

const fn field(figure: Figure, first: usize, sort: Sort, own: i64) -> Field {
    Field {
        figure,
        first,
        sort,
        own,
    }
}

/// A kind of grid, and a GDS of 2 x 2 points.
pub struct Kind {
    pub name: &'static str,
    /// GDS octet 6.
    pub number: u8,
    /// Octets of its GDS.
    pub length: usize,
    gds: &'static str,
    pub fields: &'static [Field],
    /// "ignored on reading, written zero"
    pub reserved: &'static [usize],
    /// "The scan test against latitudes holds for Mercator and Gaussian only", of the
    /// four.
    pub tested: bool,
}

/// The specimen's.
pub const LATLON: Kind = Kind {
    name: "latlon",
    number: 0,
    length: 32,
    gds: "000020 00 FF 00 0002 0002 00C350 8007D0 80 00C738 8003E8 03E8 03E8 40 00000000",
    fields: &[
        field(Ni, 7, Side, 2),
        field(Nj, 9, Side, 2),
        field(La1, 11, Latitude, 50_000),
        field(Lo1, 14, Longitude, -2_000),
        field(Flags, 17, Octet, 128),
        field(La2, 18, Latitude, 51_000),
        field(Lo2, 21, Longitude, -1_000),
        field(Di, 24, Degrees, 1_000),
        field(Dj, 26, Degrees, 1_000),
        field(Scan, 28, Octet, 64),
    ],
    reserved: &[29, 30, 31, 32],
    tested: true,
};

pub const MERCATOR: Kind = Kind {
    name: "mercator",
    number: 1,
    length: 42,
    gds: "00002A 00 FF 01 0002 0002 00C350 8007D0 80 00C738 8003E8 0055F0 00 40
        003A98 007530 0000000000000000",
    fields: &[
        field(Ni, 7, Side, 2),
        field(Nj, 9, Side, 2),
        field(La1, 11, Latitude, 50_000),
        field(Lo1, 14, Longitude, -2_000),
        field(Flags, 17, Octet, 128),
        field(La2, 18, Latitude, 51_000),
        field(Lo2, 21, Longitude, -1_000),
        field(Latin1, 24, Latitude, 22_000),
        field(Scan, 28, Octet, 64),
        field(Dx, 29, Metres, 15_000),
        field(Dy, 32, Metres, 30_000),
    ],
    reserved: &[27, 35, 36, 37, 38, 39, 40, 41, 42],
    tested: true,
};

pub const LAMBERT: Kind = Kind {
    name: "lambert",
    number: 3,
    length: 42,
    gds: "00002A 00 FF 03 0002 0002 00C350 8007D0 88 817318 013D77 013D78 C0 40
        0080E8 00AFC8 815F90 0003E8 0000",
    fields: &[
        field(Ni, 7, Side, 2),
        field(Nj, 9, Side, 2),
        field(La1, 11, Latitude, 50_000),
        field(Lo1, 14, Longitude, -2_000),
        field(Flags, 17, Octet, 136),
        field(Lov, 18, Longitude, -95_000),
        field(Dx, 21, Metres, 81_271),
        field(Dy, 24, Metres, 81_272),
        field(Centre, 27, Octet, 192),
        field(Scan, 28, Octet, 64),
        field(Latin1, 29, Latitude, 33_000),
        field(Latin2, 32, Latitude, 45_000),
        field(PoleLa, 35, Latitude, -90_000),
        field(PoleLo, 38, Longitude, 1_000),
    ],
    reserved: &[41, 42],
    tested: false,
};

pub const GAUSSIAN: Kind = Kind {
    name: "gaussian",
    number: 4,
    length: 32,
    gds: "000020 00 FF 04 0002 0002 00C350 8007D0 80 00C738 8003E8 0AFD 0020 40 00000000",
    fields: &[
        field(Ni, 7, Side, 2),
        field(Nj, 9, Side, 2),
        field(La1, 11, Latitude, 50_000),
        field(Lo1, 14, Longitude, -2_000),
        field(Flags, 17, Octet, 128),
        field(La2, 18, Latitude, 51_000),
        field(Lo2, 21, Longitude, -1_000),
        field(Di, 24, Degrees, 2_813),
        field(Circles, 26, Rounds, 32),
        field(Scan, 28, Octet, 64),
    ],
    reserved: &[29, 30, 31, 32],
    tested: true,
};

pub const POLAR: Kind = Kind {
    name: "polar",
    number: 5,
    length: 32,
    gds: "000020 00 FF 05 0002 0002 00C350 8007D0 88 813880 05D048 05D049 80 40 00000000",
    fields: &[
        field(Ni, 7, Side, 2),
        field(Nj, 9, Side, 2),
        field(La1, 11, Latitude, 50_000),
        field(Lo1, 14, Longitude, -2_000),
        field(Flags, 17, Octet, 136),
        field(Lov, 18, Longitude, -80_000),
        field(Dx, 21, Metres, 381_000),
        field(Dy, 24, Metres, 381_001),
        field(Centre, 27, Octet, 128),
        field(Scan, 28, Octet, 64),
    ],
    reserved: &[29, 30, 31, 32],
    tested: false,
};

/// The four.
pub const FOUR: [Kind; 4] = [MERCATOR, LAMBERT, GAUSSIAN, POLAR];

/// The four and latitude/longitude.
pub const FIVE: [Kind; 5] = [LATLON, MERCATOR, LAMBERT, GAUSSIAN, POLAR];

/// GDS octet 6: numbers that no kind here has; 10 and 13 are rotated and oblique grids,
/// 14 and 24 Gaussian ones turned or stretched, 50 spherical harmonics, 90 space view.
pub const NO_KINDS: [u8; 16] = [
    2, 6, 7, 8, 9, 10, 13, 14, 24, 50, 90, 127, 128, 192, 254, 255,
];

impl Sort {
    /// What octets of such a field stand for, and the reply to them.
    pub fn octets(self) -> &'static [(u32, &'static str, i64)] {
        match self {
            Side => &[],
            Latitude => &[
                (0, "000000", 0),
                (0, "000001", 1),
                (0, "800001", -1),
                (0, "800000", 0),
                (0, "015F8F", 89_999),
                (0, "015F90", 90_000),
                (9, "015F91", 90_001),
                (0, "815F8F", -89_999),
                (0, "815F90", -90_000),
                (9, "815F91", -90_001),
                (9, "057E40", 360_000),
                (9, "7FFFFF", 8_388_607),
                (9, "FFFFFF", -8_388_607),
            ],
            Longitude => &[
                (0, "000000", 0),
                (0, "000001", 1),
                (0, "800001", -1),
                (0, "800000", 0),
                (0, "015F91", 90_001),
                (0, "057E3F", 359_999),
                (0, "057E40", 360_000),
                (9, "057E41", 360_001),
                (0, "857E3F", -359_999),
                (0, "857E40", -360_000),
                (9, "857E41", -360_001),
                (9, "7FFFFF", 8_388_607),
                (9, "FFFFFF", -8_388_607),
            ],
            Metres => &[
                (0, "000000", 0),
                (0, "000001", 1),
                (0, "010203", 66_051),
                (0, "7FFFFF", 8_388_607),
                (0, "800000", 8_388_608),
                (0, "800001", 8_388_609),
                (0, "FFFFFF", 16_777_215),
            ],
            Degrees => &[
                (0, "0000", 0),
                (0, "0001", 1),
                (0, "8000", 32_768),
                (0, "FFFE", 65_534),
                (0, "FFFF", 65_535),
            ],
            Rounds => &[
                (0, "0000", 0),
                (0, "0001", 1),
                (0, "00FF", 255),
                (0, "FF00", 65_280),
                (0, "8000", 32_768),
                (0, "FFFE", 65_534),
                (9, "FFFF", 65_535),
            ],
            Octet => &[
                (0, "00", 0),
                (0, "01", 1),
                (0, "7F", 127),
                (0, "80", 128),
                (0, "FF", 255),
            ],
        }
    }

    pub fn signed(self) -> bool {
        self == Latitude || self == Longitude
    }

    pub fn rule(self) -> &'static str {
        match self {
            Side => "9: Ni and Nj 1 to 65,534, points n = Ni x Nj 1 to 65,536",
            Latitude => "9, R-4: 01's bounds: latitude magnitude is at most 90,000",
            Longitude => "9, R-4: 01's bounds: longitude magnitude is at most 360,000",
            Metres => "R-4: other fields are carried: a step of 24 bits without a sign",
            Degrees => "R-4: other fields are carried, all ones too",
            Rounds => "9, R-4: a missing Gaussian N; any other is carried",
            Octet => "R-4: other fields are carried: the octet whole",
        }
    }
}

impl Kind {
    pub fn gds(&self) -> Vec<u8> {
        hex(self.gds)
    }

    /// The same in numbers.
    pub fn grid(&self) -> Grid {
        let empty = Grid {
            kind: self.number,
            ..Grid::default()
        };
        let fields = self.fields.iter();
        fields.fold(empty, |grid, field| field.figure.put(grid, field.own))
    }

    /// The grid with so many columns and rows.
    pub fn sized(&self, ni: u16, nj: u16) -> Grid {
        Grid {
            ni,
            nj,
            ..self.grid()
        }
    }

    /// The grid turned by scanning flags, with latitudes that suit them where they are
    /// tested.
    pub fn turned(&self, ni: u16, nj: u16, scan: u8) -> Grid {
        let mut grid = Grid {
            scan,
            ..self.sized(ni, nj)
        };
        if self.tested && scan & 0x40 == 0 {
            (grid.la1, grid.la2) = (51_000, 50_000);
        }
        grid
    }

    fn has(&self, figure: Figure) -> bool {
        self.fields.iter().any(|field| field.figure == figure)
    }

    /// The numbers that it does not have.
    pub fn strays(&self) -> Vec<Figure> {
        let all = crate::FIGURES.into_iter();
        all.filter(|&figure| !self.has(figure)).collect()
    }

    /// A GDS with the numbers of a grid of this kind, each of which its octets can hold.
    pub fn spelled(&self, grid: &Grid) -> Vec<u8> {
        let mut gds = self.gds();
        for field in self.fields {
            let number = field.figure.of(grid);
            let [a, b, c, d] = (number.unsigned_abs() as u32).to_be_bytes();
            let octets = match field.sort {
                Side | Degrees | Rounds => vec![c, d],
                Octet => vec![d],
                Metres => vec![b, c, d],
                Latitude | Longitude => vec![b | if number < 0 { 0x80 } else { 0 }, c, d],
            };
            assert_eq!(a, 0);
            super::messages::set(&mut gds, field.first, &octets);
        }
        gds
    }

    /// The specimen on this grid: bitmap 1101, values 0, 2, 7.
    pub fn sections(&self) -> Sections {
        Sections {
            gds: self.gds(),
            ..specimen()
        }
    }

    /// The same without its bitmap: values 0, 2, 5, 7.
    pub fn plain(&self) -> Sections {
        Sections {
            gds: self.gds(),
            ..plain()
        }
    }

    /// The specimen with bitmap 5, lent, for its own.
    pub fn stored(&self) -> Sections {
        Sections {
            bms: stored(5),
            ..self.sections()
        }
    }

    /// So many columns and rows, no bitmap and N = 0.
    pub fn flat(&self, ni: u16, nj: u16) -> Sections {
        let sections = Sections {
            gds: self.gds(),
            ..super::messages::flat(2, 2)
        };
        sections.gds(7, &ni.to_be_bytes()).gds(9, &nj.to_be_bytes())
    }

    /// The plain message with its GDS made so many octets long, and the GDS saying so.
    pub fn long(&self, length: usize) -> Sections {
        let mut sections = self.plain();
        sections.gds.resize(length, 0);
        set_length(&mut sections.gds, length);
        sections
    }

    /// The parts of the specimen on this grid.
    pub fn parts(&self) -> Parts {
        given::given(|parts| parts.form.grid = Some(self.grid()))
    }

    /// The same without its bitmap.
    pub fn plain_parts(&self) -> Parts {
        let mut parts = given::plain();
        parts.form.grid = Some(self.grid());
        parts
    }

    /// The same with bitmap 5, lent.
    pub fn stored_parts(&self) -> Parts {
        let mut parts = given::stored();
        parts.form.grid = Some(self.grid());
        parts
    }

    /// The three messages, what a vector's name calls each, and what is lent.
    pub fn messages(&self) -> [(&'static str, Sections, Lent); 3] {
        [
            ("-carried", self.sections(), Lent::default()),
            ("-plain", self.plain(), Lent::default()),
            ("-stored", self.stored(), given::lend(5, "D0")),
        ]
    }

    /// The parts of these.
    pub fn all_parts(&self) -> [Parts; 3] {
        [self.parts(), self.plain_parts(), self.stored_parts()]
    }

    /// One number, and its octets, for which 9 refuses this kind alone.
    pub fn broken(&self) -> (usize, &'static str, Figure, i64) {
        match self.number {
            1 => (24, "015F91", Latin1, 90_001),
            3 => (38, "057E41", PoleLo, 360_001),
            4 => (26, "FFFF", Circles, 65_535),
            5 => (18, "857E41", Lov, -360_001),
            other => panic!("none of the four: {other}"),
        }
    }
}

/// Places on a chart of 3 columns and 2 rows under each setting of the scanning flags:
/// those of the first point and of the second.
pub const PLACES: [(u8, [i64; 2], [i64; 2]); 8] = [
    (0x00, [0, 0], [0, 1]),
    (0x20, [0, 0], [1, 0]),
    (0x40, [1, 0], [1, 1]),
    (0x60, [1, 0], [0, 0]),
    (0x80, [0, 2], [0, 1]),
    (0xA0, [0, 2], [1, 2]),
    (0xC0, [1, 2], [1, 1]),
    (0xE0, [1, 2], [0, 2]),
];

/// What the scan test says of two rows: by scanning bit 2, and where La2 lies from La1.
pub const TESTED: [(bool, &str, i64, u32); 6] = [
    (true, "above", 1, 0),
    (true, "equal", 0, 9),
    (true, "below", -1, 9),
    (false, "above", 1, 9),
    (false, "equal", 0, 9),
    (false, "below", -1, 0),
];

/// Rows that no grid of the four kinds has.
pub const THINNED: [(&str, Rows); 3] = [
    ("equator", Rows::FromEquator),
    ("pole", Rows::FromPole),
    ("neither", Rows::Neither),
];

#[cfg(test)]
mod tests {
    use super::*;

    /// The octets and the numbers say the same, and every octet from 7 on is a field's or
    /// reserved.
    #[test]
    fn octets_and_numbers() {
        for kind in FIVE {
            let gds = kind.gds();
            assert_eq!(gds.len(), kind.length);
            assert_eq!(kind.spelled(&kind.grid()), gds, "{}", kind.name);
            let mut named: Vec<usize> = kind.reserved.to_vec();
            for field in kind.fields {
                let octets = match field.sort {
                    Octet => 1,
                    Side | Degrees | Rounds => 2,
                    _ => 3,
                };
                named.extend(field.first..field.first + octets);
            }
            named.sort();
            assert_eq!(
                named,
                (7..=kind.length).collect::<Vec<_>>(),
                "{}",
                kind.name
            );
        }
    }
}
