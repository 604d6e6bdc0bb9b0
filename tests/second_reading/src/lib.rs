//! A second reading of the rules.
//!
//! This package computes, slowly and literally, what document 01 ("Definition
//! of the build and its rules") says a GRIB Edition 1 codec must answer, and
//! what the requests of document 02 that have landed add to it or change in it
//! . It was written from these documents alone, with the list
//! of open points deciding where they leave room for two readings. It shares
//! nothing with the codec it is used to test: no code, no constants, no tricks.
//! Wherever a person with paper and pencil would write out bits, the code here
//! writes out bits.
//!
//! The modules follow the document:
//!
//! * `bits`    octets, bits and signed numbers;
//! * `grid`    the catalogue, the grid rules, rows and columns;
//! * `time`    the time rules;
//! * `read`    replies 1 to 4, 20 to 23, 6 to 12 and 14, the header, the parts of a
//!   message;
//! * `cursor`  the index of a message, and one value under the cursor;
//! * `display` R and 2^E as IEEE doubles;
//! * `write`   the writer;
//! * `again`   writing what was read;
//! * `check`   the checker;
//! * `pack`    the packer;
//! * `list`    the listing program;
//! * `cases`   seeded cases for the four big functions and for the cursor;
//! * `antt`    the cases printed as statements of a proof language;
//! * `vectors` what to read, write, check, pack and ask at each edge, with the
//!   replies written by hand.

pub mod again;
pub mod antt;
pub mod bits;
pub mod cases;
pub mod check;
pub mod cursor;
pub mod display;
pub mod grid;
pub mod list;
pub mod pack;
pub mod read;
pub mod time;
pub mod vectors;
pub mod write;

pub use check::check;
pub use cursor::{fill, under};
pub use display::display;
pub use grid::{place_of, point_at, points_in_row};
pub use list::listing;
pub use pack::pack;
pub use read::{bitmap_in_force, data_number, header, read, section};
pub use write::write;

/// A part of a slice: where it starts (counted from 0) and how long it is.
#[derive(Clone, Copy, PartialEq, Eq, Debug, Default)]
pub struct Part {
    pub start: u32,
    pub len: u32,
}

/// Where the four sections between the indicator and the end lie. An absent
/// section has length 0 and starts where the walk has got to.
#[derive(Clone, Copy, PartialEq, Eq, Debug, Default)]
pub struct Places {
    pub pds: Part,
    pub gds: Part,
    pub bms: Part,
    pub bds: Part,
}

/// The time in the PDS, with the full year.
#[derive(Clone, Copy, PartialEq, Eq, Debug, Default)]
pub struct Time {
    pub year: u32,
    pub month: u32,
    pub day: u32,
    pub hour: u32,
    pub minute: u32,
}

/// How many points each row of a grid has, in message order.
#[derive(Clone, Copy, PartialEq, Eq, Debug, Default)]
pub enum Rows {
    /// Every row has Ni: a rectangle.
    #[default]
    Even,
    /// Thinned: document 003's counts, the equator's first.
    FromEquator,
    /// Thinned: the same counts, the pole's first.
    FromPole,
    /// Thinned, with counts that no octant has. 9 refuses it; it has no rows and
    /// no points.
    Neither,
}

impl Rows {
    /// The number that stands for it where a grid is handed over as numbers.
    pub fn number(self) -> u8 {
        match self {
            Rows::Even => 0,
            Rows::FromEquator => 1,
            Rows::FromPole => 2,
            Rows::Neither => 3,
        }
    }
}

/// A grid in numbers, of whatever kind: there is a place for each number that some
/// kind has. What its own kind does not have is 0 where a grid is handed out, and is
/// not looked at where one is given.
#[derive(Clone, Copy, PartialEq, Eq, Debug, Default)]
pub struct Grid {
    /// GDS octet 6: 0 latitude/longitude, 1 Mercator, 3 Lambert, 4 Gaussian, 5 polar
    /// stereographic.
    pub kind: u8,
    /// Nx of Lambert and polar.
    pub ni: u16,
    /// Ny of Lambert and polar.
    pub nj: u16,
    pub la1: i32,
    pub lo1: i32,
    pub flags: u8,
    pub la2: i32,
    pub lo2: i32,
    /// In thousandths of a degree, of latitude/longitude and Gaussian grids.
    pub di: u16,
    pub dj: u16,
    pub scan: u8,
    pub rows: Rows,
    /// In metres: Dx and Dy of Lambert and polar, Di and Dj of Mercator.
    pub dx: u32,
    pub dy: u32,
    pub lov: i32,
    /// Latin of Mercator.
    pub latin1: i32,
    pub latin2: i32,
    /// The southern pole of Lambert.
    pub pole_la: i32,
    pub pole_lo: i32,
    /// The projection centre flag.
    pub centre: u8,
    /// Gaussian N.
    pub circles: u16,
}

/// A number of a grid, by its name, so that a table can tell of it. `kind` and `rows`
/// are not among them: they say which of the others a grid has.
#[derive(Clone, Copy, PartialEq, Eq, Debug)]
pub enum Figure {
    Ni,
    Nj,
    La1,
    Lo1,
    Flags,
    La2,
    Lo2,
    Di,
    Dj,
    Scan,
    Dx,
    Dy,
    Lov,
    Latin1,
    Latin2,
    PoleLa,
    PoleLo,
    Centre,
    Circles,
}

/// All of them.
pub const FIGURES: [Figure; 19] = [
    Figure::Ni,
    Figure::Nj,
    Figure::La1,
    Figure::Lo1,
    Figure::Flags,
    Figure::La2,
    Figure::Lo2,
    Figure::Di,
    Figure::Dj,
    Figure::Scan,
    Figure::Dx,
    Figure::Dy,
    Figure::Lov,
    Figure::Latin1,
    Figure::Latin2,
    Figure::PoleLa,
    Figure::PoleLo,
    Figure::Centre,
    Figure::Circles,
];

impl Figure {
    /// This number of a grid.
    pub fn of(self, grid: &Grid) -> i64 {
        match self {
            Figure::Ni => grid.ni.into(),
            Figure::Nj => grid.nj.into(),
            Figure::La1 => grid.la1.into(),
            Figure::Lo1 => grid.lo1.into(),
            Figure::Flags => grid.flags.into(),
            Figure::La2 => grid.la2.into(),
            Figure::Lo2 => grid.lo2.into(),
            Figure::Di => grid.di.into(),
            Figure::Dj => grid.dj.into(),
            Figure::Scan => grid.scan.into(),
            Figure::Dx => grid.dx.into(),
            Figure::Dy => grid.dy.into(),
            Figure::Lov => grid.lov.into(),
            Figure::Latin1 => grid.latin1.into(),
            Figure::Latin2 => grid.latin2.into(),
            Figure::PoleLa => grid.pole_la.into(),
            Figure::PoleLo => grid.pole_lo.into(),
            Figure::Centre => grid.centre.into(),
            Figure::Circles => grid.circles.into(),
        }
    }

    /// The grid with this number, which its place can hold.
    pub fn put(self, mut grid: Grid, number: i64) -> Grid {
        match self {
            Figure::Ni => grid.ni = held(number),
            Figure::Nj => grid.nj = held(number),
            Figure::La1 => grid.la1 = held(number),
            Figure::Lo1 => grid.lo1 = held(number),
            Figure::Flags => grid.flags = held(number),
            Figure::La2 => grid.la2 = held(number),
            Figure::Lo2 => grid.lo2 = held(number),
            Figure::Di => grid.di = held(number),
            Figure::Dj => grid.dj = held(number),
            Figure::Scan => grid.scan = held(number),
            Figure::Dx => grid.dx = held(number),
            Figure::Dy => grid.dy = held(number),
            Figure::Lov => grid.lov = held(number),
            Figure::Latin1 => grid.latin1 = held(number),
            Figure::Latin2 => grid.latin2 = held(number),
            Figure::PoleLa => grid.pole_la = held(number),
            Figure::PoleLo => grid.pole_lo = held(number),
            Figure::Centre => grid.centre = held(number),
            Figure::Circles => grid.circles = held(number),
        }
        grid
    }

    /// The least and the most that its place can hold.
    pub fn range(self) -> (i64, i64) {
        match self {
            Figure::Flags | Figure::Scan | Figure::Centre => (0, u8::MAX.into()),
            Figure::Ni | Figure::Nj | Figure::Di | Figure::Dj | Figure::Circles => {
                (0, u16::MAX.into())
            }
            Figure::Dx | Figure::Dy => (0, u32::MAX.into()),
            _ => (i32::MIN.into(), i32::MAX.into()),
        }
    }

    /// Its name in short words, as a vector's name has it.
    pub fn name(self) -> &'static str {
        match self {
            Figure::Ni => "ni",
            Figure::Nj => "nj",
            Figure::La1 => "la1",
            Figure::Lo1 => "lo1",
            Figure::Flags => "resolution",
            Figure::La2 => "la2",
            Figure::Lo2 => "lo2",
            Figure::Di => "di",
            Figure::Dj => "dj",
            Figure::Scan => "scan",
            Figure::Dx => "dx",
            Figure::Dy => "dy",
            Figure::Lov => "lov",
            Figure::Latin1 => "latin1",
            Figure::Latin2 => "latin2",
            Figure::PoleLa => "pole-la",
            Figure::PoleLo => "pole-lo",
            Figure::Centre => "centre",
            Figure::Circles => "circles",
        }
    }
}

fn held<T: TryFrom<i64>>(number: i64) -> T {
    T::try_from(number).unwrap_or_else(|_| panic!("no place for {number}"))
}

/// No bitmap, one carried in the message, or a stored one with its number.
#[derive(Clone, Copy, PartialEq, Eq, Debug, Default)]
pub enum BitmapKind {
    #[default]
    Without,
    Carried,
    Stored(u16),
}

/// "the bitmap is the one the caller lends with each message, one number and
/// whole octets". No stored bitmap is number 0 and no octets.
#[derive(Clone, PartialEq, Eq, Debug, Default)]
pub struct Lent {
    pub number: u16,
    pub octets: Vec<u8>,
}

/// A reply of the reader, of the display, of the checker or of the cursor. Of 20 to
/// 23 it also says where a length went wrong; of every other number, acceptance
/// included, section and place are 0.
#[derive(Clone, Copy, PartialEq, Eq, Debug, Default)]
pub struct Reply {
    pub number: u32,
    /// The section's number, 1 to 4; of 23 it is 5.
    pub section: u32,
    /// The place in the message, counted from 1, of that section's first octet; of
    /// 23 that of the first octet left over.
    pub place: u32,
}

impl Reply {
    /// A reply that has no section and no place.
    pub fn of(number: u32) -> Reply {
        Reply {
            number,
            section: 0,
            place: 0,
        }
    }
}

/// All that reading a message tells, besides the values and the marks.
#[derive(Clone, Copy, PartialEq, Eq, Debug, Default)]
pub struct Header {
    /// Reply, section and place, as a `Reply` has them.
    pub reply: u32,
    pub section: u32,
    pub place: u32,
    pub places: Places,
    pub time: Time,
    pub d: i32,
    pub grid: Grid,
    pub points: u32,
    pub bitmap: BitmapKind,
    pub present: u32,
    /// The high half of BDS octet 4, 0 to 15.
    pub flags: u8,
    /// Bits per value, N.
    pub bits: u8,
    pub e: i32,
    pub r: u32,
}

impl Header {
    /// Its reply, with section and place.
    pub fn told(&self) -> Reply {
        Reply {
            number: self.reply,
            section: self.section,
            place: self.place,
        }
    }
}

/// What a grid point's data number is.
#[derive(Clone, Copy, PartialEq, Eq, Debug)]
pub enum DataNumber {
    Present(u32),
    Absent,
    Outside,
}

/// What filling an index answers: how many entries it took, none where it is refused.
#[derive(Clone, Copy, PartialEq, Eq, Debug)]
pub struct Indexed {
    pub reply: Reply,
    pub entries: u32,
}

/// What stands at a place of the chart.
#[derive(Clone, Copy, PartialEq, Eq, Debug)]
pub enum UnderCursor {
    Refused(Reply),
    Absent,
    Value(u32),
}

impl UnderCursor {
    /// The reply, 0 where it is not refused.
    pub fn reply(&self) -> Reply {
        match *self {
            UnderCursor::Refused(reply) => reply,
            UnderCursor::Absent | UnderCursor::Value(_) => Reply::of(0),
        }
    }
}

/// The caller's choices that the writer and the packer share.
#[derive(Clone, Copy, PartialEq, Eq, Debug, Default)]
pub struct Form {
    pub grid: Option<Grid>,
    pub bitmap: BitmapKind,
    /// The value of the four flag bits of BDS octet 4; bit 3 is worth 2.
    pub flags: u8,
    /// Bits per value, N.
    pub bits: u8,
}

/// All that the writer is given.
#[derive(Clone, PartialEq, Eq, Debug, Default)]
pub struct Parts {
    pub pds: Vec<u8>,
    pub form: Form,
    pub e: i32,
    pub r: u32,
    pub lent: Lent,
    pub values: Vec<u32>,
    pub marks: Vec<u8>,
}

/// A source field: whole numbers at a stated decimal scale, and their marks.
#[derive(Clone, PartialEq, Eq, Debug, Default)]
pub struct Source {
    pub numbers: Vec<i32>,
    pub marks: Vec<u8>,
    pub d: i32,
}
