//! What the writer and the packer are given, put together by hand: a PDS in
//! octets, a grid in numbers, lists.

use super::messages::{bits, hex, octets, set, set_length, specimen as specimen_octets};
use crate::{BitmapKind, Form, Grid, Lent, Parts};

/// The specimen's PDS; octet 8 says which sections there are.
pub fn pds(octet_8: u8) -> Vec<u8> {
    specimen_octets().pds(8, &[octet_8]).pds
}

/// The specimen's PDS made so many octets long, ones in the new ones; octets 1-3
/// say so where there are three.
pub fn pds_of(length: usize) -> Vec<u8> {
    let mut pds = pds(0xC0);
    pds.resize(length, 0xFF);
    if length >= 3 {
        set_length(&mut pds, length);
    }
    pds
}

/// The specimen's grid, with so many columns and rows.
pub fn grid(ni: u16, nj: u16) -> Grid {
    Grid {
        ni,
        nj,
        la1: 50_000,
        lo1: -2_000,
        flags: 128,
        la2: 51_000,
        lo2: -1_000,
        di: 1_000,
        dj: 1_000,
        scan: 64,
        ..Grid::default()
    }
}

pub fn lend(number: u16, octets: &str) -> Lent {
    Lent {
        number,
        octets: hex(octets),
    }
}

/// Marks from 0s and 1s.
pub fn marks(text: &str) -> Vec<u8> {
    bits(text).into_iter().map(u8::from).collect()
}

/// The specimen of document 01: 2 x 2 points, bitmap 1101, values 0, 2, 7.
pub fn specimen() -> Parts {
    Parts {
        pds: pds(0xC0),
        form: Form {
            grid: Some(grid(2, 2)),
            bitmap: BitmapKind::Carried,
            flags: 0,
            bits: 3,
        },
        e: 0,
        r: 0x439C_4000,
        lent: Lent::default(),
        values: vec![0, 2, 0, 7],
        marks: vec![1, 1, 0, 1],
    }
}

/// The specimen changed.
pub fn given(change: impl Fn(&mut Parts)) -> Parts {
    let mut parts = specimen();
    change(&mut parts);
    parts
}

/// The specimen with octets put into its PDS from octet `first` on.
pub fn with_pds(first: usize, put: &[u8]) -> Parts {
    given(|parts| set(&mut parts.pds, first, put))
}

/// The specimen with bitmap 5, lent, for its own.
pub fn stored() -> Parts {
    given(|parts| {
        parts.form.bitmap = BitmapKind::Stored(5);
        parts.lent = lend(5, "D0");
    })
}

/// The specimen without its bitmap: values 0, 2, 5, 7.
pub fn plain() -> Parts {
    given(|parts| {
        parts.pds = pds(0x80);
        parts.form.bitmap = BitmapKind::Without;
        parts.values = vec![0, 2, 5, 7];
        parts.marks = vec![1; 4];
    })
}

/// This rectangle, every point present and N = 0.
pub fn flat(grid: Grid) -> Parts {
    let points = grid.ni as usize * grid.nj as usize;
    // a grid of too many points is refused before its lists are looked at
    flat_of(grid, if points > 65_536 { 4 } else { points })
}

/// This grid, so many points, every one present, and N = 0.
pub fn flat_of(grid: Grid, points: usize) -> Parts {
    Parts {
        form: Form {
            grid: Some(grid),
            bits: 0,
            ..plain().form
        },
        values: vec![0; points],
        marks: vec![1; points],
        ..plain()
    }
}

/// No grid: PDS octet 7 names one of so many points; N = 0.
pub fn listed(number: u8, points: usize) -> Parts {
    let mut parts = flat(grid(1, 1));
    parts.pds = pds(0);
    set(&mut parts.pds, 7, &[number]);
    parts.form.grid = None;
    parts.values = vec![0; points];
    parts.marks = vec![1; points];
    parts
}

/// The catalogue's numbers and how many points their grids have: 144 x 73, 360 x
/// 181, 145 x 37 twice, 181 x 46 twice, 288 x 145; and the eight octants.
pub const LISTED: [(u8, usize); 15] = [
    (2, 10_512),
    (3, 65_160),
    (29, 5_365),
    (30, 5_365),
    (33, 8_326),
    (34, 8_326),
    (45, 41_760),
    (37, 3_447),
    (38, 3_447),
    (39, 3_447),
    (40, 3_447),
    (41, 3_447),
    (42, 3_447),
    (43, 3_447),
    (44, 3_447),
];

/// A row of points with these values, nothing where absent.
pub fn row(bitmap: BitmapKind, width: u8, points: &[Option<u32>]) -> Parts {
    let mut parts = flat(grid(points.len() as u16, 1));
    parts.form.bits = width;
    parts.values = points.iter().map(|x| x.unwrap_or(0)).collect();
    parts.marks = points.iter().map(|x| x.is_some() as u8).collect();
    parts.form.bitmap = bitmap;
    if bitmap != BitmapKind::Without {
        parts.pds = pds(0xC0);
    }
    if let BitmapKind::Stored(number) = bitmap {
        let present: Vec<bool> = points.iter().map(Option::is_some).collect();
        parts.lent = Lent {
            number,
            octets: octets(&present),
        };
    }
    parts
}
