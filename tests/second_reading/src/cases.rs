//! Seeded cases for the reader, the writer, the checker, the packer and the cursor.
//!
//! Each case comes from the seed, the function and its own number alone. Half of
//! the cases are meant to be taken. The others are damaged on purpose for one
//! reply number, damaged twice, or damaged blindly. What the right answers are is
//! not decided here: the literal functions of the other modules say it.

use crate::bits::{bits_of_number, octets_of};
use crate::check::whole_reference;
use crate::grid::{
    from_catalogue, layout_of, length_of, own_figures, points, to_gds, Line, What, GAUSSIAN, KINDS,
    LAMBERT, LAT_LON, MERCATOR, POLAR,
};
use crate::pack::reference_of;
use crate::read::header;
use crate::time::days_in;
use crate::write::write;
use crate::{BitmapKind, Figure, Form, Grid, Lent, Parts, Rows, Source, FIGURES};

mod cursor;

pub use cursor::{cursor_case, some_asking, Asking, CursorCase, CURSOR_REPLIES};

/// A small random number generator (splitmix64).
pub struct Rng(u64);

impl Rng {
    pub fn new(seed: u64) -> Rng {
        let mut rng = Rng(seed);
        rng.draw();
        rng
    }

    pub fn draw(&mut self) -> u64 {
        self.0 = self.0.wrapping_add(0x9E37_79B9_7F4A_7C15);
        let mut z = self.0;
        z = (z ^ (z >> 30)).wrapping_mul(0xBF58_476D_1CE4_E5B9);
        z = (z ^ (z >> 27)).wrapping_mul(0x94D0_49BB_1331_11EB);
        z ^ (z >> 31)
    }

    /// A number from 0 to `limit` - 1.
    pub fn below(&mut self, limit: usize) -> usize {
        (self.draw() % limit as u64) as usize
    }

    /// A number from `least` to `most`, both possible.
    pub fn between(&mut self, least: i64, most: i64) -> i64 {
        least + (self.draw() % (most - least + 1) as u64) as i64
    }

    pub fn chance(&mut self, percent: usize) -> bool {
        self.below(100) < percent
    }

    pub fn pick<T: Copy>(&mut self, from: &[T]) -> T {
        from[self.below(from.len())]
    }

    pub fn octet(&mut self) -> u8 {
        self.draw() as u8
    }

    pub fn octets(&mut self, count: usize) -> Vec<u8> {
        (0..count).map(|_| self.octet()).collect()
    }
}

/// A case for the reader.
pub struct ReadCase {
    pub message: Vec<u8>,
    pub lent: Lent,
    pub values: Vec<u32>,
    pub marks: Vec<u8>,
}

/// A case for the writer.
pub struct WriteCase {
    pub parts: Parts,
    pub out: Vec<u8>,
}

/// A case for the checker.
pub struct CheckCase {
    pub message: Vec<u8>,
    pub lent: Lent,
    pub source: Source,
}

/// A case for the packer.
pub struct PackCase {
    pub pds: Vec<u8>,
    pub form: Form,
    pub lent: Lent,
    pub source: Source,
    pub out: Vec<u8>,
}

/// The replies that each function's cases aim at.
pub const READ_REPLIES: [u32; 16] = [1, 2, 3, 4, 20, 21, 22, 23, 6, 7, 8, 9, 10, 11, 12, 14];
pub const WRITE_REPLIES: [u32; 8] = [5, 6, 7, 9, 10, 11, 13, 14];
pub const CHECK_REPLIES: [u32; 19] = [
    1, 2, 3, 4, 20, 21, 22, 23, 6, 7, 8, 9, 10, 11, 12, 15, 16, 17, 18,
];
pub const PACK_REPLIES: [u32; 11] = [5, 18, 15, 11, 19, 6, 7, 9, 10, 13, 14];
/// What the cases aim at: each function's replies, and 8 and 9 more often, which judge
/// five kinds of grid and the octants; of the checker its own replies twice as often, and
/// 6, whose damage is as often none.
const READ_AIMS: [u32; 22] = [
    1, 2, 8, 3, 4, 9, 20, 21, 8, 22, 23, 9, 6, 7, 8, 9, 10, 11, 8, 12, 14, 9,
];
const WRITE_AIMS: [u32; 11] = [5, 9, 6, 7, 9, 10, 11, 9, 13, 14, 9];
const CHECK_AIMS: [u32; 26] = [
    1, 2, 3, 15, 16, 17, 18, 4, 20, 8, 21, 22, 23, 6, 7, 8, 9, 15, 16, 17, 18, 10, 11, 9, 6, 12,
];
const PACK_AIMS: [u32; 13] = [5, 18, 9, 15, 11, 19, 6, 9, 7, 9, 10, 13, 14];

/// How many points the fields of a case may have.
#[derive(Clone, Copy, PartialEq, Eq)]
pub enum Size {
    /// At most 30.
    Small,
    /// Also thousands, seldom with a bitmap, of one bit each or none, and never with
    /// a list of them: a proof can compute it.
    Short,
    /// At most 30, or an octant's 3,447 with bitmap, values and lists.
    Whole,
}

/// What to do to a case.
enum Plan {
    Sound,
    Aimed(u32),
    Twice(u32, u32),
    Blind,
}

/// Of ten cases five are sound, three aim at the replies in turn, one is damaged
/// twice and one blindly.
fn plan(rng: &mut Rng, index: usize, replies: &[u32]) -> Plan {
    let turn = index % 10;
    match turn {
        0 | 2 | 4 | 6 | 8 => Plan::Sound,
        1 | 3 | 5 => Plan::Aimed(replies[(index / 10 * 3 + turn / 2) % replies.len()]),
        7 => Plan::Twice(rng.pick(replies), rng.pick(replies)),
        _ => Plan::Blind,
    }
}

fn rng_for(seed: u64, function: u64, index: usize) -> Rng {
    let mut first = Rng::new(seed ^ function.wrapping_mul(0xA076_1D64_78BD_642F));
    let start = first.draw() ^ (index as u64).wrapping_mul(0xE703_7ED1_A0B4_28DB);
    Rng::new(start)
}

// ---------------------------------------------------------------------------
// Fields: what a sound message holds
// ---------------------------------------------------------------------------

/// What a sound message holds, before its octets are laid out.
struct Field {
    pds: Vec<u8>,
    grid: Grid,
    kind: BitmapKind,
    marks: Vec<bool>,
    lent: Lent,
    flags: u8,
    bits: u8,
    /// One for each point, 0 where absent.
    values: Vec<u32>,
    e: i32,
    r: u32,
}

/// A sign and a magnitude in so many octets, with minus zero now and then.
fn signed_octets(rng: &mut Rng, number: i64, octets: usize) -> Vec<u8> {
    let mut bits = vec![number < 0 || (number == 0 && rng.chance(40))];
    bits.extend(bits_of_number(number.unsigned_abs(), 8 * octets - 1));
    octets_of(&bits)
}

fn put(octets: &mut [u8], first: usize, what: &[u8]) {
    octets[first - 1..first - 1 + what.len()].copy_from_slice(what);
}

fn put_length(section: &mut [u8], length: usize) {
    put(section, 1, &octets_of(&bits_of_number(length as u64, 24)));
}

/// A PDS that keeps the rules.
fn sound_pds(rng: &mut Rng, d: i64, has_grid: bool, has_bitmap: bool) -> Vec<u8> {
    let length = match rng.below(100) {
        0..=49 => 28,
        50..=89 => 28 + 2 * rng.below(7),
        90..=98 => 42 + 2 * rng.below(20),
        _ => rng.pick(&[254, 256, 1_022, 1_024]),
    };
    let mut pds = rng.octets(length);
    put_length(&mut pds, length);
    pds[7] = (if has_grid { 0x80 } else { 0 }) | (if has_bitmap { 0x40 } else { 0 });
    if rng.chance(40) {
        pds[7] |= rng.octet() & 0x3F;
    }
    sound_time(rng, &mut pds);
    put(&mut pds, 27, &signed_octets(rng, d, 2));
    pds
}

fn put_time(pds: &mut [u8], century: u8, time: [u8; 5]) {
    pds[24] = century;
    put(pds, 13, &time);
}

fn sound_time(rng: &mut Rng, pds: &mut [u8]) {
    let any_century = rng.between(18, 99) as u8;
    let century = rng.pick(&[20, 21, any_century, 18, 99]);
    if rng.chance(2) {
        // 29 February of a year 100 that has one
        let century = rng.pick(&[20, 24, 96]);
        put_time(pds, century, [100, 2, 29, 12, 30]);
        return;
    }
    // "the year of century runs from 1 to 100"
    let any_year = rng.between(1, 100) as u8;
    let year = rng.pick(&[any_year, any_year, 1, 99, 100]);
    let month = rng.between(1, 12) as u8;
    let last = days_in(100 * (century as u32 - 1) + year as u32, month as u32) as u8;
    let any_day = rng.between(1, last as i64) as u8;
    let day = rng.pick(&[any_day, any_day, 1, last]);
    let any_hour = rng.between(0, 23) as u8;
    let hour = rng.pick(&[any_hour, 0, 23]);
    let any_minute = rng.between(0, 59) as u8;
    let minute = rng.pick(&[any_minute, 0, 59]);
    put_time(pds, century, [year, month, day, hour, minute]);
}

/// A number of either sign with its edges seen often.
fn edgy(rng: &mut Rng, most: i64) -> i64 {
    let any = rng.between(-most, most);
    let small = rng.between(-9, 9);
    rng.pick(&[any, any, any, small, 0, most, -most])
}

/// Whether 8 or 9 are aimed at, which judge a GDS and a grid.
fn grid_judged(aims: &[u32]) -> bool {
    aims.contains(&8) || aims.contains(&9)
}

/// A kind of grid: latitude/longitude more often than not, but where grids are judged.
fn some_grid_kind(rng: &mut Rng, aims: &[u32]) -> u8 {
    match rng.below([20, 12][grid_judged(aims) as usize]) {
        0 | 1 => MERCATOR,
        2 | 3 => LAMBERT,
        4 | 5 => GAUSSIAN,
        6 | 7 => POLAR,
        _ => LAT_LON,
    }
}

/// A step in metres, of three octets.
fn some_metres(rng: &mut Rng) -> u32 {
    let any = rng.below(1 << 24) as u32;
    rng.pick(&[any, any, 81_271, 0, 1, 1 << 23, (1 << 24) - 1])
}

/// A grid of 1 to 30 points that keeps the rules.
fn sound_grid(rng: &mut Rng, aims: &[u32]) -> Grid {
    let (mut ni, mut nj) = (1 + rng.below(6), 1 + rng.below(6));
    if rng.chance(40) {
        (ni, nj) = (1 + rng.below(3), 1 + rng.below(3));
    }
    if ni * nj > 30 {
        ni = 5;
    }
    sound_grid_of(rng, aims, ni, nj)
}

/// A grid of so many columns and rows that keeps the rules.
fn sound_grid_of(rng: &mut Rng, aims: &[u32], ni: usize, nj: usize) -> Grid {
    let mut scan = (rng.below(8) * 32) as u8;
    if rng.chance(30) {
        scan |= rng.octet() & 0x1F;
    }
    let north = scan & 0x40 != 0;
    let (mut la1, mut la2) = (edgy(rng, 90_000), edgy(rng, 90_000));
    if nj > 1 {
        if rng.chance(20) {
            la1 = rng.between(-90_000, 89_999);
            la2 = la1 + 1;
        }
        if la1 == la2 {
            (la1, la2) = (-90_000, 90_000);
        }
        if (la2 > la1) != north {
            (la1, la2) = (la2, la1);
        }
    }
    let any_di = rng.between(0, 65_535) as u16;
    let any_dj = rng.between(0, 65_535) as u16;
    let any_circles = rng.between(0, 65_534) as u16;
    let grid = Grid {
        kind: some_grid_kind(rng, aims),
        ni: ni as u16,
        nj: nj as u16,
        la1: la1 as i32,
        lo1: edgy(rng, 360_000) as i32,
        flags: rng.octet(),
        la2: la2 as i32,
        lo2: edgy(rng, 360_000) as i32,
        di: rng.pick(&[any_di, 1_000, 65_535]),
        dj: rng.pick(&[any_dj, 1_000, 65_535]),
        scan,
        rows: Rows::Even,
        dx: some_metres(rng),
        dy: some_metres(rng),
        lov: edgy(rng, 360_000) as i32,
        latin1: edgy(rng, 90_000) as i32,
        latin2: edgy(rng, 90_000) as i32,
        pole_la: edgy(rng, 90_000) as i32,
        pole_lo: edgy(rng, 360_000) as i32,
        centre: rng.octet(),
        circles: rng.pick(&[any_circles, 32, 0, 1, 65_534]),
    };
    own_figures(&grid)
}

/// One of the eight octants.
fn some_octant(rng: &mut Rng) -> Grid {
    from_catalogue(37 + rng.below(8) as u8).expect("an octant")
}

fn some_kind(rng: &mut Rng) -> BitmapKind {
    match rng.below(3) {
        0 => BitmapKind::Without,
        1 => BitmapKind::Carried,
        _ => {
            let any = 1 + rng.below(65_535) as u16;
            BitmapKind::Stored(rng.pick(&[any, any, 1, 255, 256, 65_535]))
        }
    }
}

fn some_marks(rng: &mut Rng, kind: BitmapKind, n: usize) -> Vec<bool> {
    if kind == BitmapKind::Without {
        return vec![true; n];
    }
    let percent = rng.pick(&[60, 60, 60, 90, 20, 100, 0]);
    (0..n).map(|_| rng.chance(percent)).collect()
}

/// Whole octets that begin with these bits and go on anyhow.
fn octets_from(rng: &mut Rng, bits: &[bool], count: usize) -> Vec<u8> {
    let noisy = rng.chance(70);
    let mut all = bits.to_vec();
    while all.len() < 8 * count {
        all.push(noisy && rng.chance(50));
    }
    octets_of(&all)
}

fn some_lent(rng: &mut Rng, kind: BitmapKind, marks: &[bool]) -> Lent {
    match kind {
        BitmapKind::Stored(number) => {
            let extra = rng.pick(&[0, 0, 1, 3]);
            let count = marks.len().div_ceil(8) + extra;
            Lent {
                number,
                octets: octets_from(rng, marks, count),
            }
        }
        _ if rng.chance(60) => Lent::default(),
        _ => {
            // Lent though nothing asks for it.
            let count = rng.below(4);
            Lent {
                number: rng.pick(&[0, 1, 7, 65_535]),
                octets: rng.octets(count),
            }
        }
    }
}

fn some_width(rng: &mut Rng) -> u8 {
    match rng.below(10) {
        0 | 1 => 0,
        2..=6 => 1 + rng.below(8) as u8,
        7 | 8 => 1 + rng.below(24) as u8,
        _ => rng.pick(&[8, 16, 23, 24]),
    }
}

fn some_d(rng: &mut Rng) -> i64 {
    let small = rng.between(-3, 3);
    let any = rng.between(-32_767, 32_767);
    rng.pick(&[small, small, small, 0, any, 32_767, -32_767])
}

/// How often a field is an octant's, in a hundred: more often where 8 and 9 are
/// aimed at, which judge a GDS and a grid.
fn octants_in_100(size: Size, aims: &[u32]) -> usize {
    let judged = grid_judged(aims);
    match size {
        Size::Small => 0,
        Size::Short => [8, 40][judged as usize],
        Size::Whole => [6, 30][judged as usize],
    }
}

/// A field for reading and writing; the kind of bitmap may be asked for.
fn some_field(rng: &mut Rng, with_bitmap: bool, size: Size, aims: &[u32]) -> Field {
    let octant = rng.chance(octants_in_100(size, aims));
    let grid = if octant {
        some_octant(rng)
    } else {
        sound_grid(rng, aims)
    };
    let mut kind = some_kind(rng);
    let mut bits = some_width(rng);
    if octant && size == Size::Short {
        bits = rng.pick(&[0, 0, 1]);
        if rng.chance(95) {
            kind = BitmapKind::Without;
        }
    }
    while with_bitmap && kind == BitmapKind::Without {
        kind = some_kind(rng);
    }
    let marks = some_marks(rng, kind, points(&grid) as usize);
    field_of(rng, grid, kind, marks, bits)
}

/// A field on this grid with these points present, and so many bits for a value.
fn field_of(rng: &mut Rng, grid: Grid, kind: BitmapKind, marks: Vec<bool>, bits: u8) -> Field {
    let lent = some_lent(rng, kind, &marks);
    let top = (1u64 << bits) - 1;
    let values = marks
        .iter()
        .map(|&mark| {
            let any = rng.draw() & top;
            let value = rng.pick(&[any, any, any, 0, top]);
            if mark {
                value as u32
            } else {
                0
            }
        })
        .collect();
    let near = rng.between(-1_024, 1_025);
    let any_e = rng.between(-32_767, 32_767);
    let small_e = rng.between(-12, 12);
    let e = rng.pick(&[
        small_e, small_e, small_e, 0, near, any_e, -1_022, -1_023, 1_023, 1_024, 32_767, -32_767,
    ]);
    let any_r = rng.draw() as u32;
    let whole = reference_of(edgy(rng, 8_388_607));
    let r = rng.pick(&[
        any_r,
        any_r,
        whole,
        whole,
        any_r & 0xFF00_000F,
        any_r & 0xFF00_0000,
    ]);
    let d = some_d(rng);
    Field {
        pds: sound_pds(rng, d, true, kind != BitmapKind::Without),
        grid,
        kind,
        marks,
        lent,
        flags: rng.pick(&[0, 0, 2]),
        bits,
        values,
        e: e as i32,
        r,
    }
}

/// R's octets for a whole number, with leading zero digits now and then.
fn some_reference(rng: &mut Rng, number: i64) -> u32 {
    if number == 0 {
        // Any sign and any A stand for zero when B is zero.
        let noise = (rng.draw() as u32) & 0xFF00_0000;
        return rng.pick(&[0, 0, noise]);
    }
    let mut r = reference_of(number);
    while r & 0x0F == 0 && rng.chance(30) {
        let b = (r & 0x00FF_FFFF) / 16;
        r = (r & 0xFF00_0000) + 0x0100_0000 + b;
    }
    r
}

/// A field with a source that passes the check against it.
fn checkable(rng: &mut Rng, size: Size, aims: &[u32]) -> (Field, Source) {
    const BOUND: i64 = 8_388_607;
    let mut field = some_field(rng, aims.contains(&10), size, aims);
    let d = some_d(rng);
    let any_e = rng.between(0, 24);
    let e = rng.pick(&[0, 0, 1, 2, 3, any_e, any_e, 23, 24]);
    let step = 1i64 << e;
    let half = step / 2;
    let small = rng.between(-3_000, 3_000);
    let reference = edgy(rng, BOUND);
    let reference = rng.pick(&[small, small, reference]);
    let top = ((1i64 << field.bits) - 1).min((BOUND - reference + half) / step);
    let mut numbers = Vec::new();
    for point in 0..field.marks.len() {
        if !field.marks[point] {
            let any = rng.draw() as i32;
            numbers.push(rng.pick(&[any, 0, i32::MIN, i32::MAX, 8_388_608]));
            continue;
        }
        let any = rng.between(0, top);
        let x = rng.pick(&[any, any, 0, top]);
        let off = rng.between(-half, half);
        let off = rng.pick(&[off, off, half, -half]);
        let v = reference + x * step + off;
        field.values[point] = x as u32;
        numbers.push(v.clamp(-BOUND, BOUND) as i32);
    }
    field.e = e as i32;
    field.r = some_reference(rng, reference);
    let has_bitmap = field.kind != BitmapKind::Without;
    field.pds = sound_pds(rng, d, true, has_bitmap);
    let source = Source {
        numbers,
        marks: field.marks.iter().map(|&mark| u8::from(mark)).collect(),
        d: d as i32,
    };
    (field, source)
}

// ---------------------------------------------------------------------------
// Drafts: messages section by section, open to damage
// ---------------------------------------------------------------------------

/// A message before it is put together.
struct Draft {
    start: [u8; 4],
    total: Option<u32>,
    edition: u8,
    pds: Vec<u8>,
    gds: Option<Vec<u8>>,
    bms: Option<Vec<u8>>,
    bds: Vec<u8>,
    /// Octets between the last section and the end.
    stray: Vec<u8>,
    end: [u8; 4],
    /// Octets after the end that the total length does not count.
    after: Vec<u8>,
    /// Cut the whole to this many octets at last.
    cut: Option<usize>,
    lent: Lent,
    n: usize,
}

impl Draft {
    fn assemble(&self) -> Vec<u8> {
        let mut octets = self.start.to_vec();
        octets.extend([0, 0, 0, self.edition]);
        octets.extend(&self.pds);
        octets.extend(self.gds.iter().flatten());
        octets.extend(self.bms.iter().flatten());
        octets.extend(&self.bds);
        octets.extend(&self.stray);
        octets.extend(self.end);
        let total = self.total.unwrap_or(octets.len() as u32);
        put(&mut octets, 5, &total.to_be_bytes()[1..]);
        octets.extend(&self.after);
        octets.truncate(self.cut.unwrap_or(usize::MAX));
        octets
    }
}

/// The octets of a grid, with minus zeros now and then, and anything where they are
/// reserved.
fn gds_octets(rng: &mut Rng, grid: &Grid) -> Vec<u8> {
    let mut gds = to_gds(grid);
    let noisy = rng.chance(50);
    for &(first, last, what) in layout_of(grid.kind) {
        match what {
            What::Latitude(figure) | What::Longitude(figure) => {
                put(&mut gds, first, &signed_octets(rng, figure.of(grid), 3));
            }
            What::Reserved if noisy => put(&mut gds, first, &rng.octets(last + 1 - first)),
            _ => {}
        }
    }
    gds
}

fn bms_octets(rng: &mut Rng, kind: BitmapKind, marks: &[bool]) -> Option<Vec<u8>> {
    match kind {
        BitmapKind::Without => None,
        BitmapKind::Stored(number) => {
            let mut bms = vec![0, 0, 6, 0];
            bms.extend(number.to_be_bytes());
            Some(bms)
        }
        BitmapKind::Carried => {
            let octets = marks.len().div_ceil(16) * 2;
            let mut bms = vec![0, 0, 0, (8 * octets - marks.len()) as u8, 0, 0];
            bms.extend(octets_from(rng, marks, octets));
            let length = bms.len();
            put_length(&mut bms, length);
            Some(bms)
        }
    }
}

fn bds_octets(rng: &mut Rng, field: &Field) -> Vec<u8> {
    let mut data = Vec::new();
    for (point, &mark) in field.marks.iter().enumerate() {
        if mark {
            data.extend(bits_of_number(
                field.values[point] as u64,
                field.bits.into(),
            ));
        }
    }
    let octets = data.len().div_ceil(8) / 2 * 2 + 1;
    let unused = 8 * octets - data.len();
    let mut bds = vec![0, 0, 0, field.flags * 16 + unused as u8];
    bds.extend(signed_octets(rng, field.e as i64, 2));
    bds.extend(field.r.to_be_bytes());
    bds.push(field.bits);
    bds.extend(octets_from(rng, &data, octets));
    let length = bds.len();
    put_length(&mut bds, length);
    bds
}

fn draft_of(rng: &mut Rng, field: &Field) -> Draft {
    Draft {
        start: *b"GRIB",
        total: None,
        edition: 1,
        pds: field.pds.clone(),
        gds: Some(gds_octets(rng, &field.grid)),
        bms: bms_octets(rng, field.kind, &field.marks),
        bds: bds_octets(rng, field),
        stray: Vec::new(),
        end: *b"7777",
        after: Vec::new(),
        cut: None,
        lent: field.lent.clone(),
        n: field.marks.len(),
    }
}

const CATALOGUED: [u8; 15] = [2, 3, 29, 30, 33, 34, 45, 37, 38, 39, 40, 41, 42, 43, 44];

/// Turns a draft into one of many points with no bitmap and constant data: a
/// catalogue grid or a large GDS grid.
fn widen(rng: &mut Rng, draft: &mut Draft) {
    draft.pds[7] &= 0xBF;
    draft.bms = None;
    let any = rng.octet();
    draft.bds = vec![0, 0, 12, 0x08, 0, 0, 0, 0, 0, 0, 0, any];
    put(&mut draft.bds, 7, &rng.octets(4));
    if rng.chance(70) {
        draft.pds[7] &= 0x7F;
        draft.pds[6] = rng.pick(&CATALOGUED);
        draft.gds = None;
        draft.n = points(&from_catalogue(draft.pds[6]).expect("in the catalogue")) as usize;
    } else if rng.chance(30) {
        let grid = some_octant(rng);
        draft.gds = Some(gds_octets(rng, &grid));
        draft.n = points(&grid) as usize;
    } else if let Some(gds) = &mut draft.gds {
        let sizes = [
            (256, 256),
            (65_534, 1),
            (1, 65_534),
            (32_768, 2),
            (255, 257),
        ];
        let (ni, nj): (u16, u16) = rng.pick(&sizes);
        let length = length_of(gds.get(5).copied().unwrap_or(LAT_LON));
        gds.resize(length, 0);
        put(gds, 1, &[0, 0, length as u8, 0, 255]);
        put(gds, 7, &ni.to_be_bytes());
        put(gds, 9, &nj.to_be_bytes());
        put_latitudes(gds);
        draft.n = ni as usize * nj as usize;
    }
}

/// Latitudes that suit the scanning flags whatever Nj is.
fn put_latitudes(gds: &mut [u8]) {
    let north = gds[27] & 0x40 != 0;
    put(gds, 11, &[if north { 0x80 } else { 0 }, 0, 9]);
    put(gds, 18, &[if north { 0 } else { 0x80 }, 0, 9]);
}

/// A time out of its ranges, or just inside them.
fn damage_time(rng: &mut Rng, pds: &mut [u8]) {
    if rng.chance(50) {
        // Years of century at the edges of their range, and the full centuries as
        // document 01 spelled them.
        let (century, year, month, day) = rng.pick(&[
            (20, 100, 2, 29),
            (20, 100, 2, 29),
            (24, 100, 2, 29),
            (96, 100, 2, 29),
            (18, 100, 2, 29),
            (19, 100, 2, 29),
            (19, 100, 2, 29),
            (21, 100, 2, 29),
            (22, 100, 2, 29),
            (99, 100, 2, 29),
            (21, 0, 1, 1),
            (21, 0, 2, 29),
            (25, 0, 2, 29),
            (22, 0, 1, 1),
            (20, 0, 12, 31),
            (18, 0, 2, 28),
            (99, 0, 6, 15),
            (20, 101, 1, 1),
            (20, 101, 2, 28),
            (18, 101, 1, 1),
            (21, 101, 1, 1),
            (99, 101, 12, 31),
        ]);
        put_time(pds, century, [year, month, day, 12, 30]);
        return;
    }
    if rng.chance(40) {
        // Days that depend on the month and the year.
        let (century, year, month, day) = rng.pick(&[
            (17, 100, 2, 28),
            (100, 0, 1, 1),
            (20, 104, 2, 29),
            (20, 100, 12, 31),
            (20, 96, 2, 29),
            (20, 98, 2, 29),
            (20, 96, 2, 30),
            (21, 1, 2, 28),
            (21, 4, 4, 31),
            (21, 4, 6, 31),
            (21, 4, 9, 31),
            (21, 4, 11, 31),
            (21, 4, 11, 30),
            (21, 4, 12, 31),
            (21, 4, 8, 32),
        ]);
        put_time(pds, century, [year, month, day, 12, 30]);
        return;
    }
    let (place, value) = rng.pick(&[
        (25, 17),
        (25, 18),
        (25, 0),
        (25, 99),
        (25, 100),
        (25, 255),
        (13, 0),
        (13, 1),
        (13, 99),
        (13, 100),
        (13, 101),
        (13, 255),
        (14, 0),
        (14, 13),
        (14, 255),
        (15, 0),
        (15, 1),
        (15, 32),
        (15, 255),
        (16, 23),
        (16, 24),
        (16, 255),
        (17, 59),
        (17, 60),
        (17, 255),
    ]);
    pds[place - 1] = value;
}

/// An octet 7 that is not in the catalogue, its neighbours most of all.
fn uncatalogued(rng: &mut Rng) -> u8 {
    loop {
        let any = rng.octet();
        let number = rng.pick(&[any, 0, 1, 4, 28, 31, 32, 35, 36, 46, 255]);
        if !CATALOGUED.contains(&number) {
            return number;
        }
    }
}

impl Draft {
    /// Section 1 to 4 where it is there.
    fn section(&mut self, number: usize) -> Option<&mut Vec<u8>> {
        match number {
            1 => Some(&mut self.pds),
            2 => self.gds.as_mut(),
            3 => self.bms.as_mut(),
            _ => Some(&mut self.bds),
        }
    }

    /// One of its sections that has a length; the bitmap's, which is not always
    /// there, no less often than the others.
    fn some_section(&mut self, rng: &mut Rng) -> usize {
        loop {
            let number = rng.pick(&[1, 2, 3, 3, 4]);
            if self.section(number).is_some_and(|octets| octets.len() >= 3) {
                return number;
            }
        }
    }

    /// How many octets stand from a section's start to the end section's.
    fn room_from(&mut self, number: usize) -> usize {
        let sections: usize = (number..=4)
            .map(|k| self.section(k).map_or(0, |octets| octets.len()))
            .sum();
        sections + self.stray.len()
    }

    /// A section that says another length, or has it too, so that the walk would
    /// land.
    fn set_section(&mut self, number: usize, length: usize, stands: bool) {
        let octets = self.section(number).expect("a section that is there");
        if stands && length >= 3 {
            octets.resize(length, 0);
        }
        put_length(octets, length);
    }

    /// The end section after so many octets of a section.
    fn end_in(&mut self, number: usize, left: usize) {
        self.section(number)
            .expect("a section that is there")
            .truncate(left);
        for later in number + 1..=4 {
            if let Some(octets) = self.section(later) {
                octets.clear();
            }
        }
        self.stray.clear();
    }
}

/// The least length of each section.
const LEAST: [usize; 5] = [0, 28, 32, 6, 12];

/// Damages the length of some section so that 20, 21, 22 or 23 may come of it: in
/// this way alone, or with more that is wrong in the same section.
fn damage_length(rng: &mut Rng, draft: &mut Draft, reply: u32) {
    if draft.pds.len() < 26 || draft.bds.len() < 10 || rng.chance(10) {
        return damage_lengths(rng, draft);
    }
    let number = draft.some_section(rng);
    let own = draft.section(number).map_or(0, |octets| octets.len());
    let (least, room) = (LEAST[number], draft.room_from(number));
    let stands = rng.chance(50);
    match reply {
        20 => {
            let any = 2 * rng.below(room) + 1;
            let length = rng.pick(&[
                own + 1,
                own - 1,
                least - 1,
                least + 1,
                1,
                room + 1,
                any,
                1_025,
                16_777_215,
            ]);
            draft.set_section(number, length, stands && length < 2_000);
        }
        21 if number == 1 && rng.chance(40) => {
            // Over 1,024, and past the end or not.
            let length = rng.pick(&[1_026, 1_026, 1_028, 1_025, 65_564, 16_777_214]);
            draft.set_section(1, length, length < 2_000 && rng.chance(30));
        }
        21 => {
            let any = 2 * rng.below(least / 2);
            let length = rng.pick(&[least - 2, least - 2, 0, 2, any, least - 1]);
            draft.set_section(number, length, stands);
            if rng.chance(15) {
                // Under its least, and past the end.
                draft.end_in(number, 3);
            }
        }
        22 if stands => {
            // Its length can't be read, or just be read.
            let left = rng.pick(&[0, 0, 1, 2, 2, 3, own - 1]);
            draft.end_in(number, left);
        }
        22 => {
            let any = 2 * rng.below(600);
            let length = room + rng.pick(&[2, 2, 4, 0, any + 2, 1]);
            let far = if number == 1 { 1_024 } else { 16_777_214 };
            draft.set_section(number, rng.pick(&[length, length, far]), false);
        }
        _ => match rng.below(4) {
            0 if draft.bds.len() >= 14 => {
                let length = draft.bds.len() - 2;
                put_length(&mut draft.bds, length);
            }
            1 => draft.stray = b"7777".to_vec(),
            _ => {
                let any = 1 + rng.below(40);
                let count = rng.pick(&[1, 1, 2, 2, 3, 4, 12, any]);
                draft.stray = rng.octets(count);
            }
        },
    }
}

/// Damages lengths in one of many ways, whatever comes of it.
fn damage_lengths(rng: &mut Rng, draft: &mut Draft) {
    if draft.pds.len() < 26 || draft.bds.len() < 10 {
        // Damaged in this way already.
        return;
    }
    match rng.below(14) {
        0 => draft.pds[2] ^= 1,
        1 => {
            draft.pds.truncate(26);
            put_length(&mut draft.pds, 26);
        }
        2 => {
            let length = rng.pick(&[0, 2, 27, 1_026, 65_535, 16_777_214]);
            put_length(&mut draft.pds, length);
        }
        3 => {
            if let Some(gds) = &mut draft.gds {
                let lengths = [
                    0, 30, 31, 32, 33, 34, 40, 42, 44, 176, 177, 178, 180, 16_777_214,
                ];
                let length = rng.pick(&lengths);
                put_length(gds, length);
            }
        }
        4 => {
            if let Some(gds) = &mut draft.gds {
                gds.truncate(30);
                put_length(gds, 30);
            }
        }
        5 => {
            if let Some(bms) = &mut draft.bms {
                let length = rng.pick(&[0, 4, 5, 7, 10, 12, 16_777_214]);
                put_length(bms, length);
            }
        }
        6 => {
            let length = rng.pick(&[0, 10, 11, 13, 16_777_214]);
            put_length(&mut draft.bds, length);
        }
        7 => {
            let length = draft.bds.len() + rng.pick(&[1, 2]);
            put_length(&mut draft.bds, length);
        }
        8 => draft.stray = vec![0; 1 + rng.below(4)],
        9 => draft.pds[7] ^= 0x80,
        10 => draft.pds[7] ^= 0x40,
        11 => draft.bds.truncate(rng.below(5)),
        12 => {
            // The BDS says and has ten octets.
            draft.bds.truncate(10);
            put_length(&mut draft.bds, 10);
        }
        _ => {
            // Nothing, or next to nothing, between indicator and end.
            draft.pds.truncate(rng.below(5));
            draft.gds = None;
            draft.bms = None;
            draft.bds.clear();
        }
    }
    if draft.pds.len() == 28 && rng.chance(4) {
        // A PDS that is really too long.
        draft.pds.resize(1_026, 3);
        put_length(&mut draft.pds, 1_026);
    }
}

/// Damages what 9 judges of a thinned GDS: a count, all of them, a field. Now and
/// then the octets come out as another octant's, or as they were.
fn damage_octant_octets(rng: &mut Rng, gds: &mut [u8]) {
    let any = rng.below(73);
    let count = 32 + 2 * rng.pick(&[0, 1, 71, 72, any, any, any]);
    let other = to_gds(&some_octant(rng));
    match rng.below(14) {
        0 | 1 => gds[count + 1] = gds[count + 1].wrapping_add(1),
        2 | 3 => gds[count + 1] = gds[count + 1].wrapping_sub(1),
        4 => gds[count] ^= 1 << rng.below(8),
        5 => gds.copy_within(32 + 2..178, 32),
        6 => gds[32..].copy_from_slice(&other[32..]),
        7 => put(gds, 11, &other[10..16]),
        8 => put(gds, 18, &other[17..23]),
        9 => put(gds, 7, &other[6..28]),
        10 => gds[16] = rng.octet(),
        11 => gds[27] = rng.pick(&[0, 64, 96, 192, 65]),
        12 => put(gds, rng.pick(&[7, 9, 24, 26]), &rng.octets(2)),
        _ => put(gds, 33, &[0, 74]),
    }
}

/// A line of a kind's layout, where it has any: mostly one with a bound.
fn some_line(rng: &mut Rng, kind: u8) -> Option<Line> {
    let lines = layout_of(kind);
    let bounded = |line: &Line| {
        use Figure::{Circles, Ni, Nj};
        match line.2 {
            What::Latitude(_) | What::Longitude(_) => true,
            What::Number(figure) => [Ni, Nj, Circles].contains(&figure),
            What::Reserved => false,
        }
    };
    let with_bounds: Vec<Line> = lines.iter().copied().filter(bounded).collect();
    let from = if rng.chance(60) {
        &with_bounds[..]
    } else {
        lines
    };
    (!from.is_empty()).then(|| rng.pick(from))
}

/// Damages a field that the kind in octet 6 has, at or past its bound, or where it has
/// none at its edges.
fn damage_field_octets(rng: &mut Rng, gds: &mut [u8]) {
    let line = some_line(rng, gds[5]);
    let Some((first, last, what)) = line.filter(|line| line.1 <= gds.len()) else {
        return;
    };
    let sign = rng.pick(&[1, -1]);
    let signed = |bound: i64| {
        let mut octets = octets_of(&bits_of_number(bound as u64, 24));
        octets[0] |= if sign < 0 { 0x80 } else { 0 };
        octets
    };
    let octets = match what {
        What::Latitude(_) => signed(rng.pick(&[90_001, 90_001, 90_000, 0, 8_388_607])),
        What::Longitude(_) => signed(rng.pick(&[360_001, 360_001, 360_000, 0, 8_388_607])),
        What::Number(Figure::Ni | Figure::Nj) => rng.pick(&[[0, 0], [255, 255]]).to_vec(),
        What::Number(Figure::Circles) => {
            let any = [rng.octet(), rng.octet()];
            rng.pick(&[[255, 255], [255, 255], [255, 254], [0, 0], any])
                .to_vec()
        }
        What::Number(_) => vec![rng.pick(&[0, 0x80, 0xFF]); last + 1 - first],
        What::Reserved => rng.octets(last + 1 - first),
    };
    put(gds, first, &octets);
}

fn damage_grid_octets(rng: &mut Rng, gds: &mut [u8]) {
    if gds.len() == 178 && rng.chance(70) {
        return damage_octant_octets(rng, gds);
    }
    if gds[5] == GAUSSIAN && rng.chance(15) {
        return put(gds, 26, &[0xFF, 0xFF]);
    }
    if rng.chance(if gds[5] == LAT_LON { 10 } else { 75 }) {
        return damage_field_octets(rng, gds);
    }
    let high = rng.pick(&[0, 0x80]);
    let past_latitude = [high | 1, 0x5F, 0x91]; // 90,001
    let at_latitude = [high | 1, 0x5F, 0x90];
    let past_longitude = [high | 5, 0x7E, 0x41]; // 360,001
    match rng.below(13) {
        0 => put(gds, 7, &[0, 0]),
        1 => put(gds, 9, &[0, 0]),
        2 => put(gds, 7, &[0xFF, 0xFF]),
        3 => put(gds, 9, &[0xFF, 0xFF]),
        4 => {
            let (ni, nj): (u16, u16) = rng.pick(&[
                (257, 256),
                (256, 257),
                (65_534, 2),
                (2, 65_534),
                (65_534, 65_534),
            ]);
            put(gds, 7, &ni.to_be_bytes());
            put(gds, 9, &nj.to_be_bytes());
            put_latitudes(gds);
        }
        5 => put(gds, rng.pick(&[11, 18]), &past_latitude),
        6 => put(gds, rng.pick(&[11, 18]), &at_latitude),
        7 => put(gds, rng.pick(&[14, 21]), &past_longitude),
        8 => put(gds, rng.pick(&[11, 14, 18, 21]), &[high | 0x7F, 0xFF, 0xFF]),
        9 | 10 => gds[27] ^= 0x40,
        11 => {
            let la1 = gds[10..13].to_vec();
            put(gds, 18, &la1);
        }
        _ => {
            // Zero and minus zero, which are the same latitude.
            put(gds, 11, &[high, 0, 0]);
            put(gds, 18, &[high ^ 0x80, 0, 0]);
        }
    }
}

fn damage_bitmap(rng: &mut Rng, draft: &mut Draft) {
    let needed = draft.n.div_ceil(8);
    // A section that is too short is damaged already.
    let Some(bms) = draft.bms.as_mut().filter(|bms| bms.len() >= 6) else {
        return;
    };
    let number = 256 * bms[4] as u16 + bms[5] as u16;
    if number == 0 {
        match rng.below(9) {
            0 => bms[3] = bms[3].wrapping_add(1),
            1 => bms[3] = bms[3].wrapping_sub(1),
            2 => {
                // The sum fits, but unused is over 15.
                bms.extend([0xFF, 0x0F]);
                let length = bms.len();
                put_length(bms, length);
                bms[3] += 16;
            }
            3 => {
                bms.extend([0, 0]);
                let length = bms.len();
                put_length(bms, length);
            }
            4 => {
                bms.truncate(6);
                put_length(bms, 6);
                bms[3] = rng.pick(&[0, bms[3]]);
            }
            5 => {
                let length = bms.len() - 2;
                bms.truncate(length);
                put_length(bms, length);
            }
            6 => bms[3] = rng.pick(&[0, 7, 8, 15, 16, 17, 255]),
            7 => {
                // A number with bits after it, though such a bitmap is lent.
                bms[5] = 9;
                draft.lent = Lent {
                    number: 9,
                    octets: bms[6..].to_vec(),
                };
                bms[3] = rng.pick(&[0, bms[3]]);
            }
            _ => bms[4] = 1,
        }
    } else {
        match rng.below(9) {
            0 => draft.lent.number ^= 1,
            1 => draft.lent = Lent::default(),
            2 => draft.lent.octets.truncate(needed - 1),
            3 => draft.lent.octets.truncate(needed),
            4 => bms[3] = rng.pick(&[1, 8, 15, 255]),
            5 => {
                bms.extend([0, 0]);
                put_length(bms, 8);
            }
            6 => put(bms, 5, &[0, 0]),
            7 => draft.lent.number = number.swap_bytes(),
            _ => {
                // A catalogue grid has far more points than are lent.
                draft.pds[6] = rng.pick(&CATALOGUED);
                draft.pds[7] &= 0x7F;
                draft.gds = None;
            }
        }
    }
}

fn damage_data(rng: &mut Rng, draft: &mut Draft) {
    let bds = &mut draft.bds;
    if bds.len() < 12 {
        return;
    }
    match rng.below(7) {
        0 => bds[3] = (bds[3] & 0xF0) | (bds[3].wrapping_add(1) & 0x0F),
        1 => bds[3] = (bds[3] & 0xF0) | (bds[3].wrapping_sub(1) & 0x0F),
        2 => {
            bds.extend([0, 0]);
            let length = bds.len();
            put_length(bds, length);
        }
        3 => {
            let length = (bds.len() - 2).max(12);
            bds.truncate(length);
            put_length(bds, length);
        }
        4 => bds[10] = if bds[10] >= 24 { 23 } else { bds[10] + 1 },
        5 => bds[10] = bds[10].saturating_sub(1),
        _ => match &mut draft.bms {
            // One present point more or less.
            Some(bms) if bms.len() > 6 => bms[6] ^= 0x80,
            _ => bds[3] ^= 8,
        },
    }
}

/// Damages a draft so that a reply number from 1 to 12, or from 20 to 23, may come
/// of it.
fn damage(rng: &mut Rng, draft: &mut Draft, reply: u32, large: bool) {
    match reply {
        1 => draft.cut = Some(rng.pick(&[0, 1, 2, 3, 4, 5, 6, 7, 7, 8])),
        2 => {
            draft.start = match rng.below(3) {
                0 => *b"BUFR",
                1 => *b"grib",
                _ => {
                    let mut start = *b"GRIB";
                    start[rng.below(4)] ^= 1 << rng.below(8);
                    start
                }
            }
        }
        3 => draft.edition = rng.pick(&[0, 2, 3, 128, 255]),
        4 => {
            let length = draft.assemble().len() as u32;
            match rng.below(6) {
                0 => draft.total = Some(length - 1),
                1 => draft.total = Some(length + 1),
                2 => draft.total = Some(rng.pick(&[0, 12, 0xFF_FFFF])),
                3 => draft.after = rng.octets(1),
                4 => draft.cut = Some((length as usize).saturating_sub(1 + rng.below(20))),
                _ => draft.end[rng.below(4)] ^= 1 << rng.below(8),
            }
        }
        20..=23 => damage_length(rng, draft, reply),
        6 if draft.pds.len() >= 26 => damage_time(rng, &mut draft.pds),
        7 if draft.pds.len() >= 8 => {
            draft.gds = None;
            draft.pds[7] &= 0x7F;
            draft.pds[6] = uncatalogued(rng);
        }
        8 => {
            if let Some(gds) = draft.gds.as_mut().filter(|gds| gds.len() >= 6) {
                if rng.chance(30) {
                    // Another length; the one of the other pair among them.
                    let longer = gds.len() + rng.pick(&[2, 4, 6]);
                    let length = rng.pick(&[longer, longer, 32, 42, 42, 40, 44, 176, 178, 180]);
                    gds.resize(length, 0);
                    put_length(gds, length);
                } else if rng.chance(30) {
                    gds[4] = rng.pick(&[33, 255, 0, 32, 34]);
                } else if rng.chance(40) {
                    // Another kind, of the same length or not, or a number that is none.
                    gds[5] = rng.pick(&[0, 1, 3, 4, 5, 2, 6, 10, 13, 50, 90, 255]);
                } else {
                    gds[3 + rng.below(3)] ^= 1 << rng.below(8);
                }
            }
        }
        9 => {
            if large && draft.pds.len() >= 28 && rng.chance(10) {
                widen(rng, draft);
            } else if let Some(gds) = &mut draft.gds {
                if gds.len() >= 32 {
                    damage_grid_octets(rng, gds);
                }
            }
        }
        10 if draft.pds.len() >= 28 => damage_bitmap(rng, draft),
        11 if draft.bds.len() >= 12 => {
            if rng.chance(50) {
                draft.bds[3] ^= rng.pick(&[0x10, 0x40, 0x80, 0x20, 0xD0, 0xF0]);
            } else {
                draft.bds[10] = rng.pick(&[25, 25, 26, 32, 255]);
            }
        }
        12 => damage_data(rng, draft),
        _ => {}
    }
}

fn put_total(message: &mut [u8]) {
    if message.len() >= 8 {
        let total = message.len() as u32;
        put(message, 5, &total.to_be_bytes()[1..]);
    }
}

/// Damages the octets of a message without looking at what they mean.
fn blind(rng: &mut Rng, message: &mut Vec<u8>, lent: &mut Lent) {
    let place = rng.below(message.len());
    match rng.below(12) {
        0..=3 => message[place] ^= 1 << rng.below(8),
        4 | 5 => message[place] = rng.octet(),
        6 => {
            let keep = message.len() - 1 - rng.below(12);
            message.truncate(keep);
        }
        7 => {
            let count = 1 + rng.below(3);
            message.extend(rng.octets(count));
        }
        8 => {
            // Octets gone from the middle, and the total length put right.
            let most = message.len() - place;
            let count = (1 + rng.below(4)).min(most);
            message.drain(place..place + count);
            put_total(message);
        }
        9 => {
            // Octets put into the middle, and the total length put right.
            let count = 1 + rng.below(4);
            let more = rng.octets(count);
            message.splice(place..place, more);
            put_total(message);
        }
        10 => {
            // The last sections replaced by an end.
            message.truncate(place);
            message.extend(b"7777");
            put_total(message);
        }
        _ => {
            if lent.octets.is_empty() {
                message[place] ^= 0xFF;
            } else {
                let place = rng.below(lent.octets.len());
                lent.octets[place] ^= 1 << rng.below(8);
            }
        }
    }
}

// ---------------------------------------------------------------------------
// The kinds of case; the cursor's have a file of their own
// ---------------------------------------------------------------------------

/// The case of a number for the reader.
pub fn read_case(seed: u64, index: usize, size: Size) -> ReadCase {
    let mut rng = rng_for(seed, 1, index);
    let rng = &mut rng;
    let large = size == Size::Short;
    let plan = plan(rng, index, &READ_AIMS);
    let aims: Vec<u32> = match plan {
        Plan::Aimed(one) => vec![one],
        Plan::Twice(one, other) => vec![one, other],
        _ => Vec::new(),
    };
    let field = some_field(rng, aims.contains(&10), size, &aims);
    let mut draft = draft_of(rng, &field);
    for &aim in &aims {
        damage(rng, &mut draft, aim, large);
    }
    if large && aims.contains(&14) && draft.pds.len() >= 28 && rng.chance(30) {
        widen(rng, &mut draft);
    }
    let mut message = draft.assemble();
    let mut lent = draft.lent;
    if matches!(plan, Plan::Blind) && rng.chance(95) {
        blind(rng, &mut message, &mut lent);
    }
    // The lists are as long as needed, or longer, or (aiming at 14) shorter.
    let header = header(&message, &lent);
    let n = if header.reply == 0 && (header.points <= 64 || size == Size::Whole) {
        header.points as usize
    } else {
        rng.below(6)
    };
    let mut lengths = [n, n];
    if rng.chance(50) {
        lengths[0] += rng.below(4);
        lengths[1] += rng.below(4);
    }
    if aims.contains(&14) && n > 0 {
        let which = rng.below(3);
        for (k, length) in lengths.iter_mut().enumerate() {
            if which == 2 || which == k {
                *length = if rng.chance(70) { n - 1 } else { rng.below(n) };
            }
        }
    }
    let values = (0..lengths[0]).map(|k| some_old_value(rng, k)).collect();
    ReadCase {
        message,
        lent,
        values,
        marks: rng.octets(lengths[1]),
    }
}

/// What a lent list holds before: never by chance what is to be written.
fn some_old_value(rng: &mut Rng, k: usize) -> u32 {
    let any = rng.draw() as u32;
    rng.pick(&[any, 50_000_000 + k as u32, 0xFFFF_FFFF])
}

fn parts_of(field: &Field) -> Parts {
    Parts {
        pds: field.pds.clone(),
        form: Form {
            grid: Some(field.grid),
            bitmap: field.kind,
            flags: field.flags,
            bits: field.bits,
        },
        e: field.e,
        r: field.r,
        lent: field.lent.clone(),
        values: field.values.clone(),
        marks: field.marks.iter().map(|&mark| u8::from(mark)).collect(),
    }
}

fn stray_now_and_then(rng: &mut Rng, parts: &mut Parts) {
    if let Some(grid) = parts.form.grid.as_mut().filter(|_| rng.chance(15)) {
        *grid = some_strays(rng, grid);
    }
}

fn damage_pds(rng: &mut Rng, pds: &mut Vec<u8>) {
    if pds.len() < 26 {
        // Damaged in this way already.
        return;
    }
    match rng.below(8) {
        0 => pds.push(7),
        1 => {
            pds.push(7);
            let length = pds.len();
            put_length(pds, length);
        }
        2 => {
            pds.truncate(26);
            put_length(pds, 26);
        }
        3 => pds.truncate(rng.below(28)),
        4 => pds[rng.below(3)] ^= 1 << rng.below(8),
        5 => pds.extend([0, 0]),
        6 => {
            let length = pds.len() + 2;
            put_length(pds, length);
        }
        _ => {
            let length = rng.pick(&[27, 1_026, 1_025, 26]);
            pds.resize(length, 1);
            put_length(pds, length);
        }
    }
}

/// Damages what 9 judges of a grid given as thinned; or gives a rectangle as one,
/// and an octant as a rectangle.
fn damage_given_octant(rng: &mut Rng, grid: &mut Grid) {
    let other = some_octant(rng);
    match rng.below(10) {
        0 => grid.ni = rng.pick(&[0, 73, 65_534]),
        1 => grid.nj = rng.pick(&[0, 72, 74, 65_535]),
        2 => grid.flags ^= 1 << rng.below(8),
        3 => grid.scan ^= 1 << rng.below(8),
        4 => grid.di = rng.pick(&[0, 1_250, 65_534]),
        5 => grid.dj = rng.pick(&[0, 1_249, 1_251, 65_535]),
        6 => (grid.la1, grid.la2) = (other.la1, other.la2),
        7 => (grid.lo1, grid.lo2) = (other.lo1, other.lo2),
        8 => grid.lo1 = grid.lo1.wrapping_sub(360_000),
        _ => grid.rows = some_rows(rng),
    }
}

fn some_rows(rng: &mut Rng) -> Rows {
    rng.pick(&[Rows::Even, Rows::FromEquator, Rows::FromPole, Rows::Neither])
}

/// Damages a number that the given grid's kind has, at or past its bound; or its kind,
/// or gives another kind thinned rows.
fn damage_given_figure(rng: &mut Rng, grid: &mut Grid) {
    let sign = rng.pick(&[1, -1]);
    let Some((_, _, what)) = some_line(rng, grid.kind).filter(|_| rng.chance(85)) else {
        let any = rng.octet();
        grid.kind = rng.pick(&[0, 1, 3, 4, 5, 2, 6, 255, any]);
        return;
    };
    if rng.chance(10) {
        grid.rows = some_rows(rng);
        return;
    }
    let wide = rng.pick(&[i32::MIN, i32::MAX, 8_388_608, 16_777_216]) as i64;
    *grid = match what {
        What::Latitude(figure) => figure.put(
            *grid,
            rng.pick(&[90_001 * sign, 90_001 * sign, 90_000 * sign, wide]),
        ),
        What::Longitude(figure) => figure.put(
            *grid,
            rng.pick(&[360_001 * sign, 360_001 * sign, 360_000, wide]),
        ),
        What::Number(figure @ (Figure::Dx | Figure::Dy)) => {
            let numbers = [1 << 24, 1 << 24, (1 << 24) - 1, 1 << 31, u32::MAX.into()];
            figure.put(*grid, rng.pick(&numbers))
        }
        What::Number(figure) => figure.put(*grid, rng.pick(&[0, figure.range().1])),
        What::Reserved if grid.kind == GAUSSIAN => Figure::Circles.put(*grid, 65_535),
        What::Reserved => *grid,
    };
}

/// Numbers that the grid's kind does not have, and that are not looked at.
fn some_strays(rng: &mut Rng, grid: &Grid) -> Grid {
    let mut stray = *grid;
    for figure in FIGURES {
        let (least, most) = figure.range();
        let any = rng.between(least, most);
        stray = figure.put(stray, rng.pick(&[any, least, most, 0]));
    }
    let owned = layout_of(grid.kind).iter().filter_map(|line| match line.2 {
        What::Number(figure) | What::Latitude(figure) | What::Longitude(figure) => Some(figure),
        What::Reserved => None,
    });
    owned.fold(stray, |stray, figure| figure.put(stray, figure.of(grid)))
}

fn damage_given_grid(rng: &mut Rng, grid: &mut Grid) {
    if rng.chance(if grid.kind == LAT_LON { 7 } else { 75 }) {
        return damage_given_figure(rng, grid);
    }
    if rng.chance(if grid.rows == Rows::Even { 7 } else { 80 }) {
        return damage_given_octant(rng, grid);
    }
    let sign = rng.pick(&[1, -1]);
    match rng.below(14) {
        0 => grid.ni = 0,
        1 => grid.nj = 0,
        2 => grid.ni = 65_535,
        3 => grid.nj = 65_535,
        4 => {
            let sizes = [
                (257, 256),
                (256, 257),
                (65_534, 2),
                (65_534, 65_534),
                (256, 256),
            ];
            (grid.ni, grid.nj) = rng.pick(&sizes);
            let north = grid.scan & 0x40 != 0;
            (grid.la1, grid.la2) = if north { (-9, 9) } else { (9, -9) };
        }
        5 => grid.la1 = 90_001 * sign,
        6 => grid.la2 = 90_001 * sign,
        7 => grid.lo1 = 360_001 * sign,
        8 => grid.lo2 = 360_001 * sign,
        9 => grid.la1 = 90_000 * sign,
        10 => grid.scan ^= 0x40,
        11 => grid.la2 = grid.la1,
        12 => grid.lo1 = rng.pick(&[i32::MIN, i32::MAX, 8_388_608, 16_777_215]),
        _ => grid.la2 = rng.pick(&[i32::MIN, i32::MAX, -8_388_608, 16_777_216]),
    }
}

/// Damages what a stored bitmap must keep to.
fn damage_stored(rng: &mut Rng, form: &mut Form, lent: &mut Lent, marks: &mut [u8]) {
    let number = match form.bitmap {
        BitmapKind::Stored(number) => number,
        _ => {
            // Give the field a stored bitmap first.
            let bits: Vec<bool> = marks.iter().map(|&mark| mark == 1).collect();
            let number = 1 + rng.below(300) as u16;
            *lent = some_lent(rng, BitmapKind::Stored(number), &bits);
            form.bitmap = BitmapKind::Stored(number);
            number
        }
    };
    let n = marks.len();
    match rng.below(9) {
        0 => form.bitmap = BitmapKind::Stored(0),
        1 => {
            form.bitmap = BitmapKind::Stored(0);
            lent.number = 0;
        }
        2 => lent.number = number ^ 1,
        3 => *lent = Lent::default(),
        4 => lent.octets.truncate(n.div_ceil(8).saturating_sub(1)),
        5 => lent.octets.truncate(n.div_ceil(8)),
        6 if n > 0 => marks[rng.below(n)] ^= 1,
        7 if n > 0 => marks[rng.below(n)] = rng.pick(&[2, 3, 255]),
        _ => {
            if !lent.octets.is_empty() {
                let place = rng.below(n.max(1)) / 8;
                let place = place.min(lent.octets.len() - 1);
                lent.octets[place] ^= 1 << rng.below(8);
            }
        }
    }
}

fn damage_packing(rng: &mut Rng, form: &mut Form) {
    if rng.chance(50) {
        form.flags = rng.pick(&[1, 3, 4, 6, 8, 10, 12, 14, 15, 16, 18, 32, 128, 255]);
    } else {
        form.bits = rng.pick(&[25, 25, 26, 32, 63, 64, 255]);
    }
}

fn damage_parts(rng: &mut Rng, parts: &mut Parts, reply: u32) {
    match reply {
        5 => damage_pds(rng, &mut parts.pds),
        6 if parts.pds.len() >= 26 => damage_time(rng, &mut parts.pds),
        7 if parts.pds.len() >= 8 => {
            parts.form.grid = None;
            parts.pds[6] = uncatalogued(rng);
            if rng.chance(70) {
                parts.pds[7] &= 0x7F;
            }
        }
        9 => {
            if let Some(grid) = &mut parts.form.grid {
                damage_given_grid(rng, grid);
            }
        }
        10 => {
            if parts.pds.len() >= 8 {
                parts.pds[7] |= 0x40;
            }
            damage_stored(rng, &mut parts.form, &mut parts.lent, &mut parts.marks);
            if rng.chance(15) {
                parts.values.pop();
            }
        }
        11 => match rng.below(3) {
            0 => parts.e = rng.pick(&[32_767, 32_768, 65_535, i32::MAX]),
            1 => parts.e = rng.pick(&[-32_767, -32_768, -65_536, i32::MIN]),
            _ => damage_packing(rng, &mut parts.form),
        },
        13 => damage_lists(rng, parts),
        _ => {}
    }
}

fn damage_lists(rng: &mut Rng, parts: &mut Parts) {
    let n = parts.values.len().min(parts.marks.len());
    let point = rng.below(n.max(1));
    match rng.below(12) {
        0 => parts.values.push(0),
        1 => parts.marks.push(1),
        2 => {
            parts.values.pop();
        }
        3 => {
            parts.marks.pop();
        }
        4 => {
            parts.values.push(0);
            parts.marks.push(1);
        }
        5 if n > 0 => parts.marks[point] = rng.pick(&[2, 255]),
        6 if n > 0 => {
            parts.marks[point] = 0;
            parts.values[point] = rng.pick(&[0, 0, 1]);
        }
        7 if n > 0 => parts.values[point] = 1 << parts.form.bits.min(24),
        8 if n > 0 => {
            parts.values[point] = rng.pick(&[(1 << parts.form.bits.min(24)) - 1, u32::MAX])
        }
        9 if parts.pds.len() >= 8 => parts.pds[7] ^= 0x80,
        10 if parts.pds.len() >= 8 => parts.pds[7] ^= 0x40,
        _ if parts.pds.len() >= 8 => {
            // A catalogue grid has more points than the lists.
            parts.form.grid = None;
            parts.pds[6] = rng.pick(&CATALOGUED);
            if rng.chance(50) {
                parts.pds[7] &= 0x7F;
            }
        }
        _ => {}
    }
}

/// Changes something small about the parts without a plan.
fn blind_parts(rng: &mut Rng, parts: &mut Parts) {
    let n = parts.values.len();
    match rng.below(9) {
        0..=2 => {
            let place = rng.below(parts.pds.len());
            parts.pds[place] ^= 1 << rng.below(8);
        }
        3 => {
            if let Some(grid) = &mut parts.form.grid {
                match rng.below(7) {
                    0 => grid.ni = rng.below(8) as u16,
                    1 => grid.nj = rng.below(8) as u16,
                    2 => grid.scan = rng.octet(),
                    3 => grid.la1 = rng.between(-100_000, 100_000) as i32,
                    4 => grid.lo2 = rng.between(-400_000, 400_000) as i32,
                    5 => grid.kind = rng.pick(&[0, 1, 3, 4, 5, 2, 6, 255]),
                    _ => grid.rows = some_rows(rng),
                }
            }
        }
        4 => parts.form.bits = rng.below(27) as u8,
        5 => parts.form.flags = rng.below(4) as u8,
        6 => parts.marks[rng.below(n)] ^= 1,
        7 => parts.values[rng.below(n)] = rng.below(300) as u32,
        _ => parts.form.bitmap = some_kind(rng),
    }
}

/// An output list that holds something already.
fn some_out(rng: &mut Rng, needed: Option<usize>, short: bool) -> Vec<u8> {
    let length = match needed {
        None => rng.below(24),
        Some(needed) if short => match rng.below(4) {
            0 | 1 => needed - 1,
            2 => rng.below(needed),
            _ => rng.pick(&[0, 3, 8]),
        },
        Some(needed) => needed + rng.pick(&[0, 0, 0, 1, 2, 5]),
    };
    (0..length).map(|k| (200 + k % 50) as u8).collect()
}

/// Lists of an octant cut to a few elements, where the case is to be short.
fn shorten<A, B>(rng: &mut Rng, size: Size, one: &mut Vec<A>, other: &mut Vec<B>) {
    if size == Size::Short && one.len() > 64 {
        let few = 1 + rng.below(6);
        one.truncate(few);
        other.truncate(few);
    }
}

/// The case of a number for the writer.
pub fn write_case(seed: u64, index: usize, size: Size) -> WriteCase {
    let mut rng = rng_for(seed, 2, index);
    let rng = &mut rng;
    let plan = plan(rng, index, &WRITE_AIMS);
    let aims: Vec<u32> = match plan {
        Plan::Aimed(one) => vec![one],
        Plan::Twice(one, other) => vec![one, other],
        _ => Vec::new(),
    };
    let field = some_field(rng, false, size, &aims);
    let mut parts = parts_of(&field);
    stray_now_and_then(rng, &mut parts);
    shorten(rng, size, &mut parts.values, &mut parts.marks);
    for &aim in &aims {
        damage_parts(rng, &mut parts, aim);
    }
    if matches!(plan, Plan::Blind) {
        blind_parts(rng, &mut parts);
    }
    let mut room = vec![0; 300_000];
    let needed = match write(&parts, &mut room) {
        (0, length) => Some(length as usize),
        _ => None,
    };
    let out = some_out(rng, needed, aims.contains(&14));
    WriteCase { parts, out }
}

fn damage_source(rng: &mut Rng, source: &mut Source, reply: u32) {
    let n = source.numbers.len().min(source.marks.len());
    if n == 0 {
        return;
    }
    let point = rng.below(n);
    match reply {
        18 => match rng.below(7) {
            0 => source.numbers.push(0),
            1 => {
                source.marks.pop();
            }
            2 => {
                source.numbers.clear();
                source.marks.clear();
            }
            3 => source.marks[point] = rng.pick(&[2, 3, 255]),
            // Refused only if present.
            _ => {
                source.numbers[point] =
                    rng.pick(&[8_388_608, -8_388_608, i32::MIN, i32::MAX, 8_388_607])
            }
        },
        15 => match rng.below(6) {
            0 => source.d += rng.pick(&[1, -1]),
            1 => source.d = rng.pick(&[-source.d, i32::MIN, 65_536, -32_768]),
            2 => {
                source.numbers.push(0);
                source.marks.push(1);
            }
            3 => {
                source.numbers.pop();
                source.marks.pop();
            }
            _ => {
                source.marks[point] = 1 - source.marks[point].min(1);
                source.numbers[point] = 5;
            }
        },
        _ => {}
    }
}

/// The case of a number for the checker.
pub fn check_case(seed: u64, index: usize, size: Size) -> CheckCase {
    let mut rng = rng_for(seed, 3, index);
    let rng = &mut rng;
    let large = size == Size::Short;
    let plan = plan(rng, index, &CHECK_AIMS);
    let aims: Vec<u32> = match plan {
        Plan::Aimed(one) => vec![one],
        Plan::Twice(one, other) => vec![one, other],
        _ => Vec::new(),
    };
    let (mut field, mut source) = checkable(rng, size, &aims);
    while aims.contains(&17) && !field.marks.contains(&true) {
        (field, source) = checkable(rng, size, &aims);
    }
    let mut draft = draft_of(rng, &field);
    shorten(rng, size, &mut source.numbers, &mut source.marks);
    for &aim in &aims {
        match aim {
            15 if large && rng.chance(10) && draft.pds.len() >= 28 => widen(rng, &mut draft),
            15 | 18 => damage_source(rng, &mut source, aim),
            16 if draft.bds.len() >= 12 => {
                // E or R outside the checker's ranges, or just inside.
                if rng.chance(50) {
                    let e = rng.pick(&[-1, 25, 24, 26, -24, 1_023, 32_767, -32_767]);
                    put(&mut draft.bds, 5, &signed_octets(rng, e, 2));
                } else {
                    let any = rng.draw() as u32;
                    let r: u32 = rng.pick(&[
                        0x4680_0000,
                        0xC680_0000,
                        0x4080_0000,
                        0x4118_0000,
                        0x4500_0001,
                        0x4600_0001,
                        0x4700_0001,
                        0x4C00_0001,
                        0x7F00_0000,
                        0x0000_0001,
                        0x467F_FFFF,
                        any,
                    ]);
                    put(&mut draft.bds, 7, &r.to_be_bytes());
                }
            }
            17 => {
                // Out by half a step (taken), or by more.
                let n = source
                    .numbers
                    .len()
                    .min(source.marks.len())
                    .min(field.values.len());
                let present: Vec<usize> = (0..n).filter(|&k| source.marks[k] == 1).collect();
                if !present.is_empty() {
                    let point = rng.pick(&present);
                    let step = 1i64 << field.e;
                    let exact = whole_reference(field.r).expect("whole as made")
                        + field.values[point] as i64 * step;
                    let past = step / 2 + 1;
                    let away = rng.pick(&[past, past, past, past, step / 2, 3 * step]);
                    // Mostly towards the middle, so as to stay in bounds.
                    let down = (exact > 0) != rng.chance(20);
                    source.numbers[point] = (exact + if down { -away } else { away }) as i32;
                }
            }
            _ => damage(rng, &mut draft, aim, false),
        }
    }
    let mut message = draft.assemble();
    let mut lent = draft.lent;
    if matches!(plan, Plan::Blind) && rng.chance(95) {
        blind(rng, &mut message, &mut lent);
    }
    CheckCase {
        message,
        lent,
        source,
    }
}

/// The case of a number for the packer.
pub fn pack_case(seed: u64, index: usize, size: Size) -> PackCase {
    let mut rng = rng_for(seed, 4, index);
    let rng = &mut rng;
    let plan = plan(rng, index, &PACK_AIMS);
    let aims: Vec<u32> = match plan {
        Plan::Aimed(one) => vec![one],
        Plan::Twice(one, other) => vec![one, other],
        _ => Vec::new(),
    };
    let field = some_field(rng, false, size, &aims);
    let d = some_d(rng);
    let pds = sound_pds(rng, d, true, field.kind != BitmapKind::Without);
    let mut parts = parts_of(&field);
    parts.pds = pds;
    stray_now_and_then(rng, &mut parts);
    shorten(rng, size, &mut parts.values, &mut parts.marks);

    // Source numbers near one another, or far apart.
    let bound = 8_388_607;
    let middle = edgy(rng, bound);
    let any = rng.between(0, 2 * bound);
    let mut spread = rng.pick(&[
        0,
        1,
        3,
        7,
        8,
        15,
        16,
        200,
        5_000,
        70_000,
        bound,
        2 * bound,
        any,
    ]);
    if parts.form.bits == 0 {
        spread = spread.min(bound);
    }
    let low = middle.min(bound - spread).max(-bound);
    let numbers = parts
        .marks
        .iter()
        .map(|&mark| {
            let v = low + rng.between(0, spread);
            let v = rng.pick(&[v, v, v, low, low + spread]) as i32;
            let wild = rng.draw() as i32;
            if mark == 1 {
                v
            } else {
                rng.pick(&[wild, i32::MIN, i32::MAX, 0, v])
            }
        })
        .collect();
    let mut source = Source {
        numbers,
        marks: parts.marks.clone(),
        d: d as i32,
    };
    for &aim in &aims {
        let n = source.numbers.len().min(source.marks.len());
        match aim {
            11 => damage_packing(rng, &mut parts.form),
            13 => match rng.below(5) {
                0 => {
                    source.numbers.push(1);
                    source.marks.push(1);
                }
                1 if n > 1 => {
                    source.numbers.pop();
                    source.marks.pop();
                }
                2 if n > 0 => source.marks[rng.below(n)] = 0,
                3 if parts.pds.len() >= 8 => parts.pds[7] ^= rng.pick(&[0x80, 0x40, 0xC0]),
                _ if parts.pds.len() >= 8 => {
                    parts.form.grid = None;
                    parts.pds[6] = rng.pick(&CATALOGUED);
                    parts.pds[7] &= 0x7F;
                }
                _ => {}
            },
            15 => match rng.below(3) {
                0 => source.d += rng.pick(&[1, -1]),
                1 => source.d = rng.pick(&[-source.d, i32::MIN, 32_768, -32_768]),
                _ if parts.pds.len() >= 28 => parts.pds[26] ^= 0x80,
                _ => {}
            },
            18 => damage_source(rng, &mut source, 18),
            19 => {
                parts.form.bits = 0;
                let present: Vec<usize> = (0..n).filter(|&k| source.marks[k] == 1).collect();
                if present.len() > 1 {
                    let spread = rng.pick(&[bound, bound + 1, bound + 1, 2 * bound]);
                    let low = rng.between(-bound, bound - spread);
                    for &k in &present {
                        source.numbers[k] = (low + rng.between(0, spread)) as i32;
                    }
                    source.numbers[present[0]] = low as i32;
                    source.numbers[present[1]] = (low + spread) as i32;
                    if rng.chance(50) {
                        source.numbers.swap(present[0], present[1]);
                    }
                }
            }
            10 => {
                parts.marks = source.marks.clone();
                damage_parts(rng, &mut parts, 10);
                // Marks over 1 would be 18 before they could be 10.
                source.marks = parts.marks.iter().map(|&mark| mark.min(1)).collect();
                for k in 0..source.marks.len().min(source.numbers.len()) {
                    if source.numbers[k].unsigned_abs() > bound as u32 {
                        source.numbers[k] = low as i32;
                    }
                }
            }
            _ => damage_parts(rng, &mut parts, aim),
        }
    }
    if matches!(plan, Plan::Blind) {
        blind_parts(rng, &mut parts);
        if rng.chance(30) {
            let n = source.numbers.len();
            source.numbers[rng.below(n)] ^= 1 << rng.below(31);
        }
    }
    let mut case = PackCase {
        pds: parts.pds,
        form: parts.form,
        lent: parts.lent,
        source,
        out: vec![0; 300_000],
    };
    let PackCase {
        pds,
        form,
        lent,
        source,
        out,
    } = &mut case;
    let needed = match crate::pack::pack(pds, form, lent, source, out) {
        (0, length) => Some(length as usize),
        _ => None,
    };
    case.out = some_out(rng, needed, aims.contains(&14));
    case
}

/// How often each reply was given.
#[derive(Default)]
pub struct Histogram(pub [usize; 26]);

impl Histogram {
    pub fn count(&mut self, reply: u32) {
        self.0[reply as usize] += 1;
    }
}

impl std::fmt::Display for Histogram {
    fn fmt(&self, f: &mut std::fmt::Formatter<'_>) -> std::fmt::Result {
        let all: usize = self.0.iter().sum();
        write!(f, "{all} replies:")?;
        for (reply, &times) in self.0.iter().enumerate() {
            if times > 0 {
                write!(f, " {reply}:{times}")?;
            }
        }
        Ok(())
    }
}

/// What R-3 moved, as a case can meet it.
pub const YEARS: [&str; 4] = [
    "29 February of a year 100 taken",
    "29 February of a year 100 refused",
    "year 0 refused",
    "year 101 refused",
];

/// Which of these a PDS is that gets this reply: 0, or 6 for nothing else in its time.
pub fn year_met(pds: &[u8], reply: u32) -> Option<usize> {
    let &[year, month, day, hour, minute] = pds.get(12..17)? else {
        return None;
    };
    let century = *pds.get(24)?;
    if !(18..=99).contains(&century) || hour > 23 || minute > 59 {
        return None;
    }
    let leap_day = (month, day) == (2, 29);
    let last = days_in(100 * (century as u32 - 1) + year as u32, month as u32);
    let some_day = day >= 1 && day as u32 <= last;
    match (year, reply) {
        (100, 0) if leap_day => Some(0),
        (100, 6) if leap_day => Some(1),
        (0, 6) if some_day => Some(2),
        (101, 6) if some_day => Some(3),
        _ => None,
    }
}

/// The PDS's first 28 octets in a message that gets 0 or 6; none where a message has
/// no room for them.
pub fn pds_in(message: &[u8]) -> &[u8] {
    message.get(8..36).unwrap_or(&[])
}

/// What R-4 added, as a case can meet it.
pub const KINDS_MET: [&str; 3] = ["taken", "refused by 8", "refused by 9"];

/// Which of the four kinds a grid in numbers or a GDS's octet 6 is, and which of these a
/// reply to it is.
pub fn kind_met(kind: u8, reply: u32) -> Option<(usize, usize)> {
    let which = KINDS[1..].iter().position(|&own| own == kind)?;
    let how = [0, 8, 9].iter().position(|&met| met == reply)?;
    Some((which, how))
}

/// GDS octet 6 of a message that gets 0, 8 or 9, where it has a GDS.
pub fn kind_in(message: &[u8]) -> Option<u8> {
    let pds = 256 * *message.get(9)? as usize + *message.get(10)? as usize;
    (message.get(15)? & 0x80 != 0).then_some(*message.get(8 + pds + 5)?)
}
