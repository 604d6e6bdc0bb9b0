//! Fields of many points: every grid of the catalogue, octants with their GDS, the widest and the highest charts,
//! bitmaps with whole octets of ones and of zeros, every N.

use crate::call::{self, Call, Chart, Kinds};
use crate::cursor;
use second_reading::cases::Rng;
use second_reading::grid::{from_catalogue, layout_of, length_of, own_figures, points, What, KINDS, LAT_LON};
use second_reading::{points_in_row, write, BitmapKind, Form, Grid, Lent, Parts, Reply, Rows, Source};

const CATALOGUE: [u8; 15] = [2, 3, 29, 30, 33, 34, 45, 37, 38, 39, 40, 41, 42, 43, 44];

/// A PDS of a length, with a time that keeps the rules.
fn pds(rng: &mut Rng, number: u8, has_grid: bool, has_bitmap: bool, d: i32) -> Vec<u8> {
    let length = rng.pick(&[28, 28, 30, 64, 1_024]);
    let mut pds = rng.octets(length);
    pds[..3].copy_from_slice(&(length as u32).to_be_bytes()[1..]);
    pds[6] = number;
    pds[7] = (has_grid as u8) << 7 | (has_bitmap as u8) << 6 | rng.octet() & 0x3F;
    let time = [1 + rng.below(100), 1 + rng.below(12), 1 + rng.below(28), rng.below(24), rng.below(60)];
    for (k, part) in time.into_iter().enumerate() {
        pds[12 + k] = part as u8;
    }
    pds[24] = 18 + rng.below(82) as u8;
    pds[26..28].copy_from_slice(&(d.unsigned_abs() as u16 | (d < 0) as u16 * 0x8000).to_be_bytes());
    pds
}

/// A chart of up to 65,536 points, of this kind.
fn wide_grid(rng: &mut Rng, kind: u8) -> Grid {
    let (a, b) = (1 + rng.below(300), 1 + rng.below(200));
    let (ni, nj) = rng.pick(&[(256, 256), (65_534, 1), (1, 65_534), (2, 32_768), (32_768, 2), (255, 257), (a, b), (a, b), (a, b), (a, b), (a, b)]);
    let scan = (rng.below(8) * 32) as u8 | rng.octet() & 0x1F;
    let (south, north) = (-90_000 + rng.below(90_000) as i32, 1 + rng.below(90_000) as i32);
    let upward = scan & 0x40 != 0;
    let grid = Grid {
        kind,
        ni: ni as u16,
        nj: nj as u16,
        la1: if upward { south } else { north },
        lo1: rng.between(-360_000, 360_000) as i32,
        flags: rng.octet(),
        la2: if upward { north } else { south },
        lo2: rng.between(-360_000, 360_000) as i32,
        di: rng.draw() as u16,
        dj: rng.draw() as u16,
        scan,
        rows: Rows::Even,
        dx: rng.below(1 << 24) as u32,
        dy: rng.below(1 << 24) as u32,
        lov: rng.between(-360_000, 360_000) as i32,
        latin1: rng.between(-90_000, 90_000) as i32,
        latin2: rng.between(-90_000, 90_000) as i32,
        pole_la: rng.between(-90_000, 90_000) as i32,
        pole_lo: rng.between(-360_000, 360_000) as i32,
        centre: rng.octet(),
        circles: rng.below(65_535) as u16,
    };
    own_figures(&grid)
}

/// Marks in stretches, so that whole octets of a bitmap are ones, zeros or mixed.
fn stretches(rng: &mut Rng, n: usize) -> Vec<u8> {
    let mut marks = Vec::with_capacity(n);
    while marks.len() < n {
        let percent = rng.pick(&[0, 0, 50, 50, 100, 100]);
        let long = (1 + rng.below(90)).min(n - marks.len());
        marks.extend((0..long).map(|_| rng.chance(percent) as u8));
    }
    marks
}

fn bits_in_octets(rng: &mut Rng, marks: &[u8]) -> Vec<u8> {
    let mut octets = rng.octets(marks.len().div_ceil(8) + 2);
    for (k, mark) in marks.iter().enumerate() {
        let bit = 0x80 >> (k % 8);
        octets[k / 8] = octets[k / 8] & !bit | mark * bit;
    }
    octets
}

/// What reading ignores, made noise: padding of bitmap and data, the GDS's reserved octets.
fn stain(rng: &mut Rng, message: &mut [u8], header: &second_reading::Header) {
    let places = &header.places;
    if places.gds.len > 0 {
        for &(first, last, _) in layout_of(header.grid.kind).iter().filter(|line| line.2 == What::Reserved) {
            for octet in &mut message[places.gds.start as usize..][first - 1..last] {
                *octet = rng.octet();
            }
        }
    }
    let mut noise = |part: second_reading::Part, unused: u32| {
        let end = (part.start + part.len) as usize * 8;
        for bit in end - unused as usize..end {
            if rng.chance(50) {
                message[bit / 8] ^= 0x80 >> (bit % 8);
            }
        }
    };
    if header.bitmap == BitmapKind::Carried {
        noise(places.bms, (places.bms.len - 6) * 8 - header.points);
    }
    noise(places.bds, (places.bds.len - 11) * 8 - header.present * header.bits as u32);
}

pub fn calls(seed: u64, index: usize) -> Vec<Call> {
    let mut rng = Rng::new(seed ^ 0x1A46E ^ (index as u64) << 20);
    let rng = &mut rng;
    let catalogued = index % 4 == 0;
    let number = CATALOGUE[index / 4 % CATALOGUE.len()];
    let grid = match index % 4 {
        0 => from_catalogue(number).expect("in the catalogue"),
        1 => from_catalogue(37 + (index / 4 % 8) as u8).expect("an octant"),
        _ => wide_grid(rng, KINDS[index / 4 % KINDS.len()]),
    };
    let n = points(&grid) as usize;
    let bitmap = rng.pick(&[BitmapKind::Without, BitmapKind::Carried, BitmapKind::Stored(7)]);
    let marks = if bitmap == BitmapKind::Without { vec![1; n] } else { stretches(rng, n) };
    let bits = (index % 25) as u8;
    let form = Form { grid: (!catalogued).then_some(grid), bitmap, flags: rng.pick(&[0, 2]), bits };
    let d = rng.between(-300, 300) as i32;
    let lent = match bitmap {
        BitmapKind::Stored(number) => Lent { number, octets: bits_in_octets(rng, &marks) },
        _ => Lent::default(),
    };
    let pds = pds(rng, number, !catalogued, bitmap != BitmapKind::Without, d);
    let values = marks.iter().map(|&mark| (rng.draw() & ((1 << bits) - 1)) as u32 * mark as u32).collect();
    let parts = Parts { pds: pds.clone(), form, e: rng.between(-400, 400) as i32, r: rng.draw() as u32, lent: lent.clone(), values, marks: marks.clone() };

    // written with room to spare, exactly enough, and one octet short
    let mut message = vec![0; 300_000];
    let (reply, len) = write(&parts, &mut message);
    assert_eq!(reply, 0, "large {index} is sound");
    message.truncate(len as usize);
    let out: Vec<u8> = (0..message.len() + 40).map(|k| (200 + k % 50) as u8).collect();
    let kinds = Kinds::default();
    let mut calls = vec![
        call::write(&parts, kinds, &out),
        call::write(&parts, kinds, &out[..message.len()]),
        call::write(&parts, kinds, &out[..message.len() - 1]),
        call::length(&pds, &form, kinds, &lent, &marks),
    ];

    let (header, _) = call::header(&message, &lent);
    stain(rng, &mut message, &header);
    calls.push(call::header(&message, &lent).1);
    let spare = rng.below(40);
    let lists: (Vec<u32>, Vec<u8>) = ((0..n + spare).map(|k| k as u32 | 0xFE00_0000).collect(), (0..n + spare).map(|k| (2 + k % 250) as u8).collect());
    calls.push(call::read(&message, &lent, &lists.0, &lists.1));
    calls.push(call::read(&message, &lent, &lists.0[..n - 1], &lists.1));
    calls.push(call::bitmap(&message, &lent));
    calls.push(call::display(&message, &lent));
    let mut asking = Rng::new(seed ^ 0xC1 ^ (index as u64) << 20);
    calls.extend(cursor::calls(&mut asking, &message, &lent));
    let chart = Chart::of(&grid);
    for point in [0, n / 2, n - 1, n] {
        calls.push(call::data_number(&message, &lent, point as u32));
        calls.push(chart.place(point as u32));
    }
    // every row of an octant: how many points it has, its ends, and what lies past them
    if grid.rows != Rows::Even {
        for row in 0..75 {
            let count = points_in_row(&grid, row);
            calls.push(chart.row(row));
            for column in [0, count.saturating_sub(1), count] {
                calls.push(chart.point(row, column));
            }
        }
        calls.extend((0..n as u32 + 2).step_by(7).map(|point| chart.place(point)));
    }
    // each octet after its length of the GDS of an octant, or of another kind than latitude/longitude, another one
    if !catalogued && (grid.rows != Rows::Even || grid.kind != LAT_LON) {
        let gds = header.places.gds.start as usize;
        let length = if grid.rows == Rows::Even { length_of(grid.kind) } else { 178 };
        for octet in gds + 3..gds + length {
            let mut other = message.clone();
            let (own, flipped) = (message[octet], message[octet] ^ 1 << rng.below(8));
            other[octet] = rng.pick(&[own.wrapping_add(1), own.wrapping_sub(1), flipped]);
            calls.push(call::header(&other, &lent).1);
        }
    }

    // each length one more, under its least, past the end by two and far, and octets left over
    let places = [header.places.pds, header.places.gds, header.places.bms, header.places.bds];
    let end = message.len() as u32 - 4;
    for (part, least) in places.into_iter().zip([28, 32, 6, 12]) {
        for length in [part.len + 1, least - 2, end - part.start + 2, 16_777_214] {
            if part.len > 0 {
                let mut other = message.clone();
                other[part.start as usize..][..3].copy_from_slice(&length.to_be_bytes()[1..]);
                calls.push(call::header(&other, &lent).1);
            }
        }
    }
    let mut longer = message.clone();
    longer.splice(end as usize..end as usize, rng.octets(1 + index % 5));
    let total = longer.len() as u32;
    longer[4..7].copy_from_slice(&total.to_be_bytes()[1..]);
    calls.push(call::header(&longer, &lent).1);

    // a source packed and checked
    let spread = 1 + rng.below(1 << (bits.min(21) + 2)) as i64;
    let low = rng.between(-8_388_607, 8_388_607 - spread);
    let numbers = marks.iter().map(|&mark| if mark == 1 { rng.between(low, low + spread) as i32 } else { rng.draw() as i32 }).collect();
    let source = Source { numbers, marks, d };
    let (packed, message) = call::pack(&pds, &form, kinds, &lent, &source, &out);
    if packed.reply == Some(Reply::of(0)) {
        calls.push(call::check(&message, &lent, &source));
    }
    calls.push(packed);
    calls
}
