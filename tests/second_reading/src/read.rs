//! The reader: replies 1 to 4, 20 to 23, 6 to 12 and 14, and what it hands back.
//! Where the table of document 01 has 5, R-2 has 20 to 23: "reading, 5 becomes 20
//! to 23 in that order, section by section from the front, where 5 stood". And
//! '"1 to 12" includes them'.

use crate::bits::{bit, bits_of, number_in, number_of, octet, signed_in};
use crate::grid::{
    from_catalogue, from_gds, grid_outside_rules, length_of, points, KINDS, LAT_LON,
};
use crate::time::{time_of, time_out_of_range};
use crate::{BitmapKind, DataNumber, Grid, Header, Lent, Part, Places, Reply};

/// 1: "slice below 8 or above 262,144 octets"
fn row_1(message: &[u8]) -> bool {
    message.len() < 8 || message.len() > 262_144
}

/// 2: "first four octets not 'GRIB'"
fn row_2(message: &[u8]) -> bool {
    message[0..4] != *b"GRIB"
}

/// 3: "edition not 1"; the edition is octet 8.
fn row_3(message: &[u8]) -> bool {
    octet(message, 8) != 1
}

/// 4: "total length is not the slice's, or last four octets not '7777'"; the
/// total length is in octets 5-7.
fn row_4(message: &[u8]) -> bool {
    number_in(message, 5, 7) != message.len() as u64 || message[message.len() - 4..] != *b"7777"
}

/// A section of the walk: its number, and the least and the most that its length
/// may be. "a section length is ... under its least (PDS 28, GDS 32, BMS 6, BDS
/// 12), PDS over 1,024"
struct Bounds {
    section: u32,
    least: usize,
    most: Option<usize>,
}

const PDS: Bounds = Bounds {
    section: 1,
    least: 28,
    most: Some(1_024),
};

const GDS: Bounds = Bounds {
    section: 2,
    least: 32,
    most: None,
};

const BMS: Bounds = Bounds {
    section: 3,
    least: 6,
    most: None,
};

const BDS: Bounds = Bounds {
    section: 4,
    least: 12,
    most: None,
};

/// A refusal by 20 to 23: "each with the section's number and its first octet's
/// place in the message". Octets are counted from 1, so the one with `before`
/// octets before it has the place after that number.
fn stopped(number: u32, section: u32, before: usize) -> Reply {
    Reply {
        number,
        section,
        place: before as u32 + 1,
    }
}

/// One step of the walk: the section that has `before` octets before it, or what
/// its length breaks, in number order.
fn step(message: &[u8], before: usize, bounds: &Bounds) -> Result<Part, Reply> {
    let end_start = message.len() - 4;
    let stop = |number| Err(stopped(number, bounds.section, before));
    // "a length whose own octets don't fit is 22": there is no length to judge.
    if before + 3 > end_start {
        return stop(22);
    }
    let length = number_in(&message[before..], 1, 3) as usize;
    // "odd length"
    if length % 2 == 1 {
        return stop(20);
    }
    // "under or over its bounds"
    if length < bounds.least || bounds.most.is_some_and(|most| length > most) {
        return stop(21);
    }
    // "running past the end section"
    if before + length > end_start {
        return stop(22);
    }
    Ok(Part {
        start: before as u32,
        len: length as u32,
    })
}

/// The walk over the sections that PDS octet 8 announces, "section by section from
/// the front"; or where it stopped.
fn walk(message: &[u8]) -> Result<Places, Reply> {
    let pds = step(message, 8, &PDS)?;
    let flags = octet(part_of(message, pds), 8);
    let mut before = 8 + pds.len as usize;

    // "octet 8 bit 1 = grid section present, bit 2 = bitmap section present"
    let mut gds = Part {
        start: before as u32,
        len: 0,
    };
    if bit(flags, 1) {
        gds = step(message, before, &GDS)?;
        before += gds.len as usize;
    }
    let mut bms = Part {
        start: before as u32,
        len: 0,
    };
    if bit(flags, 2) {
        bms = step(message, before, &BMS)?;
        before += bms.len as usize;
    }
    let bds = step(message, before, &BDS)?;
    before += bds.len as usize;

    // "octets left over"; "23 names section 5 and the first octet left over"
    if before != message.len() - 4 {
        return Err(stopped(23, 5, before));
    }
    Ok(Places { pds, gds, bms, bds })
}

/// The octets of a part.
pub fn part_of(octets: &[u8], part: Part) -> &[u8] {
    &octets[part.start as usize..(part.start + part.len) as usize]
}

// From here on, rows 1 to 4 and 20 to 23 do not apply and the sections can be
// named.

fn places(message: &[u8]) -> Places {
    walk(message).expect("20 to 23 do not apply")
}

fn pds(message: &[u8]) -> &[u8] {
    part_of(message, places(message).pds)
}

fn gds(message: &[u8]) -> &[u8] {
    part_of(message, places(message).gds)
}

fn bms(message: &[u8]) -> &[u8] {
    part_of(message, places(message).bms)
}

pub(crate) fn bds(message: &[u8]) -> &[u8] {
    part_of(message, places(message).bds)
}

/// "octet 8 bit 1 = grid section present"
fn has_gds(message: &[u8]) -> bool {
    bit(octet(pds(message), 8), 1)
}

/// "bit 2 = bitmap section present"
fn has_bms(message: &[u8]) -> bool {
    bit(octet(pds(message), 8), 2)
}

/// 6: "time out of its ranges"
fn row_6(message: &[u8]) -> bool {
    time_out_of_range(pds(message))
}

/// 7: "no GDS, octet 7 not in the catalogue"
fn row_7(message: &[u8]) -> bool {
    !has_gds(message) && from_catalogue(octet(pds(message), 7)).is_none()
}

/// 8: "GDS length or octets 4 to 6 not as above": "octet 4 is 0; octet 5 is 255".
/// "8 names the accepted types and lengths", and each type has its own. R-1, of
/// latitude/longitude grids: "The GDS is 178 octets, octet 5 is 33", "8 admits this
/// length and octet 5".
fn row_8(message: &[u8]) -> bool {
    if !has_gds(message) {
        return false;
    }
    let gds = gds(message);
    let kind = octet(gds, 6);
    let admitted = match octet(gds, 5) {
        255 => KINDS.contains(&kind) && gds.len() == length_of(kind),
        33 => kind == LAT_LON && gds.len() == 178,
        _ => false,
    };
    !admitted || octet(gds, 4) != 0
}

/// "With one, the GDS decides and octet 7 is not compared."
pub(crate) fn grid(message: &[u8]) -> Grid {
    if has_gds(message) {
        from_gds(gds(message))
    } else {
        from_catalogue(octet(pds(message), 7)).expect("row 7 does not apply")
    }
}

/// 9: the grid rules.
fn row_9(message: &[u8]) -> bool {
    grid_outside_rules(&grid(message))
}

/// 10: "bitmap rule broken, or no such stored bitmap"
fn row_10(message: &[u8], lent: &Lent) -> bool {
    if !has_bms(message) {
        return false;
    }
    let n = points(&grid(message)) as i64;
    let bms = bms(message);
    let length = number_in(bms, 1, 3) as i64;
    let unused = octet(bms, 4) as i64;
    let number = number_in(bms, 5, 6);
    if number == 0 {
        // "Number 0: bits follow, ... with 8 x (L - 6) - unused = n and unused
        // 0 to 15."
        unused > 15 || 8 * (length - 6) - unused != n
    } else {
        // "Another number: L is 6, octet 4 is 0, and the bitmap is the one the
        // caller lends with each message ...: its number must be this one and
        // its octets hold at least n bits."
        length != 6
            || unused != 0
            || lent.number as u64 != number
            || 8 * (lent.octets.len() as i64) < n
    }
}

/// Which bitmap a message has, once row 10 does not apply.
fn kind(message: &[u8]) -> BitmapKind {
    if !has_bms(message) {
        return BitmapKind::Without;
    }
    match number_in(bms(message), 5, 6) {
        0 => BitmapKind::Carried,
        number => BitmapKind::Stored(number as u16),
    }
}

/// The mark of each grid point: the first n bits of the bitmap, or ones
/// throughout where there is none. "1 = present"
pub(crate) fn presence(message: &[u8], lent: &Lent) -> Vec<bool> {
    let n = points(&grid(message)) as usize;
    let bits = match kind(message) {
        BitmapKind::Without => vec![true; n],
        BitmapKind::Carried => bits_of(&bms(message)[6..]),
        BitmapKind::Stored(_) => bits_of(&lent.octets),
    };
    bits[..n].to_vec()
}

/// "m present points"
fn present_count(message: &[u8], lent: &Lent) -> usize {
    presence(message, lent).iter().filter(|&&mark| mark).count()
}

/// 11: "BDS flag bit 1, 2 or 4 set, N over 24"; "octet 4 high half flags",
/// "N in 11".
fn row_11(message: &[u8]) -> bool {
    let bds = bds(message);
    let octet_4 = octet(bds, 4);
    bit(octet_4, 1) || bit(octet_4, 2) || bit(octet_4, 4) || octet(bds, 11) > 24
}

/// 12: "data length rule broken": "With m present points, 8 x (L - 11) - unused
/// = m x N"; "low half unused bits".
fn row_12(message: &[u8], lent: &Lent) -> bool {
    let bds = bds(message);
    let length = number_in(bds, 1, 3) as i64;
    let unused = number_of(&bits_of(&[octet(bds, 4)])[4..]) as i64;
    let m = present_count(message, lent) as i64;
    let width = octet(bds, 11) as i64;
    8 * (length - 11) - unused != m * width
}

/// The first that applies of 1 to 4, 20 to 23 and 6 to 12, in this order, or 0.
pub fn refusal(message: &[u8], lent: &Lent) -> Reply {
    if row_1(message) {
        Reply::of(1)
    } else if row_2(message) {
        Reply::of(2)
    } else if row_3(message) {
        Reply::of(3)
    } else if row_4(message) {
        Reply::of(4)
    } else if let Err(stopped) = walk(message) {
        stopped
    } else if row_6(message) {
        Reply::of(6)
    } else if row_7(message) {
        Reply::of(7)
    } else if row_8(message) {
        Reply::of(8)
    } else if row_9(message) {
        Reply::of(9)
    } else if row_10(message, lent) {
        Reply::of(10)
    } else if row_11(message) {
        Reply::of(11)
    } else if row_12(message, lent) {
        Reply::of(12)
    } else {
        Reply::of(0)
    }
}

/// "Every other reply returns its number with all counts and fields zero"; of 20
/// to 23, "They alone return two fields that may not be zero."
fn refused(reply: Reply) -> Header {
    Header {
        reply: reply.number,
        section: reply.section,
        place: reply.place,
        ..Header::default()
    }
}

/// The header of a message, with no lists lent: replies 0, and 1 to 12 with
/// 20 to 23 among them.
pub fn header(message: &[u8], lent: &Lent) -> Header {
    let reply = refusal(message, lent);
    if reply.number != 0 {
        return refused(reply);
    }
    let pds = pds(message);
    let bds = bds(message);
    Header {
        reply: 0,
        section: 0,
        place: 0,
        places: places(message),
        time: time_of(pds),
        // "decimal scale D 27-28"
        d: signed_in(pds, 27, 28) as i32,
        grid: grid(message),
        points: points(&grid(message)) as u32,
        bitmap: kind(message),
        present: present_count(message, lent) as u32,
        flags: number_of(&bits_of(&[octet(bds, 4)])[..4]) as u8,
        bits: octet(bds, 11),
        // "E 5-6; reference R 7-10"
        e: signed_in(bds, 5, 6) as i32,
        r: number_in(bds, 7, 10) as u32,
    }
}

/// The value X of each grid point in message order, nothing where absent; only
/// for a message that 1 to 12 do not refuse. "Values are taken one after another
/// from the place reached in the caller's data octets."
pub fn unpacked(message: &[u8], lent: &Lent) -> Vec<Option<u32>> {
    let bds = bds(message);
    let width = octet(bds, 11) as usize;
    let data = bits_of(&bds[11..]);
    let mut reached = 0;
    let mut all = Vec::new();
    for mark in presence(message, lent) {
        if mark {
            all.push(Some(number_of(&data[reached..reached + width]) as u32));
            reached += width;
        } else {
            all.push(None);
        }
    }
    all
}

/// Reads a message: replies 0, 1 to 12, then 14. On a refusal nothing changes.
pub fn read(
    message: &[u8],
    lent_number: u16,
    lent_octets: &[u8],
    values: &mut [u32],
    marks: &mut [u8],
) -> Header {
    let lent = Lent {
        number: lent_number,
        octets: lent_octets.to_vec(),
    };
    let header = header(message, &lent);
    if header.reply != 0 {
        return header;
    }
    // 14: "lent output too short"
    let n = header.points as usize;
    if values.len() < n || marks.len() < n {
        return refused(Reply::of(14));
    }
    // "Reading writes n values and n marks, 0 and 0 at absent points; elements
    // after n stay."
    for (point, value) in unpacked(message, &lent).into_iter().enumerate() {
        match value {
            Some(x) => {
                values[point] = x;
                marks[point] = 1;
            }
            None => {
                values[point] = 0;
                marks[point] = 0;
            }
        }
    }
    header
}

/// "Asking for section 0 to 5 hands back that part of the caller's message; an
/// absent section, another number or a message that 1 to 12 refuse gives the
/// empty part at its start."
pub fn section(message: &[u8], lent: &Lent, k: u32) -> Part {
    let empty = Part { start: 0, len: 0 };
    if refusal(message, lent).number != 0 {
        return empty;
    }
    let places = places(message);
    let part = match k {
        0 => Part { start: 0, len: 8 },
        1 => places.pds,
        2 => places.gds,
        3 => places.bms,
        4 => places.bds,
        5 => Part {
            start: message.len() as u32 - 4,
            len: 4,
        },
        _ => empty,
    };
    if part.len == 0 {
        empty
    } else {
        part
    }
}

/// "The bitmap in force is part of the message or part of the lent store, ...
/// just the octets that hold its n bits. With no bitmap, or a refused message,
/// it is the empty part at the message's start." The first answer says whether
/// the part is one of the lent store.
pub fn bitmap_in_force(message: &[u8], lent: &Lent) -> (bool, Part) {
    let header = header(message, lent);
    if header.reply != 0 {
        return (false, Part { start: 0, len: 0 });
    }
    let mut octets = 0;
    while 8 * octets < header.points {
        octets += 1;
    }
    match header.bitmap {
        BitmapKind::Without => (false, Part { start: 0, len: 0 }),
        BitmapKind::Carried => (
            false,
            Part {
                start: header.places.bms.start + 6,
                len: octets,
            },
        ),
        BitmapKind::Stored(_) => (
            true,
            Part {
                start: 0,
                len: octets,
            },
        ),
    }
}

/// "A present grid point's data number is the count of ones before it in the
/// bitmap, or its own number where there is no bitmap. An absent point has none."
/// A refused message has no points.
pub fn data_number(message: &[u8], lent: &Lent, point: u32) -> DataNumber {
    if refusal(message, lent).number != 0 {
        return DataNumber::Outside;
    }
    let marks = presence(message, lent);
    match marks.get(point as usize) {
        None => DataNumber::Outside,
        Some(false) => DataNumber::Absent,
        Some(true) => {
            let before = &marks[..point as usize];
            DataNumber::Present(before.iter().filter(|&&mark| mark).count() as u32)
        }
    }
}
