//! The writer: replies 5, 6, 7, 9, 10, 11, 13, 14 in that order.

use crate::bits::{bit, bits_of, bits_of_number, bits_of_signed, number_in, octet, octets_of};
use crate::grid::{from_catalogue, grid_outside_rules, points, to_gds};
use crate::time::time_out_of_range;
use crate::{BitmapKind, Form, Grid, Lent, Parts};

/// "Writer: 5 covers the PDS length and its octets 1-3": even, 28 to 1,024, and
/// the octets say so.
pub fn row_5(pds: &[u8]) -> bool {
    pds.len() % 2 == 1
        || pds.len() < 28
        || pds.len() > 1_024
        || number_in(pds, 1, 3) != pds.len() as u64
}

/// 6: "time out of its ranges"
pub fn row_6(pds: &[u8]) -> bool {
    time_out_of_range(pds)
}

/// "a given grid is judged by 9, without one 7 applies"
pub fn row_7(pds: &[u8], form: &Form) -> bool {
    form.grid.is_none() && from_catalogue(octet(pds, 7)).is_none()
}

/// "and n is that grid's"
fn grid(pds: &[u8], form: &Form) -> Grid {
    match form.grid {
        Some(grid) => grid,
        None => from_catalogue(octet(pds, 7)).expect("row 7 does not apply"),
    }
}

/// 9: the grid rules.
pub fn row_9(pds: &[u8], form: &Form) -> bool {
    grid_outside_rules(&grid(pds, form))
}

/// 10: "no such stored bitmap, or (writing, lists n long) one of its first n
/// bits isn't the same number as the mark".
pub fn row_10(pds: &[u8], form: &Form, lent: &Lent, values_len: usize, marks: &[u8]) -> bool {
    let number = match form.bitmap {
        BitmapKind::Without | BitmapKind::Carried => return false,
        BitmapKind::Stored(number) => number,
    };
    let n = points(&grid(pds, form)) as usize;
    // Number 0 is the carried one's, so no stored bitmap has it.
    if number == 0 || lent.number != number || 8 * lent.octets.len() < n {
        return true;
    }
    if values_len != n || marks.len() != n {
        return false;
    }
    let bits = bits_of(&lent.octets);
    (0..n).any(|point| marks[point] != if bits[point] { 1 } else { 0 })
}

/// 11, but for E: "BDS flag bit 1, 2 or 4 set, N over 24". The flags come as one
/// number in which bit 3 is worth 2, so only 0 and 2 are right.
pub fn row_11(form: &Form) -> bool {
    !(form.flags == 0 || form.flags == 2) || form.bits > 24
}

/// 11: "(writing) E outside -32,767 to 32,767"
pub fn row_11_e(e: i32) -> bool {
    !(-32_767..=32_767).contains(&e)
}

/// 13: one question after another.
pub fn row_13(pds: &[u8], form: &Form, values: &[u32], marks: &[u8]) -> bool {
    let n = points(&grid(pds, form)) as usize;
    // "lists not n long"
    if values.len() != n || marks.len() != n {
        return true;
    }
    for point in 0..n {
        // "a mark not 0 or 1"
        if marks[point] > 1 {
            return true;
        }
        // "an absent point without a bitmap or with value not 0"
        if marks[point] == 0 && (form.bitmap == BitmapKind::Without || values[point] != 0) {
            return true;
        }
        // "a value of 2^N or more"
        if values[point] as u64 >= 2u64.pow(form.bits as u32) {
            return true;
        }
    }
    // "PDS octet 8 not matching the parts given"
    let says_grid = bit(octet(pds, 8), 1);
    let says_bitmap = bit(octet(pds, 8), 2);
    says_grid != form.grid.is_some() || says_bitmap != (form.bitmap != BitmapKind::Without)
}

/// The BMS, with "8 x (L - 6) - unused = n and unused 0 to 15", L even.
fn bitmap_section(kind: BitmapKind, marks: &[u8]) -> Vec<u8> {
    let n = marks.len();
    let mut bits = Vec::new();
    match kind {
        BitmapKind::Without => {}
        BitmapKind::Stored(number) => {
            // "Another number: L is 6, octet 4 is 0"
            bits.extend(bits_of_number(6, 24));
            bits.extend(bits_of_number(0, 8));
            bits.extend(bits_of_number(number as u64, 16));
        }
        BitmapKind::Carried => {
            let mut length = 6;
            while 8 * (length - 6) < n {
                length += 2;
            }
            let unused = 8 * (length - 6) - n;
            bits.extend(bits_of_number(length as u64, 24));
            bits.extend(bits_of_number(unused as u64, 8));
            bits.extend(bits_of_number(0, 16));
            for &mark in marks {
                bits.push(mark == 1);
            }
            // "Padding bits are ... written zero."
            bits.extend(vec![false; unused]);
        }
    }
    octets_of(&bits)
}

/// The BDS, with "8 x (L - 11) - unused = m x N", L even and at least 12, and
/// unused in half an octet.
fn data_section(parts: &Parts) -> Vec<u8> {
    let width = parts.form.bits as usize;
    let mut data = Vec::new();
    for (point, &value) in parts.values.iter().enumerate() {
        if parts.marks[point] == 1 {
            data.extend(bits_of_number(value as u64, width));
        }
    }
    let mut length = 12;
    while 8 * (length - 11) < data.len() {
        length += 2;
    }
    let unused = 8 * (length - 11) - data.len();
    let mut bits = Vec::new();
    bits.extend(bits_of_number(length as u64, 24));
    bits.extend(bits_of_number(parts.form.flags as u64, 4));
    bits.extend(bits_of_number(unused as u64, 4));
    bits.extend(bits_of_signed(parts.e as i64, 16));
    bits.extend(bits_of_number(parts.r as u64, 32));
    bits.extend(bits_of_number(parts.form.bits as u64, 8));
    bits.extend(data);
    bits.extend(vec![false; unused]);
    octets_of(&bits)
}

/// The whole message of parts that nothing refuses.
fn message(parts: &Parts) -> Vec<u8> {
    let gds = match &parts.form.grid {
        Some(grid) => to_gds(grid),
        None => Vec::new(),
    };
    let bms = bitmap_section(parts.form.bitmap, &parts.marks);
    let bds = data_section(parts);
    let total = 8 + parts.pds.len() + gds.len() + bms.len() + bds.len() + 4;
    // "Indicator, 8 octets: 'GRIB', total length (5-7), edition 1 (8)."
    let mut octets = b"GRIB".to_vec();
    octets.extend(octets_of(&bits_of_number(total as u64, 24)));
    octets.push(1);
    octets.extend(&parts.pds);
    octets.extend(gds);
    octets.extend(bms);
    octets.extend(bds);
    // "End: '7777'."
    octets.extend(b"7777");
    octets
}

/// The first of 5, 6, 7, 9, 10, 11, 13 that applies, or 0.
fn refusal(parts: &Parts) -> u32 {
    let Parts {
        pds, form, lent, ..
    } = parts;
    if row_5(pds) {
        5
    } else if row_6(pds) {
        6
    } else if row_7(pds, form) {
        7
    } else if row_9(pds, form) {
        9
    } else if row_10(pds, form, lent, parts.values.len(), &parts.marks) {
        10
    } else if row_11(form) || row_11_e(parts.e) {
        11
    } else if row_13(pds, form, &parts.values, &parts.marks) {
        13
    } else {
        0
    }
}

/// Writes a message and gives the reply and the message's length. "Writing fills
/// the message's octets; later ones stay." On a refusal nothing changes.
pub fn write(parts: &Parts, out: &mut [u8]) -> (u32, u32) {
    let reply = refusal(parts);
    if reply != 0 {
        return (reply, 0);
    }
    let message = message(parts);
    // 14: "lent output too short"
    if out.len() < message.len() {
        return (14, 0);
    }
    out[..message.len()].copy_from_slice(&message);
    (0, message.len() as u32)
}
