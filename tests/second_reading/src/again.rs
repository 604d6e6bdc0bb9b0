//! Writing what was read: the parts of a message, and the octets that writing
//! them changes.

use crate::bits::{bits_of, octet, octets_of, signed_in};
use crate::grid::{layout_of, own_figures, What};
use crate::read::{header, part_of, read};
use crate::{BitmapKind, Form, Lent, Parts};

/// The parts of a message that is accepted with this bitmap lent.
pub fn parts_of(message: &[u8], lent: &Lent) -> Parts {
    let header = header(message, lent);
    assert_eq!(header.reply, 0);
    let n = header.points as usize;
    let mut values = vec![9; n];
    let mut marks = vec![9; n];
    read(message, lent.number, &lent.octets, &mut values, &mut marks);
    let has_gds = header.places.gds.len > 0;
    Parts {
        pds: part_of(message, header.places.pds).to_vec(),
        form: Form {
            grid: has_gds.then_some(header.grid),
            bitmap: header.bitmap,
            flags: header.flags,
            bits: header.bits,
        },
        e: header.e,
        r: header.r,
        lent: lent.clone(),
        values,
        marks,
    }
}

/// Parts as reading gives them back: the grid without the numbers that its kind does
/// not have.
pub fn as_read(parts: &Parts) -> Parts {
    let mut parts = parts.clone();
    parts.form.grid = parts.form.grid.as_ref().map(own_figures);
    parts
}

/// The bits of a section from octet `first` on, zeros from bit `used` on.
fn padding_zero(section: &mut [u8], first: usize, used: usize) {
    let mut bits = bits_of(&section[first - 1..]);
    bits[used..].fill(false);
    section[first - 1..].copy_from_slice(&octets_of(&bits));
}

/// "Minus zero ... is written as plus zero": the signed field in octets `first`
/// to `last` of a section.
fn zero_plus(section: &mut [u8], first: usize, last: usize) {
    if signed_in(section, first, last) == 0 {
        section[first - 1..last].fill(0);
    }
}

/// An accepted message as it is written again, from its own octets alone:
/// "Padding bits are ignored on reading and written zero", GDS octets "reserved,
/// ignored on reading, written zero", those of its kind, and "Minus zero reads as 0
/// and is written as plus zero; D, inside the carried PDS, keeps its octets".
pub fn cleaned(message: &[u8], lent: &Lent) -> Vec<u8> {
    let header = header(message, lent);
    assert_eq!(header.reply, 0);
    let places = header.places;
    let mut gds = part_of(message, places.gds).to_vec();
    if !gds.is_empty() {
        for &(first, last, what) in layout_of(header.grid.kind) {
            match what {
                What::Latitude(_) | What::Longitude(_) => zero_plus(&mut gds, first, last),
                What::Reserved => gds[first - 1..last].fill(0),
                What::Number(_) => {}
            }
        }
    }
    let mut bms = part_of(message, places.bms).to_vec();
    if header.bitmap == BitmapKind::Carried {
        padding_zero(&mut bms, 7, header.points as usize);
    }
    let mut bds = part_of(message, places.bds).to_vec();
    zero_plus(&mut bds, 5, 6);
    let width = octet(&bds, 11) as usize;
    padding_zero(&mut bds, 12, header.present as usize * width);
    let pds = part_of(message, places.pds);
    let end = &message[message.len() - 4..];
    [&message[..8], pds, &gds, &bms, &bds, end].concat()
}

/// The first octet, counted from 1, that writing what was read changes; nothing
/// where the message comes back.
pub fn first_changed(message: &[u8], lent: &Lent) -> Option<usize> {
    let again = cleaned(message, lent);
    let place = (0..message.len()).find(|&place| message[place] != again[place])?;
    Some(place + 1)
}
