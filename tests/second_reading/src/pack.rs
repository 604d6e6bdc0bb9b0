//! The packer: 5, 18, 15 (D alone), 11, 19, then the rest of the writer's.

use crate::bits::{bits_of_number, number_of, signed_in};
use crate::check::row_18;
use crate::write::{row_11, row_5, write};
use crate::{Form, Lent, Parts, Source};

/// "With r = V - R, X = r for E = 0, else X is the whole part of (r + 2^(E - 1))
/// / 2^E."
pub fn packed_value(r: i64, e: u32) -> i64 {
    if e == 0 {
        r
    } else {
        (r + 2i64.pow(e - 1)) / 2i64.pow(e)
    }
}

/// A whole number as R's four octets: "with leading hex digit not zero, and zero
/// as 32 zero bits".
pub fn reference_of(number: i64) -> u32 {
    if number == 0 {
        return 0;
    }
    // The hex digits of the magnitude, most first.
    let mut rest = number.abs();
    let mut digits = Vec::new();
    while rest > 0 {
        digits.insert(0, rest % 16);
        rest /= 16;
    }
    // B is the point followed by these digits, so the point must move by as
    // many digits as there are.
    let a = 64 + digits.len() as u64;
    while digits.len() < 6 {
        digits.push(0);
    }
    let mut bits = vec![number < 0];
    bits.extend(bits_of_number(a, 7));
    for digit in digits {
        bits.extend(bits_of_number(digit as u64, 4));
    }
    number_of(&bits) as u32
}

/// "E is the least of 0 to 24 for which all X are below 2^N."
pub fn least_e(differences: &[i64], width: u8) -> Option<u32> {
    let limit = 2i64.pow(width as u32);
    (0..=24).find(|&e| differences.iter().all(|&r| packed_value(r, e) < limit))
}

/// Packs a source field into a message and gives the reply and the length.
pub fn pack(pds: &[u8], form: &Form, lent: &Lent, source: &Source, out: &mut [u8]) -> (u32, u32) {
    // "Packer: 5, 18, 15 (D of PDS and source only), 11, 19, then the rest of the
    // writer's."
    if row_5(pds) {
        return (5, 0);
    }
    if row_18(&source.numbers, &source.marks) {
        return (18, 0);
    }
    if signed_in(pds, 27, 28) != source.d as i64 {
        return (15, 0);
    }
    if row_11(form) {
        return (11, 0);
    }
    // "R is the least present V"; "No present point: R = 0, E = 0."
    let present: Vec<i64> = (0..source.numbers.len())
        .filter(|&point| source.marks[point] == 1)
        .map(|point| source.numbers[point] as i64)
        .collect();
    let least = present.iter().copied().min().unwrap_or(0);
    let differences: Vec<i64> = present.iter().map(|v| v - least).collect();
    let e = match least_e(&differences, form.bits) {
        // 19: "packer: no E from 0 to 24 fits"
        None => return (19, 0),
        Some(e) => e,
    };
    // "absent source numbers are ignored, here and by the packer, whose X there
    // is 0"
    let values = (0..source.numbers.len())
        .map(|point| match source.marks[point] {
            1 => packed_value(source.numbers[point] as i64 - least, e) as u32,
            _ => 0,
        })
        .collect();
    let parts = Parts {
        pds: pds.to_vec(),
        form: *form,
        e: e as i32,
        r: reference_of(least),
        lent: lent.clone(),
        values,
        marks: source.marks.clone(),
    };
    write(&parts, out)
}

#[cfg(test)]
mod tests {
    use super::*;
    use crate::check::whole_reference;

    #[test]
    fn p_cases_of_x() {
        assert_eq!(packed_value(7, 3), 1);
        assert_eq!(packed_value(3, 3), 0);
        assert_eq!(packed_value(4, 3), 1);
        assert_eq!(packed_value(7, 0), 7);
    }

    #[test]
    fn p_cases_of_r() {
        assert_eq!(reference_of(1), 0x41100000);
        assert_eq!(reference_of(-1), 0xC1100000);
        assert_eq!(reference_of(100), 0x42640000);
        assert_eq!(reference_of(101_325), 0x4518BCD0);
        assert_eq!(reference_of(2_500), 0x439C4000);
        assert_eq!(reference_of(0), 0);
        assert_eq!(reference_of(-8_388_607), 0xC67FFFFF);
        for number in (-8_388_607..=8_388_607).step_by(997) {
            assert_eq!(whole_reference(reference_of(number)), Some(number));
        }
    }

    #[test]
    fn edges_of_e() {
        // "Spread 8,388,607 with N = 0: E = 24; one more: 19."
        assert_eq!(least_e(&[0, 8_388_607], 0), Some(24));
        assert_eq!(least_e(&[0, 8_388_608], 0), None);
        assert_eq!(least_e(&[0, 0], 0), Some(0));
        assert_eq!(least_e(&[0, 1], 0), Some(2));
        assert_eq!(least_e(&[], 0), Some(0));
        assert_eq!(least_e(&[0, 16_777_214], 1), Some(24));
        assert_eq!(least_e(&[0, 16_777_214], 24), Some(0));
        assert_eq!(least_e(&[0, 7], 3), Some(0));
        assert_eq!(least_e(&[0, 8], 3), Some(1));
        assert_eq!(least_e(&[0, 15], 3), Some(2));
    }
}
