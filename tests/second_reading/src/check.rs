//! The checker: 1 to 12, 20 to 23 among them, then 18, 15, 16, 17.

use crate::bits::{bits_of_number, number_of};
use crate::read::{header, unpacked};
use crate::{Lent, Reply};

/// "source number: least -8,388,607, most 8,388,607"
pub const BOUND: i64 = 8_388_607;

/// 18: "source lists unequal, 0 or over 65,536 long, a mark not 0 or 1, a present
/// number outside its bound"
pub fn row_18(numbers: &[i32], marks: &[u8]) -> bool {
    if numbers.len() != marks.len() || numbers.is_empty() || numbers.len() > 65_536 {
        return true;
    }
    if marks.iter().any(|&mark| mark != 0 && mark != 1) {
        return true;
    }
    // "absent source numbers are ignored, here and by the packer"
    (0..numbers.len()).any(|point| marks[point] == 1 && (numbers[point] as i64).abs() > BOUND)
}

/// R as a whole number: nothing if R is "not whole or over 8,388,607 in
/// magnitude". B is six hex digits after a point, and A - 64 says by how many
/// digits the point moves to the right.
pub fn whole_reference(r: u32) -> Option<i64> {
    let bits = bits_of_number(r as u64, 32);
    let a = number_of(&bits[1..8]) as i64;
    let digits: Vec<i64> = bits[8..]
        .chunks(4)
        .map(|four| number_of(four) as i64)
        .collect();
    let before_the_point = a - 64;
    // The digits left behind the point must all be zero.
    for (place, &digit) in digits.iter().enumerate() {
        if place as i64 >= before_the_point && digit != 0 {
            return None;
        }
    }
    // The digits before the point make the number; missing ones are zeros.
    let mut magnitude = 0;
    for place in 0..before_the_point {
        let digit = digits.get(place as usize).copied().unwrap_or(0);
        magnitude = 16 * magnitude + digit;
        if magnitude > BOUND {
            return None;
        }
    }
    Some(if bits[0] { -magnitude } else { magnitude })
}

/// Judges a message against its source.
pub fn check(message: &[u8], lent: &Lent, numbers: &[i32], marks: &[u8], d: i32) -> Reply {
    // "Checker: 1 to 12, then 18, 15, 16, 17."
    let header = header(message, lent);
    if header.reply != 0 {
        return header.told();
    }
    if row_18(numbers, marks) {
        return Reply::of(18);
    }
    // 15: "point count, marks or D of message and source differ"
    let values = unpacked(message, lent);
    if values.len() != numbers.len() {
        return Reply::of(15);
    }
    let message_marks: Vec<u8> = values.iter().map(|x| u8::from(x.is_some())).collect();
    if message_marks != marks || header.d != d {
        return Reply::of(15);
    }
    // 16: "checker: E outside 0 to 24, or R not whole or over 8,388,607 in
    // magnitude"
    if header.e < 0 || header.e > 24 {
        return Reply::of(16);
    }
    let reference = match whole_reference(header.r) {
        None => return Reply::of(16),
        Some(reference) => reference,
    };
    // 17: "a present point is out by more than half a step": "2 x |V - R - X x
    // 2^E| <= 2^E at each present point"
    let step = 2i64.pow(header.e as u32);
    for (point, value) in values.iter().enumerate() {
        if let Some(x) = value {
            let out_by = (numbers[point] as i64 - reference - *x as i64 * step).abs();
            if 2 * out_by > step {
                return Reply::of(17);
            }
        }
    }
    Reply::of(0)
}

#[cfg(test)]
mod tests {
    use super::*;

    #[test]
    fn p_cases_of_r() {
        assert_eq!(whole_reference(0x41100000), Some(1));
        assert_eq!(whole_reference(0xC1100000), Some(-1));
        assert_eq!(whole_reference(0x42640000), Some(100));
        assert_eq!(whole_reference(0x4518BCD0), Some(101_325));
        assert_eq!(whole_reference(0x439C4000), Some(2_500));
    }

    #[test]
    fn edges_of_r() {
        assert_eq!(whole_reference(0x467FFFFF), Some(8_388_607));
        assert_eq!(whole_reference(0xC67FFFFF), Some(-8_388_607));
        assert_eq!(whole_reference(0x46800000), None);
        assert_eq!(whole_reference(0x47000001), Some(16));
        assert_eq!(whole_reference(0x4B000001), Some(1_048_576));
        assert_eq!(whole_reference(0x4C000001), None);
        assert_eq!(whole_reference(0x4B000000), Some(0));
        assert_eq!(whole_reference(0x7FFFFFFF), None);
        assert_eq!(whole_reference(0x7F000000), Some(0));
        assert_eq!(whole_reference(0x00000001), None);
        assert_eq!(whole_reference(0x00000000), Some(0));
        assert_eq!(whole_reference(0x80000000), Some(0));
        assert_eq!(whole_reference(0x40800000), None);
        assert_eq!(whole_reference(0x41180000), None);
        assert_eq!(whole_reference(0x42010000), Some(1));
        assert_eq!(whole_reference(0x46000001), Some(1));
        assert_eq!(whole_reference(0x45000001), None);
    }

    #[test]
    fn whole_r_against_the_machine() {
        let mut r: u32 = 7;
        for _ in 0..50_000 {
            r = r.wrapping_mul(1_664_525).wrapping_add(1_013_904_223);
            let r = r & 0x87F8_00FF | 0x4000_0000;
            let b = (r & 0x00FF_FFFF) as f64;
            let a = (r >> 24 & 0x7F) as i32;
            let sign = if r >> 31 == 1 { -1.0 } else { 1.0 };
            let value = sign * b * 16f64.powi(a - 64) / 16_777_216.0;
            let whole = value.fract() == 0.0 && value.abs() <= 8_388_607.0;
            assert_eq!(whole_reference(r), whole.then_some(value as i64));
        }
    }
}
