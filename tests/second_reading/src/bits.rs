//! "Octets and bits are counted from 1, bit 1 leftmost. Numbers are high octet
//! first."

/// The bits of some octets, written out from the left.
pub fn bits_of(octets: &[u8]) -> Vec<bool> {
    let mut bits = Vec::new();
    for &octet in octets {
        for worth in [128, 64, 32, 16, 8, 4, 2, 1] {
            bits.push((octet / worth) % 2 == 1);
        }
    }
    bits
}

/// The number that some bits write, the leftmost worth most.
pub fn number_of(bits: &[bool]) -> u64 {
    let mut number = 0;
    for &bit in bits {
        number = 2 * number + if bit { 1 } else { 0 };
    }
    number
}

/// A number written in just so many bits.
pub fn bits_of_number(number: u64, width: usize) -> Vec<bool> {
    let mut rest = number;
    let mut from_the_right = Vec::new();
    for _ in 0..width {
        from_the_right.push(rest % 2 == 1);
        rest /= 2;
    }
    assert_eq!(rest, 0, "{number} does not fit in {width} bits");
    from_the_right.reverse();
    from_the_right
}

/// Whole octets made from bits.
pub fn octets_of(bits: &[bool]) -> Vec<u8> {
    assert_eq!(bits.len() % 8, 0, "whole octets only");
    bits.chunks(8).map(|eight| number_of(eight) as u8).collect()
}

/// Octet k of a section, counted from 1.
pub fn octet(section: &[u8], k: usize) -> u8 {
    section[k - 1]
}

/// Bit k of an octet, counted from 1 at the left.
pub fn bit(octet: u8, k: usize) -> bool {
    bits_of(&[octet])[k - 1]
}

/// The number in octets `first` to `last` of a section, counted from 1.
pub fn number_in(section: &[u8], first: usize, last: usize) -> u64 {
    number_of(&bits_of(&section[first - 1..last]))
}

/// "a sign bit and a magnitude. Minus zero reads as 0"
pub fn signed_of(bits: &[bool]) -> i64 {
    let magnitude = number_of(&bits[1..]) as i64;
    if bits[0] {
        -magnitude
    } else {
        magnitude
    }
}

/// The signed number in octets `first` to `last` of a section.
pub fn signed_in(section: &[u8], first: usize, last: usize) -> i64 {
    signed_of(&bits_of(&section[first - 1..last]))
}

/// A signed number written as a sign bit and a magnitude; zero "is written as
/// plus zero".
pub fn bits_of_signed(number: i64, width: usize) -> Vec<bool> {
    let mut bits = vec![number < 0];
    bits.extend(bits_of_number(number.unsigned_abs(), width - 1));
    bits
}

#[cfg(test)]
mod tests {
    use super::*;

    #[test]
    fn p_cases_of_signed_numbers() {
        assert_eq!(signed_in(&[0x80, 0x02], 1, 2), -2);
        assert_eq!(signed_in(&[0xFF, 0xFE], 1, 2), -32_766);
        assert_eq!(signed_in(&[0x80, 0x00], 1, 2), 0);
    }

    #[test]
    fn there_and_back() {
        assert_eq!(octets_of(&bits_of(&[0, 1, 128, 255])), [0, 1, 128, 255]);
        assert_eq!(number_in(&[1, 2, 3], 1, 3), 66_051);
        assert_eq!(octets_of(&bits_of_signed(-2, 16)), [0x80, 0x02]);
        assert_eq!(octets_of(&bits_of_signed(0, 16)), [0, 0]);
        assert!(bit(0x80, 1) && bit(0x20, 3) && bit(1, 8) && !bit(0x7F, 1));
    }
}
