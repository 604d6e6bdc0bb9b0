//! "For display, one record holds R and 2^E as IEEE doubles of exactly those
//! values".

use crate::bits::{bits_of_number, number_of};
use crate::read::header;
use crate::{Lent, Reply};

/// A double written out: sign, eleven bits of exponent (its value plus 1,023),
/// fifty-two bits of fraction after the leading one.
fn double(sign: bool, exponent: i64, after_the_leading_one: &[bool]) -> u64 {
    let mut bits = vec![sign];
    bits.extend(bits_of_number((exponent + 1_023) as u64, 11));
    bits.extend(after_the_leading_one);
    while bits.len() < 64 {
        bits.push(false);
    }
    number_of(&bits)
}

/// "R = (-1)^s x B x 16^(A - 64) / 2^24, s 1 bit, A 7 bits, B 24 bits."
/// "R with B = 0 gives all bits zero".
pub fn reference_bits(r: u32) -> u64 {
    let bits = bits_of_number(r as u64, 32);
    let sign = bits[0];
    let a = number_of(&bits[1..8]) as i64;
    let b = &bits[8..];
    match b.iter().position(|&one| one) {
        None => 0,
        Some(first_one) => {
            // The first one of B is worth 2^(23 - first_one).
            let exponent = (23 - first_one as i64) + 4 * (a - 64) - 24;
            double(sign, exponent, &b[first_one + 1..])
        }
    }
}

/// The double 2^E, for E from -1,022 to 1,023.
pub fn step_bits(e: i64) -> u64 {
    double(false, e, &[])
}

/// The reply, the bits of R and the bits of 2^E: "E outside -1,022 to 1,023 is
/// refusal 16, after 1 to 12", 20 to 23 among them. On a refusal both doubles have
/// all bits zero.
pub fn display(message: &[u8], lent: &Lent) -> (Reply, u64, u64) {
    let header = header(message, lent);
    if header.reply != 0 {
        return (header.told(), 0, 0);
    }
    if header.e < -1_022 || header.e > 1_023 {
        return (Reply::of(16), 0, 0);
    }
    (
        Reply::of(0),
        reference_bits(header.r),
        step_bits(header.e as i64),
    )
}

#[cfg(test)]
mod tests {
    use super::*;

    #[test]
    fn p_cases_of_r() {
        assert_eq!(reference_bits(0x41100000), 1.0f64.to_bits());
        assert_eq!(reference_bits(0xC1100000), (-1.0f64).to_bits());
        assert_eq!(reference_bits(0x42640000), 100.0f64.to_bits());
        assert_eq!(reference_bits(0x4518BCD0), 101_325.0f64.to_bits());
        assert_eq!(reference_bits(0x439C4000), 2_500.0f64.to_bits());
        assert_eq!(reference_bits(0x80000000), 0);
        assert_eq!(reference_bits(0xFF000000), 0);
    }

    #[test]
    fn r_against_the_machine() {
        let mut r: u32 = 1;
        for _ in 0..20_000 {
            r = r.wrapping_mul(1_664_525).wrapping_add(1_013_904_223);
            for r in [r, r & 0xFF00_000F, r & 0x8100_0FFF, r | 0x7F00_0000] {
                let b = (r & 0x00FF_FFFF) as f64;
                let a = (r >> 24 & 0x7F) as i32;
                let sign = if r >> 31 == 1 { -1.0 } else { 1.0 };
                let value = sign * b * 16f64.powi(a - 64) / 16_777_216.0;
                let bits = if b == 0.0 { 0 } else { value.to_bits() };
                assert_eq!(reference_bits(r), bits);
            }
        }
    }

    #[test]
    fn powers_of_two() {
        for e in -1_022..=1_023 {
            assert_eq!(step_bits(e), 2f64.powi(e as i32).to_bits());
        }
    }
}
