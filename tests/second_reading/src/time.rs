//! The time of a message, from its PDS.

use crate::bits::octet;
use crate::Time;

/// "Year = 100 x (century - 1) + year of century"; "time 13-17 and century 25".
/// Only for a PDS whose time is in its ranges.
pub fn time_of(pds: &[u8]) -> Time {
    let century = octet(pds, 25) as u32;
    Time {
        year: 100 * (century - 1) + octet(pds, 13) as u32,
        month: octet(pds, 14) as u32,
        day: octet(pds, 15) as u32,
        hour: octet(pds, 16) as u32,
        minute: octet(pds, 17) as u32,
    }
}

/// "day by the Gregorian calendar"
pub fn days_in(year: u32, month: u32) -> u32 {
    let leap = match (year % 4, year % 100, year % 400) {
        (_, _, 0) => true,
        (_, 0, _) => false,
        (rest, _, _) => rest == 0,
    };
    match month {
        1 | 3 | 5 | 7 | 8 | 10 | 12 => 31,
        4 | 6 | 9 | 11 => 30,
        2 if leap => 29,
        2 => 28,
        _ => 0,
    }
}

/// 6: "time out of its ranges": "century 18 to 99, year of century 0 to 99,
/// month 1 to 12, day by the Gregorian calendar, hour 0 to 23, minute 0 to 59". R-3
/// amends the year's: "Document 003 keeps century 20 until 1 January 2001, so the
/// year of century runs from 1 to 100. The definition in 01 is wrong: 100 is to be
/// taken and 0 refused, for readers and writers alike. Refusals: 6, with the amended
/// range."
pub fn time_out_of_range(pds: &[u8]) -> bool {
    let century = octet(pds, 25);
    if !(18..=99).contains(&century) {
        return true;
    }
    let year_of_century = octet(pds, 13);
    if !(1..=100).contains(&year_of_century) {
        return true;
    }
    let time = time_of(pds);
    if !(1..=12).contains(&time.month) {
        return true;
    }
    if time.day < 1 || time.day > days_in(time.year, time.month) {
        return true;
    }
    time.hour > 23 || time.minute > 59
}

#[cfg(test)]
mod tests {
    use super::*;

    fn pds(century: u8, year: u8, month: u8, day: u8, hour: u8, minute: u8) -> Vec<u8> {
        let mut pds = vec![0; 28];
        pds[12..17].copy_from_slice(&[year, month, day, hour, minute]);
        pds[24] = century;
        pds
    }

    #[test]
    fn edges() {
        assert!(!time_out_of_range(&pds(18, 1, 1, 1, 0, 0)));
        assert!(!time_out_of_range(&pds(99, 99, 12, 31, 23, 59)));
        assert!(!time_out_of_range(&pds(99, 100, 12, 31, 23, 59)));
        assert!(time_out_of_range(&pds(17, 100, 1, 1, 0, 0)));
        assert!(time_out_of_range(&pds(100, 1, 1, 1, 0, 0)));
        assert!(!time_out_of_range(&pds(20, 100, 1, 1, 0, 0)));
        assert!(time_out_of_range(&pds(20, 100, 0, 1, 0, 0)));
        assert!(time_out_of_range(&pds(20, 100, 13, 1, 0, 0)));
        assert!(time_out_of_range(&pds(20, 100, 1, 0, 0, 0)));
        assert!(time_out_of_range(&pds(20, 100, 1, 32, 0, 0)));
        assert!(time_out_of_range(&pds(20, 100, 1, 1, 24, 0)));
        assert!(time_out_of_range(&pds(20, 100, 1, 1, 0, 60)));
        // the first year and the last
        assert_eq!(time_of(&pds(18, 1, 1, 1, 0, 0)).year, 1701);
        assert_eq!(time_of(&pds(99, 100, 12, 31, 23, 59)).year, 9900);
    }

    /// "100 is to be taken and 0 refused"
    #[test]
    fn year_of_century() {
        for century in 18..=99 {
            for year in [1, 2, 99, 100] {
                assert!(!time_out_of_range(&pds(century, year, 2, 28, 0, 0)));
            }
            for year in [0, 101, 102, 128, 200, 228, 254, 255] {
                assert!(time_out_of_range(&pds(century, year, 2, 28, 0, 0)));
            }
        }
    }

    #[test]
    fn leap_years() {
        // Century 20, year 100 is 2000, a leap year; century 19, year 100 is 1900.
        assert!(!time_out_of_range(&pds(20, 100, 2, 29, 0, 0)));
        assert!(time_out_of_range(&pds(19, 100, 2, 29, 0, 0)));
        assert!(!time_out_of_range(&pds(20, 96, 2, 29, 0, 0)));
        assert!(time_out_of_range(&pds(20, 98, 2, 29, 0, 0)));
        assert_eq!(time_of(&pds(20, 100, 2, 29, 0, 0)).year, 2000);
        // as the two years were spelled by document 01
        assert!(time_out_of_range(&pds(21, 0, 2, 29, 0, 0)));
        assert!(time_out_of_range(&pds(20, 0, 2, 28, 0, 0)));
    }

    /// Of the years 100 those of every fourth century are leap: 2000, 2400, and so on
    /// to 9600.
    #[test]
    fn leap_centuries() {
        let leap = [
            20, 24, 28, 32, 36, 40, 44, 48, 52, 56, 60, 64, 68, 72, 76, 80, 84, 88, 92, 96,
        ];
        for century in 18..=99 {
            let taken = !time_out_of_range(&pds(century, 100, 2, 29, 0, 0));
            assert_eq!(taken, leap.contains(&century), "{century}");
            assert!(!time_out_of_range(&pds(century, 100, 2, 28, 0, 0)));
            assert!(time_out_of_range(&pds(century, 100, 2, 30, 0, 0)));
            // as document 01 spelled the same year
            assert!(time_out_of_range(&pds(century + 1, 0, 2, 29, 0, 0)));
            assert!(time_out_of_range(&pds(century + 1, 0, 2, 28, 0, 0)));
        }
    }

    /// "Document 003 keeps century 20 until 1 January 2001": the days on both sides.
    #[test]
    fn the_century_ends_with_its_year_100() {
        let told = |pds: Vec<u8>| {
            assert!(!time_out_of_range(&pds));
            let Time {
                year, month, day, ..
            } = time_of(&pds);
            (year, month, day)
        };
        assert_eq!(told(pds(20, 100, 12, 31, 23, 59)), (2000, 12, 31));
        assert_eq!(told(pds(21, 1, 1, 1, 0, 0)), (2001, 1, 1));
        assert_eq!(told(pds(19, 100, 12, 31, 23, 59)), (1900, 12, 31));
        assert_eq!(told(pds(20, 1, 1, 1, 0, 0)), (1901, 1, 1));
    }

    /// Each year from 1701 to 9900 is accepted in one spelling, and no other year is.
    #[test]
    fn one_spelling_for_each_year() {
        let mut spellings = std::collections::BTreeMap::new();
        for century in 0..=255 {
            for year in 0..=255 {
                let pds = pds(century, year, 6, 15, 12, 0);
                if !time_out_of_range(&pds) {
                    *spellings.entry(time_of(&pds).year).or_insert(0) += 1;
                }
            }
        }
        let once: Vec<(u32, u32)> = (1701..=9900).map(|year| (year, 1)).collect();
        assert_eq!(spellings.into_iter().collect::<Vec<_>>(), once);
    }
}
