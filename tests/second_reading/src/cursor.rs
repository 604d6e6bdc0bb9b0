//! R-6, "One value under the cursor": the index of a message, and the value or
//! absence at one place of its chart.

use crate::bits::{bit, number_of, octet};
use crate::grid::point_at;
use crate::read::{bds, grid, presence, refusal};
use crate::{Grid, Indexed, Lent, Reply, UnderCursor};

/// "each group of 256 grid points"; the last group has what is left.
pub const GROUP: usize = 256;

/// How many of these bits are ones.
pub fn count(bits: &[bool]) -> usize {
    let mut ones = 0;
    for &bit in bits {
        if bit {
            ones += 1;
        }
    }
    ones
}

/// A message that 1 to 12 do not refuse, 20 to 23 among them.
pub struct Taken<'a> {
    grid: Grid,
    /// The bit of each grid point; "With no bitmap every point counts as a one."
    bits: Vec<bool>,
    /// The m present points.
    present: usize,
    bds: &'a [u8],
}

impl Taken<'_> {
    /// The message, where it is taken, or its own refusal.
    pub fn of<'a>(message: &'a [u8], lent: &Lent) -> Result<Taken<'a>, Reply> {
        let reply = refusal(message, lent);
        if reply.number != 0 {
            return Err(reply);
        }
        let bits = presence(message, lent);
        Ok(Taken {
            grid: grid(message),
            present: count(&bits),
            bits,
            bds: bds(message),
        })
    }

    pub fn grid(&self) -> &Grid {
        &self.grid
    }

    /// m.
    pub fn present(&self) -> usize {
        self.present
    }

    /// How many groups its grid points make.
    pub fn groups(&self) -> usize {
        self.bits.chunks(GROUP).count()
    }

    /// "the number of ones before each group of 256 grid points"
    pub fn entries(&self) -> Vec<u32> {
        let before = |group: usize| count(&self.bits[..GROUP * group]) as u32;
        (0..self.groups()).map(before).collect()
    }

    /// The bits of a group.
    pub fn group(&self, group: usize) -> &[bool] {
        self.bits.chunks(GROUP).nth(group).expect("a group")
    }

    /// The value of a data number: its N bits stand after those of the values before it.
    fn value(&self, data_number: usize) -> u32 {
        let width = octet(self.bds, 11) as usize;
        let first = data_number * width;
        let bits: Vec<bool> = (first..first + width)
            .map(|place| bit(octet(self.bds, 12 + place / 8), 1 + place % 8))
            .collect();
        number_of(&bits) as u32
    }

    /// 25 "exactly when the index has fewer entries than groups, or the group's entry
    /// plus the ones in that group isn't the next entry (in the last group, m) or is
    /// above m": of this group, and with a sum that has no most.
    fn index_refused(&self, index: &[u32], group: usize) -> bool {
        if index.len() < self.groups() {
            return true;
        }
        let sum = index[group] as u64 + count(self.group(group)) as u64;
        let present = self.present as u64;
        let next = if group == self.groups() - 1 {
            present
        } else {
            index[group + 1] as u64
        };
        sum != next || sum > present
    }

    /// What stands at a row and column of the chart, by an index.
    pub fn under(&self, index: &[u32], row: u32, column: u32) -> UnderCursor {
        // "then 24 for a place outside the chart"
        let Some(point) = point_at(&self.grid, row, column) else {
            return UnderCursor::Refused(Reply::of(24));
        };
        let (group, place) = (point as usize / GROUP, point as usize % GROUP);
        if self.index_refused(index, group) {
            return UnderCursor::Refused(Reply::of(25));
        }
        let bits = self.group(group);
        if !bits[place] {
            return UnderCursor::Absent;
        }
        // "the value is the one whose data number is its group's entry plus the ones
        // before the place in that group"
        UnderCursor::Value(self.value(index[group] as usize + count(&bits[..place])))
    }
}

/// Fills an index: the message's own refusal, then "14 if too short". On a refusal
/// nothing changes; entries after those of the groups stay.
pub fn fill(message: &[u8], lent: &Lent, index: &mut [u32]) -> Indexed {
    let refused = |reply| Indexed { reply, entries: 0 };
    let taken = match Taken::of(message, lent) {
        Ok(taken) => taken,
        Err(reply) => return refused(reply),
    };
    let entries = taken.entries();
    if index.len() < entries.len() {
        return refused(Reply::of(14));
    }
    index[..entries.len()].copy_from_slice(&entries);
    Indexed {
        reply: Reply::of(0),
        entries: entries.len() as u32,
    }
}

/// "We want the value or absence at one chart place": the message's own refusal, then
/// 24, then 25, then one of the two.
pub fn under(message: &[u8], lent: &Lent, index: &[u32], row: u32, column: u32) -> UnderCursor {
    match Taken::of(message, lent) {
        Ok(taken) => taken.under(index, row, column),
        Err(reply) => UnderCursor::Refused(reply),
    }
}

#[cfg(test)]
mod tests {
    use super::*;
    use crate::vectors::messages::{row, specimen, stored, Sections};
    use UnderCursor::{Absent, Refused, Value};

    const MOST: u32 = u32::MAX;

    fn none() -> Lent {
        Lent::default()
    }

    fn refused(number: u32) -> UnderCursor {
        Refused(Reply::of(number))
    }

    /// The specimen's rows run north: points 2 and 3 are the chart's row 0. Its bitmap
    /// is 1101, its values are 0, 2 and 7.
    #[test]
    fn the_specimen() {
        let message = specimen().message();
        let mut index = [9, 9];
        let filled = fill(&message, &none(), &mut index);
        assert_eq!((filled.reply, filled.entries), (Reply::of(0), 1));
        assert_eq!(index, [0, 9]);
        let ask = |index: &[u32], row, column| under(&message, &none(), index, row, column);
        assert_eq!(ask(&index, 0, 0), Absent);
        assert_eq!(ask(&index, 0, 1), Value(7));
        assert_eq!(ask(&index, 1, 0), Value(0));
        assert_eq!(ask(&index, 1, 1), Value(2));
        for (row, column) in [(0, 2), (2, 0), (MOST, 0), (0, MOST), (65_536, 0)] {
            assert_eq!(ask(&index, row, column), refused(24));
            assert_eq!(ask(&[], row, column), refused(24));
        }
        for (row, column) in [(0, 0), (0, 1), (1, 0), (1, 1)] {
            assert_eq!(ask(&[], row, column), refused(25));
            assert_eq!(ask(&[1], row, column), refused(25));
            assert_eq!(ask(&[MOST], row, column), refused(25));
        }
        let mut none_lent = [];
        let filled = fill(&message, &none(), &mut none_lent);
        assert_eq!((filled.reply, filled.entries), (Reply::of(14), 0));
    }

    /// 600 points in a row, of which 0 to 99 are present, of 256 to 511 the even ones,
    /// and 520 to 599: 100, 128 and 80 ones in groups of 256, 256 and 88. The value of
    /// data number k is 3 k + 1, of ten bits.
    fn three_groups() -> Sections {
        let present = |point: u32| match point {
            0..=255 => point < 100,
            256..=511 => point % 2 == 0,
            _ => point >= 520,
        };
        let marks: String = (0..600)
            .map(|point| if present(point) { '1' } else { '0' })
            .collect();
        let values: String = (0..308).map(|k| format!("{:010b}", 3 * k + 1)).collect();
        row(600, &marks, 10, &values)
    }

    /// Columns of the row above, and what stands there.
    const THERE: [(u32, UnderCursor); 12] = [
        (0, Value(1)),
        (99, Value(298)),
        (100, Absent),
        (255, Absent),
        (256, Value(301)),
        (257, Absent),
        (258, Value(304)),
        (510, Value(682)),
        (511, Absent),
        (519, Absent),
        (520, Value(685)),
        (599, Value(922)),
    ];

    #[test]
    fn three_groups_filled_and_asked() {
        let message = three_groups().message();
        let mut index = [7; 4];
        let filled = fill(&message, &none(), &mut index);
        assert_eq!((filled.reply, filled.entries), (Reply::of(0), 3));
        assert_eq!(index, [0, 100, 228, 7]);
        for (column, there) in THERE {
            assert_eq!(under(&message, &none(), &index[..3], 0, column), there);
            assert_eq!(under(&message, &none(), &index, 0, column), there);
        }
        let mut short = [5, 6];
        let filled = fill(&message, &none(), &mut short);
        assert_eq!((filled.reply, filled.entries), (Reply::of(14), 0));
        assert_eq!(short, [5, 6]);
    }

    /// What an index that was not filled from the message gives.
    #[test]
    fn three_groups_and_another_index() {
        let message = three_groups().message();
        let ask = |index: &[u32], column| under(&message, &none(), index, 0, column);
        // the other groups' entries may be anything
        assert_eq!(ask(&[0, 100, MOST], 0), Value(1));
        assert_eq!(ask(&[MOST, 100, 228], 256), Value(301));
        assert_eq!(ask(&[MOST, MOST, 228], 599), Value(922));
        // one too high with the next: the next value
        assert_eq!(ask(&[1, 101, 0], 0), Value(4));
        // up to m: data numbers 208 to 307; and one more is above it
        assert_eq!(ask(&[208, 308, 0], 99), Value(922));
        assert_eq!(ask(&[209, 309, 0], 99), refused(25));
        assert_eq!(ask(&[209, 309, 0], 100), refused(25));
        // too low and too high by one, in the first, the second and the last group
        for wrong in [[1, 100, 228], [0, 99, 228], [0, 101, 228]] {
            assert_eq!(ask(&wrong, 0), refused(25));
        }
        for wrong in [[0, 99, 228], [0, 101, 228], [0, 100, 227], [0, 100, 229]] {
            assert_eq!(ask(&wrong, 256), refused(25));
        }
        for wrong in [[0, 100, 227], [0, 100, 229]] {
            assert_eq!(ask(&wrong, 599), refused(25));
        }
        // 4,294,967,295 and 100 are 99 with 32 bits alone
        assert_eq!(ask(&[MOST, 99, 228], 0), refused(25));
        // fewer entries than groups, though those of the group are there
        assert_eq!(ask(&[0, 100], 0), refused(25));
    }

    /// The same with the bitmap stored, ones after the 600th bit; and lent in vain.
    #[test]
    fn stored_bits() {
        let carried = three_groups();
        let mut octets = carried.bms[6..].to_vec();
        // 600 bits are 75 octets
        octets[75] = 0xFF;
        octets.extend([0xFF; 40]);
        let lent = Lent { number: 9, octets };
        let message = Sections {
            bms: stored(9),
            ..carried.clone()
        };
        let message = message.message();
        let mut index = [7; 3];
        assert_eq!(fill(&message, &lent, &mut index).entries, 3);
        assert_eq!(index, [0, 100, 228]);
        for (column, there) in THERE {
            assert_eq!(under(&message, &lent, &index, 0, column), there);
            assert_eq!(
                under(&message, &none(), &index, 0, column),
                Refused(Reply::of(10))
            );
            let in_vain = under(&carried.message(), &lent, &index, 0, column);
            assert_eq!(in_vain, there);
        }
    }

    /// "With no bitmap every point counts as a one."
    #[test]
    fn no_bitmap() {
        for (points, entries) in [
            (1, &[0][..]),
            (255, &[0]),
            (256, &[0]),
            (257, &[0, 256]),
            (512, &[0, 256]),
            (513, &[0, 256, 512]),
        ] {
            let values: String = (0..points).map(|k| format!("{:010b}", 1_023 - k)).collect();
            let message = row(points, "", 10, &values).message();
            let mut index = [7; 3];
            let groups = entries.len();
            assert_eq!(fill(&message, &none(), &mut index).entries as usize, groups);
            assert_eq!(&index[..groups], entries);
            assert!(index[groups..].iter().all(|&entry| entry == 7));
            for column in 0..points as u32 {
                let there = under(&message, &none(), &index, 0, column);
                assert_eq!(there, Value(1_023 - column));
                let short = under(&message, &none(), &index[..groups - 1], 0, column);
                assert_eq!(short, refused(25));
            }
            let past = under(&message, &none(), &index, 0, points.into());
            assert_eq!(past, refused(24));
        }
    }

    /// A message's own refusal, with its section and place, before 14, 24 and 25.
    #[test]
    fn refused_messages() {
        let odd = specimen().bds(3, &[15]).message();
        let reply = Reply {
            number: 20,
            section: 4,
            place: 77,
        };
        let filled = fill(&odd, &none(), &mut []);
        assert_eq!((filled.reply, filled.entries), (reply, 0));
        assert_eq!(under(&odd, &none(), &[], 9, 9), Refused(reply));
        assert_eq!(under(&[], &none(), &[], 9, 9), refused(1));
    }
}
