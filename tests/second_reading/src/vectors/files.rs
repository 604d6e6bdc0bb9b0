//! The files that `write_vectors` is run on, a group of vectors in each; and what those of
//! `read_vectors` and `cursor_vectors` have like them.

use crate::{BitmapKind, Form, Lent};

/// Octets that the runs of one list may have: the programs have room for so many.
const RUNS: usize = 7_168;

/// A number in three octets, high octet first.
pub fn three(number: usize) -> Vec<u8> {
    assert!(number < 1 << 24);
    (number as u32).to_be_bytes()[1..].to_vec()
}

/// Where the longest run of zero octets starts and ends; at the message's end
/// where none has 64.
pub fn longest_zeros(octets: &[u8]) -> (usize, usize) {
    let mut longest = (octets.len(), octets.len());
    let mut start = 0;
    for place in 0..octets.len() {
        let run = place + 1 - start;
        if octets[place] != 0 {
            start = place + 1;
        } else if run >= 64 && run > longest.1 - longest.0 {
            longest = (start, place + 1);
        }
    }
    longest
}

/// A number with its sign: one below 0 as 2^31 and how far it is below -1.
fn signed(number: i32) -> [u8; 4] {
    let number = number as i64;
    let lifted = if number < 0 {
        (1 << 31) - 1 - number
    } else {
        number
    };
    (lifted as u32).to_be_bytes()
}

/// A list as runs of one element: how many octets they have; then for each run how
/// many elements, and the element.
fn runs<T: PartialEq>(list: &[T], element: impl Fn(&T) -> Vec<u8>) -> Vec<u8> {
    let mut runs = Vec::new();
    for run in list.chunk_by(|a, b| a == b) {
        runs.extend(three(run.len()));
        runs.extend(element(&run[0]));
    }
    assert!(runs.len() <= RUNS, "{} octets of runs", runs.len());
    [three(runs.len()), runs].concat()
}

fn octets(list: &[u8]) -> Vec<u8> {
    runs(list, |&octet| vec![octet])
}

/// What is called on a vector.
#[derive(Clone, Copy, Default)]
pub enum Call {
    #[default]
    Write,
    Check,
    Pack,
}

/// A list of numbers: the writer's values, or a source's.
pub enum Numbers<'a> {
    Values(&'a [u32]),
    Source(&'a [i32]),
}

/// A vector as it stands in a file. What a call does not take is zero or empty.
pub struct Record<'a> {
    pub name: &'a str,
    pub call: Call,
    pub form: Form,
    pub e: i32,
    pub r: u32,
    pub d: i32,
    pub lent: &'a Lent,
    /// Octets lent for the message.
    pub room: usize,
    /// The PDS, or the message.
    pub octets: &'a [u8],
    pub numbers: Numbers<'a>,
    pub marks: &'a [u8],
}

impl Record<'_> {
    /// The name's length and the name; 83 octets of fields; the lists.
    pub fn file(&self) -> Vec<u8> {
        let grid = self.form.grid.unwrap_or_default();
        let (kind, number) = match self.form.bitmap {
            BitmapKind::Without => (0, 0),
            BitmapKind::Carried => (1, 0),
            BitmapKind::Stored(number) => (2, number),
        };
        let fields = [
            &[self.call as u8, self.form.grid.is_some() as u8][..],
            &grid.ni.to_be_bytes(),
            &grid.nj.to_be_bytes(),
            &signed(grid.la1),
            &signed(grid.lo1),
            &[grid.flags],
            &signed(grid.la2),
            &signed(grid.lo2),
            &grid.di.to_be_bytes(),
            &grid.dj.to_be_bytes(),
            &[grid.scan, kind],
            &number.to_be_bytes(),
            &[self.form.flags, self.form.bits],
            &signed(self.e),
            &self.r.to_be_bytes(),
            &signed(self.d),
            &self.lent.number.to_be_bytes(),
            &three(self.room),
            &[grid.rows.number(), grid.kind],
            &grid.dx.to_be_bytes(),
            &grid.dy.to_be_bytes(),
            &signed(grid.lov),
            &signed(grid.latin1),
            &signed(grid.latin2),
            &signed(grid.pole_la),
            &signed(grid.pole_lo),
            &[grid.centre],
            &grid.circles.to_be_bytes(),
        ]
        .concat();
        assert_eq!(fields.len(), 83);
        assert!(self.room <= 262_145 && self.octets.len() <= 262_145);
        assert!(self.lent.octets.len() <= 8_193 && self.marks.len() <= 65_537);
        let numbers = match self.numbers {
            Numbers::Values(list) => runs(list, |value| value.to_be_bytes().to_vec()),
            Numbers::Source(list) => runs(list, |&number| signed(number).to_vec()),
        };
        [
            vec![self.name.len() as u8],
            self.name.as_bytes().to_vec(),
            fields,
            octets(self.octets),
            octets(&self.lent.octets),
            numbers,
            octets(self.marks),
        ]
        .concat()
    }
}

/// What stands at a place of the lent output before a call: neither 0 nor what
/// stands at the next place.
pub fn octet_before(place: usize) -> u8 {
    5 + (place % 251) as u8
}

/// Octets as one number: from 1 on, 16,777,619 times the sum, and the octet,
/// below 2^32.
pub fn summed(octets: &[u8]) -> u64 {
    octets.iter().fold(1, |sum, &octet| {
        (16_777_619 * sum + octet as u64) % (1 << 32)
    })
}
