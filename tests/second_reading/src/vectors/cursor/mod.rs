//! Cursor vectors: an index filled from a message, and a place of the chart asked for,
//! at each edge of R-6.
//!
//! * `groups`  groups of 256 grid points, and 14: rows of points at their edges;
//! * `index`   25: entries of the place's own group, and those of others;
//! * `places`  24: places outside the chart;
//! * `own`     the message's own replies, before 14, 24 and 25;
//! * `scan`    charts under each setting of the scanning flags, of each kind of grid;
//! * `octants` thinned octants;
//! * `bitmaps` no bitmap, a carried and a stored one; every N;
//! * `large`   as many points as a grid may have;
//! * `misread` misreadings; `misreaders` tries them on the whole table.

mod bitmaps;
mod groups;
mod index;
mod large;
mod misread;
#[cfg(test)]
mod misreaders;
mod octants;
mod own;
mod places;
mod scan;

use super::files::{longest_zeros, three};
use super::messages::{row, Sections};
use crate::cursor::{fill, under, Taken};
use crate::grid::{place_of, points_in_row};
use crate::read::read;
use crate::{Lent, Reply, UnderCursor};

/// A chart, row by row from the north and each from the west; nothing where absent.
pub type Chart = Vec<Vec<Option<u32>>>;

/// What is called on a vector.
pub enum Call {
    /// Fills an index of so many entries; and then asks at every place of the chart.
    Fill(usize),
    /// Fills an index of so many entries, and asks nothing.
    FillAlone(usize),
    /// Asks at a row and column, by this index.
    Ask(Vec<u32>, u32, u32),
}

/// What is told.
#[derive(Clone, PartialEq, Debug)]
pub enum Told {
    /// A reply that has no section and no place.
    Refused(u32),
    /// One of 20 to 23, with section and place.
    Stopped(u32, u32, u32),
    /// The entries that were filled.
    Filled(Vec<u32>),
    Absent,
    Value(u32),
}

use Told::{Absent, Filled, Refused, Stopped, Value};

impl Told {
    pub fn reply(&self) -> u32 {
        match *self {
            Refused(reply) | Stopped(reply, ..) => reply,
            Filled(_) | Absent | Value(_) => 0,
        }
    }

    /// Section and place, where they are told.
    pub fn stop(&self) -> Option<(u32, u32)> {
        match *self {
            Stopped(_, section, place) => Some((section, place)),
            _ => None,
        }
    }

    /// The answer of a call that is not refused, as the table has it.
    pub fn answer(&self) -> String {
        match self {
            Refused(_) | Stopped(..) => String::new(),
            Filled(entries) if entries.len() == 1 => "1 entry".to_string(),
            Filled(entries) => format!("{} entries", entries.len()),
            Absent => "absent".to_string(),
            Value(x) => x.to_string(),
        }
    }
}

/// What the second reading tells by a reply.
fn refused(reply: Reply) -> Told {
    match (reply.section, reply.place) {
        (0, 0) => Refused(reply.number),
        (section, place) => Stopped(reply.number, section, place),
    }
}

/// A message, and the bitmap that is lent with it.
#[derive(Clone, PartialEq)]
pub struct Home {
    pub message: Vec<u8>,
    pub lent: Lent,
}

impl Home {
    fn lend(mut self, number: u16, octets: &[u8]) -> Home {
        self.lent = Lent {
            number,
            octets: octets.to_vec(),
        };
        self
    }
}

/// With nothing lent.
impl From<Sections> for Home {
    fn from(sections: Sections) -> Home {
        Home {
            message: sections.message(),
            lent: Lent::default(),
        }
    }
}

/// One call on a message, and what must come of it.
pub struct Vector {
    /// The file that it stands in.
    pub group: &'static str,
    /// The rule that it is about, then what is special, in short words.
    pub name: String,
    /// The rule, quoted or named, in one line.
    pub rule: String,
    pub home: Home,
    pub call: Call,
    /// By hand: what is told.
    pub told: Told,
    /// By hand: the chart of the message.
    pub chart: Option<Chart>,
}

impl Vector {
    fn chart(&mut self, chart: Chart) -> &mut Vector {
        self.chart = Some(chart);
        self
    }

    /// How many entries are lent to be filled.
    fn room(&self) -> Option<usize> {
        match self.call {
            Call::Fill(room) | Call::FillAlone(room) => Some(room),
            Call::Ask(..) => None,
        }
    }
}

#[derive(Default)]
pub struct Table {
    pub vectors: Vec<Vector>,
    group: &'static str,
}

impl Table {
    /// The file in which the vectors stand that are added next.
    fn group(&mut self, name: &'static str) {
        self.group = name;
    }

    fn add(&mut self, home: &Home, call: Call, told: Told, name: &str, rule: &str) -> &mut Vector {
        self.vectors.push(Vector {
            group: self.group,
            name: name.to_string(),
            rule: rule.to_string(),
            home: home.clone(),
            call,
            told,
            chart: None,
        });
        self.vectors.last_mut().expect("just added")
    }

    /// A line of the table: the message; how many entries are lent to be filled; what
    /// is told, by hand; the name; the rule.
    fn fill(
        &mut self,
        home: &Home,
        room: usize,
        told: Told,
        name: &str,
        rule: &str,
    ) -> &mut Vector {
        self.add(home, Call::Fill(room), told, name, rule)
    }

    /// The same, and no place of the chart is asked for: other vectors do, or the chart is
    /// very large.
    fn fill_alone(
        &mut self,
        home: &Home,
        room: usize,
        told: Told,
        name: &str,
        rule: &str,
    ) -> &mut Vector {
        self.add(home, Call::FillAlone(room), told, name, rule)
    }

    /// A line of the table: the message; the index; row and column; what is told, by
    /// hand; the name; the rule.
    fn ask(
        &mut self,
        home: &Home,
        index: &[u32],
        (row, column): (u32, u32),
        told: Told,
        name: &str,
        rule: &str,
    ) -> &mut Vector {
        let call = Call::Ask(index.to_vec(), row, column);
        self.add(home, call, told, name, rule)
    }
}

pub fn table() -> Table {
    let mut table = Table::default();
    groups::add(&mut table);
    index::add(&mut table);
    places::add(&mut table);
    own::add(&mut table);
    scan::add(&mut table);
    octants::add(&mut table);
    bitmaps::add(&mut table);
    large::add(&mut table);
    misread::add(&mut table);
    table
}

/// The most that an entry, a row and a column can be.
const MOST: u32 = 4_294_967_295;

/// A row of points: each point's value of so many bits, in message order; without a
/// bitmap where none is absent and none is asked for.
fn row_of(points: &[Option<u32>], width: u8, with_bitmap: bool) -> Sections {
    let bits = |x: &u32| format!("{x:0w$b}", w = width as usize);
    let values: String = match width {
        0 => String::new(),
        _ => points.iter().flatten().map(bits).collect(),
    };
    let marks: String = match with_bitmap {
        true => marks_of(points),
        false => String::new(),
    };
    row(points.len() as u16, &marks, width, &values)
}

/// The bitmap of points, in 0s and 1s.
fn marks_of(points: &[Option<u32>]) -> String {
    let marks = points.iter().map(|x| if x.is_some() { '1' } else { '0' });
    marks.collect()
}

// ---------------------------------------------------------------------------
// What the program crate is run on and must write
// ---------------------------------------------------------------------------

/// Entries that the program has room for.
const ENTRIES: usize = 320;

/// Before a filling: what stands at a place of the lent index.
fn entry_before(place: usize) -> u32 {
    0xFF00_0000 + place as u32
}

impl Vector {
    /// What the second reading tells, and the index after it.
    fn answer(&self) -> (Told, Vec<u32>) {
        let Home { message, lent } = &self.home;
        match &self.call {
            Call::Fill(room) | Call::FillAlone(room) => {
                let mut index: Vec<u32> = (0..*room).map(entry_before).collect();
                let filled = fill(message, lent, &mut index);
                let entries = filled.entries as usize;
                let told = match filled.reply.number {
                    0 => Filled(index[..entries].to_vec()),
                    _ => refused(filled.reply),
                };
                (told, index)
            }
            Call::Ask(index, row, column) => {
                let told = match under(message, lent, index, *row, *column) {
                    UnderCursor::Refused(reply) => refused(reply),
                    UnderCursor::Absent => Absent,
                    UnderCursor::Value(x) => Value(x),
                };
                (told, index.clone())
            }
        }
    }

    /// Whether a filling left the entries after those that it took, or on a refusal
    /// all.
    fn kept(&self) -> bool {
        let (told, index) = self.answer();
        let taken = match told {
            Filled(entries) => entries.len(),
            _ => 0,
        };
        (taken..index.len()).all(|place| index[place] == entry_before(place))
    }

    /// Where what the table says by hand is not what the second reading works out.
    pub fn disagreement(&self) -> Option<String> {
        let (told, index) = self.answer();
        if told != self.told {
            return Some(format!("{told:?}, not {:?}", self.told));
        }
        if self.room().is_some() && !self.kept() {
            return Some("entries changed that must stay".to_string());
        }
        let chart = self.chart.as_ref()?;
        let taken = Taken::of(&self.home.message, &self.home.lent).ok()?;
        for (row, columns) in (0..).zip(chart) {
            if points_in_row(taken.grid(), row) as usize != columns.len() {
                return Some(format!("row {row} has not {} points", columns.len()));
            }
            for (column, point) in (0..).zip(columns) {
                let by_hand = match *point {
                    Some(x) => UnderCursor::Value(x),
                    None => UnderCursor::Absent,
                };
                let there = taken.under(&index, row, column);
                if there != by_hand {
                    return Some(format!("{there:?} at {row}, {column}, not {by_hand:?}"));
                }
            }
        }
        let rows = points_in_row(taken.grid(), chart.len() as u32);
        (rows != 0).then(|| format!("more than {} rows", chart.len()))
    }

    /// The vector as it stands in its file, after its message: its name's length and its
    /// name; 0 to fill and to ask at every place, 1 to ask, 2 to fill alone; row and column;
    /// how many entries the index has, and, to ask, the entries.
    pub fn file(&self) -> Vec<u8> {
        let (call, row, column, room, index) = match &self.call {
            Call::Fill(room) => (0, 0, 0, *room, &[][..]),
            Call::Ask(index, row, column) => (1, *row, *column, index.len(), &index[..]),
            Call::FillAlone(room) => (2, 0, 0, *room, &[][..]),
        };
        assert!(room <= ENTRIES && self.name.len() <= 255);
        let entries: Vec<u8> = index.iter().flat_map(|entry| entry.to_be_bytes()).collect();
        [
            &[self.name.len() as u8][..],
            self.name.as_bytes(),
            &[call],
            &row.to_be_bytes(),
            &column.to_be_bytes(),
            &three(room),
            &entries,
        ]
        .concat()
    }

    /// The line that the program must write.
    pub fn line(&self) -> String {
        let (told, index) = self.answer();
        let reply = match told {
            Stopped(reply, section, place) => format!("{reply} {section} {place}"),
            _ => told.reply().to_string(),
        };
        let kept = if self.kept() { "kept" } else { "changed" };
        match (&self.call, told) {
            (Call::Ask(..), Absent) => format!("{} under 0 absent\n", self.name),
            (Call::Ask(..), Value(x)) => format!("{} under 0 value {x}\n", self.name),
            (Call::Ask(..), _) => format!("{} under {reply}\n", self.name),
            (call, Filled(entries)) => {
                let all: String = entries.iter().map(|entry| format!(" {entry}")).collect();
                let beside = match call {
                    Call::Fill(_) => self.home.beside_reading(&index),
                    _ => String::new(),
                };
                let count = entries.len();
                format!("{} fill 0 {count} {kept}{all}{beside}\n", self.name)
            }
            _ => format!("{} fill {reply} 0 {kept}\n", self.name),
        }
    }
}

impl Home {
    /// The message as it stands in its file: octets 1-2 the lent bitmap's number, 3-5
    /// how many octets it has, 6-8 how many octets the message has, 9-11 how many of
    /// them stand first in the file, 12-14 the place from which on the others stand
    /// there; then the lent bitmap, the message's first octets and its last ones. Those
    /// in between are zero.
    pub fn file(&self) -> Vec<u8> {
        let (first, last) = longest_zeros(&self.message);
        [
            self.lent.number.to_be_bytes().to_vec(),
            three(self.lent.octets.len()),
            three(self.message.len()),
            three(first),
            three(last),
            self.lent.octets.clone(),
            self.message[..first].to_vec(),
            self.message[last..].to_vec(),
        ]
        .concat()
    }

    /// What the cursor tells by an index that was filled, beside what reading gives: at
    /// every place of the chart, and 24 past the end of each row, past the last row, and
    /// far outside.
    fn beside_reading(&self, index: &[u32]) -> String {
        let Home { message, lent } = self;
        let taken = Taken::of(message, lent).expect("a message that is taken");
        let grid = taken.grid();
        let n = crate::header(message, lent).points;
        let (mut values, mut marks) = (vec![9; n as usize], vec![9; n as usize]);
        read(message, lent.number, &lent.octets, &mut values, &mut marks);
        for point in 0..n {
            let (row, column) = place_of(grid, point).expect("one of its points");
            let read = match marks[point as usize] {
                1 => UnderCursor::Value(values[point as usize]),
                _ => UnderCursor::Absent,
            };
            if taken.under(index, row, column) != read {
                return format!(" differs at {point}");
            }
        }
        let rows = grid.nj as u32;
        let past = (0..rows).map(|row| (row, points_in_row(grid, row)));
        let far = [(rows, 0), (MOST, 0), (0, MOST), (MOST, MOST)];
        for (row, column) in past.chain(far) {
            if taken.under(index, row, column) != UnderCursor::Refused(Reply::of(24)) {
                return format!(" same {n} on in row {row}");
            }
        }
        format!(" same {n} off {}", rows + 4)
    }
}

#[cfg(test)]
mod tests {
    use super::*;
    use std::collections::HashSet;

    /// What the table says by hand is what the second reading works out.
    #[test]
    fn by_hand_and_by_the_second_reading() {
        let mut names = HashSet::new();
        for vector in table().vectors {
            assert_eq!(vector.disagreement(), None, "{}", vector.name);
            assert!(names.insert(vector.name), "a name stands twice");
        }
    }

    /// "The answer must equal what a full read gives there": of each index that is
    /// filled.
    #[test]
    fn the_cursor_equals_reading() {
        for vector in table().vectors {
            if matches!(vector.told, Filled(_)) {
                let line = vector.line();
                let beside = line.contains(" same ") && line.contains(" off ");
                assert_eq!(beside, matches!(vector.call, Call::Fill(_)), "{line}");
                assert!(vector.home.message.len() <= 262_145);
                assert!(vector.home.lent.octets.len() <= 8_193);
            }
        }
    }

    /// Each reply that filling and asking can give is there, those of a message with
    /// both.
    #[test]
    fn every_reply_is_there() {
        let met: HashSet<(bool, u32)> = table()
            .vectors
            .iter()
            .map(|vector| (vector.room().is_some(), vector.told.reply()))
            .collect();
        let own = [0, 1, 2, 3, 4, 20, 21, 22, 23, 6, 7, 8, 9, 10, 11, 12];
        let both = own
            .into_iter()
            .flat_map(|reply| [(true, reply), (false, reply)]);
        let all: HashSet<(bool, u32)> =
            both.chain([(true, 14), (false, 24), (false, 25)]).collect();
        assert_eq!(met, all);
    }
}
