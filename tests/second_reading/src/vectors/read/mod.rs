//! Reading vectors: messages at each edge of the rules, each with the reply that
//! document 01 gives it, or a request of document 02.
//!
//! The messages are put together here octet by octet, in the terms of document
//! 01, and every reply is written by hand in the table. Neither the writer nor
//! the reader of this package has a part in that; a test then holds the second
//! reading to the table, and the program crate `read_vectors` holds the codec to
//! both.
//!
//! * `layout`   rules 1 to 4, and 20 to 23 in the place of 5: sizes, the walk over
//!   the sections;
//! * `fields`   rules 6 to 9: time, grid;
//! * `data`     rules 10 to 12 and 14: bitmap, packing, data length, room;
//! * `pairs`    two faults and more at once;
//! * `taken`    messages that must be accepted;
//! * `misread`  the misreadings that document 01 names;
//! * `octants`  thinned octants, with and without their GDS;
//! * `lengths`  R-2: where the lengths went wrong, in each section and each way;
//! * `order`    R-2: two lengths that went wrong, and 20 to 23 beside other faults;
//! * `years`    R-3: 100 and 0 on an octant and elsewhere, and 0 beside other faults;
//! * `kinds`    R-4: Mercator, Lambert, Gaussian and polar stereographic grids;
//! * `outside`  messages that other programs wrote.

mod data;
mod fields;
mod kinds;
mod layout;
mod lengths;
mod misread;
mod octants;
mod order;
mod outside;
mod pairs;
mod taken;
mod years;

pub(super) use pairs::{with, with_e, with_lengths};

use super::files::{longest_zeros, three};
use crate::again::first_changed;
use crate::grid::{place_of, GAUSSIAN, LAMBERT, MERCATOR, POLAR};
use crate::read::read;
use crate::{BitmapKind, Grid, Header, Lent, Rows};

/// One message with what is lent, and what must come of it.
pub struct Vector {
    /// The rule that it is about, then what is special, in short words.
    pub name: String,
    /// The rule, quoted or named, in one line.
    pub rule: String,
    pub message: Vec<u8>,
    pub lent: Lent,
    pub values_room: usize,
    pub marks_room: usize,
    /// By hand: the reply.
    pub reply: u32,
    /// By hand: the section and the place where a length went wrong, of 20 to 23.
    pub stop: Option<(u32, u32)>,
    /// By hand: fields of the answer, by name.
    pub says: Vec<(&'static str, i64)>,
    /// By hand: each point's value, nothing where it is absent.
    pub points: Option<Vec<Option<u32>>>,
    /// By hand: the grid in all its numbers.
    pub grid: Option<Grid>,
    /// By hand: the first octet, counted from 1, that writing what was read changes.
    pub changes: Option<usize>,
}

impl Vector {
    fn lend(&mut self, number: u16, octets: &[u8]) -> &mut Vector {
        self.lent = Lent {
            number,
            octets: octets.to_vec(),
        };
        self
    }

    fn room(&mut self, values: usize, marks: usize) -> &mut Vector {
        self.values_room = values;
        self.marks_room = marks;
        self
    }

    fn says(&mut self, field: &'static str, value: i64) -> &mut Vector {
        self.says.push((field, value));
        self
    }

    fn points(&mut self, points: &[Option<u32>]) -> &mut Vector {
        self.points = Some(points.to_vec());
        self
    }

    fn grid(&mut self, grid: Grid) -> &mut Vector {
        self.grid = Some(grid);
        self
    }

    fn changes(&mut self, octet: usize) -> &mut Vector {
        self.changes = Some(octet);
        self
    }
}

/// The table, in the order of the rules.
#[derive(Default)]
pub struct Table {
    pub vectors: Vec<Vector>,
}

impl Table {
    /// A line of the table: the reply, by hand; the name; the rule; the message.
    /// Nothing stored is lent, and room for 32 points.
    fn add(&mut self, reply: u32, name: &str, rule: &str, message: Vec<u8>) -> &mut Vector {
        self.vectors.push(Vector {
            name: name.to_string(),
            rule: rule.to_string(),
            message,
            lent: Lent::default(),
            values_room: 32,
            marks_room: 32,
            reply,
            stop: None,
            says: Vec::new(),
            points: None,
            grid: None,
            changes: None,
        });
        self.vectors.last_mut().expect("just added")
    }

    /// A line with one of 20 to 23: also the section and the place, by hand.
    fn stop(
        &mut self,
        (reply, section, place): (u32, u32, u32),
        name: &str,
        rule: &str,
        message: Vec<u8>,
    ) -> &mut Vector {
        let vector = self.add(reply, name, rule, message);
        vector.stop = Some((section, place));
        vector
    }
}

pub fn table() -> Table {
    let mut table = Table::default();
    layout::add(&mut table);
    fields::add(&mut table);
    data::add(&mut table);
    pairs::add(&mut table);
    taken::add(&mut table);
    misread::add(&mut table);
    octants::add(&mut table);
    lengths::add(&mut table);
    order::add(&mut table);
    years::add(&mut table);
    kinds::add(&mut table);
    outside::add(&mut table);
    table
}

// ---------------------------------------------------------------------------
// What the program crate is run on and must write
// ---------------------------------------------------------------------------

/// Before a reading: what stands at a place of the lent values.
fn value_before(place: usize) -> u32 {
    0xFF00_0000 + (place % 65_536) as u32
}

/// Before a reading: what stands at a place of the lent marks.
fn mark_before(place: usize) -> u8 {
    2 + (place % 250) as u8
}

/// What the second reading makes of a vector.
struct Answer {
    header: Header,
    values: Vec<u32>,
    marks: Vec<u8>,
    kept: bool,
}

impl Vector {
    fn answer(&self) -> Answer {
        let mut values: Vec<u32> = (0..self.values_room).map(value_before).collect();
        let mut marks: Vec<u8> = (0..self.marks_room).map(mark_before).collect();
        let lent = &self.lent;
        let header = read(
            &self.message,
            lent.number,
            &lent.octets,
            &mut values,
            &mut marks,
        );
        let n = header.points as usize;
        let kept = (n..values.len()).all(|place| values[place] == value_before(place))
            && (n..marks.len()).all(|place| marks[place] == mark_before(place));
        Answer {
            header,
            values,
            marks,
            kept,
        }
    }

    /// Where what the table says by hand is not what the second reading works
    /// out.
    pub fn disagreement(&self) -> Option<String> {
        let answer = self.answer();
        if answer.header.reply != self.reply {
            return Some(format!("reply {}, not {}", answer.header.reply, self.reply));
        }
        let stop = (answer.header.section, answer.header.place);
        let by_hand = self.stop.unwrap_or_default();
        if stop != by_hand {
            return Some(format!("section and place {stop:?}, not {by_hand:?}"));
        }
        if !answer.kept {
            return Some("elements changed that must stay".to_string());
        }
        for (name, value) in &self.says {
            let found = field(&answer.header, name);
            if found != *value {
                return Some(format!("{name} is {found}, not {value}"));
            }
        }
        if let Some(grid) = self.grid.filter(|grid| *grid != answer.header.grid) {
            return Some(format!("{:?}, not {grid:?}", answer.header.grid));
        }
        let points = self.points.as_ref()?;
        if answer.header.points as usize != points.len() {
            return Some(format!("not {} points", points.len()));
        }
        let differs = |&point: &usize| {
            let by_hand = (points[point].unwrap_or(0), points[point].is_some() as u8);
            (answer.values[point], answer.marks[point]) != by_hand
        };
        let point = (0..points.len()).find(differs)?;
        Some(format!("point {point} differs"))
    }

    /// The file: octets 1-2 the lent bitmap's number, 3-5 how many octets it has,
    /// 6-8 how many octets the message has, 9-11 how many of them stand first in
    /// the file, 12-14 the place from which on the others stand there, 15-17 the
    /// room for values, 18-20 for marks; then the lent bitmap, the message's first
    /// octets and its last ones. Those in between are zero.
    pub fn file(&self) -> Vec<u8> {
        let (first, last) = longest_zeros(&self.message);
        [
            self.lent.number.to_be_bytes().to_vec(),
            three(self.lent.octets.len()),
            three(self.message.len()),
            three(first),
            three(last),
            three(self.values_room),
            three(self.marks_room),
            self.lent.octets.clone(),
            self.message[..first].to_vec(),
            self.message[last..].to_vec(),
        ]
        .concat()
    }

    /// The line that the program must write.
    pub fn line(&self) -> String {
        let answer = self.answer();
        let header = &answer.header;
        let kept = if answer.kept { "kept" } else { "changed" };
        if header.reply != 0 {
            // "They alone return two fields that may not be zero."
            let mut zero = Header {
                reply: header.reply,
                ..Header::default()
            };
            let mut stop = String::new();
            if (20..=23).contains(&header.reply) {
                (zero.section, zero.place) = (header.section, header.place);
                stop = format!(" {} {}", header.section, header.place);
            }
            let zeros = if *header == zero { " zeros" } else { "" };
            return format!("{} {}{stop}{zeros} {kept}\n", self.name, header.reply);
        }
        let kind = match header.bitmap {
            BitmapKind::Without => "without".to_string(),
            BitmapKind::Carried => "carried".to_string(),
            BitmapKind::Stored(number) => format!("stored {number}"),
        };
        let again = match first_changed(&self.message, &self.lent) {
            None => "same".to_string(),
            Some(place) => format!("differs at {place}"),
        };
        let (time, grid) = (&header.time, &header.grid);
        let spot = |point| match place_of(grid, point) {
            Some((row, column)) => format!("{row} {column}"),
            None => "off".to_string(),
        };
        let rows = match grid.rows {
            Rows::Even => "",
            Rows::FromEquator => " equator",
            Rows::FromPole => " pole",
            Rows::Neither => panic!("9 refuses it"),
        };
        let more = match kind_name(grid.kind) {
            None => String::new(),
            Some(name) => format!(
                " {name} {} {} {} {} {} {} {} {} {}",
                grid.dx,
                grid.dy,
                grid.lov,
                grid.latin1,
                grid.latin2,
                grid.pole_la,
                grid.pole_lo,
                grid.centre,
                grid.circles
            ),
        };
        format!(
            "{} 0 {} {} {} {} {} {} {:08x} {} {} {kind} {} {} {} {} {} {} {} {} {} {} {} {} {}\
             {rows}{more} {} {} {:08x} {kept} {again}\n",
            self.name,
            header.points,
            header.present,
            grid.ni,
            grid.nj,
            header.d,
            header.e,
            header.r,
            header.bits,
            header.flags,
            time.year,
            time.month,
            time.day,
            time.hour,
            time.minute,
            grid.la1,
            grid.lo1,
            grid.flags,
            grid.la2,
            grid.lo2,
            grid.di,
            grid.dj,
            grid.scan,
            spot(0),
            spot(1),
            summed(&answer),
        )
    }
}

/// What a line calls a grid's kind; nothing of a latitude/longitude grid.
fn kind_name(kind: u8) -> Option<&'static str> {
    let kinds = [MERCATOR, LAMBERT, GAUSSIAN, POLAR];
    let which = kinds.iter().position(|&own| own == kind)?;
    Some(["mercator", "lambert", "gaussian", "polar"][which])
}

/// The n values and marks as one number: from 1 on, 16,777,619 times the sum, and
/// 2 times the value, and the mark, below 2^32.
fn summed(answer: &Answer) -> u64 {
    let n = answer.header.points as usize;
    let mut sum = 1;
    for point in 0..n {
        let more = 2 * answer.values[point] as u64 + answer.marks[point] as u64;
        sum = (16_777_619 * sum + more) % (1 << 32);
    }
    sum
}

/// A field of the answer, as the table names it.
fn field(header: &Header, name: &str) -> i64 {
    let (first, second) = (place_of(&header.grid, 0), place_of(&header.grid, 1));
    match name {
        "points" => header.points as i64,
        "present" => header.present as i64,
        "Ni" => header.grid.ni as i64,
        "Nj" => header.grid.nj as i64,
        "La1" => header.grid.la1 as i64,
        "Lo1" => header.grid.lo1 as i64,
        "La2" => header.grid.la2 as i64,
        "Lo2" => header.grid.lo2 as i64,
        "Di" => header.grid.di as i64,
        "Dj" => header.grid.dj as i64,
        "scan" => header.grid.scan as i64,
        "rows" => header.grid.rows.number() as i64,
        "resolution flags" => header.grid.flags as i64,
        "D" => header.d as i64,
        "E" => header.e as i64,
        "R" => header.r as i64,
        "N" => header.bits as i64,
        "data flags" => header.flags as i64,
        "year" => header.time.year as i64,
        "month" => header.time.month as i64,
        "day" => header.time.day as i64,
        "hour" => header.time.hour as i64,
        "minute" => header.time.minute as i64,
        "kind" => header.grid.kind as i64,
        "row of point 0" => first.map_or(-1, |at| at.0 as i64),
        "column of point 0" => first.map_or(-1, |at| at.1 as i64),
        "row of point 1" => second.map_or(-1, |at| at.0 as i64),
        "column of point 1" => second.map_or(-1, |at| at.1 as i64),
        _ => panic!("no field {name}"),
    }
}

#[cfg(test)]
mod tests {
    use super::*;
    use crate::again::{cleaned, parts_of};
    use crate::write::write;
    use std::collections::HashSet;

    /// What the table says by hand is what the second reading works out.
    #[test]
    fn by_hand_and_by_the_second_reading() {
        let mut names = HashSet::new();
        for vector in table().vectors {
            assert_eq!(vector.disagreement(), None, "{}", vector.name);
            assert!(names.insert(vector.name), "a name stands twice");
        }
    }

    /// By hand: the vectors whose octets do not all come back when what was read is
    /// written, and the first that does not, counted from 1. The GDS starts at octet
    /// 37, the specimen's BMS at 69 and its BDS at 77.
    const CHANGED: [(&str, usize); 41] = [
        // GDS 11, 14, 18 and 21: minus zero
        ("9-la1-800000", 47),
        ("9-la2-800000", 54),
        ("9-lo1-800000", 50),
        ("9-lo2-800000", 57),
        ("9-1-to-minus-zero-south", 54),
        // BMS 7: bits after the fourth
        ("taken-bms-padding", 75),
        // BDS 13: bits after the ninth
        ("taken-bds-padding", 89),
        ("taken-all-padding", 75),
        // BDS 12, with no BMS before it
        ("taken-no-bits-padding", 80),
        // GDS 29
        ("taken-reserved", 65),
        // BDS 5: minus zero
        ("taken-e-8000", 81),
        ("taken-minus-zeros", 47),
        // GDS 11 after a PDS of 58 octets
        ("taken-everything", 77),
        // octants: GDS 29, 30, 31, 32
        ("octant-37-reserved", 65),
        ("octant-38-reserved", 65),
        ("octant-39-reserved", 65),
        ("octant-40-reserved", 65),
        ("octant-41-reserved", 65),
        ("octant-42-reserved", 65),
        ("octant-43-reserved", 65),
        ("octant-44-reserved", 65),
        ("octant-37-reserved-29", 65),
        ("octant-37-reserved-30", 66),
        ("octant-37-reserved-31", 67),
        ("octant-37-reserved-32", 68),
        ("octant-42-reserved-29", 65),
        ("octant-42-reserved-30", 66),
        ("octant-42-reserved-31", 67),
        ("octant-42-reserved-32", 68),
        // GDS 11 in the north, 18 in the south: minus zero
        ("octant-37-minus-zero", 47),
        ("octant-38-minus-zero", 47),
        ("octant-39-minus-zero", 47),
        ("octant-40-minus-zero", 47),
        ("octant-41-minus-zero", 54),
        ("octant-42-minus-zero", 54),
        ("octant-43-minus-zero", 54),
        ("octant-44-minus-zero", 54),
        ("octant-37-minus-zero-reserved", 47),
        ("octant-42-minus-zero-reserved", 54),
        // BMS 437, after a GDS of 178 octets: the bit after the 3,447th
        ("octant-37-padding", 651),
        ("octant-42-padding", 651),
    ];

    /// Each accepted message is written again as its own octets say, and comes back
    /// but for those of the list.
    #[test]
    fn write_after_read() {
        for vector in table().vectors {
            if vector.reply != 0 {
                continue;
            }
            let Vector { message, lent, .. } = &vector;
            let mut again = vec![0; message.len()];
            let answer = write(&parts_of(message, lent), &mut again);
            assert_eq!(answer, (0, message.len() as u32), "{}", vector.name);
            assert_eq!(again, cleaned(message, lent), "{}", vector.name);
            let listed = CHANGED.iter().find(|line| line.0 == vector.name);
            let by_hand = vector.changes.or(listed.map(|line| line.1));
            assert_eq!(first_changed(message, lent), by_hand, "{}", vector.name);
        }
    }

    /// The program has room for each vector, and its file makes its message.
    #[test]
    fn files() {
        for vector in table().vectors {
            let file = vector.file();
            let at = |first: usize| {
                file[first - 1..first + 2]
                    .iter()
                    .fold(0, |number, &octet| 256 * number + octet as usize)
            };
            let (held, length, first, last) = (at(3), at(6), at(9), at(12));
            let rest = &file[20 + held..];
            let message = [&rest[..first], &vec![0; last - first], &rest[first..]].concat();
            assert_eq!(message, vector.message, "{}", vector.name);
            assert_eq!(message.len(), length);
            assert!(held <= 8_193 && length <= 262_145);
            assert!(vector.values_room <= 65_537 && vector.marks_room <= 65_537);
        }
    }
}
