//! Check vectors: a message, a lent bitmap and a source field at each edge of the
//! checker's rules.
//!
//! * `source`  rules 1 to 12, 20 to 23 among them, 18 and 15: the message alone, the
//!   source alone, and where they differ;
//! * `steps`   rules 16 and 17: R and E, half a step;
//! * `pairs`   two faults and more at once;
//! * `octants` thinned octants;
//! * `lengths` R-2: where the lengths went wrong;
//! * `kinds`   R-4: Mercator, Lambert, Gaussian and polar stereographic grids.

mod kinds;
mod lengths;
mod octants;
mod pairs;
mod source;
mod steps;

use super::files::{Call, Numbers, Record};
use super::messages::hex;
use crate::check::check;
use crate::{Form, Lent, Reply, Source};

/// A message and a source field, and the reply that they must get.
pub struct Vector {
    /// The file that it stands in.
    pub group: &'static str,
    pub name: String,
    pub rule: String,
    pub message: Vec<u8>,
    pub lent: Lent,
    pub source: Source,
    /// By hand: the reply.
    pub reply: u32,
    /// By hand: the section and the place where a length went wrong, of 20 to 23.
    pub stop: Option<(u32, u32)>,
}

impl Vector {
    fn lend(&mut self, number: u16, octets: &str) -> &mut Vector {
        self.lent = Lent {
            number,
            octets: hex(octets),
        };
        self
    }
}

#[derive(Default)]
pub struct Table {
    pub vectors: Vec<Vector>,
    group: &'static str,
}

impl Table {
    /// The file in which the vectors stand that are added next.
    fn group(&mut self, name: &'static str) {
        self.group = name;
    }

    /// A line of the table: the reply, by hand; the name; the rule; the message;
    /// the source. Nothing stored is lent.
    fn add(
        &mut self,
        reply: u32,
        name: &str,
        rule: &str,
        message: Vec<u8>,
        source: Source,
    ) -> &mut Vector {
        self.vectors.push(Vector {
            group: self.group,
            name: name.to_string(),
            rule: rule.to_string(),
            message,
            lent: Lent::default(),
            source,
            reply,
            stop: None,
        });
        self.vectors.last_mut().expect("just added")
    }

    /// A line with one of 20 to 23: also the section and the place, by hand.
    fn stop(
        &mut self,
        (reply, section, place): (u32, u32, u32),
        name: &str,
        rule: &str,
        message: Vec<u8>,
        source: Source,
    ) -> &mut Vector {
        let vector = self.add(reply, name, rule, message, source);
        vector.stop = Some((section, place));
        vector
    }
}

pub fn table() -> Table {
    let mut table = Table::default();
    source::add(&mut table);
    steps::add(&mut table);
    pairs::add(&mut table);
    octants::add(&mut table);
    lengths::add(&mut table);
    kinds::add(&mut table);
    table
}

/// A source field of D and these numbers; `-` is an absent point, whose number
/// is 0.
pub(super) fn field(d: i32, text: &str) -> Source {
    let words = || text.split_whitespace();
    Source {
        numbers: words().map(|word| word.parse().unwrap_or(0)).collect(),
        marks: words().map(|word| (word != "-") as u8).collect(),
        d,
    }
}

/// The specimen's: D 1, R 2,500, E 0, and X 0, 2, absent, 7.
pub(super) fn specimen_field() -> Source {
    field(1, "2500 2502 - 2507")
}

impl Vector {
    fn answer(&self) -> Reply {
        let Source { numbers, marks, d } = &self.source;
        check(&self.message, &self.lent, numbers, marks, *d)
    }

    /// Where what the table says by hand is not what the second reading works
    /// out.
    pub fn disagreement(&self) -> Option<String> {
        let answer = self.answer();
        let (section, place) = self.stop.unwrap_or_default();
        let by_hand = Reply {
            number: self.reply,
            section,
            place,
        };
        (answer != by_hand).then(|| format!("{answer:?}, not {by_hand:?}"))
    }

    /// The vector as it stands in its file.
    pub fn file(&self) -> Vec<u8> {
        let record = Record {
            name: &self.name,
            call: Call::Check,
            form: Form::default(),
            e: 0,
            r: 0,
            d: self.source.d,
            lent: &self.lent,
            room: 0,
            octets: &self.message,
            numbers: Numbers::Source(&self.source.numbers),
            marks: &self.source.marks,
        };
        record.file()
    }

    /// The line that the program must write.
    pub fn line(&self) -> String {
        let Reply {
            number,
            section,
            place,
        } = self.answer();
        match number {
            20..=23 => format!("{} {number} {section} {place}\n", self.name),
            _ => format!("{} {number}\n", self.name),
        }
    }
}

#[cfg(test)]
mod tests {
    use super::*;
    use std::collections::HashSet;

    /// What the table says by hand is what the second reading works out.
    #[test]
    fn by_hand_and_by_the_second_reading() {
        let mut names = HashSet::new();
        for vector in table().vectors {
            assert_eq!(vector.disagreement(), None, "{}", vector.name);
            assert!(names.insert(vector.name), "a name stands twice");
        }
    }
}
