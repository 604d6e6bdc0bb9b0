//! Writing vectors: parts at each edge of the writer's rules.
//!
//! * `fields`  rules 5, 6, 7 and 9: PDS, time, catalogue, grid;
//! * `lists`   rules 10, 11, 13 and 14: stored bitmap, packing, lists, room;
//! * `pairs`   two faults and more at once;
//! * `taken`   parts that must be written;
//! * `octants` thinned octants, given and from the catalogue;
//! * `kinds`   R-4: Mercator, Lambert, Gaussian and polar stereographic grids.

mod fields;
mod kinds;
mod lists;
mod octants;
mod pairs;
mod taken;

use super::files::{octet_before, summed, Call, Numbers, Record};
use super::messages::hex;
use crate::again::{as_read, parts_of};
use crate::write::write;
use crate::Parts;

/// Parts, how many octets are lent for the message, and what must come of it.
pub struct Vector {
    /// The file that it stands in.
    pub group: &'static str,
    pub name: String,
    pub rule: String,
    pub parts: Parts,
    pub room: usize,
    /// By hand: the reply.
    pub reply: u32,
    /// By hand: how many octets the message has.
    pub length: Option<u32>,
    /// By hand: the message.
    pub message: Option<Vec<u8>>,
}

impl Vector {
    fn room(&mut self, octets: usize) -> &mut Vector {
        self.room = octets;
        self
    }

    fn length(&mut self, octets: u32) -> &mut Vector {
        self.length = Some(octets);
        self
    }

    fn message(&mut self, text: &str) -> &mut Vector {
        self.message = Some(hex(text));
        self
    }
}

#[derive(Default)]
pub struct Table {
    pub vectors: Vec<Vector>,
    group: &'static str,
}

impl Table {
    /// The file in which the vectors stand that are added next.
    fn group(&mut self, name: &'static str) {
        self.group = name;
    }

    /// A line of the table: the reply, by hand; the name; the rule; the parts.
    /// Room for 1,200 octets.
    fn add(&mut self, reply: u32, name: &str, rule: &str, parts: Parts) -> &mut Vector {
        self.vectors.push(Vector {
            group: self.group,
            name: name.to_string(),
            rule: rule.to_string(),
            parts,
            room: 1_200,
            reply,
            length: None,
            message: None,
        });
        self.vectors.last_mut().expect("just added")
    }
}

pub fn table() -> Table {
    let mut table = Table::default();
    fields::add(&mut table);
    lists::add(&mut table);
    pairs::add(&mut table);
    taken::add(&mut table);
    octants::add(&mut table);
    kinds::add(&mut table);
    table
}

/// What the second reading makes of a vector.
struct Answer {
    reply: u32,
    /// The message; no octets on a refusal.
    message: Vec<u8>,
    /// The octets after it are as they were.
    kept: bool,
    /// Reading it gives the parts back.
    back: bool,
}

impl Vector {
    fn answer(&self) -> Answer {
        let before: Vec<u8> = (0..self.room).map(octet_before).collect();
        let mut out = before.clone();
        let (reply, length) = write(&self.parts, &mut out);
        let (message, after) = out.split_at(length as usize);
        Answer {
            reply,
            message: message.to_vec(),
            kept: after == &before[length as usize..],
            back: reply == 0 && parts_of(message, &self.parts.lent) == as_read(&self.parts),
        }
    }

    /// Where what the table says by hand is not what the second reading works
    /// out.
    pub fn disagreement(&self) -> Option<String> {
        let answer = self.answer();
        if answer.reply != self.reply {
            return Some(format!("reply {}, not {}", answer.reply, self.reply));
        }
        if !answer.kept {
            return Some("octets changed that must stay".to_string());
        }
        if answer.reply == 0 && !answer.back {
            return Some("reading does not give the parts back".to_string());
        }
        let length = answer.message.len() as u32;
        if self.length.is_some_and(|octets| octets != length) {
            return Some(format!("{length} octets"));
        }
        let differs = |message: &Vec<u8>| *message != answer.message;
        self.message
            .as_ref()
            .is_some_and(differs)
            .then(|| format!("writes {:02X?}", answer.message))
    }

    /// The vector as it stands in its file.
    pub fn file(&self) -> Vec<u8> {
        let parts = &self.parts;
        let record = Record {
            name: &self.name,
            call: Call::Write,
            form: parts.form,
            e: parts.e,
            r: parts.r,
            d: 0,
            lent: &parts.lent,
            room: self.room,
            octets: &parts.pds,
            numbers: Numbers::Values(&parts.values),
            marks: &parts.marks,
        };
        record.file()
    }

    /// The line that the program must write.
    pub fn line(&self) -> String {
        let answer = self.answer();
        let kept = if answer.kept { "kept" } else { "changed" };
        let head = format!("{} {} {}", self.name, answer.reply, answer.message.len());
        if answer.reply != 0 {
            return format!("{head} {kept}\n");
        }
        let back = if answer.back { "back" } else { "lost" };
        let sum = summed(&answer.message);
        format!("{head} {sum:08x} {kept} {back}\n")
    }
}

#[cfg(test)]
mod tests {
    use super::*;
    use std::collections::HashSet;

    /// What the table says by hand is what the second reading works out.
    #[test]
    fn by_hand_and_by_the_second_reading() {
        let mut names = HashSet::new();
        for vector in table().vectors {
            assert_eq!(vector.disagreement(), None, "{}", vector.name);
            assert!(names.insert(vector.name), "a name stands twice");
        }
    }
}
