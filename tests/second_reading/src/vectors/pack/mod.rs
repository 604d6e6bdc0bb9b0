//! Packing vectors: a source field and the packer's choices at each edge of its
//! rules.
//!
//! * `refused`  5, 18, 15, 11, 19, then the writer's 6, 7, 9, 10, 13 and 14;
//! * `pairs`    two faults and more at once, in that order;
//! * `taken`    fields that must be packed: R, E and X by hand;
//! * `octants`  thinned octants, given and from the catalogue;
//! * `kinds`    R-4: Mercator, Lambert, Gaussian and polar stereographic grids.

mod kinds;
mod octants;
mod pairs;
mod refused;
mod taken;

use super::check::specimen_field;
use super::files::{octet_before, summed, Call, Numbers, Record};
use super::given;
use super::given::specimen;
use super::messages::hex;
use crate::again::parts_of;
use crate::check::check;
use crate::pack::pack;
use crate::{Form, Lent, Parts, Source};

/// A source field, the packer's choices, how many octets are lent for the
/// message, and what must come of it.
#[derive(Clone)]
pub struct Vector {
    /// The file that it stands in.
    pub group: &'static str,
    pub name: String,
    pub rule: String,
    pub pds: Vec<u8>,
    pub form: Form,
    pub lent: Lent,
    pub source: Source,
    pub room: usize,
    /// By hand: the reply.
    pub reply: u32,
    /// By hand: E and R's octets.
    pub scale: Option<(i32, u32)>,
    /// By hand: X at each point.
    pub values: Option<Vec<u32>>,
    /// By hand: the message.
    pub message: Option<Vec<u8>>,
}

impl Vector {
    fn room(&mut self, octets: usize) -> &mut Vector {
        self.room = octets;
        self
    }

    /// E, and R in hex digits.
    fn scale(&mut self, e: i32, r: &str) -> &mut Vector {
        let r = u32::from_str_radix(r, 16).expect("hex digits");
        self.scale = Some((e, r));
        self
    }

    fn values(&mut self, values: &[u32]) -> &mut Vector {
        self.values = Some(values.to_vec());
        self
    }

    fn message(&mut self, text: &str) -> &mut Vector {
        self.message = Some(hex(text));
        self
    }
}

/// What the packer is given, but for the room.
#[derive(Clone)]
struct Given {
    pds: Vec<u8>,
    form: Form,
    lent: Lent,
    source: Source,
}

/// Parts with a field in the place of their values; D is the specimen's, 1.
fn packing(parts: Parts, source: Source) -> Given {
    Given {
        pds: parts.pds,
        form: parts.form,
        lent: parts.lent,
        source,
    }
}

/// The specimen, by its field.
fn base() -> Given {
    packing(specimen(), specimen_field())
}

/// The specimen changed.
fn changed(change: impl Fn(&mut Given)) -> Given {
    let mut given = base();
    change(&mut given);
    given
}

/// A row of points with no bitmap, or a carried one where a number is `-`.
fn line(width: u8, text: &str) -> Given {
    let source = super::check::field(1, text);
    let present = source.marks.iter().all(|&mark| mark == 1);
    let mut parts = given::flat(given::grid(source.marks.len() as u16, 1));
    parts.form.bits = width;
    if !present {
        parts.form.bitmap = crate::BitmapKind::Carried;
        parts.pds = given::pds(0xC0);
    }
    packing(parts, source)
}

#[derive(Default)]
pub struct Table {
    pub vectors: Vec<Vector>,
    group: &'static str,
}

impl Table {
    /// The file in which the vectors stand that are added next.
    fn group(&mut self, name: &'static str) {
        self.group = name;
    }

    /// A line of the table: the reply, by hand; the name; the rule; what is given.
    /// Room for 1,200 octets.
    fn add(&mut self, reply: u32, name: &str, rule: &str, given: Given) -> &mut Vector {
        self.vectors.push(Vector {
            group: self.group,
            name: name.to_string(),
            rule: rule.to_string(),
            pds: given.pds,
            form: given.form,
            lent: given.lent,
            source: given.source,
            room: 1_200,
            reply,
            scale: None,
            values: None,
            message: None,
        });
        self.vectors.last_mut().expect("just added")
    }
}

pub fn table() -> Table {
    let mut table = Table::default();
    refused::add(&mut table);
    pairs::add(&mut table);
    taken::add(&mut table);
    octants::add(&mut table);
    kinds::add(&mut table);
    table
}

/// What the second reading makes of a vector.
struct Answer {
    reply: u32,
    /// The message; no octets on a refusal.
    message: Vec<u8>,
    /// The octets after it are as they were.
    kept: bool,
    /// What the checker says of it and the same source.
    checked: u32,
}

impl Vector {
    fn answer(&self) -> Answer {
        let before: Vec<u8> = (0..self.room).map(octet_before).collect();
        let mut out = before.clone();
        let (reply, length) = pack(&self.pds, &self.form, &self.lent, &self.source, &mut out);
        let (message, after) = out.split_at(length as usize);
        let Source { numbers, marks, d } = &self.source;
        Answer {
            reply,
            message: message.to_vec(),
            kept: after == &before[length as usize..],
            checked: check(message, &self.lent, numbers, marks, *d).number,
        }
    }

    /// Where what the table says by hand is not what the second reading works
    /// out.
    pub fn disagreement(&self) -> Option<String> {
        let answer = self.answer();
        if answer.reply != self.reply {
            return Some(format!("reply {}, not {}", answer.reply, self.reply));
        }
        if !answer.kept {
            return Some("octets changed that must stay".to_string());
        }
        if answer.reply != 0 {
            return None;
        }
        if answer.checked != 0 {
            return Some(format!("the check gives {}", answer.checked));
        }
        let parts = parts_of(&answer.message, &self.lent);
        let scale = (parts.e, parts.r);
        if self.scale.is_some_and(|by_hand| by_hand != scale) {
            return Some(format!("E {}, R {:08X}", scale.0, scale.1));
        }
        if self.values.as_ref().is_some_and(|x| *x != parts.values) {
            return Some(format!("X {:?}", parts.values));
        }
        let differs = |message: &Vec<u8>| *message != answer.message;
        self.message
            .as_ref()
            .is_some_and(differs)
            .then(|| format!("writes {:02X?}", answer.message))
    }

    /// The vector as it stands in its file.
    pub fn file(&self) -> Vec<u8> {
        let record = Record {
            name: &self.name,
            call: Call::Pack,
            form: self.form,
            e: 0,
            r: 0,
            d: self.source.d,
            lent: &self.lent,
            room: self.room,
            octets: &self.pds,
            numbers: Numbers::Source(&self.source.numbers),
            marks: &self.source.marks,
        };
        record.file()
    }

    /// The line that the program must write.
    pub fn line(&self) -> String {
        let answer = self.answer();
        let kept = if answer.kept { "kept" } else { "changed" };
        let head = format!("{} {} {}", self.name, answer.reply, answer.message.len());
        if answer.reply != 0 {
            return format!("{head} {kept}\n");
        }
        let parts = parts_of(&answer.message, &self.lent);
        let sum = summed(&answer.message);
        let (e, r) = (parts.e, parts.r);
        format!("{head} {sum:08x} {kept} {e} {r:08x} {}\n", answer.checked)
    }
}

#[cfg(test)]
mod tests {
    use super::*;
    use std::collections::HashSet;

    /// What the table says by hand is what the second reading works out.
    #[test]
    fn by_hand_and_by_the_second_reading() {
        let mut names = HashSet::new();
        for vector in table().vectors {
            assert_eq!(vector.disagreement(), None, "{}", vector.name);
            assert!(names.insert(vector.name), "a name stands twice");
        }
    }

    /// Each E from 0 to 24 is some field's, by hand.
    #[test]
    fn every_e() {
        let all = table().vectors;
        for e in 0..=24 {
            assert!(all
                .iter()
                .any(|vector| vector.scale.is_some_and(|by_hand| by_hand.0 == e)));
        }
    }
}
