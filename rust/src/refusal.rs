// Why something is refused, and where.
use crate::Section;
use core::error::Error;
use core::fmt;

/// A reply other than 0. As text it is a sentence to be read out: "refused 20: the length of section 3, the Bit Map
/// Section, is odd; the section starts at octet 69 of the message".
#[derive(Clone, Copy, Debug, PartialEq, Eq)]
#[non_exhaustive]
pub struct Refusal {
    /// Its number, 1 to 25.
    pub reply: u32,
    /// Where a section's length went wrong: there exactly for 20 to 23, the reader's own.
    pub stop: Option<Stop>,
}

/// Where the sections of a message, followed by their lengths from the front, went wrong.
#[derive(Clone, Copy, Debug, PartialEq, Eq)]
pub struct Stop {
    /// Of 20 to 22 the section whose length it is, `Pds` to `Bds`; of 23 `End`.
    pub section: Section,
    /// Of 20 to 22 where in the message that section starts, of 23 where the octets left over do. The message's first
    /// octet is 1. The end section's start where an announced section has no octet left.
    pub place: u32,
}

// What each number says, after document 01's table and document 02's.
const WORDS: [&str; 26] = [
    "accepted",
    "slice below 8 or above 262,144 octets",
    "first four octets not 'GRIB'",
    "edition not 1",
    "total length is not the slice's, or last four octets not '7777'",
    "the length of the PDS given is odd, below 28 or above 1,024 octets, or not what its octets 1 to 3 say",
    "time out of its ranges: century 18 to 99, year of century 1 to 100, month 1 to 12, a day of that month, \
     hour 0 to 23, minute 0 to 59",
    "no GDS, octet 7 not in the catalogue",
    "GDS of no accepted type and length: types 0, 4 and 5 (octet 6) are 32 octets long, 1 and 3 are 42, with octets 4 \
     and 5 0 and 255; a thinned octant is of type 0 and 178 octets long, with 0 and 33",
    "Ni, Nj, n, a latitude, a longitude or, of types 0, 1 and 4, the scan test outside the rules, a Gaussian N that is \
     missing, a thinned grid that is none of the eight octants, or a step to be written over 16,777,215 metres",
    "bitmap rule broken, or no such stored bitmap, or one of its first n bits isn't the same number as the mark",
    "BDS flag bit 1, 2 or 4 set, N over 24, or E outside −32,767 to 32,767",
    "data length rule broken",
    "lists not n long, a mark not 0 or 1, an absent point without a bitmap or with value not 0, a value of 2^N or more, or PDS octet 8 not \
     matching the parts given",
    "lent output too short",
    "point count, marks or D of message and source differ",
    "E out of range, or R not whole or over 8,388,607 in magnitude",
    "a present point is out by more than half a step",
    "source lists unequal, 0 or over 65,536 long, a mark not 0 or 1, a present number outside its bound",
    "no E from 0 to 24 fits",
    "a section's length is odd",
    "a section's length is under its least, or the PDS's over 1,024 octets",
    "a section passes the end section's start",
    "octets are left over between the data section and the end section",
    "a place outside the chart",
    "the index has fewer entries than groups, or the group's entry plus the ones in that group isn't the next entry (in \
     the last group, m) or is above m",
];

impl Refusal {
    // of the writer and the packer, whose replies tell no section
    pub(crate) fn unless_accepted(reply: u32) -> Result<(), Refusal> {
        Refusal::unless_taken(reply, 0, 0)
    }

    // of whatever reads a message: section and place are 0 but for 20 to 23
    pub(crate) fn unless_taken(reply: u32, section: u32, place: u32) -> Result<(), Refusal> {
        if reply == 0 {
            return Ok(());
        }
        let section = match section {
            1 => Some(Section::Pds),
            2 => Some(Section::Gds),
            3 => Some(Section::Bms),
            4 => Some(Section::Bds),
            5 => Some(Section::End),
            _ => None,
        };
        Err(Refusal { reply, stop: section.map(|section| Stop { section, place }) })
    }

    /// What the number says, of any section.
    pub fn words(&self) -> &'static str {
        WORDS.get(self.reply as usize).copied().unwrap_or("a number of no table")
    }
}

// The bounds that a section's length is out of.
fn bounds(section: Section) -> &'static str {
    match section {
        Section::Pds => "below 28 or above 1,024",
        Section::Gds => "below 32",
        Section::Bms => "below 6",
        _ => "below 12",
    }
}

// A section by number and name.
struct Called(Section);

impl fmt::Display for Called {
    fn fmt(&self, f: &mut fmt::Formatter) -> fmt::Result {
        write!(f, "section {}, the {}", self.0 as u32, self.0.name())
    }
}

impl fmt::Display for Refusal {
    fn fmt(&self, f: &mut fmt::Formatter) -> fmt::Result {
        write!(f, "refused {}: ", self.reply)?;
        let Some(Stop { section, place }) = self.stop else {
            return f.write_str(self.words());
        };
        let (it, end) = (Called(section), Called(Section::End));
        match self.reply {
            20 => write!(f, "the length of {it}, is odd; the section starts at"),
            21 => write!(f, "the length of {it}, is {} octets; the section starts at", bounds(section)),
            22 => write!(f, "{it}, runs past the start of {end}; the section starts at"),
            _ => write!(f, "octets are left over between {}, and {end}; the first is", Called(Section::Bds)),
        }?;
        write!(f, " octet {place} of the message")
    }
}

impl Error for Refusal {}
