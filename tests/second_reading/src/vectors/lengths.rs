//! R-2, "Tell us where the lengths went wrong": messages that are taken, where
//! each of their sections starts, and the ways to damage their lengths.

use super::check::{field, specimen_field};
use super::kinds::LAMBERT;
use super::messages::{plain, set_length, specimen, Sections};
use super::octants::{Present, NORTH, SOUTH};
use crate::{Lent, Source};

/// A reply of 20 to 22, and the rule that gives it.
pub type Broken = (u32, &'static str);

/// What a length breaks, alone or together: "odd length, under or over its bounds,
/// running past the end section", "5 becomes 20 to 23 in that order".
pub const ODD: Broken = (20, "20: odd length");
pub const ODD_UNDER: Broken = (20, "20 before 21: odd, and under its least");
pub const ODD_OVER: Broken = (20, "20 before 21: odd, and PDS over 1,024");
pub const ODD_PASSES: Broken = (20, "20 before 22: odd, and passes the end section's start");
pub const ODD_UNDER_PASSES: Broken = (
    20,
    "20 before 21 and 22: odd, under its least, and passes the end section's start",
);
pub const ODD_OVER_PASSES: Broken = (
    20,
    "20 before 21 and 22: odd, PDS over 1,024, and passes the end section's start",
);
pub const UNDER: Broken = (21, "21: under its least (PDS 28, GDS 32, BMS 6, BDS 12)");
pub const UNDER_PASSES: Broken = (
    21,
    "21 before 22: under its least, and passes the end section's start",
);
pub const OVER: Broken = (21, "21: PDS over 1,024");
pub const OVER_PASSES: Broken = (
    21,
    "21 before 22: PDS over 1,024, and passes the end section's start",
);
pub const PASSES: Broken = (22, "22: its section passes the end section's start");
pub const CUT: Broken = (22, "22: a length whose own octets don't fit");

/// 23: what stands between the last section and the end.
pub const LEFT_OVER: &str = "23: octets left over";

/// The most that three octets can say, and the most that is even.
pub const ONES: usize = 16_777_215;
pub const MOST_EVEN: usize = 16_777_214;

/// What a section is called in a vector's name.
pub fn called(section: u32) -> &'static str {
    ["indicator", "pds", "gds", "bms", "bds", "end"][section as usize]
}

/// A message that is taken. By hand: where its sections start, counted from 1, and
/// where its end section does.
#[derive(Clone)]
pub struct Home {
    pub name: &'static str,
    pub sections: Sections,
    pub starts: [Option<u32>; 4],
    pub end: u32,
    pub lent: Lent,
    /// How many points it has.
    pub points: usize,
    /// The field that it renders.
    pub field: Source,
}

/// 2 x 2 points with a GDS and a bitmap: sections of 28, 32, 8 and 14 octets.
pub fn whole() -> Home {
    Home {
        name: "specimen",
        sections: specimen(),
        starts: [Some(9), Some(37), Some(69), Some(77)],
        end: 91,
        lent: Lent::default(),
        points: 4,
        field: specimen_field(),
    }
}

/// The same without its bitmap: sections of 28, 32 and 14 octets.
pub fn no_bms() -> Home {
    Home {
        name: "no-bms",
        sections: plain(),
        starts: [Some(9), Some(37), None, Some(69)],
        end: 83,
        lent: Lent::default(),
        points: 4,
        field: field(1, "2500 2502 2505 2507"),
    }
}

/// A catalogue grid with a stored bitmap: sections of 28, 6 and 76 octets.
pub fn no_gds() -> Home {
    Home {
        name: "no-gds",
        sections: NORTH.rowed(false, Present::Lasts, 7),
        starts: [Some(9), None, Some(37), Some(43)],
        end: 119,
        lent: NORTH.lent(Present::Lasts),
        points: 3_447,
        field: NORTH.field(Present::Lasts),
    }
}

/// A catalogue grid alone: sections of 28 and 12 octets.
pub fn listed() -> Home {
    Home {
        name: "listed",
        sections: NORTH.listed(),
        starts: [Some(9), None, None, Some(37)],
        end: 49,
        lent: Lent::default(),
        points: 3_447,
        field: Source {
            numbers: vec![2_500; 3_447],
            marks: vec![1; 3_447],
            d: 1,
        },
    }
}

/// The specimen with the longest PDS: sections of 1,024, 32, 8 and 14 octets.
pub fn long_pds() -> Home {
    let mut sections = specimen();
    sections.pds.resize(1_024, 0);
    set_length(&mut sections.pds, 1_024);
    Home {
        name: "long-pds",
        sections,
        starts: [Some(9), Some(1_033), Some(1_065), Some(1_073)],
        end: 1_087,
        ..whole()
    }
}

/// An octant and its GDS: sections of 28, 178 and 12 octets.
pub fn octant() -> Home {
    Home {
        name: "octant",
        sections: NORTH.flat(),
        starts: [Some(9), Some(37), None, Some(215)],
        end: 227,
        ..listed()
    }
}

/// The same with a carried bitmap: sections of 28, 178, 438 and 76 octets.
pub fn octant_carried() -> Home {
    Home {
        name: "octant-carried",
        sections: NORTH.rowed(true, Present::Firsts, 7),
        starts: [Some(9), Some(37), Some(215), Some(653)],
        end: 729,
        lent: Lent::default(),
        points: 3_447,
        field: NORTH.field(Present::Firsts),
    }
}

/// An octant of the south with a stored bitmap: sections of 28, 178, 6 and 76
/// octets.
pub fn octant_stored() -> Home {
    Home {
        name: "octant-stored",
        sections: SOUTH.rowed(true, Present::Lasts, 7),
        starts: [Some(9), Some(37), Some(215), Some(221)],
        end: 297,
        lent: SOUTH.lent(Present::Lasts),
        points: 3_447,
        field: SOUTH.field(Present::Lasts),
    }
}

/// The specimen on a Lambert grid: sections of 28, 42, 8 and 14 octets.
pub fn lambert() -> Home {
    Home {
        name: "lambert",
        sections: LAMBERT.sections(),
        starts: [Some(9), Some(37), Some(79), Some(87)],
        end: 101,
        ..whole()
    }
}

/// All of them.
pub fn homes() -> [Home; 9] {
    [
        whole(),
        no_bms(),
        no_gds(),
        listed(),
        long_pds(),
        octant(),
        octant_carried(),
        octant_stored(),
        lambert(),
    ]
}

impl Home {
    /// Where a section starts that is there.
    pub fn start(&self, section: u32) -> u32 {
        self.starts[section as usize - 1].expect("a section that is there")
    }

    /// The sections that are there, by number.
    pub fn present(&self) -> Vec<u32> {
        (1..=4)
            .filter(|&section| self.starts[section as usize - 1].is_some())
            .collect()
    }

    /// Its sections with one that says another length than it has.
    pub fn says(&self, section: u32, length: usize) -> Sections {
        let mut sections = self.sections.clone();
        set_length(sections.section(section), length);
        sections
    }

    /// Its sections with one that has another length, and says so.
    pub fn stands(&self, section: u32, length: usize) -> Sections {
        let mut sections = self.sections.clone();
        sections.section(section).resize(length, 0);
        set_length(sections.section(section), length);
        sections
    }

    /// Its sections up to so many octets of this one, and nothing after them.
    pub fn cut(&self, section: u32, left: usize) -> Sections {
        let mut sections = self.sections.clone();
        sections.section(section).truncate(left);
        for later in section + 1..=4 {
            sections.section(later).clear();
        }
        sections
    }

    /// Its sections with these octets after the last.
    pub fn followed_by(&self, octets: &[u8]) -> Sections {
        let mut sections = self.sections.clone();
        sections.bds.extend(octets);
        sections
    }
}
