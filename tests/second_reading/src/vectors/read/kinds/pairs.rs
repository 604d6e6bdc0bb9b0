//! Two faults and more at once, on each kind.

use crate::vectors::kinds::{Kind, FOUR};
use crate::vectors::messages::{hex, set};
use crate::vectors::read::Table;

/// The specimen on this grid with these faults, each of which alone gets the reply that
/// is its number, but for 5, which stands for a length that went wrong: 20.
fn with(kind: &Kind, faults: &[u32]) -> Vec<u8> {
    let mut sections = kind.sections();
    for fault in faults {
        match fault {
            // an odd data length; it is 14
            5 => set(&mut sections.bds, 3, &[15]),
            // month 13
            6 => set(&mut sections.pds, 14, &[13]),
            8 => set(&mut sections.gds, 5, &[254]),
            9 => {
                let (first, octets, ..) = kind.broken();
                set(&mut sections.gds, first, &hex(octets));
            }
            // 5 points
            10 => set(&mut sections.bms, 4, &[11]),
            // flag bit 1; 15 bits are unused
            11 => set(&mut sections.bds, 4, &[0x8F]),
            // N = 4
            12 => set(&mut sections.bds, 11, &[4]),
            14 => {}
            _ => panic!("no fault {fault}"),
        }
    }
    sections.message()
}

pub fn add(table: &mut Table) {
    for kind in FOUR {
        // the BDS stands after 8, 28, the GDS and 8 octets
        let place = 8 + 28 + kind.length as u32 + 8 + 1;
        let mut add = |reply: u32, name: String, rule: String, faults: &[u32]| {
            let name = format!("{}-{name}", kind.name);
            let vector = match reply {
                5 => table.stop((20, 4, place), &name, &rule, with(&kind, faults)),
                _ => table.add(reply, &name, &rule, with(&kind, faults)),
            };
            let room = if faults.contains(&14) { 3 } else { 4 };
            vector.room(room, room);
        };
        add(0, "alone-0".into(), "no fault".into(), &[]);
        // the reply is the lower number, and 5 stands for 20
        for (reply, others) in [
            (5, &[6, 8, 9, 10, 11, 12, 14][..]),
            (6, &[8, 9, 10, 11, 12, 14]),
            (8, &[9, 10, 11, 12, 14]),
            (9, &[10, 11, 12, 14]),
            (10, &[11, 12, 14]),
            (11, &[12, 14]),
            (12, &[14]),
            (14, &[]),
        ] {
            let rule = "the fault that the pairs have, alone".into();
            add(reply, format!("alone-{reply}"), rule, &[reply]);
            for &other in others {
                let first = if reply == 5 { 20 } else { reply };
                let rule = format!("the first that applies: {first} before {other}");
                add(
                    reply,
                    format!("pair-{reply}-and-{other}"),
                    rule,
                    &[reply, other],
                );
            }
        }
        for (reply, faults) in [(8, &[8, 9, 10, 11, 12, 14][..]), (9, &[9, 10, 11, 12, 14])] {
            let rule = format!("the first that applies: {reply} before all after it");
            add(reply, format!("all-from-{reply}"), rule, faults);
        }
    }
}
