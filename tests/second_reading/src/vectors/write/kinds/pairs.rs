//! Two faults and more at once, on each kind.

use crate::vectors::kinds::{Kind, FOUR};
use crate::vectors::messages::set;
use crate::vectors::write::Table;
use crate::Parts;

/// The specimen on this grid with bitmap 5 and these faults, each of which alone gets
/// the reply that is its number.
fn with(kind: &Kind, faults: &[u32]) -> Parts {
    let mut parts = kind.stored_parts();
    for fault in faults {
        match fault {
            // octets 1-3 say 29
            5 => set(&mut parts.pds, 3, &[29]),
            // month 13
            6 => set(&mut parts.pds, 14, &[13]),
            9 => {
                let (.., figure, number) = kind.broken();
                parts.form.grid = Some(figure.put(kind.grid(), number));
            }
            10 => parts.lent.number = 6,
            // flag bit 1
            11 => parts.form.flags = 8,
            // 8 is 2^3
            13 => parts.values[0] = 8,
            14 => {}
            _ => panic!("no fault {fault}"),
        }
    }
    parts
}

pub fn add(table: &mut Table) {
    table.group("kinds-pairs");
    for kind in FOUR {
        // 8, 28, the GDS, 6, 14 and 4
        let length = 60 + kind.length;
        let mut add = |reply: u32, name: String, rule: String, faults: &[u32]| {
            let room = length - faults.contains(&14) as usize;
            let name = format!("{}-{name}", kind.name);
            table
                .add(reply, &name, &rule, with(&kind, faults))
                .room(room);
        };
        add(0, "alone-0".into(), "no fault".into(), &[]);
        // the reply is the lower number
        for (reply, others) in [
            (5, &[6, 9, 10, 11, 13, 14][..]),
            (6, &[9, 10, 11, 13, 14]),
            (9, &[10, 11, 13, 14]),
            (10, &[11, 13, 14]),
            (11, &[13, 14]),
            (13, &[14]),
            (14, &[]),
        ] {
            let rule = "the fault that the pairs have, alone".into();
            add(reply, format!("alone-{reply}"), rule, &[reply]);
            for &other in others {
                let rule = format!("the first that applies: {reply} before {other}");
                add(
                    reply,
                    format!("pair-{reply}-and-{other}"),
                    rule,
                    &[reply, other],
                );
            }
        }
        let rule = "the first that applies: 9 before all after it".into();
        add(9, "all-from-9".into(), rule, &[9, 10, 11, 13, 14]);
    }
}
