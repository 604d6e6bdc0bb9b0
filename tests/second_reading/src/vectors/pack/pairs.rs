//! Two faults and more at once: "Packer: 5, 18, 15 (D of PDS and source only), 11,
//! 19, then the rest of the writer's."

use super::{packing, Given, Table};
use crate::vectors::check::specimen_field;
use crate::vectors::given::stored;
use crate::vectors::messages::set;

/// The specimen's field with a stored bitmap and these faults, each of which alone
/// gets the reply that is its number. 7 is only possible without a grid, 9 only
/// with one.
fn with(faults: &[u32]) -> Given {
    let mut given = packing(stored(), specimen_field());
    for fault in faults {
        match fault {
            // octets 1-3 say 29
            5 => set(&mut given.pds, 3, &[29]),
            18 => given.source.marks[0] = 2,
            15 => given.source.d = 2,
            // flag bit 1
            11 => given.form.flags = 8,
            19 => {
                // a spread of 8,388,608 with N = 0, at points that stay present
                given.form.bits = 0;
                given.source.numbers[1] = -1;
                given.source.numbers[3] = 8_388_607;
            }
            // month 13
            6 => set(&mut given.pds, 14, &[13]),
            // no grid; octet 7 is 255
            7 => given.form.grid = None,
            // rows running south, La2 above La1
            9 => given.form.grid.as_mut().expect("not with 7").scan = 0,
            10 => given.lent.number = 4,
            13 | 14 => {}
            _ => panic!("no fault {fault}"),
        }
    }
    // octet 8 says what is given; for 13 it denies the bitmap
    let says_grid = if faults.contains(&7) { 0x00 } else { 0x80 };
    let says_bitmap = if faults.contains(&13) { 0x00 } else { 0x40 };
    set(&mut given.pds, 8, &[says_grid + says_bitmap]);
    given
}

fn room(faults: &[u32]) -> usize {
    // the message has 92 octets; 90 with N = 0
    if faults.contains(&14) {
        89
    } else {
        92
    }
}

pub fn add(table: &mut Table) {
    table.group("pack-pairs");
    let mut add = |reply: u32, name: String, rule: String, faults: &[u32]| {
        table
            .add(reply, &name, &rule, with(faults))
            .room(room(faults));
    };
    add(0, "pack-alone-0".to_string(), "no fault".to_string(), &[]);
    for fault in [5, 18, 15, 11, 19, 6, 7, 9, 10, 13, 14] {
        let rule = "the fault that the pairs have, alone".to_string();
        add(fault, format!("pack-alone-{fault}"), rule, &[fault]);
    }
    // each before all after it in the packer's order
    for (reply, others) in [
        (5, &[18, 15, 11, 19, 6, 7, 9, 10, 13, 14][..]),
        (18, &[15, 11, 19, 6, 7, 9, 10, 13, 14]),
        (15, &[11, 19, 6, 7, 9, 10, 13, 14]),
        (11, &[19, 6, 7, 9, 10, 13, 14]),
        (19, &[6, 7, 9, 10, 13, 14]),
        (6, &[7, 9, 10, 13, 14]),
        (7, &[10, 13, 14]),
        (9, &[10, 13, 14]),
        (10, &[13, 14]),
        (13, &[14]),
    ] {
        for &other in others {
            let rule = format!("the first that applies: {reply} before {other}");
            let name = format!("pack-pair-{reply}-and-{other}");
            add(reply, name, rule, &[reply, other]);
        }
        // 7 and 9 exclude each other
        for (without, kind) in [(7, "grid"), (9, "no-grid")] {
            if reply == without {
                continue;
            }
            let mut faults = vec![reply];
            faults.extend(others.iter().filter(|&&other| other != without));
            let rule = format!("the first that applies: {reply} before all after it");
            add(
                reply,
                format!("pack-all-from-{reply}-{kind}"),
                rule,
                &faults,
            );
        }
    }
    // 6 by year of century 0, which R-3 refuses
    for (reply, other) in [
        (5, 5),
        (18, 18),
        (15, 15),
        (11, 11),
        (19, 19),
        (6, 7),
        (6, 9),
        (6, 10),
        (6, 13),
        (6, 14),
    ] {
        let mut given = with(&[other]);
        set(&mut given.pds, 13, &[0]);
        let rule = match reply {
            6 => format!("the first that applies: 6 by year 0 before {other}"),
            _ => format!("the first that applies: {reply} before 6 by year 0"),
        };
        table
            .add(reply, &format!("pack-year-0-and-{other}"), &rule, given)
            .room(room(&[other]));
    }
    // 11 by N goes before 19, which N = 0 alone can have
    let mut given = with(&[6, 13]);
    given.form.bits = 25;
    table.add(
        11,
        "pack-pair-11-n-25-and-6",
        "the first that applies: 11 before 6",
        given,
    );
}
