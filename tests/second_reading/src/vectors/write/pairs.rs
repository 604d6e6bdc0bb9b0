//! Two faults and more at once: "The first that applies in number order is
//! given, by reader and writer".

use super::Table;
use crate::vectors::given::stored;
use crate::vectors::messages::set;
use crate::Parts;

/// The specimen with a stored bitmap and these faults, each of which alone gets
/// the reply that is its number. 7 is only possible without a grid, 9 only with
/// one.
fn with(faults: &[u32]) -> Parts {
    let mut parts = stored();
    for fault in faults {
        match fault {
            // octets 1-3 say 29
            5 => set(&mut parts.pds, 3, &[29]),
            // month 13
            6 => set(&mut parts.pds, 14, &[13]),
            7 => {
                // no grid, and octet 8 says so; octet 7 is 255
                parts.form.grid = None;
                set(&mut parts.pds, 8, &[0x40]);
            }
            // rows running south, La2 above La1
            9 => parts.form.grid.as_mut().expect("not with 7").scan = 0,
            10 => parts.lent.number = 4,
            // flag bit 1
            11 => parts.form.flags = 8,
            // 8 is 2^3
            13 => parts.values[3] = 8,
            14 => {}
            _ => panic!("no fault {fault}"),
        }
    }
    parts
}

fn room(faults: &[u32]) -> usize {
    // the message has 92 octets
    if faults.contains(&14) {
        91
    } else {
        92
    }
}

pub fn add(table: &mut Table) {
    table.group("pairs");
    table
        .add(0, "alone-0", "no fault", with(&[]))
        .room(room(&[]));
    for number in [5, 6, 7, 9, 10, 11, 13, 14] {
        let rule = "the fault that the pairs have, alone";
        table
            .add(number, &format!("alone-{number}"), rule, with(&[number]))
            .room(room(&[number]));
    }
    // the reply is the lower number
    for (reply, other) in [
        (5, 6),
        (5, 7),
        (5, 9),
        (5, 10),
        (5, 11),
        (5, 13),
        (5, 14),
        (6, 7),
        (6, 9),
        (6, 10),
        (6, 11),
        (6, 13),
        (6, 14),
        (7, 10),
        (7, 11),
        (7, 13),
        (7, 14),
        (9, 10),
        (9, 11),
        (9, 13),
        (9, 14),
        (10, 11),
        (10, 13),
        (10, 14),
        (11, 13),
        (11, 14),
        (13, 14),
    ] {
        let faults = [reply, other];
        table
            .add(
                reply,
                &format!("pair-{reply}-and-{other}"),
                &format!("the first that applies: {reply} before {other}"),
                with(&faults),
            )
            .room(room(&faults));
    }
    // all from a number on; 7 goes without 9
    for (reply, name, faults) in [
        (5, "all-from-5", &[5, 6, 9, 10, 11, 13, 14][..]),
        (5, "all-from-5-no-grid", &[5, 6, 7, 10, 11, 13, 14]),
        (6, "all-from-6", &[6, 9, 10, 11, 13, 14]),
        (6, "all-from-6-no-grid", &[6, 7, 10, 11, 13, 14]),
        (7, "all-from-7", &[7, 10, 11, 13, 14]),
        (9, "all-from-9", &[9, 10, 11, 13, 14]),
        (10, "all-from-10", &[10, 11, 13, 14]),
        (11, "all-from-11", &[11, 13, 14]),
    ] {
        table
            .add(
                reply,
                name,
                &format!("the first that applies: {reply} before all after it"),
                with(faults),
            )
            .room(room(faults));
    }
    // 6 by year of century 0, which R-3 refuses
    for (reply, other) in [(5, 5), (6, 7), (6, 9), (6, 10), (6, 11), (6, 13), (6, 14)] {
        let mut parts = with(&[other]);
        set(&mut parts.pds, 13, &[0]);
        let rule = match other {
            5 => "the first that applies: 5 before 6 by year 0".to_string(),
            _ => format!("the first that applies: 6 by year 0 before {other}"),
        };
        table
            .add(reply, &format!("year-0-and-{other}"), &rule, parts)
            .room(room(&[other]));
    }
    // each clause of 11 before 13, and of 10 before 11
    let n_25: fn(&mut Parts) = |parts| parts.form.bits = 25;
    let e_32768: fn(&mut Parts) = |parts| parts.e = 32_768;
    for (name, change) in [("n-25", n_25), ("e-32768", e_32768)] {
        let mut parts = with(&[13]);
        change(&mut parts);
        let rule = "the first that applies: 11 before 13";
        table.add(11, &format!("pair-11-{name}-and-13"), rule, parts);
        let mut parts = stored();
        parts.marks[2] = 1;
        change(&mut parts);
        let rule = "the first that applies: 10 before 11";
        table.add(10, &format!("pair-10-mark-and-11-{name}"), rule, parts);
    }
}
